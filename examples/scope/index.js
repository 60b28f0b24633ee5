// Scopes of a tree, by eslint-scope, as lines of text: each scope with its variables and references, and what each reference resolves to.
'use strict';
const { analyze } = require('eslint-scope');

// Where a node stands. A program stands for the whole text, whatever its parser says.
function place(node) {
    if (!node) return 'none';
    return node.type === 'Program' ? 'the program' : `${node.type} ${node.range[0]}..${node.range[1]}`;
}

function definition({ type, name, node, parent, index, kind }) {
    return `${type} by ${place(name)} in ${place(node)} of ${place(parent)}${kind ? ` ${kind}` : ''}${index ?? ''}`;
}

function* variableLines(variable) {
    yield `  variable ${variable.name}: ${variable.identifiers.map(place).join(', ')}`;
    for (const it of variable.defs) yield `    defined as ${definition(it)}`;
    for (const it of variable.references) yield `    used at ${place(it.identifier)}`;
}

function uses(reference) {
    return [reference.isRead() && 'read', reference.isWrite() && 'written', reference.init && 'first', reference.partial && 'in part'].filter(Boolean).join(' ');
}

function referenceLine(reference, scopes) {
    const { identifier, resolved, writeExpr } = reference;
    const target = resolved ? `${resolved.name} of scope ${scopes.indexOf(resolved.scope)}` : 'nothing';
    return `  reference ${identifier.name} at ${place(identifier)}: ${uses(reference)} ${place(writeExpr)}: ${target}`;
}

function* scopeLines(scope, scopes) {
    const inside = scopes.indexOf(scope.upper);
    yield `scope ${scopes.indexOf(scope)}: ${scope.type}${scope.isStrict ? ' strict' : ''}${scope.dynamic ? ' dynamic' : ''} in ${inside} of ${place(scope.block)}`;
    for (const it of scope.variables) yield* variableLines(it);
    for (const it of scope.references) yield referenceLine(it, scopes);
    for (const it of scope.through) yield `  through ${place(it.identifier)}`;
}

// `tree` is made by `ecma-check --format estree --ranges`.
function scopesOf(tree, sourceType) {
    const { scopes } = analyze(tree, { ecmaVersion: 2022, sourceType });
    return scopes.flatMap((scope) => [...scopeLines(scope, scopes)]).join('\n');
}

module.exports = { scopesOf };
