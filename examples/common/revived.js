// A tree from its JSON, with the values that JSON has no form for.
'use strict';

// A big integer is `null` there, with its digits in `bigint`, and a regular expression `{}`, with its parts in `regex`.
function revive(key, node) {
    if (node?.type !== 'Literal') return node;
    if (node.bigint !== undefined) node.value = BigInt(node.bigint);
    if (node.regex) node.value = expressionOf(node.regex);
    return node;
}

// `null` where this engine has no such regular expression
function expressionOf({ pattern, flags }) {
    try {
        return new RegExp(pattern, flags);
    } catch {
        return null;
    }
}

function treeFrom(json) {
    return json.includes('"bigint":"') || json.includes('"regex":{') ? JSON.parse(json, revive) : JSON.parse(json);
}

module.exports = { treeFrom };
