'use strict';
// Tests what the page's worker shows of an answer, with answers that are made here.
const test = require('node:test');
const assert = require('node:assert');
const fs = require('node:fs');
const path = require('node:path');
const vm = require('node:vm');
const { partsOf, valueEnd, textOf } = require('./parts.js');

const SOURCES = ['../npm/answer.js', 'parts.js', 'worker.js', 'seek.js'];
/** Those of a page that ecma-check writes, which has its answer already. */
const SOURCES_OF_WRITTEN = ['parts.js', 'worker.js', 'seek.js', 'blocks.js'];

const scriptOf = sources => sources.map(it => fs.readFileSync(path.join(__dirname, it), 'utf8')).join('\n');

/** An answer as the parser writes it: each fault in a line. */
function written({ tree, faults, whole }) {
  return new TextEncoder().encode(whole ?? `{"tree":${JSON.stringify(tree)},"faults":[${faults.map(it => `${JSON.stringify(it)}\n`).join()}]}`);
}

/** A worker whose parser answers what is given, and what it tells of that. */
function told(status, answer) {
  const context = vm.createContext({ self: {}, performance, TextDecoder, given: { status, bytes: written(answer) } });
  vm.runInContext(scriptOf(SOURCES), context);
  const run = code => JSON.parse(vm.runInContext(`JSON.stringify(${code})`, context) ?? 'null');
  vm.runInContext('answer = () => given', context);
  const again = () => run(`told('', {})`);
  const asked = question => run(`(it => ANSWERS[Object.keys(ANSWERS).find(name => name in it)](it))(${JSON.stringify(question)})`);
  const marks = () => run('Array.from(seek.marksOf())');
  return { ...again(), again, asked, marks, opened: id => run(`toggled(${id}, true)`), closed: id => run(`toggled(${id}, false)`) };
}

const node = (type, start, end, fields) => ({ type, start, end, ...fields });
const program = body => node('Program', 0, 9, { body, sourceType: 'script' });
const fault = at => ({ kind: `K${at}`, message: 'm', byteStart: at, byteEnd: at, start: at, end: at, line: 1, column: at + 1, endLine: 1, endColumn: at + 1 });

test('the parts of a value are those that JSON.parse finds', () => {
  for (const value of [[], {}, [1, -2.5e9, null, true], { 'a"\\': '},]"\\', b: [[], {}, ['"']], '\u2028': { c: {} } }, [[[[]]], '', { '': 0 }]]) {
    const bytes = new TextEncoder().encode(`x${JSON.stringify(value)}`);
    const found = [...partsOf(bytes, 1)].map(({ name, from }) => [name, JSON.parse(textOf(bytes, from, valueEnd(bytes, from)))]);
    assert.deepStrictEqual(found, Object.entries(value));
    assert.strictEqual(valueEnd(bytes, 1), bytes.length);
  }
});

test('a tree is handed out level by level', () => {
  const found = told(1, { tree: program([node('EmptyStatement', 3, 4)]), faults: [fault(5)] });
  const { entries, ...whole } = found.tree;
  assert.deepStrictEqual(whole, { name: '', id: 0, label: 'Program', start: 0, end: 9 });
  assert.deepStrictEqual(entries, [{ name: 'body', id: 1, label: '[..]' }, { name: 'sourceType', label: '"script"' }]);
  assert.deepStrictEqual(found.opened(1), [{ name: '0', id: 2, label: 'EmptyStatement', start: 3, end: 4 }]);
  assert.deepStrictEqual(found.faults.map(it => [it.kind, it.loc.start, it.isRefusal]), [['K5', { line: 1, column: 5 }, undefined]]);
});

test('what is open stays open in the next answer', () => {
  const found = told(0, { tree: program([node('ExpressionStatement', 0, 2, { expression: node('Identifier', 0, 1, { name: 'a' }) })]), faults: [] });
  const bodyOf = ({ tree }) => tree.entries[0];
  assert.strictEqual(bodyOf(found).entries, undefined);
  const [statement] = found.opened(1);
  found.opened(statement.id);
  const [expression] = bodyOf(found.again()).entries[0].entries;
  assert.deepStrictEqual([expression.name, expression.label, expression.entries], ['expression', 'Identifier', undefined]);
  found.closed(bodyOf(found.again()).id);
  assert.strictEqual(bodyOf(found.again()).entries, undefined);
});

test('a big integer is shown', () => {
  const { opened } = told(0, { tree: program([node('Literal', 0, 2, { value: null, raw: '1n', bigint: '1' })]), faults: [] });
  opened(1);
  assert.deepStrictEqual(opened(2), [{ name: 'value', label: '1n' }, { name: 'raw', label: '"1n"' }, { name: 'bigint', label: '"1"' }]);
});

test('what stands behind the body of a program is shown', () => {
  const tree = { ...program([node('ExpressionStatement', 0, 1, { expression: node('Identifier', 0, 1, { name: ',"sourceType":"' }) })]), comments: [], tokens: [{}] };
  const found = told(0, { tree, faults: [] });
  assert.deepStrictEqual(found.tree.entries.map(it => [it.name, it.label]), [['body', '[..]'], ['sourceType', '"script"'], ['comments', '[]'], ['tokens', '[..]']]);
  assert.deepStrictEqual([found.count, found.faults], [0, []]);
});

test('of many parts and faults the first are shown', () => {
  const found = told(1, { tree: program(Array.from({ length: 500 }, (_, at) => node('EmptyStatement', at, at))), faults: Array.from({ length: 500 }, (_, at) => fault(at)) });
  assert.strictEqual(found.tree.entries[0].label, '[..]');
  assert.deepStrictEqual(found.opened(1).slice(-1), [{ name: '..', label: 'more' }]);
  assert.deepStrictEqual([found.count, found.faults.length], [500, 100]);
});

test('why there is no tree comes last, however many faults there are', () => {
  const found = told(2, { tree: null, faults: Array.from({ length: 500 }, (_, at) => fault(at)) });
  assert.strictEqual(found.tree, undefined);
  assert.deepStrictEqual(found.faults.map(it => it.isRefusal ?? false).indexOf(true), 100);
  assert.strictEqual(found.faults[100].kind, 'K499');
});

test('want of memory is told', () => {
  assert.strictEqual(told(-2, { tree: null, faults: [] }).failure, 'memory ran out');
});

const call = node('Program', 0, 12, {
  body: [
    node('EmptyStatement', 0, 1),
    node('ExpressionStatement', 2, 12, { expression: node('CallExpression', 2, 11, { callee: node('Identifier', 2, 3, { name: 'f' }), arguments: [node('Literal', 4, 10, { value: '","name":"x', raw: `'","name":"x'` })] }) }),
  ],
  sourceType: 'script',
});

test('names stand beside kinds', () => {
  const { opened } = told(0, { tree: call, faults: [] });
  opened(1);
  const [expression] = opened(3);
  assert.deepStrictEqual([expression.label, expression.called], ['CallExpression', 'f']);
  const [callee, list] = opened(expression.id);
  assert.deepStrictEqual([callee.label, callee.called], ['Identifier', 'f']);
  assert.deepStrictEqual(opened(list.id)[0].called, `'","name":"x'`);
});

test('a long name is shortened, and a pattern is none', () => {
  const declared = id => node('VariableDeclaration', 0, 9, { declarations: [node('VariableDeclarator', 4, 9, { id, init: null })], kind: 'let' });
  const { opened } = told(0, { tree: program([declared(node('Identifier', 4, 5, { name: 'a'.repeat(50) })), declared(node('ArrayPattern', 4, 5, { elements: [] }))]), faults: [] });
  assert.deepStrictEqual(opened(1).map(it => it.called), [`${'a'.repeat(40)}\u2026`, undefined]);
});

test('the innermost node around a place is found', () => {
  const { asked } = told(0, { tree: call, faults: [] });
  const found = (start, end) => { const { path, way } = asked({ at: [start, end] }); return [path, way.at(-1)]; };
  assert.deepStrictEqual(found(2, 2), ['//body/1/expression/callee', 'Identifier f']);
  assert.deepStrictEqual(found(3, 3), ['//body/1/expression/callee', 'Identifier f'], 'right behind a name is the name, where nothing else begins');
  assert.deepStrictEqual(found(3, 4), ['//body/1/expression', 'CallExpression f']);
  assert.deepStrictEqual(found(5, 6), ['//body/1/expression/arguments/0', `Literal '","name":"x'`]);
  assert.deepStrictEqual(found(0, 5), ['/', 'Program']);
  assert.deepStrictEqual(found(12, 12), ['//body/1', 'ExpressionStatement'], 'behind the last node is that node');
});

test('the tree opens to what is looked at, and closes again', () => {
  const { asked } = told(0, { tree: call, faults: [] });
  const { tree } = asked({ at: [2, 2], unfolds: true });
  const [, statement] = tree.entries[0].entries;
  assert.deepStrictEqual(statement.entries[0].entries.map(it => it.label), ['Identifier', '[..]']);
  const other = asked({ at: [0, 0], unfolds: true }).tree.entries[0].entries;
  assert.deepStrictEqual(other.map(it => it.entries), [undefined, undefined]);
});

test('of a long list the parts around what is looked at are shown, and more where that is asked for', () => {
  const { asked } = told(0, { tree: program(Array.from({ length: 1000 }, (_, at) => node('EmptyStatement', at, at + 1))), faults: [] });
  const body = asked({ path: '//body/500' }).tree.entries[0];
  const ends = entries => [entries[0], entries[1], entries.at(-2), entries.at(-1)].map(it => it.start ?? it.label);
  assert.deepStrictEqual(ends(body.entries), ['400 before', 400, 599, 'more']);
  assert.deepStrictEqual(ends(asked({ more: body.id, isBefore: true }).entries), ['200 before', 200, 599, 'more']);
  assert.deepStrictEqual(ends(asked({ more: body.id, isBefore: false }).entries), ['200 before', 200, 799, 'more']);
});

test('nodes are found by kind and by name', () => {
  const { asked } = told(0, { tree: call, faults: [] });
  const found = words => asked({ words }).hits.map(it => [it.path, it.start]);
  assert.deepStrictEqual(found('identifier F'), [['//body/1/expression/callee', 2]]);
  assert.deepStrictEqual(found('statement'), [['//body/0', 0], ['//body/1', 2]]);
  assert.deepStrictEqual(found(''), []);
  assert.deepStrictEqual(asked({ words: 'nothing' }).count, 0);
});

test('the JSON of a node and of the whole is handed out', () => {
  const { asked, opened } = told(0, { tree: call, faults: [] });
  assert.deepStrictEqual(JSON.parse(asked({ copied: null }).json), call);
  assert.deepStrictEqual(JSON.parse(asked({ copied: opened(1)[0].id }).json), call.body[0]);
});

test('further faults and all places are handed out, notes as such', () => {
  const noted = { ...fault(9), message: '"start":1,"end":2', note: fault(3) };
  const { asked, marks, faults } = told(1, { tree: call, faults: [noted, ...Array.from({ length: 150 }, (_, at) => fault(at + 10))] });
  assert.deepStrictEqual(faults[0].note.start, 3);
  assert.deepStrictEqual(asked({ furtherFrom: 100 }).faults.map(it => it.start), Array.from({ length: 51 }, (_, at) => at + 109));
  assert.deepStrictEqual(marks().slice(0, 9), [3, 3, 1, 9, 9, 0, 10, 10, 0]);
  assert.deepStrictEqual(marks().length, 152 * 3);
});

test('where there is no tree, nothing is found in it', () => {
  const { asked } = told(2, { tree: null, faults: [fault(1)] });
  assert.deepStrictEqual([asked({ at: [0, 0] }).way, asked({ words: 'a' }).count], [[], 0]);
});

test('a deep tree is opened as far as that is quick', () => {
  // Put together from inside: JSON.stringify has no room for so many levels.
  let text = '{"type":"Identifier","start":0,"end":1,"name":"a"}';
  for (let end = 3; end < 9000; end += 2) text = `{"type":"MemberExpression","start":0,"end":${end},"object":${text},"property":{"type":"Identifier","start":${end - 1},"end":${end},"name":"b"}}`;
  const whole = `{"tree":{"type":"Program","start":0,"end":9000,"body":[{"type":"ExpressionStatement","start":0,"end":9000,"expression":${text}}],"sourceType":"script"},"faults":[]}`;
  const { asked } = told(0, { whole });
  const { path, way } = asked({ at: [0, 1], unfolds: true });
  assert.strictEqual(way.at(-1), 'Identifier a');
  assert.strictEqual(way.length, 9);
  assert.ok(path.length > 1000 && path.length < 10000, `${path.length}`);
});

test('the blocks of a page are an answer', () => {
  const heard = [];
  const context = vm.createContext({ self: { postMessage: it => heard.push(JSON.parse(JSON.stringify(it))) }, performance, TextDecoder, setTimeout: run => run() });
  vm.runInContext(scriptOf(SOURCES_OF_WRITTEN), context);
  const given = { ...fault(5), severity: 'fault', note: fault(3) };
  const bytes = new TextEncoder().encode(`{"tree":${JSON.stringify(call)},"faults":[${JSON.stringify(given)}\n],"more":7}`);
  context.self.onmessage({ data: { written: bytes, hasTree: true } });
  const [{ count, more, faults, tree, number, generation }, marks] = heard;
  assert.deepStrictEqual([count, more, number, faults[0].severity, faults[0].loc.start, faults[0].note.loc.start], [1, 7, 0, 'fault', { line: 1, column: 5 }, { line: 1, column: 3 }]);
  assert.deepStrictEqual(tree.entries[0].entries.map(it => it.label), ['EmptyStatement', 'ExpressionStatement'], 'the body is open');
  assert.deepStrictEqual(Object.values(marks.marks), [3, 3, 1, 5, 5, 0]);
  context.self.onmessage({ data: { words: 'call', generation } });
  assert.strictEqual(heard.at(-1).hits[0].path, '//body/1/expression');
});
