'use strict';
const test = require('node:test');
const assert = require('node:assert');
const fs = require('node:fs');
const path = require('node:path');
const { numbersOf, guessOf, resultOf } = require('./answer.js');
const host = require('./host.js');
const { parse } = require('./index.js');

test('a script has its tree and no faults', () => {
  const { tree, faults } = parse('while (a) b;', { sourceType: 'script' });
  assert.deepStrictEqual(faults, []);
  assert.deepStrictEqual(tree, {
    type: 'Program', start: 0, end: 12,
    body: [{
      type: 'WhileStatement', start: 0, end: 12,
      test: { type: 'Identifier', start: 7, end: 8, name: 'a' },
      body: { type: 'ExpressionStatement', start: 10, end: 12, expression: { type: 'Identifier', start: 10, end: 11, name: 'b' } },
    }],
    sourceType: 'script',
  });
});

test('a text is a script or a module, whichever it can be read as', () => {
  for (const text of ['export default 1', 'const a = await b();', 'function a() { return import.meta; }', 'await a', 'if (a) await b;']) {
    const { tree, faults } = parse(text);
    assert.deepStrictEqual([tree.sourceType, faults], ['module', []], text);
  }
  for (const text of ['a', 'with (a) b;', 'async function a() { await b; }', 'await = a', 'await: ;']) {
    assert.strictEqual(parse(text).tree.sourceType, 'script', text);
  }
});

test('of a text that is neither what is told is of the one that it looks like', () => {
  assert.deepStrictEqual(parse('const a = await b(); return a').faults.map(it => it.kind), ['ReturnNotAllowed']);
  assert.deepStrictEqual(parse('with (a) b; return a').faults.map(it => it.kind), ['ReturnNotAllowed']);
  assert.throws(() => parse("import a from 'a'; with (b) c; d("), { kind: 'Eof', pos: 33 });
});

test('early errors stand beside the tree, with the earlier place', () => {
  const { tree, faults } = parse('let a; let a; break', { sourceType: 'script' });
  assert.strictEqual(tree.body.length, 3);
  assert.deepStrictEqual(faults.map(it => [it.severity, it.kind, it.start]), [['fault', 'TS1105', 14], ['error', 'DeclaredTwice', 11]]);
  assert.deepStrictEqual([faults[1].note.start, faults[1].note.end], [4, 5]);
  assert.deepStrictEqual(parse('let a; let a', { earlyErrors: false }).faults, []);
  assert.throws(() => parse('let a; let a', { throwFaults: true }), { kind: 'DeclaredTwice', pos: 11 });
});

test("acorn's options leave early errors out", () => {
  assert.strictEqual(parse('super.a').faults.length, 1);
  assert.strictEqual(parse('super.a', { allowSuperOutsideMethod: true }).faults.length, 0);
  assert.strictEqual(parse('a.#b').faults.length, 1);
  assert.strictEqual(parse('a.#b', { checkPrivateFields: false }).faults.length, 0);
});

test('no name is said to be undeclared where a part of the text stands in no tree', () => {
  const { faults } = parse('let b c; export { a };', { sourceType: 'module' });
  assert.deepStrictEqual(faults.map(it => it.severity), ['fault']);
});

test('so many faults and early errors are told as are asked for', () => {
  const { faults, more } = parse('let a; let a; let a; break', { sourceType: 'script', maxFaults: 2 });
  assert.deepStrictEqual([faults.map(it => it.severity), more], [['fault', 'error'], 1]);
});

test('a program is a module where an export stands in it', () => {
  assert.strictEqual(parse('export default 1', { sourceType: 'program' }).tree.sourceType, 'module');
  assert.strictEqual(parse('a', { sourceType: 'program' }).tree.sourceType, 'script');
});

test('a fault stands beside the tree, with both offsets', () => {
  const { tree, faults } = parse("'\u{1f600}'; break", { sourceType: 'script' });
  assert.strictEqual(tree.body.length, 2);
  assert.strictEqual(faults.length, 1);
  const [{ kind, start, end, byteStart, byteEnd, loc }] = faults;
  assert.deepStrictEqual({ kind, start, end, byteStart, byteEnd, loc }, {
    kind: 'TS1105', start: 6, end: 11, byteStart: 8, byteEnd: 13, loc: { start: { line: 1, column: 6 }, end: { line: 1, column: 11 } },
  });
});

test('the whole language is read, or the plain one', () => {
  for (const text of ['/a/', '`a`', 'a?.b', 'function f() { new.target }', 'class A { #a; b() { #a in c } }', '\\u0061', '017', '<!-- a']) {
    assert.deepStrictEqual(parse(text, { sourceType: 'script' }).faults, []);
    assert.throws(() => parse(text, { sourceType: 'script', plain: true }), SyntaxError);
  }
  assert.deepStrictEqual(parse('/a[/]/g').tree.body[0].expression.value, /a[/]/g);
  assert.strictEqual(parse("import a from 'a' with { type: 'json' }").tree.body[0].attributes.length, 1);
  assert.throws(() => parse('a', { plain: 1 }), TypeError);
});

test('a refusal is thrown, with its place', () => {
  assert.throws(() => parse('a;\n b c', { sourceType: 'script' }), error => {
    assert.ok(error instanceof SyntaxError);
    assert.deepStrictEqual(error.loc, { line: 2, column: 3 });
    assert.strictEqual(error.pos, 6);
    assert.ok(error.message.endsWith('(2:3)'));
    return true;
  });
});

test('lines, ranges, comments and tokens come where they are asked for', () => {
  const { tree } = parse('a // b', { locations: true, ranges: true, comments: true, tokens: true });
  assert.deepStrictEqual(tree.body[0].loc, { start: { line: 1, column: 0 }, end: { line: 1, column: 1 } });
  assert.deepStrictEqual(tree.body[0].range, [0, 1]);
  assert.deepStrictEqual(tree.comments.map(it => [it.type, it.value]), [['Line', ' b']]);
  assert.deepStrictEqual(tree.tokens.map(it => [it.type, it.value]), [['Identifier', 'a']]);
});

test('a literal has its value where JSON has no form for it', () => {
  const { tree } = parse('1_0n; 0x10000000000000000; null');
  assert.deepStrictEqual(tree.body.map(it => it.expression.value), [10n, 2 ** 64, null]);
});

test('values are those of JavaScript', () => {
  const literals = ["'\\ud83d'", "'\\ud83d\\ude00'", "'a\\ude00\\ud83d'", "'\\ufffd\\u{d83d}'", '0x20000000000001', '0b1' + '0'.repeat(1024), '0xffffffffffffffffffn'];
  const { tree } = parse(`[${literals}]`);
  assert.deepStrictEqual(tree.body[0].expression.elements.map(it => it.value), eval(`[${literals}]`));
});

test('a flag turns a proposal on', () => {
  assert.ok(parse('return', { flags: ['allowReturnOutsideFunction'] }).faults.length === 0);
  assert.throws(() => parse('a', { flags: ['none'] }), TypeError);
  assert.throws(() => parse('a', { limit: 1001 }), RangeError);
  assert.throws(() => parse('a', { sourceType: 'commonjs' }), TypeError);
});

test('a text that nests deeper than the limit is refused as too deep', () => {
  assert.throws(() => parse('{'.repeat(100) + '}'.repeat(100), { limit: 50 }), { name: 'SyntaxError', kind: 'TooDeep' });
  for (const piece of ['{', '(', '[', 'a=>{', '!', 'x=', 'if(a)', 'class A{a=', '({a:']) {
    assert.throws(() => parse(piece.repeat(100_000)), { name: 'SyntaxError', kind: 'TooDeep' });
  }
  assert.strictEqual(parse('a').tree.body.length, 1);
});

test('want of memory is told, however little there is', () => {
  const module = new WebAssembly.Module(fs.readFileSync(path.join(__dirname, 'ecma.wasm')));
  const least = new WebAssembly.Instance(module, {}).exports.memory.buffer.byteLength;
  const text = 'f(a, b);\n'.repeat(100);
  const numbers = numbersOf({ locations: true, tokens: true });
  const wanted = host(module, guessOf)(text, numbers);
  assert.strictEqual(wanted.status, 0);
  const found = [];
  for (let more = 0; found.at(-1) !== 0; more += 65536) {
    const answer = host(module, guessOf, least + more);
    const { status, json } = answer(text, numbers);
    if (status === 0) assert.strictEqual(json, wanted.json);
    else assert.strictEqual(status, -2);
    assert.strictEqual(answer('a', numbersOf()).status, 0);
    found.push(status);
  }
  assert.ok(found.length > 10);
  assert.throws(() => resultOf(-2, ''), RangeError);
});

test('what is no string, and options that are not known, are told in words', () => {
  assert.throws(() => parse(undefined), { name: 'TypeError', message: 'the text is a string, not undefined' });
  assert.throws(() => parse(null), { name: 'TypeError', message: 'the text is a string, not null' });
  assert.throws(() => parse('a', null), { name: 'TypeError', message: 'options are an object, not null' });
  assert.throws(() => parse('a', { startOffset: 1 }), { name: 'TypeError', message: 'there is no option startOffset' });
  assert.throws(() => parse('a', { preserveParens: true }), { name: 'TypeError', message: 'the option preserveParens cannot be true here' });
  assert.throws(() => parse('a', { sourceType: 'toString' }), { name: 'TypeError' });
  assert.throws(() => parse('a', { flags: 'decorators' }), { name: 'TypeError' });
});

test("acorn's options are taken", () => {
  const comments = [];
  const called = [];
  const options = { ecmaVersion: 2022, sourceType: 'script', locations: true, sourceFile: 'a.js', directSourceFile: 'b.js' };
  const { tree } = parse('a // b', { ...options, onComment: comments });
  assert.deepStrictEqual(comments.map(it => [it.type, it.value, it.start]), [['Line', ' b', 2]]);
  assert.strictEqual(tree.comments, undefined);
  assert.strictEqual(tree.body[0].loc.source, 'a.js');
  assert.strictEqual(tree.body[0].expression.sourceFile, 'b.js');
  parse('/* c */ a', { ...options, onComment: (...words) => called.push(words), onToken: it => called.push(it.value) });
  assert.deepStrictEqual(called, [[true, ' c ', 0, 7, { line: 1, column: 0 }, { line: 1, column: 7 }], 'a']);
  assert.deepStrictEqual(parse('return', { sourceType: 'script', allowReturnOutsideFunction: true }).faults, []);
  assert.throws(() => parse('#!a', { allowHashBang: false }), SyntaxError);
});

test('the first fault is thrown where that is asked for', () => {
  assert.throws(() => parse('a; break; continue', { sourceType: 'script', throwFaults: true }), error => {
    assert.ok(error instanceof SyntaxError);
    assert.strictEqual(error.pos, 3);
    assert.deepStrictEqual(error.loc, { line: 1, column: 3 });
    assert.strictEqual(error.faults.length, 2);
    return true;
  });
});

test('it stands in the place of acorn', () => {
  const acorn = require('./acorn.js');
  assert.strictEqual(acorn.parse('a', { ecmaVersion: 2020 }).body[0].type, 'ExpressionStatement');
  assert.throws(() => acorn.parse('break'), SyntaxError);
  assert.throws(() => acorn.tokenizer('a'), TypeError);
});

test('a walk takes no stack, and leaves out what it is told to', () => {
  const { walk, visitorKeys } = require('./index.js');
  const { tree } = parse(`a${' + a'.repeat(100000)}; f(b)`, { sourceType: 'script' });
  const seen = {};
  walk(tree, {
    enter(node) {
      seen[node.type] = (seen[node.type] ?? 0) + 1;
      return node.type !== 'CallExpression';
    },
  });
  assert.deepStrictEqual(seen, { Program: 1, ExpressionStatement: 2, BinaryExpression: 100000, Identifier: 100001, CallExpression: 1 });
  const left = [];
  walk(parse('if (a) b', { sourceType: 'script' }).tree, { leave: (node, parent) => left.push(`${node.type} in ${parent?.type}`) });
  assert.deepStrictEqual(left, ['Identifier in IfStatement', 'Identifier in ExpressionStatement', 'ExpressionStatement in IfStatement',
    'IfStatement in Program', 'Program in undefined']);
  assert.deepStrictEqual(visitorKeys.ForOfStatement, ['left', 'right', 'body']);
});

test('the entry for browsers reads what the entry for Node reads, once the module is loaded', async () => {
  const browser = await import('./browser.mjs');
  assert.throws(() => browser.parse('a'), /await load\(\) first/);
  await browser.load(fs.readFileSync(path.join(__dirname, 'ecma.wasm')));
  assert.deepStrictEqual(browser.parse('let a = 1n', { locations: true }), parse('let a = 1n', { locations: true }));
});

test('a stack that ends is an error of its own', () => {
  const text = 'x='.concat('[a][a++,'.repeat(1000));
  try {
    parse(text, { sourceType: 'script', limit: 1000 });
    assert.fail('a tree of what is never closed');
  } catch (error) {
    assert.ok(error.name === 'StackOverflowError' || error.kind !== undefined, error);
    assert.ok(!error.message.includes('--limit'));
  }
  assert.strictEqual(parse('a').tree.type, 'Program');
});

test('a text of ASCII can have values that are not', () => {
  const { tree } = parse("'\\u00e4\\u{1f600}'", { sourceType: 'script' });
  assert.strictEqual(tree.body[0].expression.value, '\u00e4\u{1f600}');
});

test('the command reports faults, trees and what it cannot read, each with its status', () => {
  const { spawnSync } = require('node:child_process');
  const run = (input, ...words) => spawnSync(process.execPath, [path.join(__dirname, 'bin/pofashere.js'), ...words], { input, encoding: 'utf8', maxBuffer: 1 << 30 });
  const clean = run('a', '--script');
  assert.deepStrictEqual([clean.status, clean.stdout, clean.stderr], [0, 'files: 1, faults: 0, refused: 0, unread: 0\n', '']);
  const faulty = run('\tbreak', '--script');
  assert.strictEqual(faulty.status, 1);
  assert.match(faulty.stdout, /^-:1:2: fault: .*\n\tbreak\n\t\^\^\^\^\^\n/);
  const refused = run('a b', '--format', 'json');
  assert.strictEqual(refused.status, 2);
  assert.strictEqual(JSON.parse(refused.stdout).severity, 'refused');
  const tree = run(`a${' + a'.repeat(100000)}`, '--format', 'estree', '--script');
  assert.strictEqual(tree.status, 0);
  assert.ok(tree.stdout.startsWith('{"type":"Program","start":0,'));
  assert.strictEqual(run('break; break; break', '--script', '--max-faults', '1').stdout.match(/fault:/g).length, 1);
  for (const words of [['--format', 'no'], ['--limit', 'x'], ['--enable', 'no'], ['--script', '--module'], ['--no']]) {
    const failed = run('', ...words);
    assert.strictEqual(failed.status, 3);
    assert.ok(failed.stderr.startsWith('pofashere: '));
  }
  const unread = run('', 'nowhere/nofile.js');
  assert.deepStrictEqual([unread.status, unread.stderr], [3, 'nowhere/nofile.js: there is no such file\n']);
});
