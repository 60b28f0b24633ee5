// The parser over `ecma-check`. ECMA_CHECK says where the program is, or else it is looked for as a command.
'use strict';
const { spawnSync } = require('child_process');
const { treeFrom } = require('../common/revived');
const { parserOver } = require('./parser');

const FIELDS = ['--locations', '--ranges', '--comments', '--tokens'];

function run(words, text) {
    const program = process.env.ECMA_CHECK || 'ecma-check';
    const done = spawnSync(program, words, { input: text, maxBuffer: 1 << 30 });
    if (done.error) throw done.error;
    if (done.status > 2) throw new Error(String(done.stderr));
    return { status: done.status, out: String(done.stdout) };
}

const place = (line, column) => ({ line, column: column - 1 });

function faultOf({ line, column, endLine, endColumn, ...fault }) {
    return { ...fault, loc: { start: place(line, column), end: place(endLine, endColumn) } };
}

// The faults of a text, the last of which ended its reading where it has no tree.
function faultsOf(words, text) {
    const { out } = run([...words, '--format', 'json'], text);
    return out.split('\n').filter(Boolean).map((line) => faultOf(JSON.parse(line)));
}

function read(text, { goal, enable }) {
    const words = [`--${goal}`, ...enable.flatMap((name) => ['--enable', name])];
    const { status, out } = run([...words, ...FIELDS, '--format', 'estree'], text);
    const faults = status === 0 ? [] : faultsOf(words, text);
    if (status === 2) return { refusal: faults[faults.length - 1] };
    return { tree: treeFrom(out), faults };
}

module.exports = { parseForESLint: parserOver(read) };
