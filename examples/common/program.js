// Runs `ecma-check` over a text. ECMA_CHECK says where it is, or else it is looked for as a command.
'use strict';
const { spawnSync } = require('child_process');
const { treeFrom } = require('./revived');

// A text without a tree: `reason` is what is told of the fault that ended its reading.
class Refusal extends Error {
    constructor(reason) {
        super(`refused: ${reason}`);
        this.reason = reason;
    }
}

function reasonOf(errors) {
    const found = /^[^\n]*: refused: ([^\n]*)$/m.exec(errors);
    return found ? found[1] : errors.trim();
}

// The tree of a text, with the fields that `words` ask for.
function treeOf(text, goal, words = []) {
    const program = process.env.ECMA_CHECK || 'ecma-check';
    const all = [`--${goal}`, '--format', 'estree', ...words];
    const done = spawnSync(program, all, { input: text, maxBuffer: 1 << 30 });
    if (done.error) throw done.error;
    if (done.status > 1) throw new Refusal(reasonOf(String(done.stderr)));
    return treeFrom(String(done.stdout));
}

module.exports = { Refusal, treeOf };
