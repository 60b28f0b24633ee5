// Compares a client over the trees of `ecma-check` with the same client over those of its own parser.
'use strict';
const { acornTree } = require('./acorn');
const { Refusal, treeOf } = require('./program');
const { textsOf } = require('./files');

const GOALS = ['script', 'module'];

// What a client says, or how it fails.
async function said(work) {
    try {
        return await work();
    } catch (error) {
        if (error instanceof Refusal) throw error;
        return `failed: ${error.message}`;
    }
}

// The first line that differs, as it is in each of two texts.
function firstDifference(ours, own) {
    const left = ours.split('\n'), right = own.split('\n');
    const at = left.findIndex((line, i) => line !== right[i]);
    const line = at < 0 ? left.length : at;
    let column = 0;
    while (left[line]?.[column] !== undefined && left[line][column] === right[line]?.[column]) column++;
    const part = (lines) => JSON.stringify(lines[line]?.slice(Math.max(0, column - 40), column + 60));
    return `line ${line + 1}: ${part(left)} for ${part(right)}`;
}

// A difference is the client's own where it says the same over a tree by acorn.
async function classOf(client, ours, text, goal, file) {
    if (client.hasParser) return 'this tree';
    const third = await said(() => client.over((inner) => acornTree(inner, goal, client.words), text, goal, file));
    return third === ours ? 'as over a tree by acorn' : 'this tree';
}

const add = (to, key) => to.set(key, (to.get(key) ?? 0) + 1);

async function compareAs(client, sums, { file, text }, goal) {
    const ours = await said(() => client.over((inner) => treeOf(inner, goal, client.words), text, goal, file));
    const own = await said(() => client.own(text, goal, file));
    if (ours === own) return own.startsWith('failed: ') ? 'failed' : 'equal';
    const kind = await classOf(client, ours, text, goal, file);
    add(sums.classes, kind);
    console.log(`${file} as a ${goal}: ${kind}: ${firstDifference(ours, own)}`);
    return 'different';
}

// A file is read as the first goal as which the client's own parser reads it.
async function compareFile(client, sums, one) {
    const goal = (client.goals ?? GOALS).find((it) => client.reads(one.text, it));
    if (!goal) return 'unread';
    try {
        return await compareAs(client, sums, one, goal);
    } catch (error) {
        if (!(error instanceof Refusal)) throw error;
        add(sums.skipped, error.reason);
        return 'skipped';
    }
}

function print(client, count, sums) {
    for (const [kind, number] of sums.classes) console.log(`  different, ${kind}: ${number}`);
    for (const [kind, number] of sums.skipped) console.log(`  skipped, refused: ${kind}: ${number}`);
    console.log(`  not read by its own parser: ${count.unread}, failed with either: ${count.failed}`);
    console.log(`${client.name}: ${count.equal} equal, ${count.different} different, ${count.skipped} skipped`);
}

// Compares each file of the folders that the words name, and prints the sums, of what was compared so far where it is interrupted. `client` has
//   name      what it is called
//   goals     as what a file is read, in this order: a script or a module by default
//   reads     whether its own parser reads a text
//   over      what it makes of a text by a function that makes a tree
//   own       what it makes of a text by its own parser
//   words     which fields a tree has to have, as `ecma-check` is asked for them
//   hasParser whether `over` has a parser of its own over this program, and takes no other trees
async function compare(client, folders = process.argv.slice(2)) {
    const sums = { skipped: new Map(), classes: new Map() };
    const count = { equal: 0, different: 0, skipped: 0, failed: 0, unread: 0 };
    let goesOn = true;
    process.once('SIGINT', () => { goesOn = false; });
    for (const one of textsOf(folders)) {
        count[await compareFile(client, sums, one)]++;
        await new Promise(setImmediate);
        if (!goesOn) break;
    }
    print(client, count, sums);
    process.exitCode = count.different ? 1 : 0;
}

module.exports = { compare };
