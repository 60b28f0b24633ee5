'use strict';
// Measures how many levels deep a text may nest before the package's stack overflows, for each nest of scripts/nests.tsv of one kind, with
// `pairs` for each of two, and for the worst texts of scripts/worst_pairs.tsv. An overflow is an error of the engine, never a wrong answer;
// the package's own limit is to be well below the least of these.
//
// usage: node [--stack-size=KB] scripts/nests.js [check | stack] [pairs] [addon]
//
// With `check` it says which nests overflow at the limit that is the package's default. With `check addon` the addon that ECMA_ADDON names
// answers within 1,000 levels; an overflow ends the process there, so what is to be seen is that it ends by itself. With `stack` it says which
// nests take most of the stack that lies in the module's memory, in bytes.

const fs = require('node:fs');
const path = require('node:path');
const { numbersOf, guessOf } = require('../npm/answer.js');
const host = require('../npm/host.js');

const MOST = 1000;
/** The size of the stack that scripts/wasm links into the module. */
const STACK = 8 << 20;
const BEGINS = { statement: ['', ''], expression: ['x=', ''], pattern: ['var ', '=a'] };
const INNERMOST = { statement: ';', expression: 'a', pattern: 'z' };

const asked = word => process.argv.includes(word);

/** A function that answers the status of a text, by the package or by the addon. */
function answerer() {
  if (!asked('addon')) return host(new WebAssembly.Module(fs.readFileSync(path.join(__dirname, '../npm/ecma.wasm'))), guessOf);
  const addon = require(process.env.ECMA_ADDON);
  return (text, { goal, limit, bits }) => ({ status: addon.answer(text, goal, limit, bits)[0] });
}

const answer = answerer();

function lines(name) {
  return fs.readFileSync(path.join(__dirname, name), 'utf8').split('\n').filter(it => it && !it.startsWith('#')).map(it => it.split('\t'));
}

const opened = (nest, times) => BEGINS[nest[0][0]][0] + nest.map(it => it[2]).join('').repeat(times);
const closed = (nest, times) => opened(nest, times) + INNERMOST[nest[0][0]] + nest.toReversed().map(it => it[3]).join('').repeat(times) + BEGINS[nest[0][0]][1];

/** The nests that are asked for. */
function nests() {
  const kinds = lines('nests.tsv');
  const singles = kinds.filter(it => it[0] === it[1]).map(it => [it]);
  const pairs = !asked('pairs') ? [] : kinds.flatMap(a => kinds.filter(b => a[1] === b[0] && b[1] === a[0] && (a[0] < a[1] || (a[0] === a[1] && a[2] !== b[2]))).map(b => [a, b]));
  const worst = lines('worst_pairs.tsv').map(([text]) => [['statement', 'statement', text, '']]);
  return [...singles, ...pairs, ...worst];
}

/** Whether a text is answered within a limit; else the stack overflows. */
function fits(text, limit) {
  try {
    answer(text, { ...numbersOf({ sourceType: 'script' }), limit });
    return true;
  } catch (error) {
    if (error instanceof RangeError || error instanceof WebAssembly.RuntimeError) return false;
    throw error;
  }
}

/** A nest closed as deep as a limit lets it. */
function deepest(nest, limit) {
  let [low, high] = [0, limit];
  while (low < high) {
    const middle = Math.ceil((low + high) / 2);
    const { status } = answer(closed(nest, middle), { ...numbersOf({ sourceType: 'script' }), limit });
    if (status === 3) high = middle - 1;
    else low = middle;
  }
  return closed(nest, low);
}

function fitsBoth(nest, limit) {
  return fits(opened(nest, MOST + 100), limit) && (nest[0][3] === '' || fits(deepest(nest, limit), limit));
}

/** The greatest limit within which a nest fits. */
function greatest(nest) {
  let [low, high] = [0, MOST];
  while (low < high) {
    const middle = Math.ceil((low + high) / 2);
    if (fits(opened(nest, MOST + 100), middle)) low = middle;
    else high = middle - 1;
  }
  return low;
}

/** Says which nests overflow at the limit. */
function check(all) {
  const limit = asked('addon') ? MOST : numbersOf().limit;
  const over = all.filter(nest => !fitsBoth(nest, limit));
  for (const nest of over.slice(0, 20)) console.log(`overflows at ${limit} levels: ${opened(nest, 1)}`);
  console.log(`${all.length - over.length} passed, ${over.length} failed`);
  process.exitCode = over.length > 0 ? 1 : 0;
}

/** Says which nests fit the fewest levels. */
function measure(all) {
  const found = all.map(nest => [greatest(nest), opened(nest, 1)]).sort((a, b) => a[0] - b[0]);
  for (const [limit, text] of found.slice(0, 10)) console.log(`${String(limit).padStart(5)} levels  ${text}`);
  console.log(`${found.length} nests; each fits ${found[0][0]} levels`);
}

/** How many bytes of the stack in the module's memory a text takes: it lies below all else, grows down from its end, and holds zeros before. */
function stackOf(module, text, limit) {
  const it = new WebAssembly.Instance(module, {}).exports;
  const [options, room] = [16n, BigInt(guessOf(text.length, 0))];
  it.ecma_reset();
  const [at, from, to] = [it.ecma_room(options + 8n), it.ecma_room(BigInt(text.length + 1)), it.ecma_room(room)];
  new Uint8Array(it.memory.buffer).set(text, Number(from));
  new Uint32Array(it.memory.buffer, Number(at), 4).set([0, limit, 0, 0]);
  it.ecma_parse(from, BigInt(text.length), at, to, room, at + options);
  const words = new Uint32Array(it.memory.buffer, 0, STACK / 4);
  let untouched = 0;
  while (words[untouched] === 0) untouched++;
  return STACK - 4 * untouched;
}

/** Says which nests take most of the stack in the module's memory for each level, and how much a call takes besides. */
function measureStack(all) {
  const module = new WebAssembly.Module(fs.readFileSync(path.join(__dirname, '../npm/ecma.wasm')));
  const [few, many] = [50, 250];
  const found = all.map(nest => {
    const text = opened(nest, MOST + 100);
    const [low, high] = [few, many].map(limit => stackOf(module, new TextEncoder().encode(text), limit));
    const each = (high - low) / (many - few);
    return [each, low - few * each, opened(nest, 1)];
  });
  found.sort((a, b) => b[0] - a[0]);
  for (const [each, besides, text] of found.slice(0, 10)) console.log(`${each.toFixed(0)} bytes a level and ${besides.toFixed(0)}  ${text}`);
}

/** The texts that each nest is tried with: more levels than any limit lets through, and as many as a limit lets. */
const textsWithin = limit => nests().flatMap(nest => [opened(nest, MOST + 100), deepest(nest, limit)]);

if (require.main === module) (asked('check') ? check : asked('stack') ? measureStack : measure)(nests());
module.exports = { textsWithin };
