'use strict';
// Drives the page in web/ in a headless Chromium, by its pipe for debugging: keys, clicks, answers, a picture.
//
// usage: node scripts/page.js [--points] [--picture FILE] [--times [--beside FILE]] [--most MS] [--requests FILE]
//
// It types, opens the tree, clicks a fault, loads the page anew, tries at three widths what the page has for a reader (scripts/page_points.js), has
// memory run out, tries what nests, and measures how long texts of 100 KB take from a key to their answer. With --points it only tries the widths,
// with --times it only measures, in turns with the page in FILE where there is one; with --most it fails where a usual text takes longer, which says
// something on a quiet machine. With --picture it keeps a picture of the page and does no more. With --requests it answers those in FILE (texts with
// the numbers of their options) as the page's worker does, and writes the answers to standard output.

const assert = require('node:assert');
const fs = require('node:fs');
const path = require('node:path');
const { pathToFileURL } = require('node:url');
const { Browser } = require('./browser.js');
const { textsWithin } = require('./nests.js');
const { pointsAt, WIDTHS } = require('./page_points.js');
const { Playground } = require('./viewer.js');

const CHUNK = 200;
const ROUNDS = 21;
const SIZE = 100_000;
const word = name => (process.argv.includes(name) ? process.argv[process.argv.indexOf(name) + 1] : undefined);

const PICTURED = `const limit = 100;
function total(items) {
  let sum = 0;
  for (const item of items) sum = sum + item.price;
  if (sum > limit) continue;
  return sum;
}
again: again: while (total([])) break;
`;

/** Typing, clicks, the address. */
async function used(page) {
  assert.strictEqual(await page.value(`$('list').childElementCount`), 1, await page.value(`$('state').textContent`));
  await page.clickOn('#text');
  await page.given('');
  await page.type('a;\r b c');
  await page.settled();
  assert.ok((await page.value(`$('list').textContent`)).startsWith('2:4 refused'));
  await page.clickOn('#list li');
  assert.deepStrictEqual(await page.value('[text.selectionStart, text.selectionEnd]'), [6, 7]);
  await page.value('text.select(); self.before = number; 0');
  await page.type('q');
  await page.settled();
  assert.deepStrictEqual(await page.value('[text.value, asked, number - before]'), ['q', 'q', 1], 'a key is asked for once');
  await page.given('f(\u00e9, 1n)');
  assert.strictEqual(await page.value(`$('list').childElementCount`), 0);
  await page.clickOn('#node-1 .kind');
  await page.until(`$('nodes').textContent.includes('ExpressionStatement')`);
  await page.given('f(\u00e9, 1n);');
  // What is open stays open, and tells its new place.
  await page.until(`$('nodes').textContent.includes('ExpressionStatement 0\u20139')`);
  await page.given('f(\u00e9, 1n)');
  await page.until(`unpacked(location.hash.slice(1)).then(it => it === text.value, () => false)`);
  await page.value('self.isOld = true; location.reload()');
  await page.until('self.isOld === undefined && document.documentElement?.dataset.shown !== undefined');
  assert.strictEqual(await page.value('text.value'), 'f(\u00e9, 1n)');
  console.error('typing, clicks, tree, address: as they should be');
}

/** The texts of about 100 KB that are measured: a usual one, and those of which much stands in one line, in many lines or in the list of faults. */
function measuredTexts() {
  const unit = 'function total(items, kind) {\n  let sum = 0;\n  for (const item of items) {\n    sum = sum + item.price * item.count;\n  }\n  return sum * rates[kind];\n}\n\n';
  return {
    'functions': unit.repeat(SIZE / unit.length),
    'one line of calls': `[${'f(x + 1), '.repeat(SIZE / 10)}1]`,
    'short lines': 'a;\n'.repeat(SIZE / 3),
    'a fault a line': 'break;\n'.repeat(SIZE / 7),
  };
}

/** Notes how long it is from each key to the answer in the page, and to the next frame, which shows it. */
const WATCH = `self.times = [];
  text.addEventListener('keypress', ({ timeStamp }) => { self.from = timeStamp; });
  new MutationObserver(() => {
    const { shown, asked } = document.documentElement.dataset;
    if (shown !== asked) return;
    const answered = performance.now() - from;
    requestAnimationFrame(() => setTimeout(() => times.push([answered, performance.now() - from])));
  }).observe(document.documentElement, { attributes: true, attributeFilter: ['data-shown'] });
  0`;

/**
 * Types into the middle of a text, and prints how long it takes until that is answered and until it is seen: the middle of some keys, which is what
 * it answers, and the least.
 */
async function measuredIn(page, name, source) {
  const middle = source.length >> 1;
  const at = 1 + Math.max(source.lastIndexOf('\n', middle), source.lastIndexOf(' ', middle));
  await page.value(`text.value = ${JSON.stringify(source)}; text.focus(); text.setSelectionRange(${at}, ${at}); changed(); 0`);
  await page.settled();
  await page.value('new Promise(done => setTimeout(done, 500)).then(() => { times.length = 0; })');
  const spent = await page.browser.spent();
  for (let round = 0; round < ROUNDS; round++) {
    await page.type(' ');
    await page.until(`times.length > ${round}`);
  }
  const each = (await page.browser.spent() - spent) / ROUNDS;
  const times = await page.value('times');
  const [answered, seen] = [0, 1].map(part => times.map(it => Math.round(it[part])).sort((a, b) => a - b));
  const middleOf = sorted => sorted[ROUNDS >> 1];
  console.error(`${name}${page.label ?? ''}, ${source.length} bytes: answered after ${middleOf(answered)} ms (${answered[0]} at least), seen after ${middleOf(seen)} ms; ${Math.round(each)} ms of processors`);
  return middleOf(answered);
}

/** From a key to its answer in texts of 100 KB, in turns with another page where there is one. */
async function measured(page, beside) {
  const pages = beside ? [Object.assign(beside, { label: ' (beside)' }), page, beside, page] : [page];
  for (const it of new Set(pages)) await it.value(WATCH);
  const took = [];
  for (const [name, source] of Object.entries(measuredTexts())) {
    for (const it of pages) {
      await it.send('Page.bringToFront');
      const found = await measuredIn(it, name, source);
      if (it === page) took.push(found);
    }
  }
  assert.ok(took[0] <= Number(word('--most') ?? Infinity), `${took[0]} ms from a key to its answer`);
}

/** Makes the page's own host and module known to what is evaluated in the page. */
function prepared(page) {
  return page.value(`(async () => {
    const kept = self.onmessage;
    const { host, answers } = new Function($('worker').textContent + '; return { host, answers }')();
    self.onmessage = kept;
    const letters = Uint8Array.from(atob($('module').textContent), it => it.charCodeAt(0));
    self.own = { host, answers, module: await WebAssembly.compile(await piped(letters, new DecompressionStream('gzip'))) }; })()`);
}

/** Want of memory and depth, as the page's own code answers them. */
async function starved(page) {
  await prepared(page);
  const found = await page.value(`(() => {
    const { host, answers, module } = own;
    const least = new WebAssembly.Instance(module, {}).exports.memory.buffer.byteLength;
    const found = [];
    for (let more = 0; found.at(-1) !== 0; more += 65536) found.push(host(module, answers.guessOf, least + more)('f(a, b);\\n'.repeat(100), answers.numbersOf({ tokens: true })).status);
    return found; })()`);
  assert.ok(found.length > 10 && found.slice(0, -1).every(it => it === -2), JSON.stringify(found));
  await page.given('{'.repeat(100000));
  assert.ok((await page.value(`$('list').textContent`)).includes('[TooDeep]'));
  console.error('want of memory and depth: told');
}

/** What nests as deep as the page's limit lets it, and deeper: each is answered or refused by its worker, and none overflows the stack. */
async function nested(page) {
  const texts = textsWithin(await page.value(`Number($('limit').value)`));
  await page.value(`$('goal').value = 'script'; 0`);
  for (const text of texts) {
    await page.given(text);
    const state = await page.value(`$('state').textContent`);
    assert.match(state, /^\d+ faults?, /, `${text.slice(0, 40)}: ${state}`);
  }
  console.error(`${texts.length} texts that nest: none overflows`);
}

/** The answers of the page's own code to requests, as examples/node/answers.js tells them. */
async function answered(page, requests) {
  await prepared(page);
  await page.value(`(() => {
    const answer = own.host(own.module, own.answers.guessOf);
    self.digestsOf = async requests => {
      const found = [];
      for (const { text, ...numbers } of requests) {
        const { status, json } = answer(text, numbers);
        const bytes = new TextEncoder().encode(json);
        const hash = new Uint8Array(await crypto.subtle.digest('SHA-256', bytes));
        found.push([status, bytes.length, Array.from(hash, it => it.toString(16).padStart(2, '0')).join('')]);
      }
      return found;
    }; })()`);
  const answers = [];
  for (let at = 0; at < requests.length; at += CHUNK) {
    answers.push(...await page.value(`digestsOf(${JSON.stringify(requests.slice(at, at + CHUNK))})`));
  }
  return answers;
}

/** Keeps a picture of the page: the next fault is gone to, and the tree is opened to it. */
async function pictured(page, file) {
  await page.resize(1200, 640);
  await page.given(PICTURED);
  await page.key('F8');
  await page.key('F2');
  await page.until(`document.activeElement.id === 'nodes' && document.querySelector('#layer .lit') !== null`);
  await page.picture(file);
}

async function main() {
  const browser = new Browser();
  try {
    const page = await Playground.open(browser);
    const requests = word('--requests');
    if (requests) return console.log(JSON.stringify(await answered(page, JSON.parse(fs.readFileSync(requests, 'utf8')))));
    const [beside, picture] = [word('--beside'), word('--picture')];
    if (process.argv.includes('--times')) return await measured(page, beside && await Playground.open(browser, pathToFileURL(path.resolve(beside)).href));
    if (picture) return await pictured(page, picture);
    if (!process.argv.includes('--points')) await used(page);
    for (const width of WIDTHS) await pointsAt(page, width);
    if (process.argv.includes('--points')) return;
    await starved(page);
    await nested(page);
    await measured(page);
  } finally {
    await browser.close();
  }
}

// Where the browser ends before its time, nothing is waited for any more: that is no success.
process.exitCode = 1;
main().then(() => { process.exitCode = 0; }, error => console.error(error));
