'use strict';
// What both pages have for a reader (scripts/viewer.js), tried at a width of the window: by keys alone, but for the points that speak of a click.
const assert = require('node:assert');

const WIDTHS = [400, 1000, 1600];
const HEIGHT = 800;
const SHIFT = 8;
const LEAST_CONTRAST = 4.5;
const TEXT = `const limit = 100;
function total(items) {
  for (const item of items) sum = sum + item.price;
  if (sum > limit) continue;
}
with (a) b;
`;
const LIT = `[...editor.sheet.querySelectorAll('.lit')].map(it => it.textContent).join('').trim()`;
const ROW = `document.querySelector('#nodes .row.lit')?.textContent ?? ''`;
const LIST = `$('list')`;

/** Goes by the tabulator to an element. */
async function tabTo(page, id) {
  for (let left = 40; left > 0; left--) {
    if (await page.value('document.activeElement.id') === id) return;
    await page.key('Tab');
  }
  assert.fail(`no tabulator leads to ${id}`);
}

/** Waits until an expression has a value that is wanted. */
async function comes(page, expression, wanted) {
  const isThere = wanted instanceof RegExp ? `${wanted}.test(${expression})` : `(${expression}) === ${JSON.stringify(wanted)}`;
  const ended = Date.now() + 20000;
  while (!await page.value(isThere)) {
    if (Date.now() > ended) assert.fail(`${expression}: ${JSON.stringify(await page.value(expression))}, where ${wanted} is wanted`);
    await new Promise(resolve => setTimeout(resolve, 20));
  }
}

/** The cursor in the text lights the tree, and a key opens the tree to it; a node lights its text. */
async function lights(page) {
  await page.given(TEXT);
  await page.value('tree.cursor = 0; 0');
  await page.put(0);
  for (const key of ['ArrowDown', 'Home', 'ArrowRight']) await page.key(key);
  await comes(page, LIT, /^function total[^]*\}$/);
  await comes(page, ROW, /body: \[..\]|FunctionDeclaration total/);
  await comes(page, `$('path').textContent`, 'Program \u203a FunctionDeclaration total');
  for (let left = 9; left > 0; left--) await page.key('ArrowRight');
  await comes(page, LIT, 'total');
  await page.key('F2');
  await comes(page, ROW, /id: Identifier total 28/);
  assert.strictEqual(await page.value('document.activeElement.id'), 'nodes');
  await page.key('ArrowUp');
  await comes(page, LIT, /^function total[^]*\}$/);
  await page.key('ArrowDown');
  await comes(page, LIT, 'total');
  await page.key('Enter');
  assert.deepStrictEqual(await page.value('[document.activeElement.id, editor.range()[0]]'), ['text', 28]);
  await comes(page, LIT, 'total');
}

/** The tree opens to the cursor by itself where that is asked for. */
async function follows(page) {
  await tabTo(page, 'follow');
  await page.key(' ');
  await page.put(6);
  await comes(page, ROW, /id: Identifier limit 6/);
  await tabTo(page, 'follow');
  await page.key(' ');
  assert.strictEqual(await page.value(`$('follow').checked`), false);
}

/** A click on the name of a node lights its text and scrolls there. */
async function clicked(page) {
  await page.given(`${'a;\n'.repeat(300)}last(1);\n`);
  await page.put(901);
  await page.key('F2');
  await comes(page, ROW, /Identifier last|callee/);
  await page.value('editor.pane.scrollTop = 0; editor.light(0, 0); 0');
  await page.clickOn('#nodes .row.lit .kind');
  await comes(page, LIT, 'last');
  assert.ok(await page.value('editor.pane.scrollTop') > 3000, 'the text is scrolled to');
}

/** Faults are underlined, lines are numbered, and both scroll with the text. */
async function underlined(page) {
  await page.given(`${'\n'.repeat(120)}${' '.repeat(300)}break;\n`);
  await tabTo(page, 'text');
  await page.key('F8');
  await comes(page, `[...editor.sheet.querySelectorAll('.wrong')].map(it => it.textContent).join('')`, 'break;');
  const places = `(() => {
    const wrong = editor.sheet.querySelector('.wrong').getBoundingClientRect();
    const line = ${page.lineNumber(121)}.getBoundingClientRect();
    const area = editor.pane.getBoundingClientRect();
    const off = wrong.left - (${page.textLeft}) - 300 * editor.width() + editor.pane.scrollLeft;
    return JSON.stringify({ isBeside: Math.abs(wrong.top - line.top) < 6 && Math.abs(off) <= 1, isAcross: wrong.left > area.left && wrong.right < area.right,
      isDown: wrong.top > area.top && wrong.bottom < area.bottom }); })()`;
  await comes(page, places, JSON.stringify({ isBeside: true, isAcross: true, isDown: true }));
  if (!page.isEdited) return;
  await page.key('Home');
  await page.type('\r');
  await page.settled();
  await comes(page, `${page.lineNumber(122)} !== undefined`, true);
}

/** All faults are reached by keys, and what is left is told. */
async function faultsByKeys(page) {
  await page.given('break;\n'.repeat(630));
  const button = `$('further').hidden ? '' : $('further').textContent`;
  assert.strictEqual(await page.value(button), '530 more: show the next');
  await tabTo(page, 'list');
  await page.key('End');
  await page.key('ArrowDown');
  await comes(page, button, '430 more: show the next');
  await comes(page, `${LIST}.querySelector('[aria-selected=true]').id`, 'fault-100');
  await comes(page, LIT, 'break;');
  await tabTo(page, 'further');
  await page.key('Enter');
  await comes(page, button, '330 more: show the next');
  await tabTo(page, 'list');
  for (let shown = 400; shown <= 630 + 99; shown += 100) {
    await page.key('End');
    await page.key('ArrowDown');
    await comes(page, `${LIST}.childElementCount`, Math.min(shown, 630));
  }
  await page.key('End');
  await page.key('Enter');
  assert.deepStrictEqual(await page.value('[document.activeElement.id, editor.range()[0]]'), ['text', 629 * 7]);
  await page.key('F8', SHIFT);
  assert.strictEqual(await page.value('editor.range()[0]'), 628 * 7);
  assert.strictEqual(await page.value(button), '');
}

/** Why there is no tree stands last in the list, before further faults are shown and behind them. */
async function refused(page) {
  await page.given(`${'break;\n'.repeat(150)}b c;\n`);
  const shown = `[${LIST}.childElementCount, ${LIST}.lastChild.querySelector('.severity').textContent, $('further').hidden, $('none').hidden, ${LIST}.querySelectorAll('#fault-150').length]`;
  assert.deepStrictEqual(await page.value(shown), [101, 'refused', false, false, 1]);
  await tabTo(page, 'further');
  await page.key('Enter');
  await comes(page, `${LIST}.childElementCount`, 151);
  assert.deepStrictEqual(await page.value(shown), [151, 'refused', true, false, 1]);
  await page.key('F8', SHIFT);
  assert.strictEqual(await page.value('editor.range()[0]'), 99 * 7, 'the first of the further ones was gone to');
}

/** A long message is wrapped, and seen as a whole. */
async function wrapped(page) {
  await page.given('a: a: 1;\n');
  const [shown, whole, wide, inside] = await page.value(`[$('told').clientHeight, ${LIST}.firstChild.getBoundingClientRect().height, $('told').scrollWidth, $('told').clientWidth]`);
  assert.ok(shown >= whole && whole >= 20, `of ${whole} px of a message ${shown} are seen`);
  assert.ok(wide <= inside, `a message is ${wide} px wide`);
  assert.strictEqual(await page.value(`${LIST}.textContent.includes('[DuplicateLabel]')`), true);
}

/** Nodes are found by kind and by name. */
async function searched(page) {
  await page.given(TEXT);
  await tabTo(page, 'nodes');
  await page.key('/');
  assert.strictEqual(await page.value('document.activeElement.id'), 'search');
  await page.type('functiondecl');
  await comes(page, `$('hits').textContent`, '1 of 1');
  await comes(page, ROW, /FunctionDeclaration total/);
  await page.value(`$('search').select(); 0`);
  await page.type('identifier item');
  await comes(page, `$('hits').textContent`, '1 of 4');
  await comes(page, LIT, 'items');
  await page.key('Enter');
  await comes(page, `$('hits').textContent`, '2 of 4');
  await page.key('Enter', SHIFT);
  await comes(page, `$('hits').textContent`, '1 of 4');
  await comes(page, ROW, /Identifier items/);
  await page.key('Escape');
  assert.deepStrictEqual(await page.value(`[document.activeElement.id, $('search').value]`), ['nodes', '']);
}

/** The JSON of a node and of the whole is copied. */
async function copied(page) {
  await page.browser.send('Browser.grantPermissions', { permissions: ['clipboardReadWrite', 'clipboardSanitizedWrite'] });
  await page.given('f;\n');
  await tabTo(page, 'nodes');
  await page.key('Home');
  await page.key('c');
  await comes(page, `$('hits').textContent`, /^copied: \d+ characters$/);
  const whole = { type: 'Program', start: 0, end: 3, body: [{ type: 'ExpressionStatement', start: 0, end: 2, expression: { type: 'Identifier', start: 0, end: 1, name: 'f' } }], sourceType: 'script' };
  assert.deepStrictEqual(JSON.parse(await page.value('navigator.clipboard.readText()')), whole);
  await page.value(`tree.show(tree.root); 0`);
  await page.put(0);
  await page.key('F2');
  await comes(page, ROW, /Identifier f 0/);
  await tabTo(page, 'copy-node');
  await page.key('Enter');
  await comes(page, `navigator.clipboard.readText().then(it => it.length) && $('hits').textContent`, /^copied: [1-9]\d characters$/);
  assert.deepStrictEqual(JSON.parse(await page.value('navigator.clipboard.readText()')), whole.body[0].expression);
}

/** Names stand beside kinds. */
async function named(page) {
  await page.given(TEXT);
  await page.put(28);
  await page.key('F2');
  for (const said of ['VariableDeclaration limit', 'FunctionDeclaration total', 'Identifier total']) await comes(page, `$('nodes').textContent.includes('${said}')`, true);
}

/** Goal, limit and flags are chosen by keys and kept in the address. */
async function linked(page) {
  if (!page.isEdited) return;
  await page.given('with (a) b;\n');
  await comes(page, `${LIST}.childElementCount`, 0);
  await tabTo(page, 'goal');
  await page.key('ArrowDown');
  await page.key('ArrowDown');
  await comes(page, `${LIST}.childElementCount`, 1);
  await tabTo(page, 'limit');
  await page.key('ArrowUp');
  await page.value(`$('settings').open = true; 0`);
  await tabTo(page, 'explicitResourceManagement');
  await page.key(' ');
  await comes(page, 'location.hash', /&as=module&limit=201&with=explicitResourceManagement$/);
  await page.value('self.isOld = true; location.reload()');
  await page.until('self.isOld === undefined && document.documentElement?.dataset.shown !== undefined');
  await page.settled();
  assert.deepStrictEqual(await page.value(`[text.value, $('goal').value, $('limit').value, $('explicitResourceManagement').checked, ${LIST}.childElementCount]`), ['with (a) b;\n', 'module', '201', true, 1]);
  await page.value(`location.hash = '#'; 0`);
  await comes(page, `$('goal').value + $('limit').value`, 'program200');
  await page.settled();
}

/** In the page: the least contrast of what is seen, and of each color of text with each ground. */
const CONTRAST = `(() => {
  const numbers = color => color.match(/[\\d.]+/g).map(Number);
  const part = it => (it / 255 <= 0.04045 ? it / 255 / 12.92 : ((it / 255 + 0.055) / 1.055) ** 2.4);
  const light = ([r, g, b]) => 0.2126 * part(r) + 0.7152 * part(g) + 0.0722 * part(b);
  const between = (a, b) => { const [low, high] = [light(numbers(a)), light(numbers(b))].sort((x, y) => x - y); return (high + 0.05) / (low + 0.05); };
  const ground = it => { for (; it; it = it.parentElement) { const color = getComputedStyle(it).backgroundColor; if (numbers(color)[3] !== 0) return color; } return 'rgb(255, 255, 255)'; };
  const found = [];
  for (const it of document.querySelectorAll('body *')) {
    if (it.closest('#layer, script, style') || it.checkVisibility && !it.checkVisibility()) continue;
    if (![...it.childNodes].some(inner => inner.nodeType === 3 && inner.data.trim()) && !it.matches('textarea, input, select')) continue;
    found.push([between(getComputedStyle(it).color, ground(it)), it.outerHTML.slice(0, 80)]);
  }
  const probe = document.body.appendChild(document.createElement('i'));
  const color = name => { probe.style.color = 'var(--' + name + ')'; return getComputedStyle(probe).color; };
  for (const ink of ['ink', 'faint', 'kind', 'field', 'wrong', 'noted']) {
    for (const behind of ['ground', 'panel', 'lit', 'cursor']) found.push([between(color(ink), color(behind)), ink + ' on ' + behind]);
  }
  probe.remove();
  return { count: found.length, least: found.sort((a, b) => a[0] - b[0])[0] }; })()`;

/** Light and dark, as the system has it and as it is chosen, have contrast enough. */
async function colored(page) {
  await page.given(`${TEXT}a: a: 1;\n`);
  const dark = `getComputedStyle(document.body).backgroundColor === 'rgb(22, 24, 29)'`;
  for (const value of ['dark', 'light']) {
    await page.send('Emulation.setEmulatedMedia', { features: [{ name: 'prefers-color-scheme', value }] });
    await comes(page, dark, value === 'dark');
    const { count, least } = await page.value(CONTRAST);
    assert.ok(count > 40 && least[0] >= LEAST_CONTRAST, `${value}: ${least}`);
  }
  await tabTo(page, 'theme');
  for (const key of ['ArrowDown', 'ArrowDown']) await page.key(key);
  await comes(page, dark, true);
  for (const key of ['ArrowUp', 'ArrowUp']) await page.key(key);
  await comes(page, dark, false);
}

/** Nothing sticks out of the window, and each part has room. */
async function fits(page, width) {
  await page.given(TEXT);
  const [wide, ...high] = await page.value(`[document.documentElement.scrollWidth, ...['text', 'nodes', 'told'].map(it => $(it).clientHeight)]`);
  assert.ok(wide <= width, `the page is ${wide} px wide`);
  assert.ok(high[0] >= 100 && high[1] >= 100 && high[2] >= 20, JSON.stringify(high));
}

const POINTS = { lights, follows, clicked, underlined, faultsByKeys, refused, wrapped, searched, copied, named, linked, colored, fits };

async function pointsAt(page, width) {
  await page.resize(width, HEIGHT);
  for (const [name, point] of Object.entries(POINTS)) {
    try {
      await point(page, width);
    } catch (error) {
      error.message = `${name} at ${width} px: ${error.message}`;
      throw error;
    }
  }
  console.error(`${Object.keys(POINTS).length} points at ${width} px: as they should be`);
}

module.exports = { pointsAt, WIDTHS };
