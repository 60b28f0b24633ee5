'use strict';
// The two pages that show a text, its faults and its tree, in a tab of Chromium each: the playground (web/index.html), and those that ecma-check writes.

const fs = require('node:fs');
const os = require('node:os');
const path = require('node:path');
const { spawnSync } = require('node:child_process');
const { pathToFileURL } = require('node:url');
const { Tab } = require('./browser.js');

const PLAYGROUND = pathToFileURL(path.join(__dirname, '../web/index.html')).href;
const CODES = { Tab: 9, Enter: 13, Escape: 27, ' ': 32, PageUp: 33, PageDown: 34, End: 35, Home: 36, ArrowLeft: 37, ArrowUp: 38, ArrowRight: 39, ArrowDown: 40, F2: 113, F8: 119, '/': 191 };

class Viewer extends Tab {
  async clickOn(selector) {
    const { x, y } = await this.value(`(() => { const it = document.querySelector(${JSON.stringify(selector)}); it.scrollIntoView();
      const { x, y, height } = it.getBoundingClientRect(); return { x: x + 5, y: y + height / 2 }; })()`);
    await this.click(x, y);
  }

  async type(text) {
    for (const key of text) await this.send('Input.dispatchKeyEvent', { type: 'char', text: key });
  }

  /** Presses a key that has a code of its own (of Windows, as the protocol has them), or that is a character. */
  async key(key, modifiers = 0) {
    const text = key === 'Enter' ? '\r' : key.length === 1 ? key : undefined;
    const of = { key, code: key, windowsVirtualKeyCode: CODES[key] ?? key.toUpperCase().charCodeAt(0), modifiers };
    await this.send('Input.dispatchKeyEvent', { type: 'keyDown', ...of, text });
    await this.send('Input.dispatchKeyEvent', { type: 'keyUp', ...of });
  }

  resize(width, height) {
    return this.send('Emulation.setDeviceMetricsOverride', { width, height, deviceScaleFactor: 1, mobile: false });
  }
}

class Playground extends Viewer {
  isEdited = true;
  /** Expressions: the number of a line as an element, and where a line's text begins. */
  lineNumber = line => `[...$('numbers').children].find(it => it.textContent === '${line}')`;
  textLeft = 'text.getBoundingClientRect().left + 12';

  static async open(browser, url = PLAYGROUND) {
    const page = await browser.open(Playground);
    await page.send('Page.navigate', { url });
    await page.until('document.documentElement?.dataset.shown !== undefined');
    return page;
  }

  /** Waits until what was asked last is shown. */
  settled() {
    return this.until('document.documentElement?.dataset.shown === document.documentElement?.dataset.asked');
  }

  /** Puts a text into the page, and waits until it is answered. */
  async given(source) {
    await this.value(`text.value = ${JSON.stringify(source)}; changed(); 0`);
    await this.settled();
  }

  /** Puts the cursor into the text. */
  put(offset) {
    return this.value(`text.focus(); text.setSelectionRange(${offset}, ${offset}); 0`);
  }
}

/** A page that a program writes of a text. */
class Written extends Viewer {
  isEdited = false;
  lineNumber = line => `document.querySelector('#text .row[data-line="${line}"]')`;
  textLeft = `$('text').getBoundingClientRect().left + editor.margin`;
  folder = fs.mkdtempSync(path.join(os.tmpdir(), 'page-'));

  static async open(browser, program) {
    const page = await browser.open(Written);
    page.program = path.resolve(program);
    for (const domain of ['Page', 'Runtime', 'Network', 'Log']) await page.send(`${domain}.enable`);
    await page.send('Page.bringToFront');
    return page;
  }

  /** Has the program write the page of a text; the answer is its file. */
  write(source, name = 'text.js', flags = []) {
    const file = path.join(this.folder, name);
    fs.writeFileSync(file, source);
    const page = fs.openSync(`${file}.html`, 'w');
    const { stderr, status } = spawnSync(this.program, ['--format', 'html', ...flags, name], { cwd: this.folder, stdio: ['ignore', page, 'pipe'] });
    fs.closeSync(page);
    if (status > 2) throw new Error(`${name}: status ${status}: ${stderr}`);
    return `${file}.html`;
  }

  /** Opens a page, and tells when its text is seen, and when its tree is. */
  async show(file) {
    this.browser.heard = [];
    await this.value('self.isOld = true');
    const begun = process.hrtime.bigint();
    await this.send('Page.navigate', { url: pathToFileURL(file).href });
    const isNew = 'self.isOld === undefined && document.documentElement';
    const seen = await this.until(`${isNew} && document.querySelector('#text .row') !== null`, begun);
    const whole = await this.until(`${isNew}.dataset.shown !== undefined && document.querySelector('#nodes .row, #none:not([hidden])') !== null`, begun);
    return { seen, whole };
  }

  given(source) {
    return this.show(this.write(source));
  }

  async settled() {}

  put(offset) {
    return this.value(`$('text').focus(); editor.go(${offset}); 0`);
  }

  async close() {
    fs.rmSync(this.folder, { recursive: true, force: true, maxRetries: 5, retryDelay: 200 });
    await super.close();
  }
}

module.exports = { Playground, Written };
