'use strict';
// A fault as text, as `ecma-check` prints it: place, sentence, the line, and carets under what is wrong.

const HIDDEN = /[\u0000-\u0008\u000a-\u001f\u007f-\u009f\u061c\u200e\u200f\u2028-\u202e\u2066-\u2069\ufeff]/u;
const LINE_ENDS = new Set(['\n', '\r', '\u2028', '\u2029']);
const WIDE = /[\u1100-\u115f\u2e80-\u303e\u3041-\u33ff\u3400-\u4dbf\u4e00-\u9fff\ua000-\ua4cf\ua960-\ua97f\uac00-\ud7a3\uf900-\ufaff\ufe30-\ufe6f\uff01-\uff60\uffe0-\uffe6\u{16fe0}-\u{18cff}\u{1b000}-\u{1b2ff}\u{1f300}-\u{1f64f}\u{1f680}-\u{1f6ff}\u{1f900}-\u{1f9ff}\u{1fa70}-\u{1faff}\u{20000}-\u{3fffd}]/u;
const MARK = /^(?:\p{M}|[\u200b-\u200d\u2060])$/u;

/** How many columns of a terminal stand before a place, and in all. */
const BEFORE = 40;
const ALL = 74;

const shown = (it, tab) => (it === '\t' ? tab : HIDDEN.test(it) ? '\ufffd' : it);
const columns = it => (it === '\t' ? 1 : MARK.test(it) ? 0 : WIDE.test(it) ? 2 : 1);
const cost = it => (it === '\t' ? 8 : Math.max(1, columns(it)));

/** A name or a sentence, in which nothing is an order to a terminal. */
const plain = text => Array.from(text, it => shown(it, '\ufffd')).join('');

/** The start of the line of an offset, and the characters before it there. */
function before(text, offset) {
  let from = offset;
  while (from > 0 && !LINE_ENDS.has(text[from - 1])) from -= 1;
  if (from === 0 && text.startsWith('\ufeff')) from = Math.min(1, offset);
  return Array.from(text.slice(from, offset));
}

/** The characters from an offset on, up to the end of the line or of the room, and whether something is left out. */
function behind(text, from, to, room) {
  const found = [];
  for (const it of text.slice(from, Math.min(to, from + 2 * ALL))) {
    if (LINE_ENDS.has(it)) break;
    if (cost(it) > room) return { found, isCut: true };
    room -= cost(it);
    found.push(it);
  }
  return { found, isCut: false };
}

/** The line of a place, cut to what fits, and carets under the place. */
function excerpt(text, start, end) {
  let left = before(text, start);
  let room = BEFORE;
  let from = left.length;
  while (from > 0 && room >= 3) {
    from -= 1;
    room = Math.max(0, room - cost(left[from]));
  }
  const isCut = from > 0;
  left = left.slice(from);
  const rest = Math.max(0, ALL - left.reduce((sum, it) => sum + cost(it), 0));
  const line = behind(text, start, text.length, rest);
  const marked = behind(text, start, end, rest).found.reduce((sum, it) => sum + columns(it), 0);
  const blanks = left.map(it => (it === '\t' ? '\t' : ' '.repeat(columns(it)))).join('');
  const drawn = [...left, ...line.found].map(it => shown(it, '\t')).join('');
  return `${isCut ? '...' : ''}${drawn}${line.isCut ? '...' : ''}\n${isCut ? '   ' : ''}${blanks}${'^'.repeat(Math.max(1, marked))}\n`;
}

/** A place, a word, a sentence and the line. */
function told(file, text, { message, start, end, loc }, word) {
  const column = loc.start.column + (loc.start.line === 1 && text.startsWith('\ufeff') ? 0 : 1);
  return `${plain(file)}:${loc.start.line}:${column}: ${word}: ${plain(message)}\n${excerpt(text, start, end)}`;
}

/** A fault, and the other place that it speaks of. */
function faultText(file, text, fault, word) {
  return told(file, text, fault, word) + (fault.note ? told(file, text, fault.note, 'note') : '');
}

module.exports = { faultText, plain };
