'use strict';
// Finds the parts of JSON without blanks, given as bytes, as far as they are asked for. It makes neither a text nor objects of the whole: of a
// long tree that would take as long as to parse its source.

const parts = (() => {
  const [QUOTE, BACKSLASH, COMMA] = ['"', '\\', ','].map(it => it.charCodeAt(0));
  const [OPEN, CLOSE, OPEN_LIST, CLOSE_LIST] = ['{', '}', '[', ']'].map(it => it.charCodeAt(0));
  const decoder = new TextDecoder();

  const isClose = code => code === CLOSE || code === CLOSE_LIST;

  const textOf = (bytes, from, to) => decoder.decode(bytes.subarray(from, to));

  /** Where a word of ASCII stands last; it is looked for by a character of it that is rare. */
  function lastIndexOf(bytes, word, rare) {
    const ahead = word.indexOf(rare);
    let at = bytes.length;
    do at = bytes.lastIndexOf(rare.charCodeAt(0), at - 1);
    while (at > 0 && textOf(bytes, at - ahead, at - ahead + word.length) !== word);
    return at - ahead;
  }

  /** The end of the string that begins at a place. */
  function stringEnd(bytes, at) {
    for (at++; bytes[at] !== QUOTE; at++) if (bytes[at] === BACKSLASH) at++;
    return at + 1;
  }

  /** The end of the number or the word that begins at a place. */
  function wordEnd(bytes, at) {
    while (at < bytes.length && bytes[at] !== COMMA && !isClose(bytes[at])) at++;
    return at;
  }

  /** The end of the object or the list that begins at a place. */
  function bracketEnd(bytes, at) {
    let depth = 0;
    do {
      const code = bytes[at];
      if (code === QUOTE) {
        at = stringEnd(bytes, at);
        continue;
      }
      if (code === OPEN || code === OPEN_LIST) depth++;
      else if (isClose(code)) depth--;
      at++;
    } while (depth > 0);
    return at;
  }

  /** The end of the value that begins at a place. */
  function valueEnd(bytes, at) {
    const first = bytes[at];
    if (first === QUOTE) return stringEnd(bytes, at);
    return first === OPEN || first === OPEN_LIST ? bracketEnd(bytes, at) : wordEnd(bytes, at);
  }

  /** The parts of the object or the list that begins at a place, one by one: the name of each, and where its value begins. `ends` has by their
   * names, and `known` by their places, where values end; this one is added to `known` once its end is found. */
  function* partsOf(bytes, at, ends = {}, known = new Map()) {
    const [whole, isList] = [at, bytes[at] === OPEN_LIST];
    if (isClose(bytes[at + 1])) return;
    for (let count = 0; !isClose(bytes[at]); count++) {
      const nameEnd = isList ? at : stringEnd(bytes, at + 1);
      const name = isList ? String(count) : JSON.parse(textOf(bytes, at + 1, nameEnd));
      const from = nameEnd + 1;
      yield { name, from };
      at = ends[name] ?? known.get(from) ?? valueEnd(bytes, from);
    }
    known.set(whole, at + 1);
  }

  /** Where each part of the list that begins at a place begins itself. */
  function startsOf(bytes, at) {
    const starts = [];
    while (!isClose(bytes[++at])) {
      starts.push(at);
      at = valueEnd(bytes, at);
      if (bytes[at] !== COMMA) break;
    }
    return starts;
  }

  return { partsOf, startsOf, valueEnd, textOf, lastIndexOf };
})();

if (typeof module !== 'undefined') module.exports = parts;
