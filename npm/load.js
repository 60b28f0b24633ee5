'use strict';
// The module beside this file, and strings of what it writes, in Node.

const { isAscii } = require('node:buffer');
const fs = require('node:fs');
const path = require('node:path');

const decoder = new TextDecoder();

function moduleOf() {
  return new WebAssembly.Module(fs.readFileSync(path.join(__dirname, 'ecma.wasm')));
}

/** A string of UTF-8. One of ASCII has one byte a character, and is made sooner so. */
function decode(bytes) {
  if (!isAscii?.(bytes)) return decoder.decode(bytes);
  return Buffer.from(bytes.buffer, bytes.byteOffset, bytes.length).latin1Slice();
}

module.exports = { moduleOf, decode };
