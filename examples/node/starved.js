'use strict';
// Has memory run out under the addon that ECMA_ADDON names, linked with starved.c: each call says so, or answers as ever.

const assert = require('node:assert');
const { parse } = require('./ecma.js');

const TEXT = 'f(a, b);\n'.repeat(100);
const wanted = parse(TEXT);
let refused = 0;

for (let most = 1; most < 4 * 2 ** 20; most *= 2) {
  process.env.ECMA_MOST_BYTES = String(most);
  try {
    assert.deepStrictEqual(parse(TEXT), wanted);
  } catch (error) {
    assert.ok(error instanceof RangeError && error.message === 'memory ran out', error);
    refused += 1;
  }
}
assert.ok(refused > 10);
delete process.env.ECMA_MOST_BYTES;
assert.deepStrictEqual(parse(TEXT), wanted);
