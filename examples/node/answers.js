'use strict';
// Answers requests (texts with the numbers of their options) by the addon or by the package, for scripts/same: of each answer the status,
// and the count and the hash of its bytes.
//
// usage: answers.js addon | package FILE

const crypto = require('node:crypto');
const fs = require('node:fs');
const path = require('node:path');
const { guessOf } = require('../../npm/answer.js');

function answerer(way) {
  if (way === 'addon') {
    const { answer } = require(process.env.ECMA_ADDON);
    return ({ text, goal, limit, bits }) => answer(text, goal, limit, bits);
  }
  const module = new WebAssembly.Module(fs.readFileSync(path.join(__dirname, '../../npm/ecma.wasm')));
  const answer = require('../../npm/host.js')(module, guessOf);
  return ({ text, ...numbers }) => {
    const { status, json } = answer(text, numbers);
    return [status, json];
  };
}

const [way, file] = process.argv.slice(2);
const answer = answerer(way);

function digest([status, json]) {
  const bytes = Buffer.from(json);
  return [status, bytes.length, crypto.createHash('sha256').update(bytes).digest('hex')];
}

console.log(JSON.stringify(JSON.parse(fs.readFileSync(file, 'utf8')).map(it => digest(answer(it)))));
