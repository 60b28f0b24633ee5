'use strict';
// `require('pofashere/acorn')` in the place of `require('acorn')`: `parse` answers the tree alone, and throws the first fault.

const { parse, version } = require('./index.js');

const missing = name => () => {
  throw new TypeError(`pofashere/acorn has no ${name}`);
};

module.exports = {
  version,
  parse: (text, options) => parse(String(text), { sourceType: 'script', ...options, throwFaults: true }).tree,
  parseExpressionAt: missing('parseExpressionAt'),
  tokenizer: missing('tokenizer'),
};
