'use strict';
// A proved ECMAScript parser, as a WebAssembly module. Nothing is read or compiled before the first call.

const { moduleOf, decode } = require('./load.js');
const { version } = require('./package.json');
const parserOf = require('./parser.js');

const { parse, visitorKeys, walk, StackOverflowError } = parserOf(moduleOf, decode);

module.exports = { parse, visitorKeys, walk, StackOverflowError, version };
