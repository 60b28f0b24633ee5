// A parser over `ecma-check` and a plugin for ESLint. `over-package.js` has the parser over the npm package.
'use strict';
const { parseForESLint } = require('./over-program');

module.exports = {
    meta: { name: 'eslint-plugin-ecma-check', version: '0.1.0' },
    parseForESLint,
    rules: { fault: require('./rules/fault') },
};
