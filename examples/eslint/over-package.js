// The parser over the npm package. ECMA_PACKAGE says where that is, or else it is looked for as `pofashere`.
'use strict';
const { parse } = require(process.env.ECMA_PACKAGE || 'pofashere');
const { parserOver } = require('./parser');

const FIELDS = { locations: true, ranges: true, comments: true, tokens: true };

const inCamelCase = (name) => name.replace(/-(\w)/g, (_, letter) => letter.toUpperCase());

// The package has a name of its own for one proposal.
const flagOf = (name) => (name === 'return-outside-function' ? 'allowReturnOutsideFunction' : inCamelCase(name));

function read(text, { goal, enable }) {
    try {
        return parse(text, { sourceType: goal, flags: enable.map(flagOf), ...FIELDS });
    } catch (error) {
        if (error.kind === undefined) throw error;
        const { kind, pos, loc, message } = error;
        return { refusal: { kind, start: pos, loc: { start: loc }, message: message.replace(/ \(\d+:\d+\)$/, '') } };
    }
}

module.exports = { parseForESLint: parserOver(read) };
