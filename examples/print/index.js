// A text from a tree, by escodegen.
'use strict';
const escodegen = require('escodegen');
const { hashbangOf } = require('../common/hashbang');

// `tree` is made by `ecma-check --format estree --ranges --comments --tokens`, of `text`. A first line that begins with `#!` stays where it is.
function print(tree, text = '') {
    const { comments, tokens, ...program } = tree;
    return hashbangOf(text) + escodegen.generate(escodegen.attachComments(program, comments, tokens), { comment: true });
}

module.exports = { print };
