// A small text from a tree, by UglifyJS: what `uglifyjs -p spidermonkey -c -m` does.
'use strict';
const UglifyJS = require('uglify-js');
const { hashbangOf } = require('../common/hashbang');

const SETTINGS = { compress: {}, mangle: {} };

function written(files) {
    const { code, error } = UglifyJS.minify(files, SETTINGS);
    if (error) throw error;
    return code;
}

// `tree` is made by `ecma-check --format estree`, of `text`. A first line that begins with `#!` stays where it is, as UglifyJS has it.
const minify = (tree, text = '') => hashbangOf(text) + written(UglifyJS.AST_Node.from_mozilla_ast(tree));

// The same from a text, by UglifyJS' own parser.
const minifyText = (text) => written(text);

module.exports = { minify, minifyText };
