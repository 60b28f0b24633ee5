// What a tree has no form for.
'use strict';

// The first line of a text, if it begins with `#!`; else nothing.
function hashbangOf(text) {
    const found = /^#!.*/.exec(text);
    return found ? `${found[0]}\n` : '';
}

module.exports = { hashbangOf };
