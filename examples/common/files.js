// The JavaScript files of folders.
'use strict';
const fs = require('fs');
const path = require('path');

const FOLDERS = ['/usr/share/nodejs', '/usr/lib/node_modules', '/usr/share/javascript'];
const decoder = new TextDecoder('utf-8', { fatal: true });

function* filesOf(place) {
    let entries;
    try { entries = fs.readdirSync(place, { withFileTypes: true }); } catch { return; }
    entries.sort((a, b) => (a.name < b.name ? -1 : 1));
    for (const entry of entries) {
        const inside = path.join(place, entry.name);
        if (entry.isDirectory()) yield* filesOf(inside);
        else if (entry.isFile() && /\.[cm]?js$/.test(entry.name)) yield inside;
    }
}

// The text of a file without a mark of the order of bytes, or nothing where it is not UTF-8.
function textOf(file) {
    try { return decoder.decode(fs.readFileSync(file)); } catch { return null; }
}

// Each file of the folders with its text, and each text once.
function* textsOf(folders) {
    const seen = new Set();
    for (const place of folders.length ? folders : FOLDERS) {
        for (const file of fs.statSync(place, { throwIfNoEntry: false })?.isFile() ? [place] : filesOf(place)) {
            const text = textOf(file);
            if (text === null || seen.has(text)) continue;
            seen.add(text);
            yield { file, text };
        }
    }
}

module.exports = { textsOf };
