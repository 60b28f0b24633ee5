'use strict';
// Tells the faults of standard input and prints its tree, by a function that parses.

const fs = require('node:fs');

function line({ loc, kind, message }, word) {
  console.log(`${loc.start.line}:${loc.start.column + 1}: ${word} [${kind}]: ${message}`);
}

function tell(parse) {
  const text = fs.readFileSync(0, 'utf8');
  try {
    const { tree, faults } = parse(text, { sourceType: process.argv[2] ?? 'auto', limit: 1000 });
    for (const fault of faults) line(fault, 'fault');
    console.log(JSON.stringify(tree, (_, value) => (typeof value === 'bigint' ? null : value)));
    return faults.length > 0 ? 1 : 0;
  } catch (error) {
    if (error.kind === undefined) throw error;
    for (const fault of error.faults) line(fault, 'fault');
    line({ loc: { start: error.loc }, kind: error.kind, message: error.message }, 'refused');
    return error.kind === 'TooDeep' ? 3 : 2;
  }
}

module.exports = parse => {
  process.exitCode = tell(parse);
};
