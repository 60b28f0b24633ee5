'use strict';
// What every host of the parser shares: options as numbers, and what the parser answered as a tree and faults, or as an error.

const GOALS = { script: 0, module: 1, program: 2, auto: 3 };

const FLAGS = {
  decorators: 0x1,
  decoratorsBeforeExport: 0x2,
  exportDefaultFrom: 0x4,
  importAttributes: 0x8,
  allowReturnOutsideFunction: 0x10,
  autoAccessors: 0x20,
  explicitResourceManagement: 0x40,
};

const EXTRAS = { locations: 0x100, ranges: 0x200, comments: 0x400, tokens: 0x800 };
const NO_EARLY_ERRORS = 0x1000;
const PLAIN = 0x2000;

/** What fits the stack of an engine: scripts/nests.js measures it. */
const DEFAULT_LIMIT = 300;
const MAX_LIMIT = 1000;

/** The greatest number of 32 bits. */
const MOST = 2 ** 32 - 1;

/** The first buffer has so many bytes for each byte of text, up to the greatest; the answer says what is needed beyond. */
const GUESS = { bytes: 16, extras: 32, least: 4096, most: 256 * 1024 * 1024 };

const FAILURES = {
  '-2': 'memory ran out',
  '-4': 'the text is too long',
};

/** The package's own options that are not numbers' names, and acorn's that are taken, each with what is done with a value: `npm/README.md` has the tables. */
const ACORN = {
  ecmaVersion: value => value === 'latest' || (Number.isInteger(value) && value >= 3),
  sourceFile: value => typeof value === 'string' || value == null,
  directSourceFile: value => typeof value === 'string' || value == null,
  onComment: value => isSink(value),
  onToken: value => isSink(value),
  throwFaults: value => isFlag(value),
  earlyErrors: value => isFlag(value),
  plain: value => isFlag(value),
  allowHashBang: value => isFlag(value),
  allowReturnOutsideFunction: value => isFlag(value),
  allowReserved: value => !value,
  allowImportExportEverywhere: value => !value,
  allowAwaitOutsideFunction: value => !value,
  allowSuperOutsideMethod: value => isFlag(value),
  checkPrivateFields: value => isFlag(value),
  preserveParens: value => !value,
  strict: value => !value,
  program: value => value == null,
  onInsertedSemicolon: value => value == null,
  onTrailingComma: value => value == null,
};

const isFlag = value => value === undefined || value === null || typeof value === 'boolean';

const isSink = value => value == null || typeof value === 'function' || Array.isArray(value);

function shown(value) {
  return typeof value === 'string' ? `'${value}'` : String(value);
}

/** The bits of the options that are flags. */
function bitsOf(flags, rest) {
  let bits = 0;
  for (const flag of flags) {
    if (!Object.hasOwn(FLAGS, flag)) throw new TypeError(`there is no flag ${shown(flag)}`);
    bits |= FLAGS[flag];
  }
  for (const [name, value] of Object.entries(rest)) {
    if (Object.hasOwn(EXTRAS, name)) {
      if (value) bits |= EXTRAS[name];
    } else if (!Object.hasOwn(ACORN, name)) {
      throw new TypeError(`there is no option ${name}`);
    } else if (!ACORN[name](value)) {
      throw new TypeError(`the option ${name} cannot be ${shown(value)} here`);
    }
  }
  if (rest.allowReturnOutsideFunction) bits |= FLAGS.allowReturnOutsideFunction;
  if (rest.onComment) bits |= EXTRAS.comments;
  if (rest.onToken) bits |= EXTRAS.tokens;
  if (rest.earlyErrors === false) bits |= NO_EARLY_ERRORS;
  if (rest.plain) bits |= PLAIN;
  return bits;
}

/** How many faults of a text are told. */
const DEFAULT_FAULTS = 1000;

/** The numbers that the parser takes. */
function numbersOf(options = {}) {
  if (typeof options !== 'object' || options === null) throw new TypeError(`options are an object, not ${shown(options)}`);
  const { sourceType = 'auto', limit = DEFAULT_LIMIT, maxFaults = DEFAULT_FAULTS, flags = [], ...rest } = options;
  if (!Object.hasOwn(GOALS, sourceType)) throw new TypeError(`sourceType is 'script', 'module', 'program' or 'auto', not ${shown(sourceType)}`);
  if (!Number.isInteger(limit) || limit < 0 || limit > MAX_LIMIT) throw new RangeError(`limit is 0 to ${MAX_LIMIT}, not ${shown(limit)}`);
  if (!Number.isInteger(maxFaults) || maxFaults < 0 || maxFaults > MOST) throw new RangeError(`maxFaults is 0 to ${MOST}, not ${shown(maxFaults)}`);
  if (!Array.isArray(flags)) throw new TypeError(`flags are a list of names, not ${shown(flags)}`);
  return { goal: GOALS[sourceType], limit, bits: bitsOf(flags, rest), most: maxFaults };
}

/** How many bytes of answer are guessed, so that one call mostly does. */
function guessOf(length, bits) {
  return GUESS.least + Math.min(GUESS.most, length * (bits & 0xf00 ? GUESS.extras : GUESS.bytes));
}

/** A place as acorn tells it: a line from 1, a column from 0. */
const place = (line, column) => ({ line, column: column - 1 });

function faultOf(told) {
  const { severity, kind, message, start, end, byteStart, byteEnd, line, column, endLine, endColumn, note } = told;
  const words = kind === 'TooDeep' ? 'this nests deeper than the `limit`, which is at most 1000 levels' : message;
  const fault = { ...(severity && { severity }), kind, message: words, start, end, byteStart, byteEnd, loc: { start: place(line, column), end: place(endLine, endColumn) } };
  if (note) fault.note = faultOf(note);
  return fault;
}

/** Why there is no tree, or the first fault, as acorn throws it. */
function errorOf({ kind, message, start, end, byteStart, byteEnd, loc, note }, faults) {
  const error = new SyntaxError(`${message} (${loc.start.line}:${loc.start.column})`);
  const fields = { kind, pos: start, end, byteStart, byteEnd, loc: loc.start, endLoc: loc.end, raisedAt: end, faults };
  return Object.assign(error, note ? { ...fields, note } : fields);
}

/** Calls a function with each node of a tree, from the root on. */
function each(root, visit) {
  const waiting = [root];
  while (waiting.length > 0) {
    const it = waiting.pop();
    if (typeof it.type === 'string') visit(it);
    for (const part of Object.values(it)) if (typeof part === 'object' && part !== null) waiting.push(part);
  }
}

/** A regular expression, or `null` where this engine has none for it. */
function expressionOf({ pattern, flags }) {
  try {
    return new RegExp(pattern, flags);
  } catch {
    return null;
  }
}

/** Gives big integers and regular expressions their values, which JSON has no form for. */
function restore(tree) {
  each(tree, node => {
    if (node.bigint !== undefined) node.value = BigInt(node.bigint);
    else if (node.type === 'Literal' && node.regex) node.value = expressionOf(node.regex);
  });
}

/** Why there is no answer, where that is so. */
function failureOf(status) {
  if (status >= 0) return null;
  return status in FAILURES ? new RangeError(FAILURES[status]) : new Error(`status ${status}`);
}

/** The tree and the faults of an answer. Throws where there is no tree, or no answer. */
function resultOf(status, json) {
  const failure = failureOf(status);
  if (failure) throw failure;
  const { tree, faults: told, more } = JSON.parse(json);
  const faults = told.map(faultOf);
  if (tree === null) throw errorOf(faults.pop(), faults);
  if (json.includes('"bigint":"') || json.includes('"regex":{')) restore(tree);
  return more ? { tree, faults, more } : { tree, faults };
}

/** The kinds that acorn's options leave out. */
function leftOut({ allowSuperOutsideMethod, checkPrivateFields }) {
  return [...(allowSuperOutsideMethod ? ['MisplacedSuper', 'MisplacedSuperCall'] : []), ...(checkPrivateFields === false ? ['PrivateUndeclared'] : [])];
}

/** What acorn's options ask for besides, done on the finished tree. */
function finished(result, options = {}) {
  const kinds = leftOut(options);
  if (kinds.length > 0) result.faults = result.faults.filter(it => !kinds.includes(it.kind));
  const { tree, faults } = result;
  const { sourceFile, directSourceFile, onComment, onToken, throwFaults } = options;
  if (throwFaults && faults.length > 0) throw errorOf(faults[0], faults);
  if (sourceFile || directSourceFile) {
    each(tree, node => {
      if (sourceFile && node.loc) node.loc.source = sourceFile;
      if (directSourceFile) node.sourceFile = directSourceFile;
    });
  }
  hand(tree, 'comments', onComment, options, it => [it.type === 'Block', it.value, it.start, it.end, it.loc?.start, it.loc?.end]);
  hand(tree, 'tokens', onToken, options, it => [it]);
  return result;
}

/** Hands out comments or tokens to a list or a function, as acorn does. */
function hand(tree, name, sink, options, wordsOf) {
  if (!sink) return;
  for (const it of tree[name]) Array.isArray(sink) ? sink.push(it) : sink(...wordsOf(it));
  if (!options[name]) delete tree[name];
}

const answers = { FLAGS, numbersOf, guessOf, faultOf, failureOf, restore, resultOf, finished };

if (typeof module !== 'undefined') module.exports = answers;
