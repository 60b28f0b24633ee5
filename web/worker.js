// The part of the page that parses. It keeps the last answer, and hands out what stands in a node when that is opened: of a new text at once
// what stands at the paths that are open, by hand or as long as what stands there is looked at.
'use strict';

const MOST_ENTRIES = 200;
const MOST_FAULTS = 100;
const NODE = /^\{"type":"(\w+)","start":(\d+),"end":(\d+)/;
/** How many bytes have all that NODE finds. */
const MOST_HEAD = 128;
const OWN_NAMES = ['type', 'start', 'end'];
const LITERAL = '{"type":"Literal"';
/** What stands behind the faults, where there are more. */
const MORE = /"more":(\d+)/;
/** The field that names a node of a kind: a text, or a node or a list whose name it is. */
const NAMES = {
  Identifier: 'name', PrivateIdentifier: 'name', Literal: 'raw', VariableDeclaration: 'declarations', VariableDeclarator: 'id',
  FunctionDeclaration: 'id', FunctionExpression: 'id', ClassDeclaration: 'id', ClassExpression: 'id', CallExpression: 'callee', Property: 'key',
  MethodDefinition: 'key', PropertyDefinition: 'key', AccessorProperty: 'key', LabeledStatement: 'label', BreakStatement: 'label',
  ContinueStatement: 'label', ImportSpecifier: 'imported', ImportDefaultSpecifier: 'local', ImportNamespaceSpecifier: 'local',
  ExportSpecifier: 'local',
};
/** How much of a name is shown. */
const MOST_NAME = 40;
/** How many levels below a node its name is looked for. */
const MOST_NAME_LEVELS = 20;
/** What stands before the tree, behind the body of a program, and before the faults. */
const [TREE, REST, FAULTS] = ['{"tree":', ',"sourceType":"', ',"faults":['];
const [OPEN, OPEN_LIST, CLOSE_LIST, MARK, NEWLINE] = ['{', '[', ']', '"', '\n'].map(it => it.charCodeAt(0));
/** From this status on an answer has no tree. */
const NO_TREE = 2;

let answer;
let generation = 0;
/** What the parser wrote, as bytes of its memory. */
let written = new Uint8Array(0);
/** Each node and list that was handed out: where it begins in what was written, and its path. */
let places = [];
/** The paths that are open: the names that lead to a node or a list, with a `/` before each. The first, of the whole, is empty. */
const opened = new Set(['/']);
/** Those that lead to what is looked at. */
let followed = new Set();
/** Which parts of a long list are shown, by its path: the first, and the end of them. */
const windows = new Map();
/** Where the parts of lists begin, by where the lists do: of those in which something was looked for. */
const starts = new Map();
/** Where those nodes and lists end that were gone over, by where they begin. */
const ends = new Map();
/** Where each fault begins and ends in what was written. */
let faultPlaces = [];

const valueOf = from => parts.textOf(written, from, parts.valueEnd(written, from));

const isOpen = path => opened.has(path) || followed.has(path);

const headOf = from => NODE.exec(parts.textOf(written, from, from + MOST_HEAD));

/** The name of the node or of the first node of the list that begins at a place, if it has one. */
function nameAt(from, levels = MOST_NAME_LEVELS) {
  if (written[from] === MARK) return JSON.parse(valueOf(from));
  if (written[from] === OPEN_LIST) return nameAt(from + 1, levels);
  const field = written[from] === OPEN && NAMES[headOf(from)?.[1]];
  if (!field || levels === 0) return undefined;
  for (const part of parts.partsOf(written, from)) if (part.name === field) return nameAt(part.from, levels - 1);
  return undefined;
}

const shortened = name => (name.length > MOST_NAME ? `${name.slice(0, MOST_NAME)}\u2026` : name);

/** What is shown of an object: most are nodes. */
function objectShown(from) {
  const found = headOf(from);
  if (!found) return { label: '' };
  const [, label, start, end] = found;
  const called = label in NAMES ? nameAt(from) : undefined;
  return { label, start: Number(start), end: Number(end), ...(called && { called: shortened(called) }) };
}

/** What is shown of a part: a node or a list, which can be opened, with what stands in it if it is open; or a value. */
function entryOf({ name, from }, above) {
  const first = written[from];
  if (first !== OPEN && first !== OPEN_LIST) return { name, label: valueOf(from) };
  const shown = first === OPEN ? objectShown(from) : { label: written[from + 1] === CLOSE_LIST ? '[]' : '[..]' };
  const path = `${above}/${name}`;
  const entry = { name, id: places.push({ from, path }) - 1, ...shown };
  return isOpen(path) ? { ...entry, entries: entriesOf(from, path) } : entry;
}

/** The parts of a literal, with the value that JSON may have no form for. */
function literalEntries(from) {
  const literal = JSON.parse(valueOf(from));
  answers.restore(literal);
  const named = Object.entries(literal).filter(([name]) => !OWN_NAMES.includes(name));
  return named.map(([name, value]) => ({ name, label: typeof value === 'bigint' ? `${value}n` : JSON.stringify(value) }));
}

/** The parts of a node or a list. The end of a program's body is looked for from behind. */
const partsAt = from => parts.partsOf(written, from, from === TREE.length ? { body: parts.lastIndexOf(written, REST, 'T') } : {}, ends);

/** Where the parts of a list begin. It is gone over once. */
function startsOf(from) {
  if (!starts.has(from)) starts.set(from, parts.startsOf(written, from));
  return starts.get(from);
}

/** The parts of a list from one on, as far as one behind an end. */
const partsFrom = (from, first, end) => startsOf(from).slice(first, end + 1).map((it, index) => ({ name: String(first + index), from: it }));

/** What stands in a node or a list, as far as it is shown. */
function entriesOf(from, path) {
  if (parts.textOf(written, from, from + LITERAL.length) === LITERAL) return literalEntries(from);
  const [first, end] = windows.get(path) ?? [0, MOST_ENTRIES];
  const entries = first > 0 ? [{ name: '..', label: `${first} before` }] : [];
  let index = first;
  for (const part of first > 0 ? partsFrom(from, first, end) : partsAt(from)) {
    if (OWN_NAMES.includes(part.name)) continue;
    if (index === end) return [...entries, { name: '..', label: 'more' }];
    entries.push(entryOf(part, path));
    index++;
  }
  if (index > first || first === 0) return entries;
  // The list became shorter than what was shown of it.
  windows.delete(path);
  return entriesOf(from, path);
}

/** Some of the faults. */
function faultsIn(places) {
  return places.map(([at, end]) => answers.faultOf(JSON.parse(parts.textOf(written, at, end))));
}

/** How many faults there are, how many more the parser does not tell, and those that are shown. Each stands in a line. Where there is no tree, the last says why. */
function faultsOf(from, hasTree) {
  faultPlaces = [];
  for (let end; (end = written.indexOf(NEWLINE, from)) >= 0; from = end + 1) faultPlaces.push([from + 1, end]);
  const count = faultPlaces.length;
  const [, more = 0] = MORE.exec(parts.textOf(written, from)) ?? [];
  const faults = faultsIn(faultPlaces.filter((_, index) => index < MOST_FAULTS || (!hasTree && index === count - 1)));
  if (!hasTree) faults.at(-1).isRefusal = true;
  return { count, more: Number(more), faults };
}

/** What is shown of an answer. */
function answerShown(status) {
  const found = faultsOf(parts.lastIndexOf(written, FAULTS, '[') + FAULTS.length - 1, status < NO_TREE);
  if (status >= NO_TREE) return found;
  return { ...found, tree: entryOf({ name: '', from: TREE.length }, '') };
}

/** The tree and the faults of a text, or why there is no answer, and how long that took. */
function told(text, options) {
  places = [];
  faultPlaces = [];
  starts.clear();
  ends.clear();
  generation += 1;
  const begun = performance.now();
  let found;
  try {
    const { status, bytes } = answer(text, answers.numbersOf(options));
    const failure = answers.failureOf(status);
    if (failure) throw failure;
    written = bytes;
    found = answerShown(status);
  } catch (error) {
    written = new Uint8Array(0);
    found = { count: 0, faults: [], failure: error.message };
  }
  return { ms: performance.now() - begun, ...found };
}

/** Notes that a node is opened or closed, and answers what stands in it. */
function toggled(id, isNowOpen) {
  const { from, path } = places[id];
  if (isNowOpen) opened.add(path);
  else for (const paths of [opened, followed]) paths.delete(path);
  return isNowOpen ? entriesOf(from, path) : [];
}

/** What a page asks besides, by the names of its questions. */
const ANSWERS = {
  toggled: ({ toggled: id, isOpen: isNowOpen }) => ({ toggled: id, isOpen: isNowOpen, entries: toggled(id, isNowOpen) }),
  more: ({ more: id, isBefore }) => ({ toggled: id, isOpen: true, entries: seek.widened(id, isBefore) }),
  at: ({ at, unfolds }) => seek.around(at, unfolds),
  path: ({ path }) => seek.unfolded(path),
  words: ({ words }) => seek.searched(words),
  copied: ({ copied }) => ({ json: valueOf(copied === null ? TREE.length : places[copied].from) }),
  furtherFrom: ({ furtherFrom }) => ({ furtherFrom, faults: faultsIn(faultPlaces.slice(furtherFrom, furtherFrom + MOST_FAULTS)) }),
};

async function started(module) {
  try {
    answer = host(await WebAssembly.compile(module), answers.guessOf);
    self.postMessage({ ready: true });
  } catch (error) {
    self.postMessage({ failure: `this browser cannot run it: ${error.message}` });
  }
}

/** Answers a text at once, and behind that tells all places that are marked in it: a next key is not kept waiting. */
function answered({ text, options, number }) {
  const found = told(text, options);
  const shown = generation;
  self.postMessage({ ...found, generation, number });
  setTimeout(() => {
    if (shown !== generation) return;
    const marks = seek.marksOf();
    self.postMessage({ marks, generation }, [marks.buffer]);
  });
}

self.onmessage = ({ data }) => {
  if (data.module) started(data.module);
  else if (data.text !== undefined) answered(data);
  else if (data.generation === generation) self.postMessage({ ...ANSWERS[Object.keys(ANSWERS).find(it => it in data)](data), generation });
};
