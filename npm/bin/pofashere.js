#!/usr/bin/env node
'use strict';
// `ecma-check` for Node: the faults of JavaScript files as sentences, or their trees as ESTree. It has the words, formats and statuses of the
// program of that name, but for `--format html`.

const fs = require('node:fs');
const { parseArgs } = require('node:util');
const { FLAGS, failureOf, faultOf } = require('../answer.js');
const { moduleOf, decode } = require('../load.js');
const { version } = require('../package.json');
const parserOf = require('../parser.js');
const { faultText, plain } = require('../text.js');

const { answer } = parserOf(moduleOf, decode);

const USAGE = `usage: pofashere [--script|--module|--program] [--plain] [--limit N] [--enable FLAG].. [--format text|json|estree]
                 [--locations] [--ranges] [--comments] [--tokens] [--max-faults N] [--no-early] [FILE..]`;
const WORDS = {
  script: { type: 'boolean' }, module: { type: 'boolean' }, program: { type: 'boolean' },
  plain: { type: 'boolean' },
  limit: { type: 'string' }, enable: { type: 'string', multiple: true }, format: { type: 'string', default: 'text' },
  'max-faults': { type: 'string', default: '1000' },
  'no-early': { type: 'boolean' },
  locations: { type: 'boolean' }, ranges: { type: 'boolean' }, comments: { type: 'boolean' }, tokens: { type: 'boolean' },
  help: { type: 'boolean', short: 'h' }, version: { type: 'boolean', short: 'V' },
};
const STATUS = { clean: 0, faulty: 1, refused: 2, failed: 3 };

class Usage extends Error {}

const camel = word => word.replace(/-(\w)/g, (_, it) => it.toUpperCase()).replace('returnOutside', 'allowReturnOutside');

function number(word, name, most) {
  if (!/^\d+$/.test(word)) throw new Usage(`--${name} takes a number, not '${word}'`);
  return Math.min(Number(word), most);
}

/** What the words ask for. */
function asked(words) {
  let found;
  try {
    found = parseArgs({ args: words, options: WORDS, allowPositionals: true });
  } catch (error) {
    throw new Usage(error.message);
  }
  const { values, positionals } = found;
  const goals = ['script', 'module', 'program'].filter(it => values[it]);
  if (goals.length > 1) throw new Usage(`--${goals[0]} and --${goals[1]} exclude each other`);
  if (!['text', 'json', 'estree'].includes(values.format)) throw new Usage(`--format takes text, json or estree, not '${values.format}'`);
  const flags = (values.enable ?? []).flatMap(it => it.split(',')).map(camel);
  for (const flag of flags) if (!Object.hasOwn(FLAGS, flag)) throw new Usage(`--enable takes no '${flag}'`);
  const { locations, ranges, comments, tokens } = values;
  const maxFaults = number(values['max-faults'], 'max-faults', 2 ** 32 - 1);
  const options = { sourceType: goals[0] ?? 'auto', maxFaults, earlyErrors: !values['no-early'], flags, plain: values.plain, locations, ranges, comments, tokens };
  if (values.limit !== undefined) options.limit = number(values.limit, 'limit', 1000);
  const files = positionals.length > 0 ? positionals : ['-'];
  if (values.format === 'estree' && files.length > 1) throw new Usage('--format estree takes one file');
  return { ...values, options, files };
}

/** The text of a file, or of standard input. */
function read(file) {
  const bytes = fs.readFileSync(file === '-' ? 0 : file);
  return new TextDecoder('utf-8', { fatal: true, ignoreBOM: true }).decode(bytes);
}

/** What stands before the tree in an answer, and behind it. */
const [TREE, FAULTS] = ['{"tree":', ',"faults":['];

/** What a text comes to: its tree as JSON, if it has one, and what is told of it. */
function checked(text, options) {
  const { status, json } = answer(text, options);
  const failure = failureOf(status);
  if (failure) throw failure;
  const end = json.lastIndexOf(FAULTS);
  const { faults: told, more = 0 } = JSON.parse(`{${json.slice(end + 1)}`);
  const faults = told.map(faultOf);
  if (status > STATUS.faulty) return { tree: null, refusal: faults.pop(), faults, more, status: STATUS.refused };
  return { tree: json.slice(TREE.length, end), faults, more, status };
}

/** A fault as an object for programs. */
function faultJson(file, { kind, message, start, end, byteStart, byteEnd, loc, note }, severity) {
  const places = { start, end, line: loc.start.line, column: loc.start.column + 1, endLine: loc.end.line, endColumn: loc.end.column + 1 };
  const found = { file, severity, kind, message, byteStart, byteEnd, ...places };
  if (note) {
    const { file: _, severity: __, kind: ___, ...rest } = faultJson(file, note, severity);
    found.note = rest;
  }
  return JSON.stringify(found) + '\n';
}

/** What is told of a file, each by the function of the format. */
function* lines(file, text, { faults, more, refusal }, format) {
  const one = format === 'json' ? (fault, word) => faultJson(file, fault, word) : (fault, word) => faultText(file, text, fault, word);
  for (const fault of faults) yield one(fault, fault.severity);
  if (more > 0) yield format === 'json' ? JSON.stringify({ file, severity: 'more', count: more }) + '\n' : `${plain(file)}: note: more faults: ${more}; --max-faults 0 reports all\n`;
  if (refusal) yield one(refusal, 'refused');
}

/** Writes all of a text. A reader that has gone away ends the program, without a word. */
function write(stream, text) {
  let bytes = Buffer.from(text);
  while (bytes.length > 0) {
    try {
      bytes = bytes.subarray(fs.writeSync(stream, bytes));
    } catch (error) {
      if (error.code === 'EPIPE') process.exit(STATUS.failed);
      if (error.code !== 'EAGAIN') throw error;
    }
  }
}

/** Why a file is not read, in the words of ecma-check. */
const REASONS = {
  ENOENT: 'there is no such file',
  EISDIR: 'it is a directory',
  EACCES: 'permission denied',
  ERR_ENCODING_INVALID_ENCODED_DATA: 'it is not UTF-8',
};

function why(error) {
  return REASONS[error.code] ?? (error.syscall ? 'cannot read it' : error.message);
}

/** Checks one file, and answers its status. */
function check(file, words, sums) {
  let text, found;
  try {
    text = read(file);
    found = checked(text, words.options);
  } catch (error) {
    sums.unread += 1;
    write(2, `${plain(file)}: ${why(error)}\n`);
    return STATUS.failed;
  }
  sums.faults += found.faults.length + found.more;
  sums.refused += found.refusal ? 1 : 0;
  const stream = words.format === 'estree' ? 2 : 1;
  for (const line of lines(file, text, found, words.format)) write(stream, line);
  if (words.format === 'estree' && found.tree !== null) write(1, found.tree + '\n');
  return found.status;
}

function main(args) {
  let words;
  try {
    words = asked(args);
  } catch (error) {
    if (!(error instanceof Usage)) throw error;
    write(2, `pofashere: ${error.message}\n${USAGE}\n`);
    return STATUS.failed;
  }
  if (words.help) return write(1, USAGE + '\n'), STATUS.clean;
  if (words.version) return write(1, `pofashere ${version}\n`), STATUS.clean;
  const sums = { faults: 0, refused: 0, unread: 0 };
  const status = Math.max(...words.files.map(file => check(file, words, sums)));
  if (words.format === 'text') {
    write(1, `files: ${words.files.length}, faults: ${sums.faults}, refused: ${sums.refused}, unread: ${sums.unread}\n`);
  }
  return status;
}

process.exitCode = main(process.argv.slice(2));
