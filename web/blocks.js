'use strict';
// What the worker of a page of ecma-check has in the place of a parser: the page has the answer already.

/** The path of the whole tree. */
const WHOLE = '/';

const answers = {
  numbersOf: () => ({}),
  failureOf: () => null,
  /** A fault, with its places as acorn has them. */
  faultOf: ({ line, column, note, ...fault }) => ({ ...fault, loc: { start: { line, column: column - 1 } }, ...(note && { note: answers.faultOf(note) }) }),
  restore: literal => {
    if (literal.bigint !== undefined) literal.value = BigInt(literal.bigint);
  },
};

/** Takes what the page has as an answer first, and its questions then. */
function answeredOf(ask) {
  return event => {
    const { written: bytes, hasTree } = event.data;
    if (!bytes) return ask(event);
    answer = () => ({ status: hasTree ? 0 : NO_TREE, bytes });
    opened.add(`${WHOLE}/body`);
    answered({ text: '', options: {}, number: 0 });
  };
}

self.onmessage = answeredOf(self.onmessage);
