'use strict';
// Calls the module. It is a file of its own so that a page can have it too: it needs nothing but WebAssembly.

/** An instance that has grown beyond this is let go behind its call. 100 KB of text take up to 75 MB, which a new instance would have to grow again. */
const KEPT_BYTES = 128 * 1024 * 1024;

/** The options, how many bytes they have and four numbers of 32 bits, of which the last has all faults told; behind them the length of the answer. */
const OPTIONS = 24;

const STATUS_TOO_SHORT = -1;
const STATUS_OUT_OF_MEMORY = -2;

/** The engine's stack, or the module's part of it, ended before the text did. */
class StackOverflowError extends RangeError {
  constructor(cause) {
    super('the text nests too deep for the stack of this engine; ask for a lower `limit`', { cause });
    this.name = 'StackOverflowError';
  }
}

/**
 * A function that answers the status of a text, and its tree and faults as JSON, in bytes and as text: both are to be read before the next call.
 *
 * @param {WebAssembly.Module} module
 * @param {(length: number, bits: number) => number} guessOf how many bytes of answer are guessed
 * @param {number} [memory] how many bytes the module's memory may grow to
 * @param {(bytes: Uint8Array) => string} [decode] makes a string of UTF-8
 */
function host(module, guessOf, memory, decode = bytes => new TextDecoder().decode(bytes)) {
  const encoder = new TextEncoder();
  let instance = null;

  const started = () => {
    const made = new WebAssembly.Instance(module, {}).exports;
    if (memory !== undefined) made.ecma_limit_memory(BigInt(memory));
    return made;
  };

  /** An address of the module, which counts in 64 bits outside of loads and stores. */
  const room = (it, bytes) => Number(BigInt.asUintN(32, it.ecma_room(BigInt(bytes))));

  /** One call, in a buffer of so many bytes. */
  function called(it, text, { goal, limit, bits, most = 0 }, bytes) {
    it.ecma_reset();
    const at = room(it, OPTIONS + 8);
    const from = room(it, text.length + 1);
    const to = room(it, bytes);
    if (at === 0 || from === 0 || to === 0) return { status: STATUS_OUT_OF_MEMORY, needed: 0, bytes: new Uint8Array(0) };
    new Uint8Array(it.memory.buffer).set(text, from);
    new BigUint64Array(it.memory.buffer, at, 1)[0] = BigInt(OPTIONS);
    new Uint32Array(it.memory.buffer, at + 8, 4).set([goal, limit, bits, most]);
    const addresses = [from, text.length, at, to, bytes, at + OPTIONS].map(BigInt);
    const status = it.ecma_parse(...addresses);
    const needed = Number(new BigUint64Array(it.memory.buffer, at + OPTIONS, 1)[0]);
    return { status, needed, bytes: new Uint8Array(it.memory.buffer, to, status < 0 ? 0 : needed) };
  }

  /** The same, with an error of its own where a stack ends. */
  function guarded(it, text, numbers, bytes) {
    try {
      return called(it, text, numbers, bytes);
    } catch (error) {
      if (error instanceof WebAssembly.RuntimeError || /stack|recursion/i.test(error?.message)) throw new StackOverflowError(error);
      throw error;
    }
  }

  return function answer(source, numbers) {
    const text = encoder.encode(source);
    const it = instance ?? started();
    // A trap, as by a stack that overflows, leaves no instance behind.
    instance = null;
    let found = guarded(it, text, numbers, guessOf(text.length, numbers.bits));
    if (found.status === STATUS_TOO_SHORT) found = guarded(it, text, numbers, found.needed);
    if (it.memory.buffer.byteLength <= KEPT_BYTES) instance = it;
    return { status: found.status, bytes: found.bytes, get json() { return decode(found.bytes); } };
  };
}

host.StackOverflowError = StackOverflowError;

if (typeof module !== 'undefined') module.exports = host;
