// A proved ECMAScript parser, as a WebAssembly module, for browsers, workers and bundlers. scripts/wasm makes `browser.mjs` of this file and those
// that it shares with Node's entry.

const files = {
{{FILES}}};

const loaded = {};

function require(name) {
  if (!(name in loaded)) {
    const module = { exports: {} };
    files[name](module, require);
    loaded[name] = module.exports;
  }
  return loaded[name];
}

let compiled = null;

/** Compiles the module: from beside this file, from a URL or a response, or from its bytes. */
export async function load(source = new URL('./ecma.wasm', import.meta.url)) {
  const given = await source;
  if (given instanceof WebAssembly.Module) {
    compiled = given;
  } else if (given instanceof ArrayBuffer || ArrayBuffer.isView(given)) {
    compiled = await WebAssembly.compile(given);
  } else {
    const response = typeof Response !== 'undefined' && given instanceof Response ? given : await fetch(given);
    if (!response.ok) throw new Error(`the module was not found: ${response.url} (${response.status})`);
    compiled = await WebAssembly.compile(await response.arrayBuffer());
  }
}

const parser = require('./parser.js')(() => {
  if (compiled === null) throw new Error('the module is not loaded yet: await load() first');
  return compiled;
});

export const { parse, visitorKeys, walk, StackOverflowError } = parser;
