import type { Options, Program } from './index';

export const version: string;

/** As acorn's `parse`: the tree alone. `sourceType` is `script` by default. The first fault is thrown as a `SyntaxError` with `pos` and `loc`. */
export function parse(text: string, options?: Omit<Options, 'throwFaults'>): Program;
