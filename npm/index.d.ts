import type { Node, Program } from './estree';

export * from './estree';

/** What is read besides ECMA-262. Import attributes are a flag of the plain language; elsewhere they are always read. */
export type Flag =
  | 'decorators'
  | 'decoratorsBeforeExport'
  | 'exportDefaultFrom'
  | 'importAttributes'
  | 'allowReturnOutsideFunction'
  | 'autoAccessors'
  | 'explicitResourceManagement';

export interface Options {
  /**
   * What the text is read as. `auto`, the default, is a script where the text can be read as one without a fault, else a module where it can be
   * read as one without a fault, else the one whose faults say more of the text; `program` is a module where one of its statements makes it one.
   * `sourceType` of the tree says which of the two it was.
   */
  sourceType?: 'script' | 'module' | 'program' | 'auto';
  /** How many levels deep the text may nest: 300 by default, which fit Node's stack; 200 fit a worker's in a browser; 1,000 at most. */
  limit?: number;
  /** How many faults and early errors are told at most: 1,000 by default, and 0 for all. Why there is no tree is told in any case. */
  maxFaults?: number;
  flags?: Flag[];
  /**
   * Whether regular expressions, templates, optional chains, `new.target`, `#a in b`, names with escapes, old octal forms and comments as in
   * HTML are left out, and import attributes are read by their flag alone. By default all of these are read.
   */
  plain?: boolean;
  /** Whether nodes have `loc`: lines from 1, columns from 0. */
  locations?: boolean;
  /** Whether nodes have `range`. */
  ranges?: boolean;
  /** Whether the tree has `comments`. */
  comments?: boolean;
  /** Whether the tree has `tokens`. */
  tokens?: boolean;
  /** Whether early errors are told that are found in the finished tree, as a name that is declared twice: so by default. */
  earlyErrors?: boolean;
  /** Whether the first fault is thrown, as acorn throws a `SyntaxError`, in the place of a list of faults. */
  throwFaults?: boolean;

  // acorn's options. README.md has a table of them: what is not named here is a TypeError.
  /** Any edition; the newest is read, whatever the number. */
  ecmaVersion?: number | 'latest';
  /** The `source` of each `loc`. */
  sourceFile?: string | null;
  /** The `sourceFile` of each node. */
  directSourceFile?: string | null;
  onComment?: Piece[] | ((isBlock: boolean, text: string, start: number, end: number, startLoc?: Position, endLoc?: Position) => void) | null;
  onToken?: Piece[] | ((token: Piece) => void) | null;
  allowHashBang?: boolean;
  allowReturnOutsideFunction?: boolean;
  /** Leaves out early errors of `super` outside of methods. */
  allowSuperOutsideMethod?: boolean | null;
  /** `false` leaves out early errors of private names that no class around declares. */
  checkPrivateFields?: boolean | null;
}

/** A line from 1 and a column from 0, in code units of UTF-16. */
export interface Position {
  line: number;
  column: number;
}

/** A comment or a token, in espree's form. */
export interface Piece {
  type: string;
  value: string;
  start: number;
  end: number;
  loc?: { start: Position; end: Position };
  range?: [number, number];
}

export interface Fault {
  /** `fault` where the parser recorded it and went on, `error` for an early error of the tree, `refused` for why there is no tree. */
  severity: 'fault' | 'error' | 'refused';
  /** The name of its kind, as of `swc_ecma_parser`; that of an early error as of docs/EARLY.md. */
  kind: string;
  /** What is wrong and what would be right. */
  message: string;
  /** In code units of UTF-16. */
  start: number;
  end: number;
  /** In bytes of UTF-8. */
  byteStart: number;
  byteEnd: number;
  loc: { start: Position; end: Position };
  /** An earlier place that the fault speaks of. */
  note?: Omit<Fault, 'severity' | 'kind' | 'note'>;
}

/** Why there is no tree. The message ends with the line and the column. */
export interface Refusal extends SyntaxError {
  /** `TooDeep` where the text nests deeper than the limit. */
  kind: string;
  pos: number;
  end: number;
  raisedAt: number;
  byteStart: number;
  byteEnd: number;
  loc: Position;
  endLoc: Position;
  note?: Fault['note'];
  /** The faults that were recorded before. */
  faults: Fault[];
}

/** The stack of the engine ended before the text did: it nests deeper than fits. Ask for a lower `limit`, or for a greater stack. */
export class StackOverflowError extends RangeError {}

/**
 * The tree of a text as ESTree, in acorn's form, and the faults and early errors beside it: none where the text is a script, a module or a
 * program of the language. Where there are more faults than `maxFaults`, `more` says how many.
 *
 * @throws {Refusal} where there is no tree, or, with `throwFaults`, where there is a fault
 * @throws {StackOverflowError} where the engine's stack ends
 * @throws {RangeError} where memory runs out, the text has more than 2^32 - 1 bytes, or `limit` or `maxFaults` is out of range
 * @throws {TypeError} where the text is no string, or an option is not known or has a value that is not taken
 */
export function parse(text: string, options?: Options): { tree: Program; faults: Fault[]; more?: number };

/** The fields of each kind of node that hold nodes, in the order of the text. */
export const visitorKeys: Record<Node['type'], string[]>;

/** Calls `enter` before the parts of a node and `leave` behind them. Where `enter` answers `false` the parts are left out. */
export function walk(root: Node, visitor: { enter?(node: Node, parent: Node | null): unknown; leave?(node: Node, parent: Node | null): unknown }): void;

/** The version of the package. In `browser.mjs` there is none. */
export const version: string;
