// What the package exports, in web pages and in Node.

import type { TokenKind } from './kinds.js';
import type { Kinds, Node, Span, TranslationUnit, Unspanned } from './tree.js';

export type { TokenKind };
export * from './tree.js';

/** Where the module comes from: its bytes, a compiled one, its address, or what `fetch` returns. */
export type InitInput =
  | BufferSource
  | WebAssembly.Module
  | string
  | URL
  | Request
  | Response
  | Promise<BufferSource | WebAssembly.Module | Response>;

/**
 * Makes the calls ready: once, before the first. Without an input the module is fetched from where
 * this package is; in Node it is read from its file.
 */
export function init(input?: InitInput): Promise<void>;

/** Makes the calls ready at once, by the bytes of `centrelilac/centrelilac.wasm`. */
export function initSync(input: BufferSource | WebAssembly.Module): void;

/** A token or a comment, and its place in UTF-16 units: `text.slice(start, end)`. */
export interface Token extends Span {
  kind: TokenKind;
}

/** How `tidy` formats. */
export interface Layout {
  /** How many columns a line may have, from 1 to 9999, or 0 for any number: 100. */
  width?: number;
  /** How many spaces a level has, from 1 to 16, or a tab, which counts as four: 4. */
  indent?: number | 'tab';
  /** LF, CR LF, or as the first line of the text ends: `auto`. */
  newlines?: 'auto' | 'lf' | 'crlf';
}

/** Which names `minify` replaces. */
export interface MinifyOptions {
  /** All that are declared, those that are declared in functions, or none: `all`. */
  names?: 'all' | 'locals' | 'none';
  /** Names that stay. */
  keep?: readonly string[];
}

/** A minified module. */
export interface Minified {
  text: string;
  /** The new name of each name that has one, that which occurs most often first. */
  names: Record<string, string>;
}

/** The kind of an error: the kinds of faults of a text, and four others. */
export type ErrorKind =
  | 'InvalidToken'
  | 'ReservedWord'
  | 'UnexpectedToken'
  | 'UnexpectedEnd'
  | 'DiagnosticSeverity'
  | 'Attribute'
  | 'VarTemplate'
  /** A string with half of a surrogate pair, which has no UTF-8. */
  | 'LoneSurrogate'
  /** A text that nests too deep; without a place, if the stack of the engine ends before that. */
  | 'TooDeep'
  /** It has no place. */
  | 'OutOfMemory';

/** What is wrong with a text. */
export class WgslError extends Error implements Span {
  readonly kind: ErrorKind;
  /** What could be there, if a token or the end is unexpected. */
  readonly expected: string[];
  /** Whether it is at a place of the text. */
  readonly hasPlace: boolean;
  /** Where it is, in UTF-16 units; if the text ends too early, `end` may be one after its end. */
  readonly start: number;
  readonly end: number;
  /** The line where it starts, from 1; a line ends with a line feed. */
  readonly line: number;
  /** The character of that line, from 1. */
  readonly column: number;
  /** `NAME:LINE:COLUMN: error: MESSAGE`, as compilers write it, the line, and marks below it. */
  inFile(name: string): string;
}

/**
 * Formats a module with its comments, as `wgsltidy` does: only blank space changes. The names of
 * attributes and such are not checked.
 * @throws {WgslError}
 */
export function tidy(text: string, options?: Layout): string;

/**
 * Prints the canonical text of a module, as `wgslfmt` does: without comments.
 * @throws {WgslError}
 */
export function format(text: string): string;

/**
 * Minifies a module, as `wgslmin` does. Entry points, overrides and members keep their names.
 * @throws {WgslError}
 */
export function minify(text: string, options?: MinifyOptions): Minified;

/**
 * Checks whether a text is a module.
 * @throws {WgslError} The fault, if it is not.
 */
export function check(text: string): void;

/**
 * Returns the tokens of a text, and with `comments` the comments between them.
 * @throws {WgslError} If there is text that is no token.
 */
export function tokens(text: string, options?: { comments?: boolean }): Token[];

/** Returns the tokens of a text up to text that is no token, and the fault there. */
export function tokensBeforeFault(
  text: string,
  options?: { comments?: boolean },
): { tokens: Token[]; fault?: WgslError };

/**
 * Returns the tree of a module, as plain objects, with its spans in UTF-16 units; or the tree of
 * another kind that a text is.
 * @throws {WgslError}
 */
export function parse(text: string): TranslationUnit;
export function parse<Kind extends keyof Kinds>(text: string, kind: Kind): Kinds[Kind];

/**
 * Returns the text that a node prints as. Spans do not matter, and may be left out.
 * @throws {TypeError} If it is no node.
 */
export function print(node: Unspanned<Node>): string;

/** Returns the template lists of a text, each from its `<` to after its `>`. */
export function templateLists(text: string): Span[];

/**
 * Returns the greatest number of brackets, blocks, template lists and prefix operators that are
 * open at one place of a text.
 */
export function nesting(text: string): number;
