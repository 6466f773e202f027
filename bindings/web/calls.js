// The calls of the library, over strings.

import { REFUSED, TOO_DEEP, number, withStack, written } from './engine.js';
import { WgslError } from './error.js';
import { KINDS } from './kinds.js';
import { Source, textOf } from './text.js';
import { packed, treeOf } from './tree.js';

/** The numbers of what is chosen, in `wgsl.h`. */
const NEWLINES = { auto: 0, lf: 1, crlf: 2 };
const NAMES = { none: 0, locals: 1, all: 2 };
const TREES = {
  TranslationUnit: 0,
  GlobalDirective: 1,
  GlobalDeclaration: 2,
  Statement: 3,
  Expression: 4,
};

/** How many columns a level has as which a tab counts. */
const TAB_COLUMNS = 4;
/** The bytes of `struct wgsl_layout`, of which a number of 64 bits is the first. */
const LAYOUT_SIZE = 16;
/** For how many bytes of a text, or more, the texts of a fault have room. */
const LEAST_ROOM = 1024;
/** How many bytes most packed forms have for a byte of their text. */
const PACKED = 28;
/** How many numbers of 32 bits a token and a place have. */
const TOKEN = 6;
const PLACE = 4;

/** The fault that a call returned of a text, by its texts, after each of which is a byte 0. */
function faultOf(source, said, texts = textOf(said.bytes)) {
  const [message, ...more] = texts.split('\0');
  const span = { start: source.unit(said.start), end: source.unit(said.end) };
  const place = { source: source.text, ...span, expected: more.slice(0, said.expected) };
  if (said.status === TOO_DEEP) return new WgslError('TooDeep', message, place);
  return WgslError.numbered(said.kind, message, place);
}

/** What a call on a text that writes bytes returns; a fault is thrown. */
function returned(name, source, room, before) {
  const said = written(name, source.bytes, Math.max(LEAST_ROOM, room), { before });
  if (said.status === REFUSED || said.status === TOO_DEEP) throw faultOf(source, said);
  return said;
}

/** What an option is by a table, or its default. */
function chosen(table, name, value, otherwise) {
  if (value === undefined) return table[otherwise];
  if (Object.hasOwn(table, value)) return table[value];
  throw new TypeError(`${name} is none of ${Object.keys(table).join(', ')}`);
}

/** A whole number of an option, within bounds. */
function bounded(name, value, least, most) {
  if (Number.isInteger(value) && value >= least && value <= most) return value;
  throw new RangeError(`${name} is not a whole number from ${least} to ${most}`);
}

/** The bytes of `struct wgsl_layout`. */
function layoutOf({ width = 100, indent = 4, newlines } = {}) {
  const isTab = indent === 'tab';
  const layout = new Uint8Array(LAYOUT_SIZE);
  const columns = isTab ? TAB_COLUMNS : bounded('indent', indent, 1, 16);
  new DataView(layout.buffer).setUint32(0, bounded('width', width, 0, 9999), true);
  layout.set([columns, Number(isTab), chosen(NEWLINES, 'newlines', newlines, 'auto')], 8);
  return layout;
}

/** Returns a module with its blank space as `wgsltidy` has it; everything else stays. */
export function tidy(text, options) {
  const layout = layoutOf(options);
  const source = new Source(text);
  const before = (blocks) => [BigInt(blocks.takeWith(layout))];
  return textOf(returned('tidy', source, 2 * source.bytes.length, before).bytes);
}

/** Returns the canonical text of a module, without comments. */
export function format(text) {
  const source = new Source(text);
  return textOf(returned('format', source, 2 * source.bytes.length).bytes);
}

/** Returns a short text of a module, and which names have new ones. */
export function minify(text, { names, keep = [] } = {}) {
  const which = chosen(NAMES, 'names', names, 'all');
  const kept = new Source(keep.join('\n')).bytes;
  const source = new Source(text);
  const before = (blocks) => [which, BigInt(blocks.takeWith(kept)), BigInt(kept.length)];
  const said = returned('minify', source, source.bytes.length, before);
  const [short, map] = [said.bytes.subarray(0, said.start), said.bytes.subarray(said.start)];
  return { text: textOf(short), names: JSON.parse(textOf(map)) };
}

/** Throws the fault of a text that is not a module. */
export function check(text) {
  returned('check', new Source(text), 0);
}

/** Items of numbers of 32 bits, of which the last two of 64 bits are a place. */
function itemsOf(source, bytes, size, make) {
  const numbers = new Uint32Array(bytes.buffer, 0, bytes.length / 4);
  const items = [];
  for (let at = 0; at < numbers.length; at += size) {
    const start = source.unit(numbers[at + size - 4]);
    items.push(make(numbers[at], start, source.unit(numbers[at + size - 2])));
  }
  return items;
}

/**
 * Returns the tokens of a text up to text that is no token, with its comments if `comments` is
 * true, and the fault there, or `undefined`.
 */
export function tokensBeforeFault(text, { comments = false } = {}) {
  const source = new Source(text);
  const name = comments ? 'tokens_with_comments' : 'tokens';
  const room = Math.ceil(source.bytes.length / 3) + 16;
  const said = written(name, source.bytes, room, { item: 4 * TOKEN });
  const tokens = itemsOf(source, said.bytes, TOKEN, (kind, start, end) => {
    return { kind: KINDS[kind], start, end };
  });
  const fault = said.status === REFUSED ? faultOf(source, said, 'invalid token') : undefined;
  return { tokens, fault };
}

/** Returns the tokens of a text, with its comments if `comments` is true. */
export function tokens(text, options) {
  const found = tokensBeforeFault(text, options);
  if (found.fault) throw found.fault;
  return found.tokens;
}

/** Returns where the template lists of a text are, from their `<` to after their `>`. */
export function templateLists(text) {
  const source = new Source(text);
  const { bytes } = written('lists', source.bytes, 64, { item: 4 * PLACE });
  return itemsOf(source, bytes, PLACE, (_, start, end) => ({ start, end }));
}

/** Returns how many brackets, blocks, template lists and prefix operators are open at one place. */
export function nesting(text) {
  return number('nesting', new Source(text).bytes);
}

/** Returns the tree of a kind that a text is. */
export function parse(text, kind) {
  const number = chosen(TREES, 'kind', kind, 'TranslationUnit');
  const source = new Source(text);
  const said = returned('packed_tree', source, PACKED * source.bytes.length, () => [number]);
  return withStack(() => treeOf(said.bytes, source.offsets(), kind));
}

/** Returns the text that a node prints as. */
export function print(node) {
  const form = withStack(() => packed(node));
  return textOf(written('print', form, Math.max(LEAST_ROOM, form.length)).bytes);
}
