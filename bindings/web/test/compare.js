// Compares what the package returns with what the native library does: a line of the standard input
// is a text with that, as tools/web_answers.py makes it. Prints how many texts there are, or what
// differs.

import { createHash } from 'node:crypto';
import { createInterface } from 'node:readline';
import { isDeepStrictEqual } from 'node:util';
import { KINDS, wgsl } from './package.js';

/** The layouts and the names, in the order of tools/web_answers.py. */
const LAYOUTS = [
  undefined,
  { width: 40, indent: 2, newlines: 'lf' },
  { width: 0, indent: 'tab', newlines: 'crlf' },
];
const NAMES = ['none', 'locals', 'all'];

function faultOf({ kind, message, expected, start, end, line, column }) {
  return { kind, message, expected, start, end, line, column };
}

/** What a call returns or throws. */
function outcome(call) {
  try {
    return { value: call() ?? null };
  } catch (error) {
    if (!(error instanceof wgsl.WgslError)) throw error;
    return { error: faultOf(error) };
  }
}

function minified(text, names) {
  const made = wgsl.minify(text, { names });
  return { text: made.text, names: Object.entries(made.names) };
}

/** The sum of the packed form of the tree, of a text of ASCII, and what is printed of it. */
function treeOf(text) {
  const tree = wgsl.parse(text);
  const isAscii = Buffer.byteLength(text) === text.length;
  const sum = isAscii ? createHash('sha256').update(wgsl.packed(tree)).digest('hex') : null;
  return [sum, wgsl.print(tree)];
}

function tokensOf(text, comments) {
  const { tokens, fault } = wgsl.tokensBeforeFault(text, { comments });
  const numbered = tokens.map(({ kind, start, end }) => [KINDS.indexOf(kind), start, end]);
  return { tokens: numbered, fault: fault ? faultOf(fault) : null };
}

/** What each call returns of a text. */
function answers(text) {
  return {
    text,
    check: outcome(() => wgsl.check(text)),
    format: outcome(() => wgsl.format(text)),
    tidy: LAYOUTS.map((layout) => outcome(() => wgsl.tidy(text, layout))),
    minify: NAMES.map((names) => outcome(() => minified(text, names))),
    tree: outcome(() => treeOf(text)),
    tokens: tokensOf(text, false),
    comments: tokensOf(text, true),
    lists: wgsl.templateLists(text).map(({ start, end }) => [start, end]),
    nesting: wgsl.nesting(text),
  };
}

await wgsl.init();
let count = 0;
for await (const line of createInterface({ input: process.stdin })) {
  const wanted = JSON.parse(line);
  const found = answers(wanted.text);
  for (const [call, value] of Object.entries(wanted)) {
    if (isDeepStrictEqual(found[call], value)) continue;
    const shown = { text: wanted.text, call, native: value, package: found[call] };
    console.log(JSON.stringify(shown, undefined, 2));
    process.exit(1);
  }
  count++;
}
console.log(count);
