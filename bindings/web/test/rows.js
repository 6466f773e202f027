// The checks of the rows of tests/rows, but of those of calls that the package does not have, which
// are of the dialect and of whether a text begins with a template list. Browsers run them too.

import assert from 'node:assert/strict';
import { wgsl } from './package.js';

const encoder = new TextEncoder();

const KINDS = {
  unit: 'TranslationUnit',
  directive: 'GlobalDirective',
  declaration: 'GlobalDeclaration',
  statement: 'Statement',
  expression: 'Expression',
};

/** What is wanted of a row under some words. */
function wantedOf(row, words) {
  return row.wanted.find(([name]) => name === words)?.[1];
}

/** A place in bytes, from one in UTF-16 units; one past the end is as far past it. */
function byteOf(text, unit) {
  return encoder.encode(text.slice(0, unit)).length + Math.max(0, unit - text.length);
}

/** A fault as rows have it, with its place in bytes. */
function shownFault(text, error) {
  const tail = error.message.indexOf(', expected `');
  const alone = tail < 0 ? error.message : error.message.slice(0, tail);
  return `${byteOf(text, error.start)}..${byteOf(text, error.end)} ${alone}`;
}

/** The words of what is wanted that begin with a place, with the place apart. */
function wantedFault(row) {
  const found = row.wanted.find(([name]) => name.startsWith('fault '));
  return found && `${found[0].slice('fault '.length)} ${found[1]}`;
}

/** Checks a call that returns a text, or throws the fault that is wanted. */
function checkText(row, call, wanted) {
  const fault = wantedFault(row);
  if (fault === undefined) {
    const found = call();
    if (wanted !== undefined) assert.equal(found.trimEnd(), wanted.trimEnd(), row.shows);
    return;
  }
  assert.throws(call, (error) => {
    assert.ok(error instanceof wgsl.WgslError, error);
    assert.equal(shownFault(row.text, error), fault, row.shows);
    const expected = wantedOf(row, 'expected');
    if (expected !== undefined) assert.equal(error.expected.join(', '), expected, row.shows);
    return true;
  });
}

/** What is at a path: names of fields, and indices in lists. */
function nodeAt(tree, path) {
  return path.split('.').filter(Boolean).reduce((node, name) => node[name], tree);
}

/** How many items a list has; 1 or 0 for what may be there. */
function countOf(value) {
  return Array.isArray(value) ? value.length : Number(value !== null);
}

/** The text of a node, or of a name or an operator, which is one itself. */
function printed(node) {
  return typeof node === 'string' ? node : wgsl.print(node).trimEnd();
}

/** What is wanted of the node at a path, by the word before the path. */
const PARTS = {
  part: (node, wanted) => assert.equal(printed(node), wanted.trimEnd()),
  count: (node, wanted) => assert.equal(countOf(node), Number(wanted)),
  span: ({ span }, wanted, text) => {
    assert.equal(`${byteOf(text, span.start)}..${byteOf(text, span.end)}`, wanted);
  },
};

/** Checks the parts of a tree. */
function checkParts(row) {
  for (const [words, wanted] of row.wanted) {
    const [word, path] = words.split(' ');
    if (!Object.hasOwn(PARTS, word)) continue;
    const tree = wgsl.parse(row.text, KINDS[row.word]);
    PARTS[word](nodeAt(tree, path), wanted, row.text);
  }
}

function checkTree(row) {
  const print = () => wgsl.print(wgsl.parse(row.text, KINDS[row.word]));
  checkText(row, print, wantedOf(row, 'printed'));
  checkParts(row);
}

function checkUnit(row) {
  checkTree(row);
  checkText(row, () => wgsl.format(row.text), wantedOf(row, 'printed'));
  checkText(row, () => wgsl.check(row.text) ?? '');
}

/** Checks the places of tokens, before each of which its place is; the last may be a fault. */
function checkTokens(row) {
  const items = wantedOf(row, 'items').split('\n').filter((line) => line !== '');
  const { tokens, fault } = wgsl.tokensBeforeFault(row.text);
  const all = fault ? [...tokens, fault] : tokens;
  const place = (at) => byteOf(row.text, at);
  const found = all.map(({ start, end }) => `${place(start)}..${place(end)}`);
  assert.deepEqual(found, items.map((line) => line.split(' ')[0]), row.shows);
  assert.equal(fault !== undefined, items.at(-1)?.endsWith(' invalid token') ?? false, row.shows);
}

function checkNesting(row) {
  assert.equal(wgsl.nesting(row.text), Number(wantedOf(row, 'depth')), row.shows);
}

/** Checks a row of the program wgslfmt without arguments, by the call that does the same. */
function checkFilter(row) {
  const errors = wantedOf(row, 'errors');
  if (errors === undefined) {
    assert.equal(wgsl.format(row.text), wantedOf(row, 'output') ?? '', row.shows);
    return;
  }
  assert.throws(() => wgsl.format(row.text), (error) => {
    assert.equal(`chars ${shownFault(row.text, error).replace(' ', ': ')}\n`, errors, row.shows);
    return true;
  });
}

/** What checks a row, by its word. */
export const CHECKS = {
  unit: checkUnit,
  directive: checkTree,
  declaration: checkTree,
  statement: checkTree,
  expression: checkTree,
  tokens: checkTokens,
  nesting: checkNesting,
  tidy: (row) => checkText(row, () => wgsl.tidy(row.text), wantedOf(row, 'printed')),
  wgslfmt: checkFilter,
};
