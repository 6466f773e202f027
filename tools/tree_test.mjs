// Reads packed forms from the standard input, each in a line with its text and its kind, and writes
// the tree of each, for tools/tree_test.py. Where something else does not hold, it throws.
import assert from 'node:assert';
import { createInterface } from 'node:readline';
import { packed, treeOf } from '../bindings/web/tree.js';

const LINKS = 20_000;
const CHANGES = 20;

/** Returns the UTF-16 offset of each byte offset at which a character of a text starts or ends. */
function offsetsOf(text) {
  const offsets = new Uint32Array(Buffer.byteLength(text) + 1);
  let byte = 0;
  let unit = 0;
  for (const character of text) {
    byte += Buffer.byteLength(character);
    unit += character.length;
    offsets[byte] = unit;
  }
  return offsets;
}

/** Returns numbers below others, from a seed. */
function random(seed) {
  let state = seed;
  return (below) => {
    state = (Math.imul(state, 1664525) + 1013904223) >>> 0;
    return Math.floor((state / 2 ** 32) * below);
  };
}

/** Checks that bytes are a packed form whose tree has it, or are refused. */
function checkOther(bytes, kind) {
  let tree;
  try {
    tree = treeOf(bytes, undefined, kind);
  } catch (error) {
    assert(error instanceof RangeError, error);
    return;
  }
  assert.deepStrictEqual(treeOf(packed(tree), undefined, kind), tree);
}

/** Checks the form of a tree: it is written again, and other bytes are refused or are a form. */
function checkForm(form, kind) {
  assert.deepStrictEqual(Buffer.from(packed(treeOf(form, undefined, kind))), form);
  const step = Math.ceil(form.length / CHANGES);
  for (let size = 0; size < form.length; size += step) {
    assert.throws(() => treeOf(form.subarray(0, size), undefined, kind), RangeError);
  }
  assert.throws(() => treeOf(Buffer.concat([form, form]), undefined, kind), RangeError);
  const below = random(form.length);
  for (let change = 0; change < CHANGES; change += 1) {
    const changed = Buffer.from(form);
    changed[below(form.length)] = below(256);
    checkOther(changed, kind);
  }
}

/** A node of a type, with a span of its own. */
function at(start, type, fields) {
  return { type, span: { start, end: start + 1 }, ...fields };
}

/** A long chain has each node at its place. */
function checkLong() {
  let chain = at(0, 'TypeExpression', { ident: 'a', template_args: null });
  for (let link = 1; link < LINKS; link += 1) {
    const right = at(link, 'U32LiteralExpression', { value: '1' });
    chain = at(link, 'BinaryExpression', { left: chain, operator: '+', right });
  }
  delete chain.span;
  const form = packed(chain);
  let read = treeOf(form, undefined, 'Expression');
  assert.deepStrictEqual(packed(read), form);
  for (let link = LINKS - 1; link > 1; link -= 1) {
    assert.strictEqual(read.right.span.start, link);
    read = read.left;
    assert.strictEqual(read.span.end, link);
  }
}

/** Trees of any depth are read and written. */
function checkDeep() {
  const name = { type: 'TypeExpression', ident: 'a', template_args: null };
  let statement = { type: 'BreakStatement', attributes: [] };
  let expression = name;
  for (let level = 1; level < LINKS; level += 1) {
    const body = { type: 'CompoundStatement', attributes: [], statements: [statement] };
    const clause = { type: 'IfClause', expression: name, body };
    const others = { else_if_clauses: [], else_clause: null };
    statement = at(level, 'IfStatement', { attributes: [], if_clause: clause, ...others });
    expression = at(level, 'FunctionCall', { ty: name, arguments: [expression, name] });
  }
  for (const [kind, tree] of Object.entries({ Statement: statement, Expression: expression })) {
    const form = packed(tree);
    const read = treeOf(form, undefined, kind);
    assert.strictEqual(read.type, tree.type);
    assert.deepStrictEqual(packed(read), form);
  }
}

/** What is no node, or has not the fields of one, is rejected. */
function checkWrong() {
  const name = { type: 'TypeExpression', ident: 'a', template_args: null };
  const wrong = [
    undefined,
    null,
    {},
    { type: 'Other' },
    { type: 'TypeExpression', ident: 1, template_args: null },
    { type: 'TypeExpression', ident: 'a', template_args: {} },
    { type: 'TypeExpression', ident: 'a', template_args: [name] },
    { type: 'UnaryExpression', operator: '+', operand: name },
    { type: 'ParenthesizedExpression' },
    { type: 'Struct', attributes: [], ident: 'a', members: [name] },
    { type: 'Struct', ident: 'a', members: [] },
  ];
  for (const node of wrong) assert.throws(() => packed(node), TypeError);
  assert.deepStrictEqual(packed({ type: 'TypeExpression', ident: 'a' }), packed(name));
  assert.throws(() => treeOf(packed(name), undefined, 'text'), TypeError);
  assert.throws(() => treeOf(packed(name)), RangeError);
}

/** A node that a program made has no spans. */
function checkMade() {
  const name = { type: 'TypeExpression', ident: 'é', template_args: null };
  const negation = { type: 'UnaryExpression', operator: '-', operand: name };
  const twice = { type: 'UnaryExpression', operator: '-', operand: negation };
  const span = [...Buffer.alloc(16)];
  const text = (size, of) => [size, 0, 0, 0, 0, 0, 0, 0, ...Buffer.from(of)];
  const outer = [10, ...text(1, '-'), ...span];
  const inner = [9, ...text(1, '-'), ...span, 12, ...text(2, 'é')];
  assert.deepStrictEqual([...packed(twice)], [...outer, ...inner]);
}

checkLong();
checkDeep();
checkWrong();
checkMade();
for await (const line of createInterface({ input: process.stdin })) {
  const [kind, text, hex] = JSON.parse(line);
  const form = Buffer.from(hex, 'hex');
  checkForm(form, kind);
  console.log(JSON.stringify(treeOf(form, offsetsOf(text), kind)));
}
