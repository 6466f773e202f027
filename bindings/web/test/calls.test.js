// The calls, and what they throw.

import assert from 'node:assert/strict';
import { execFileSync } from 'node:child_process';
import { before, test } from 'node:test';
import { fileOf, memorySize, wgsl } from './package.js';

const { WgslError } = wgsl;

before(() => wgsl.init());

/** Returns the error that a call throws. */
function thrown(call) {
  try {
    call();
  } catch (error) {
    assert.ok(error instanceof WgslError, error);
    return error;
  }
  return assert.fail('nothing is thrown');
}

/** What a program prints that runs in a process of its own, with an import of the package. */
function printed(program, ...options) {
  const whole = `import * as wgsl from '${fileOf('node.js')}';\n${program}`;
  return execFileSync('node', [...options, '--input-type=module', '-e', whole]).toString();
}

test('texts are formatted, printed and minified', () => {
  const text = 'const size=0x1f; // thirty-one\n';
  assert.equal(wgsl.tidy(text), 'const size = 0x1f; // thirty-one\n');
  assert.equal(wgsl.format(text), 'const size = 31;\n');
  assert.deepEqual(wgsl.minify(text), { text: 'const a=31;', names: { size: 'a' } });
});

test('a layout is chosen by options', () => {
  const text = 'fn f(){a(b,c);}\n';
  assert.equal(wgsl.tidy(text, { indent: 2 }), 'fn f() {\n  a(b, c);\n}\n');
  assert.equal(wgsl.tidy(text, { indent: 'tab' }), 'fn f() {\n\ta(b, c);\n}\n');
  assert.equal(wgsl.tidy(text, { newlines: 'crlf' }), 'fn f() {\r\n    a(b, c);\r\n}\r\n');
  const broken = 'fn f() {\n    a(\n        b,\n        c\n    );\n}\n';
  assert.equal(wgsl.tidy(text, { width: 11 }), broken);
  assert.equal(wgsl.tidy(text, { width: 0 }), 'fn f() {\n    a(b, c);\n}\n');
});

test('wrong options are not taken for others', () => {
  assert.throws(() => wgsl.tidy('', { width: 10_000 }), RangeError);
  assert.throws(() => wgsl.tidy('', { width: '80' }), RangeError);
  assert.throws(() => wgsl.tidy('', { indent: 0 }), RangeError);
  assert.throws(() => wgsl.tidy('', { newlines: 'cr' }), TypeError);
  assert.throws(() => wgsl.minify('', { names: 'some' }), TypeError);
  assert.throws(() => wgsl.parse('', 'Unit'), TypeError);
  assert.throws(() => wgsl.check(undefined), TypeError);
  assert.throws(() => wgsl.print({ type: 'Nothing' }), TypeError);
});

test('names stay that are to stay', () => {
  const text = 'fn twice(value: f32) -> f32 { return value * 2; }';
  assert.equal(wgsl.minify(text, { keep: ['twice'] }).text, 'fn twice(a:f32)->f32{return a*2;}');
  assert.equal(wgsl.minify(text, { names: 'locals' }).text, 'fn twice(a:f32)->f32{return a*2;}');
  const none = { text: 'fn twice(value:f32)->f32{return value*2;}', names: {} };
  assert.deepEqual(wgsl.minify(text, { names: 'none' }), none);
});

test('a fault has its place in UTF-16 units and as line and column', () => {
  const text = 'const a = 1;\n/* ü💌 */ const = 2;';
  const error = thrown(() => wgsl.check(text));
  assert.equal(error.kind, 'UnexpectedToken');
  assert.equal(error.message, 'unexpected token `=`, expected `identifier`');
  assert.deepEqual(error.expected, ['identifier']);
  assert.equal(text.slice(error.start, error.end), '=');
  assert.deepEqual([error.start, error.line, error.column], [29, 2, 16]);
  const marked = `/* ü💌 */ const = 2;\n${' '.repeat(15)}^`;
  assert.equal(error.inFile('a.wgsl'), `a.wgsl:2:16: error: unexpected token \`=\`\n${marked}`);
  for (const call of ['format', 'tidy', 'minify', 'parse']) {
    assert.equal(thrown(() => wgsl[call](text)).start, 29, call);
  }
});

test('a mark is below each character of a fault in its first line', () => {
  const error = thrown(() => wgsl.check('const class = 1;'));
  assert.equal(error.kind, 'ReservedWord');
  const marked = 'const class = 1;\n      ^^^^^';
  assert.equal(error.inFile('b'), `b:1:7: error: use of a reserved word \`class\`\n${marked}`);
});

test('of much that was expected a message has the first', () => {
  const error = thrown(() => wgsl.check('const a = ;'));
  assert.ok(error.expected.length > 5);
  const named = error.expected.slice(0, 4).join(', ');
  const others = error.expected.length - 4;
  assert.equal(error.message, `unexpected token \`;\`, expected \`${named}\` or ${others} others`);
  assert.match(error.inFile('c'), /^c:1:11: error: unexpected token `;`\n/);
});

test('an end that comes too early is after the last token', () => {
  const error = thrown(() => wgsl.check('const ü'));
  assert.deepEqual([error.kind, error.start, error.end], ['UnexpectedEnd', 7, 8]);
});

test('half of a surrogate pair is an error', () => {
  for (const [text, start] of [['// \ud83d', 3], ['// ü\udc8c', 4], ['// \udc8c\ud83d', 3]]) {
    const error = thrown(() => wgsl.tidy(text));
    assert.deepEqual([error.kind, error.start, error.end], ['LoneSurrogate', start, start + 1]);
  }
  assert.equal(thrown(() => wgsl.minify('', { keep: ['a', '\ud800'] })).kind, 'LoneSurrogate');
  assert.throws(() => wgsl.print({ type: 'TypeExpression', ident: '\ud800' }), TypeError);
});

test('a byte order mark stays where the text is formatted', () => {
  assert.equal(wgsl.tidy('\ufeffconst a=1;'), '\ufeffconst a = 1;\n');
  assert.equal(thrown(() => wgsl.check('\ufeffconst a=1;')).kind, 'InvalidToken');
});

test('tokens have kinds and places', () => {
  const text = 'a</*ü*/b>💌';
  const { tokens, fault } = wgsl.tokensBeforeFault(text, { comments: true });
  const kinds = ['Ident', 'TemplateArgsStart', 'BlockComment', 'Ident', 'TemplateArgsEnd'];
  assert.deepEqual(tokens.map((token) => token.kind), kinds);
  const texts = tokens.map(({ start, end }) => text.slice(start, end));
  assert.deepEqual(texts, ['a', '<', '/*ü*/', 'b', '>']);
  assert.deepEqual([fault.kind, fault.start, fault.end], ['InvalidToken', 9, 11]);
  assert.equal(thrown(() => wgsl.tokens(text)).start, 9);
  assert.equal(wgsl.tokens('a</*ü*/b>').length, 4);
});

test('template lists and nesting', () => {
  assert.deepEqual(wgsl.templateLists('ü a<b<c>>'), [{ start: 3, end: 9 }, { start: 5, end: 8 }]);
  assert.equal(wgsl.nesting('f((a[1]))'), 3);
});

test('trees are plain objects, with spans in UTF-16 units', () => {
  const tree = wgsl.parse('/*💌*/ a.b', 'Expression');
  const span = { start: 7, end: 8 };
  const base = { type: 'TypeExpression', span, ident: 'a', template_args: null };
  assert.deepEqual(tree, { type: 'NamedComponentExpression', base, component: 'b' });
  assert.equal(wgsl.print(tree), 'a.b');
  const unit = wgsl.parse('const a = 1; fn f() {}');
  unit.global_declarations.pop();
  unit.global_declarations[0].ident = 'b';
  assert.equal(wgsl.print(unit), 'const b = 1;\n');
});

test('a text that nests too deep is an error, and the next call works', () => {
  const deep = `const a = ${'('.repeat(200_000)}1${')'.repeat(200_000)};`;
  for (const call of ['check', 'tidy', 'format', 'minify', 'parse']) {
    const error = thrown(() => wgsl[call](deep));
    assert.deepEqual([error.kind, error.message], ['TooDeep', 'nests deeper than 200 levels'], call);
    assert.deepEqual([error.start, error.end, error.column], [210, 211, 211], call);
    const lines = `${deep}\n${' '.repeat(210)}^`;
    assert.equal(error.inFile('d'), `d:1:211: error: nests deeper than 200 levels\n${lines}`);
    assert.equal(wgsl.format('const a=1;'), 'const a = 1;\n');
  }
  assert.equal(wgsl.nesting(deep), 200_000);
});

test('what nests in texts of people is not too deep', () => {
  const nest = (open, close, inner) => `${open.repeat(200)}${inner}${close.repeat(200)}`;
  const texts = [`const a = ${nest('(', ')', '1')};`, `const a = ${nest('b[', ']', '1')};`,
    `fn f() ${nest('{', '}', '')}`, `fn f() {${nest('if a {', '}', '')}}`,
    `var<private> a: ${nest('b<', '>', 'c')};`, `const a = ${nest('!', '', 'b')};`];
  for (const call of ['check', 'tidy', 'format', 'minify', 'parse']) {
    texts.forEach((text) => wgsl[call](text));
  }
});

test('without memory there is an error, and the next call works', () => {
  const program = `await wgsl.init();
    const text = 'const a = 1;\\n'.repeat(200_000);
    try { wgsl.format(text); } catch (error) { console.log(error.kind); }
    console.log(wgsl.format('const a=1;'));`;
  const limited = printed(program, '--wasm-max-mem-pages=250');
  assert.equal(limited, 'OutOfMemory\nconst a = 1;\n\n');
  assert.equal(printed(program), 'const a = 1;\n\n');
});

test('memory is the same after many calls', () => {
  const text = 'fn shade(a: vec2<f32>) -> f32 { return dot(a, vec2<f32>(1.5, -2)); } // ü\n';
  const texts = ['tidy', 'format', 'minify', 'check', 'parse'];
  const calls = [...texts, 'tokens', 'templateLists', 'nesting'];
  const all = (source) => calls.forEach((call) => wgsl[call](source));
  all(text.repeat(500));
  const size = memorySize();
  for (let turn = 0; turn < 50; turn++) all(text.repeat(10 * (1 + turn)));
  for (let turn = 0; turn < 200; turn++) thrown(() => wgsl.check(`${text} const = 1;`));
  assert.equal(memorySize(), size);
  wgsl.format('const a = 1;\n'.repeat(200_000));
  wgsl.format('const a = 1;');
  assert.ok(memorySize() <= size);
});

test('the module comes from where init is told', () => {
  const read = `import { readFileSync } from 'node:fs';
    const bytes = readFileSync(new URL('${fileOf('centrelilac.wasm')}'));
    const type = { headers: { 'Content-Type': 'application/wasm' } };`;
  const say = "console.log(wgsl.nesting('(('));";
  const inputs = ['bytes', 'new Response(bytes)', 'new Response(bytes, type)',
    'Promise.resolve(bytes)', 'new WebAssembly.Module(bytes)'];
  for (const input of inputs) {
    assert.equal(printed(`${read} await wgsl.init(${input}); ${say}`), '2\n', input);
  }
  assert.equal(printed(`${read} wgsl.initSync(bytes); ${say}`), '2\n');
  const twice = 'await Promise.all([wgsl.init(), wgsl.init()]); await wgsl.init();';
  assert.equal(printed(`${twice} ${say}`), '2\n');
  const again = "await wgsl.init(new Response('', { status: 404 })).catch(() => wgsl.init());";
  assert.equal(printed(`${again} ${say}`), '2\n');
  const early = "try { wgsl.check(''); } catch (error) { console.log(error.message); }";
  assert.equal(printed(early), 'await init() before the first call\n');
});
