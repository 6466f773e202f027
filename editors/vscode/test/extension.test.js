// Tries the extension with the program that WGSLTIDY names, where NODE_PATH leads to the module in
// place of that of Visual Studio Code.

const assert = require('node:assert/strict');
const { mkdtempSync, rmSync, writeFileSync } = require('node:fs');
const { tmpdir } = require('node:os');
const path = require('node:path');
const { after, beforeEach, test } = require('node:test');
const { EndOfLine, seen } = require('vscode');
const { activate } = require('../extension.js');
const { contributes, publisher, name: extension } = require('../package.json');

const folder = mkdtempSync(path.join(tmpdir(), 'wgsl-vscode-'));
after(() => rmSync(folder, { recursive: true }));

const fileName = path.join(folder, 'a "b.wgsl');
const subscriptions = [];
activate({ subscriptions });

beforeEach(() => {
  Object.assign(seen, { path: process.env.WGSLTIDY, messages: [] });
  seen.diagnostics.clear();
});

/** A document with a text, whose places are offsets. */
function documentOf(text) {
  return { fileName, uri: fileName, getText: () => text, positionAt: (offset) => offset };
}

/** What the extension makes of a text, which the user may cancel at once. */
function format(text, isCancellationRequested = false) {
  const token = {
    isCancellationRequested,
    onCancellationRequested: (cancel) => isCancellationRequested && cancel(),
  };
  return seen.provider.provideDocumentFormattingEdits(documentOf(text), {}, token);
}

function diagnostics() {
  return seen.diagnostics.get(fileName);
}

test('files of WGSL are formatted on save', () => {
  assert.deepEqual(seen.selector, { language: contributes.languages[0].id, scheme: 'file' });
  assert.deepEqual(contributes.languages[0].extensions, ['.wgsl']);
  assert.deepEqual(contributes.configurationDefaults['[wgsl]'], {
    'editor.defaultFormatter': `${publisher}.${extension}`,
    'editor.formatOnSave': true,
  });
  assert.equal(contributes.configuration.properties['wgsltidy.path'].default, 'wgsltidy');
  assert.equal(subscriptions.length, 3);
});

test('a text becomes the formatted text', async () => {
  const [replaced, { newline }] = await format('fn f(){return;}');
  assert.deepEqual(replaced.range.numbers, [0, 15]);
  assert.equal(replaced.text, 'fn f() {\n    return;\n}\n');
  assert.equal(newline, EndOfLine.LF);
  assert.deepEqual(diagnostics(), []);
});

test('a formatted text stays as it is', async () => {
  assert.deepEqual(await format('fn f() {\n    return;\n}\n'), []);
});

test('line breaks are those of the first line', async () => {
  const [replaced, { newline }] = await format('fn f() {\r\n}');
  assert.equal(replaced.text, 'fn f() {}\r\n');
  assert.equal(newline, EndOfLine.CRLF);
});

test('the layout is that of .editorconfig', async () => {
  const file = path.join(folder, '.editorconfig');
  writeFileSync(file, '[*.wgsl]\nindent_size = 2\n');
  const [{ text }] = await format('fn f(){return;}');
  rmSync(file);
  assert.equal(text, 'fn f() {\n  return;\n}\n');
});

test('an error is marked until it is mended', async () => {
  const line = '  /* ä🙂 */ let loop = 1;';
  assert.deepEqual(await format(`fn f() {\n${line}\n}\n`), []);
  const [{ range, message, source }] = diagnostics();
  const start = line.indexOf('loop');
  assert.deepEqual(range.numbers, [1, start, 1, start + 'loop'.length]);
  assert.equal(message, 'unexpected token `loop`, expected identifier');
  assert.equal(source, 'wgsltidy');
  assert.deepEqual(seen.messages, []);
  assert.equal((await format('fn f() {\n  let a = 1;\n}\n')).length, 2);
  assert.deepEqual(diagnostics(), []);
});

test('an error at the end of a text is marked', async () => {
  assert.deepEqual(await format('fn f() {\n'), []);
  assert.equal(diagnostics().length, 1);
});

test('the marks of a document go as it is closed', async () => {
  await format('fn');
  seen.onClose(documentOf('fn'));
  assert.equal(diagnostics(), undefined);
});

test('a program that is not there is named', async () => {
  seen.path = path.join(folder, 'none');
  assert.deepEqual(await format('fn f(){}'), []);
  const place = 'the setting wgsltidy.path says where it is.';
  assert.deepEqual(seen.messages, [`${seen.path} is not found: ${place}`]);
  assert.deepEqual(diagnostics(), []);
});

test('what has no place is shown', async () => {
  const error = 'shader.wgsl: error: out of memory';
  seen.path = path.join(folder, 'failing');
  const script = `#!/bin/sh\ncat > /dev/null\necho "${error}" >&2\nexit 5\n`;
  writeFileSync(seen.path, script, { mode: 0o755 });
  assert.deepEqual(await format('fn f(){}'), []);
  assert.deepEqual(seen.messages, [`wgsltidy: ${error}\n`]);
  assert.deepEqual(diagnostics(), []);
});

test('a call that the user ends changes nothing', async () => {
  assert.deepEqual(await format('fn f(){return;}', true), []);
  assert.equal(diagnostics(), undefined);
  assert.deepEqual(seen.messages, []);
});
