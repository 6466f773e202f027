// The command, by the rows of the programs whose options it has.

import assert from 'node:assert/strict';
import { spawnSync } from 'node:child_process';
import {
  chmodSync,
  mkdirSync,
  mkdtempSync,
  readFileSync,
  rmSync,
  statSync,
  symlinkSync,
  writeFileSync,
} from 'node:fs';
import { tmpdir } from 'node:os';
import { dirname, join } from 'node:path';
import { afterEach, beforeEach, test } from 'node:test';
import { fileURLToPath } from 'node:url';
import { fileOf } from './package.js';

const PROGRAM = fileURLToPath(fileOf('bin/centrelilac.js'));
const programs = JSON.parse(readFileSync(`${process.env.ROWS}/programs.json`, 'utf8'));
/** What only the native programs have, and messages of theirs. */
const OTHER = ['--diff', '--chekc', '--version', '-V'];

let folder;

beforeEach(() => {
  folder = mkdtempSync(join(tmpdir(), 'centrelilac-'));
});

afterEach(() => rmSync(folder, { recursive: true }));

/** How the command ends with arguments and a standard input. */
function ended(args, input = '') {
  const ran = spawnSync('node', [PROGRAM, ...args], { cwd: folder, input, encoding: 'utf8' });
  return { status: ran.status, output: ran.stdout, errors: ran.stderr };
}

function write(path, text) {
  mkdirSync(dirname(join(folder, path)), { recursive: true });
  writeFileSync(join(folder, path), text);
}

function read(path) {
  return readFileSync(join(folder, path), 'utf8');
}

/** What is wanted of a row under some words, each value. */
function wantedOf(row, words) {
  return row.wanted.filter(([name]) => name === words).map(([, value]) => value);
}

/** The files that rows of a program may name, but `.editorconfig` files, which are not read. */
function filesOf(rows) {
  const fields = rows.flatMap((row) => row.wanted).filter(([words]) => words.startsWith('file '));
  const files = fields.map(([words, text]) => [words.slice('file '.length), text]);
  return files.filter(([path]) => !path.endsWith('.editorconfig'));
}

/** Whether the command does what a row says: a filter has statuses and a message of its own. */
function isHeld(row) {
  const args = wantedOf(row, 'argument');
  const isFilter = args.every((it) => it === '-') && row.word === 'wgsltidy';
  const isNear = args.some((it) => /^(tabs|two|eight|wide)\//.test(it));
  const isWrong = wantedOf(row, 'status')[0] === '2';
  const isFault = isFilter && wantedOf(row, 'status')[0] !== '0';
  // the place of what is not UTF-8 is not named
  const hasBytes = wantedOf(row, 'errors').some((it) => it.includes('not UTF-8'));
  const isOther = hasBytes || args.some((it) => OTHER.includes(it));
  return !isNear && !isWrong && !isFault && !isOther;
}

for (const [command, all] of Object.entries(programs)) {
  const rows = all.filter(isHeld);
  test(`${rows.length} rows of ${command}`, () => {
    assert.ok(rows.length > 10);
    for (const row of rows) {
      filesOf(all).forEach(([path, text]) => write(path, text));
      const found = ended([command, ...wantedOf(row, 'argument')], row.text);
      const [output = '', told = ''] = ['output', 'errors'].map((it) => wantedOf(row, it)[0]);
      // the command names nothing of what was expected
      const errors = told.replace(/, expected [^\n]*/g, '');
      const wanted = { status: Number(wantedOf(row, 'status')[0]), output, errors };
      assert.deepEqual(found, wanted, row.shows);
    }
  });
}

test('files are formatted in place, of a folder those that are not hidden', () => {
  const [text, tidied] = ['fn f(){return;}', 'fn f() {\n    return;\n}\n'];
  const paths = ['a/b.wgsl', 'a/c/d.wgsl', 'a/.e.wgsl', 'a/f.txt', 'g.wgsl'];
  paths.forEach((path) => write(path, text));
  symlinkSync('../g.wgsl', join(folder, 'a/link.wgsl'));
  const errors = '3 files, 3 formatted, 0 with errors\n';
  assert.deepEqual(ended(['tidy', 'a']), { status: 0, output: '', errors });
  assert.deepEqual(paths.map(read), [tidied, tidied, text, text, tidied]);
  assert.equal(ended(['tidy', '--check', 'a']).status, 0);
});

test('a new file has the permissions of the old one, and one that stays is not written', () => {
  write('a.wgsl', 'const a=1;');
  chmodSync(join(folder, 'a.wgsl'), 0o640);
  const before = statSync(join(folder, 'a.wgsl'));
  assert.equal(ended(['tidy', 'a.wgsl']).status, 0);
  const after = statSync(join(folder, 'a.wgsl'));
  assert.equal(after.mode, before.mode);
  assert.equal(ended(['tidy', 'a.wgsl']).status, 0);
  assert.equal(statSync(join(folder, 'a.wgsl')).ino, after.ino);
});

test('a text and its new names are written to files', () => {
  write('a.wgsl', 'const size = 1;');
  assert.equal(ended(['min', '-o', 'b.wgsl', '--map', 'c.json', 'a.wgsl']).output, '');
  assert.deepEqual([read('b.wgsl'), read('c.json')], ['const a=1;', '{"size":"a"}\n']);
});

test('files are checked', () => {
  write('a.wgsl', 'const a = 1;');
  write('b.wgsl', 'const = 1;');
  const marked = 'b.wgsl:1:7: error: unexpected token `=`\nconst = 1;\n      ^\n';
  assert.deepEqual(ended(['check', '.']), { status: 3, output: '', errors: marked });
  assert.deepEqual(ended(['check', 'a.wgsl']), { status: 0, output: '', errors: '' });
  assert.equal(ended(['check', '--stdin-path', 'c'], 'x').errors.split(' ')[0], 'c:1:1:');
});

test('a filter names a fault by line and column', () => {
  const errors = '<stdin>:2:7: error: unexpected token `=`\n  let = 1;\n      ^\n';
  assert.deepEqual(ended(['tidy'], 'fn f() {\n  let = 1;\n}\n'), { status: 3, output: '', errors });
});

test('a text that nests too deep has the status of memory', () => {
  const text = `const a = ${'('.repeat(300)}`;
  const lines = `${text}\n${' '.repeat(210)}^\n`;
  const errors = `<stdin>:1:211: error: nests deeper than 200 levels\n${lines}`;
  const found = ended(['check'], text);
  assert.deepEqual(found, { status: 5, output: '', errors });
});

test('wrong arguments are named', () => {
  const wrong = [['tidy', '--chekc'], ['tidy', '--width', 'x'], ['tidy', '--width'],
    ['tidy', '--newlines=cr'], ['min', 'a', 'b'], ['min', '--names=some'], ['min', '--map=-'],
    ['min', 'a', '--map', 'a'], ['min', '--map=a', '-o', 'a'], ['check', '--check']];
  for (const args of wrong) {
    const { status, output, errors } = ended(args);
    assert.deepEqual([status, output], [2, ''], args.join(' '));
    assert.match(errors, new RegExp(`^centrelilac ${args[0]}: error: .+\n$`));
  }
  for (const args of [[], ['format']]) assert.equal(ended(args).status, 2);
});

test('the usage and the version are printed', () => {
  const { version } = JSON.parse(readFileSync(fileOf('package.json'), 'utf8'));
  assert.equal(ended(['--version']).output, `centrelilac ${version}\n`);
  assert.match(ended(['--help']).output, /^Usage: centrelilac COMMAND/);
  for (const command of ['tidy', 'min', 'check']) {
    const { status, output } = ended([command, '--help']);
    assert.deepEqual([status, output.split('\n')[0].slice(0, 24 + command.length)],
      [0, `Usage: centrelilac ${command} [OPT`]);
  }
});
