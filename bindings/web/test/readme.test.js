// What README.md prints.

import assert from 'node:assert/strict';
import { execFileSync } from 'node:child_process';
import { readFileSync } from 'node:fs';
import { test } from 'node:test';
import { fileOf } from './package.js';

test('the examples of README.md print what it says', () => {
  const text = readFileSync(fileOf('README.md'), 'utf8');
  const programs = [...text.matchAll(/```js\n(.*?)```/gs)].map(([, program]) => program);
  const [, wanted] = /```text\n(.*?)```/s.exec(text);
  const whole = programs.join('').replaceAll("'centrelilac'", `'${fileOf('node.js')}'`);
  const printed = execFileSync('node', ['--input-type=module', '-e', whole]).toString();
  assert.equal(printed, wanted);
});
