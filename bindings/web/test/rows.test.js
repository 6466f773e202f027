// The rows of tests/rows in Node.

import assert from 'node:assert/strict';
import { readFileSync } from 'node:fs';
import { before, test } from 'node:test';
import { wgsl } from './package.js';
import { CHECKS } from './rows.js';

const rows = JSON.parse(readFileSync(`${process.env.ROWS}/rows.json`, 'utf8'));

before(() => wgsl.init());

for (const [word, check] of Object.entries(CHECKS)) {
  const found = rows.filter((row) => row.word === word);
  test(`${found.length} rows of ${word}`, () => {
    assert.ok(found.length > 0);
    found.forEach(check);
  });
}
