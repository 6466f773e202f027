// The heap of the module, by itself: build/heap.wasm, of at most 16 MB.

import assert from 'node:assert/strict';
import { readFileSync } from 'node:fs';
import { beforeEach, test } from 'node:test';

const file = new URL('../../../build/heap.wasm', import.meta.url);
const module = new WebAssembly.Module(readFileSync(file));
/** How many bytes are before each block. */
const HEAD = 8;

let heap;

beforeEach(() => {
  heap = new WebAssembly.Instance(module).exports;
});

/** What memory has at a block. */
function bytes(block, size) {
  return new Uint8Array(heap.memory.buffer, block, size);
}

function take(size) {
  return heap.wgsl_take(size) >>> 0;
}

function realloc(block, size) {
  return Number(heap.realloc(BigInt(block), BigInt(size)));
}

function isFilled(block, size, byte) {
  return Buffer.alloc(size, byte).equals(bytes(block, size));
}

/** Small sizes, and those around each that a class could end with. */
function sizes() {
  const near = (size) => [-9, -8, -7, -1, 0, 1, 7, 8, 9].map((more) => size + more);
  const powers = Array.from({ length: 12 }, (_, power) => 2 ** (power + 9));
  const steps = powers.flatMap((it) => [it, 1.25 * it, 1.5 * it, 1.75 * it].flatMap(near));
  return [...Array(500).keys(), ...steps];
}

test('a block of each size is aligned, and apart from its neighbours', () => {
  for (const size of sizes()) {
    const blocks = [take(size), take(size), take(size)];
    for (const [at, block] of blocks.entries()) {
      assert.ok(block > 0 && block % 16 === 0, `${size}: ${block}`);
      bytes(block, size).fill(at + 1);
    }
    for (const [at, block] of blocks.entries()) {
      assert.ok(isFilled(block, size, at + 1), `${size}`);
    }
    blocks.forEach(heap.wgsl_give);
  }
});

test('a block is at most a quarter larger than it has to be', () => {
  for (const size of sizes()) {
    const [first, second] = [take(size), take(size)];
    const least = Math.max(16, size + HEAD);
    assert.ok(second - first <= Math.ceil((1.25 * least) / 16) * 16, `${size}: ${second - first}`);
    [first, second].forEach(heap.wgsl_give);
  }
});

test('a block that was given back is taken again', () => {
  const [first, second, third] = [take(100), take(100), take(100)];
  heap.wgsl_give(second);
  assert.equal(take(100), second);
  assert.ok(take(100) > third);
  assert.ok(first > 0);
});

test('the last block grows where it is', () => {
  const block = take(24);
  bytes(block, 24).fill(7);
  for (let size = 25; size < 5_000_000; size = Math.ceil(1.3 * size)) {
    assert.equal(realloc(block, size), block);
  }
  assert.deepEqual([...bytes(block, 24)], Array(24).fill(7));
});

test('a block with others after it keeps what it has where it grows', () => {
  for (const size of sizes()) {
    const [block, after] = [take(size), take(1)];
    bytes(block, size).fill(9);
    const grown = realloc(block, 2 * size + 100);
    assert.ok(isFilled(grown, size, 9), `${size}`);
    heap.wgsl_give(grown);
    heap.wgsl_give(after);
  }
});

test('a block never shrinks, and none is made of nothing', () => {
  const [block, after] = [take(1000), take(1)];
  assert.equal(realloc(block, 10), block);
  assert.ok(realloc(0, 100) > after);
  heap.free(0n);
});

test('a refused memory.grow is out of memory, and nothing is lost', () => {
  const blocks = [];
  for (let block = take(100_000); block !== 0; block = take(100_000)) blocks.push(block);
  assert.ok(blocks.length > 100, `${blocks.length}`);
  assert.equal(take(5_000_000), 0);
  assert.equal(realloc(blocks.at(-1), 5_000_000), 0);
  blocks.forEach((block, at) => bytes(block, 100_000).fill(at));
  assert.ok(blocks.every((block, at) => isFilled(block, 100_000, at)));
  blocks.forEach(heap.wgsl_give);
  const again = blocks.map(() => take(100_000));
  assert.deepEqual(again, blocks);
});

test('what no memory has is out of memory', () => {
  assert.equal(take(0xffffffff), 0);
  assert.equal(heap.malloc(1n << 40n), 0n);
  assert.equal(heap.malloc(-1n), 0n);
  const block = take(10);
  assert.equal(realloc(block, 2 ** 40), 0);
});

test('the functions of the kit say whether there is memory', () => {
  const given = take(16);
  const said = () => new BigUint64Array(heap.memory.buffer, given, 2);
  heap.rattle_alloc(BigInt(given), 100n, 8n);
  const [isGiven, block] = said();
  assert.equal(isGiven, 1n);
  heap.rattle_realloc(BigInt(given), block, 100n, 0n, 8n);
  assert.deepEqual([...said()], [1n, block]);
  heap.rattle_realloc(BigInt(given), block, 100n, 1n << 50n, 8n);
  assert.equal(said()[0], 0n);
  assert.notEqual(said()[1], 0n);
  heap.rattle_alloc(BigInt(given), 1n << 50n, 8n);
  assert.equal(said()[0], 0n);
  heap.rattle_dealloc(block);
  heap.wgsl_give(given);
  assert.equal(take(16), given);
});

test('memory is the same after a million blocks in any order', () => {
  let seed = 12345;
  const chance = (most) => {
    seed = (Math.imul(seed, 1103515245) + 12345) >>> 0;
    return Math.floor((seed / 2 ** 32) * most);
  };
  const first = take(1);
  heap.wgsl_give(first);
  const blocks = [];
  let greatest = 0;
  for (let turn = 0; turn < 1_000_000; turn++) {
    if (blocks.length === 200 || (blocks.length > 0 && chance(3) === 0)) {
      heap.wgsl_give(blocks.splice(chance(blocks.length), 1)[0]);
    } else {
      const block = take(1 + chance(2 ** chance(14)));
      assert.notEqual(block, 0);
      blocks.push(block);
    }
    if (turn === 100_000) greatest = heap.memory.buffer.byteLength;
  }
  blocks.forEach(heap.wgsl_give);
  assert.equal(heap.memory.buffer.byteLength, greatest);
  assert.equal(take(1), first);
});

test('products of 128 bits', () => {
  const given = take(16);
  const numbers = [0n, 1n, 2n, 3n, 7n, 0xffffffffn, 1n << 32n, 1n << 63n, (1n << 64n) - 1n,
    (1n << 64n) + 5n, (1n << 96n) - 1n, (1n << 127n) + 12345678901234567n, (1n << 128n) - 1n];
  const low = (number) => BigInt.asIntN(64, number);
  for (const a of numbers) {
    for (const b of numbers) {
      heap.__multi3(BigInt(given), low(a), low(a >> 64n), low(b), low(b >> 64n));
      const [least, most] = new BigUint64Array(heap.memory.buffer, given, 2);
      assert.equal((most << 64n) | least, BigInt.asUintN(128, a * b), `${a} * ${b}`);
    }
  }
});
