// The instance of the module, its memory, and calls that read bytes and write into a buffer.

import { WgslError } from './error.js';

/** The statuses of a call, as `enum wgsl_status` of `wgsl.h` numbers them. */
const DONE = 0;
const REFUSED = 1;
const OUT_OF_MEMORY = 3;
const TOO_SMALL = 4;
const TOO_DEEP = 7;

/** How many bytes a number has that the library writes, of which 32 bits suffice. */
const NUMBER = 8;
/** The numbers of `struct wgsl_answer`. */
const ANSWER = ['size', 'start', 'end', 'kind', 'expected'];

/** How much memory an instance may keep after a call: one with more is left, as none shrinks. */
const KEPT = 1 << 26;

let module;
let exports;

/** Takes a compiled module. */
export function start(compiled) {
  module = compiled;
  exports = new WebAssembly.Instance(module).exports;
}

export function isStarted() {
  return module !== undefined;
}

/** Blocks of the module's memory, which are given back together. */
class Blocks {
  #blocks = [];

  take(size) {
    const block = exports.wgsl_take(size) >>> 0;
    if (block === 0) throw outOfMemory();
    this.#blocks.push(block);
    return block;
  }

  /** Takes a block and writes bytes into it. */
  takeWith(bytes) {
    const block = this.take(bytes.length);
    new Uint8Array(exports.memory.buffer, block, bytes.length).set(bytes);
    return block;
  }

  giveLast() {
    exports.wgsl_give(this.#blocks.pop());
  }

  giveAll() {
    while (this.#blocks.length) this.giveLast();
  }
}

function outOfMemory() {
  return new WgslError('OutOfMemory', 'out of memory');
}

/** Whether the engine ended a call: by a trap, or as its stack ended. */
function isTrap(error) {
  // Firefox has an error of its own for the stack
  const isStack = error instanceof RangeError || error?.name === 'InternalError';
  return isStack || error instanceof WebAssembly.RuntimeError;
}

/**
 * Runs what takes stack for each level that something nests, and nothing else that ends it: every
 * function of the library is proved to be safe.
 */
export function withStack(body) {
  try {
    return body();
  } catch (error) {
    throw isTrap(error) ? new WgslError('TooDeep', 'the text nests too deep') : error;
  }
}

/** How many bytes of memory the instance has. */
export function memorySize() {
  return exports?.memory.buffer.byteLength ?? 0;
}

/** Leaves the instance, in place of which the next call makes one. */
function leave() {
  exports = undefined;
}

/** Runs a call with blocks of its own. */
function withBlocks(body) {
  if (!module) throw new Error('await init() before the first call');
  exports ??= new WebAssembly.Instance(module).exports;
  const blocks = new Blocks();
  try {
    return body(blocks);
  } finally {
    if (exports) blocks.giveAll();
    if (memorySize() > KEPT) leave();
  }
}

/** The numbers of the library at a place of memory. */
function numbersAt(place, count) {
  const halves = new Uint32Array(exports.memory.buffer, place, (count * NUMBER) / 4);
  return Array.from({ length: count }, (_, at) => halves[2 * at]);
}

/** What a call returned: its status, and its numbers at a place of memory. */
function returnedAt(place, status) {
  const numbers = numbersAt(place, ANSWER.length);
  return { status, ...Object.fromEntries(ANSWER.map((name, at) => [name, numbers[at]])) };
}

/**
 * Makes a call with what its parameters are, pointers and sizes as 64-bit numbers. A trap leaves
 * memory in use, so the instance is left.
 */
function status(name, before, given, buffer, answer) {
  const wide = [...given, ...buffer, answer].map(BigInt);
  try {
    return withStack(() => exports[`wgsl_c_${name}`](...before, ...wide));
  } catch (error) {
    leave();
    throw error;
  }
}

/**
 * Makes a call that writes items of a size in bytes into a buffer, again with a larger one if that
 * was too small, and returns the status and the numbers of the call and the bytes that it wrote.
 * `before` makes what the call takes before the bytes.
 */
export function written(name, bytes, count, { item = 1, before = () => [] } = {}) {
  return withBlocks((blocks) => {
    const first = before(blocks);
    const given = [blocks.takeWith(bytes), bytes.length];
    const answer = blocks.take(ANSWER.length * NUMBER);
    for (let room = count; ; ) {
      const buffer = blocks.take(room * item);
      const said = returnedAt(answer, status(name, first, given, [buffer, room], answer));
      if (said.status === OUT_OF_MEMORY) throw outOfMemory();
      if (said.status !== TOO_SMALL && said.size <= room) {
        const size = said.size * item;
        return { ...said, bytes: new Uint8Array(exports.memory.buffer, buffer, size).slice() };
      }
      blocks.giveLast();
      room = said.size;
    }
  });
}

/** Makes a call that returns a number of a text. */
export function number(name, bytes) {
  return withBlocks((blocks) => {
    const answer = blocks.take(ANSWER.length * NUMBER);
    const given = [blocks.takeWith(bytes), bytes.length];
    const said = returnedAt(answer, status(name, [], given, [], answer));
    if (said.status === OUT_OF_MEMORY) throw outOfMemory();
    return said.size;
  });
}

export { DONE, REFUSED, TOO_DEEP };
