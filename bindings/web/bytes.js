// A packed form as bytes: read from its front, or written at its end.

const HIGH = 2 ** 32;
/** Half of a surrogate pair, which has no UTF-8. */
const HALF = /\p{Surrogate}/u;

/** Returns the error of bytes that are not a packed form. */
export function notPacked(what) {
  return new RangeError(`not a packed form: ${what}`);
}

/** What is still to be done, so that nothing takes more stack however deep a tree nests. */
class Steps {
  #left = [];

  /** Leaves a step for later, before those that were left before it. */
  later(step) {
    this.#left.push(step);
  }

  run() {
    for (let step = this.#left.pop(); step !== undefined; step = this.#left.pop()) step();
  }
}

/** A packed form of which a front is read. */
export class Reader extends Steps {
  constructor(bytes, offsets) {
    super();
    this.bytes = bytes;
    this.view = new DataView(bytes.buffer, bytes.byteOffset, bytes.byteLength);
    this.offsets = offsets;
    this.decoder = new TextDecoder('utf-8', { fatal: true, ignoreBOM: true });
    this.at = 0;
  }

  take(count) {
    const at = this.at;
    if (count > this.bytes.length - at) throw notPacked('it is cut off');
    this.at += count;
    return at;
  }

  rule() {
    return this.bytes[this.take(1)];
  }

  number() {
    const at = this.take(8);
    return this.view.getUint32(at, true) + HIGH * this.view.getUint32(at + 4, true);
  }

  text() {
    const size = this.number();
    const at = this.take(size);
    try {
      return this.decoder.decode(this.bytes.subarray(at, at + size));
    } catch {
      throw notPacked('a text is not UTF-8');
    }
  }

  place() {
    const place = this.number();
    return this.offsets ? this.offsets[place] : place;
  }

  span() {
    return { start: this.place(), end: this.place() };
  }
}

/** A packed form that is being written. */
export class Writer extends Steps {
  constructor() {
    super();
    this.use(new Uint8Array(256));
    this.size = 0;
    this.encoder = new TextEncoder();
  }

  use(bytes) {
    this.bytes = bytes;
    this.view = new DataView(bytes.buffer);
  }

  /** Makes room for so many bytes, and returns where they begin. */
  make(count) {
    const at = this.size;
    this.size += count;
    if (this.size > this.bytes.length) {
      const larger = new Uint8Array(2 * this.size);
      larger.set(this.bytes);
      this.use(larger);
    }
    return at;
  }

  rule(number) {
    const at = this.make(1);
    this.bytes[at] = number;
  }

  number(number) {
    const at = this.make(8);
    this.view.setUint32(at, number % HIGH, true);
    this.view.setUint32(at + 4, Math.floor(number / HIGH), true);
  }

  text(text) {
    if (HALF.test(text)) throw new TypeError('a text has half of a surrogate pair');
    const start = this.make(8);
    // a UTF-16 unit takes at most three bytes
    const at = this.make(3 * text.length);
    const { written } = this.encoder.encodeInto(text, this.bytes.subarray(at));
    this.size = start;
    this.number(written);
    this.size += written;
  }

  span(span) {
    this.number(span?.start ?? 0);
    this.number(span?.end ?? 0);
  }
}
