// Texts as the library reads them, in UTF-8, and places in them.

import { WgslError } from './error.js';

const encoder = new TextEncoder();
const decoder = new TextDecoder('utf-8', { fatal: true, ignoreBOM: true });

/** Returns the text of some bytes, with its byte order mark. */
export function textOf(bytes) {
  return decoder.decode(bytes);
}

/** A text for the library, and its places in UTF-16 units, which the library counts in bytes. */
export class Source {
  #units;

  constructor(text) {
    if (typeof text !== 'string') throw new TypeError('the text is not a string');
    this.text = text;
    this.bytes = encoder.encode(text);
    if (!this.#isAscii()) this.#refuseLoneSurrogate();
  }

  #isAscii() {
    return this.bytes.length === this.text.length;
  }

  /** A surrogate without its other half has no UTF-8: to encode it changes it. */
  #refuseLoneSurrogate() {
    const start = this.text.search(/\p{Surrogate}/u);
    if (start >= 0) {
      const place = { source: this.text, start, end: start + 1 };
      throw new WgslError('LoneSurrogate', 'surrogate without its other half', place);
    }
  }

  /**
   * The place in UTF-16 units of each byte offset, also of the end of the text; nothing for a text
   * of ASCII, where they are the same.
   */
  offsets() {
    if (this.#isAscii()) return undefined;
    this.#units ??= unitsOf(this.bytes);
    return this.#units;
  }

  /** The place in UTF-16 units of a byte offset; one past the end is as far past it. */
  unit(offset) {
    const units = this.offsets();
    if (!units) return offset;
    const past = Math.max(0, offset - this.bytes.length);
    return units[offset - past] + past;
  }
}

/** How many UTF-16 units a character has, by the first byte of its UTF-8; of others, none. */
function unitCount(byte) {
  if ((byte & 0xc0) === 0x80) return 0;
  return byte >= 0xf0 ? 2 : 1;
}

function unitsOf(bytes) {
  const units = new Uint32Array(bytes.length + 1);
  let unit = 0;
  for (let at = 0; at < bytes.length; at++) {
    units[at] = unit;
    unit += unitCount(bytes[at]);
  }
  units[bytes.length] = unit;
  return units;
}
