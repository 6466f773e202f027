// The tokens of a source, as rows with places, kinds and texts.

import { tokens } from '../module/index.js';

/** A text in a row is cut after so many characters. */
const LONGEST = 200;

export class TokenList {
  #source;
  #tokens;
  #lines = [0];

  constructor(source, comments) {
    this.#source = source;
    this.#tokens = tokens(source, { comments });
    for (let at = source.indexOf('\n'); at >= 0; at = source.indexOf('\n', at + 1)) {
      this.#lines.push(at + 1);
    }
  }

  get length() {
    return this.#tokens.length;
  }

  rows(from, to) {
    return this.#tokens.slice(from, to).map(({ kind, start, end }) => {
      const text = this.#source.slice(start, Math.min(end, start + LONGEST));
      return { place: this.#placeOf(start), kind, text, start, end };
    });
  }

  /** The line and column of a place, from 1. */
  #placeOf(at) {
    let [low, high] = [0, this.#lines.length];
    while (high - low > 1) {
      const middle = (low + high) >> 1;
      if (this.#lines[middle] <= at) low = middle;
      else high = middle;
    }
    const column = [...this.#source.slice(this.#lines[low], at)].length + 1;
    return `${low + 1}:${column}`;
  }
}
