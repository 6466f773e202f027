// What is wrong with a text, and where.

/** The kinds of faults, by their numbers in `enum wgsl_fault` of `wgsl.h`. */
const KINDS = {
  1: 'InvalidToken',
  2: 'ReservedWord',
  3: 'UnexpectedToken',
  4: 'UnexpectedEnd',
  6: 'DiagnosticSeverity',
  7: 'Attribute',
  8: 'VarTemplate',
};

/** How many of the expected tokens a message names, unless one more is all. */
const NAMED = 4;

/** What a message says of what was expected: all of it, or the first, if that is much. */
function namedOf(expected) {
  if (expected.length === 0) return '';
  if (expected.length <= NAMED + 1) return `, expected \`${expected.join(', ')}\``;
  const named = expected.slice(0, NAMED).join(', ');
  return `, expected \`${named}\` or ${expected.length - NAMED} others`;
}

/** How many characters a string has: a pair of surrogates is one. */
function characterCount(text) {
  let count = 0;
  for (const _ of text) count++;
  return count;
}

/** The line of a text in which a place is, from 1, and its column there, in characters. */
function lineAndColumn(text, place) {
  const before = text.slice(0, place).split('\n');
  return { line: before.length, column: 1 + characterCount(before.at(-1)) };
}

/**
 * An error of a text: a fault, by one of the kinds of the library; `LoneSurrogate`; `TooDeep`, if
 * it nests too deep; or `OutOfMemory`. The last has no place, nor has `TooDeep` if the stack ended.
 */
export class WgslError extends Error {
  #alone;
  #source;

  /** Makes an error of a message without what was expected. */
  constructor(kind, alone, place) {
    const { source = '', start = 0, end = 0, expected = [] } = place ?? {};
    super(alone + namedOf(expected));
    this.name = 'WgslError';
    this.kind = kind;
    this.expected = expected;
    this.hasPlace = place !== undefined;
    this.start = start;
    this.end = end;
    Object.assign(this, lineAndColumn(source, start));
    this.#alone = alone;
    this.#source = source;
  }

  /** The fault with a number of the library, whose message has all that was expected. */
  static numbered(number, message, place) {
    const tail = `, expected \`${place.expected.join(', ')}\``;
    const alone = message.endsWith(tail) ? message.slice(0, -tail.length) : message;
    return new WgslError(KINDS[number], alone, place);
  }

  /** The line in which it starts, and below that a mark for each of its characters there. */
  #markedLine() {
    const [source, start] = [this.#source, this.start];
    const first = source.lastIndexOf('\n', start - 1) + 1;
    const [front] = source.slice(start, Math.max(start, this.end)).split('\n');
    const [line] = source.slice(first).split('\n');
    const marks = '^'.repeat(Math.max(1, characterCount(front)));
    return `${line}\n${' '.repeat(this.column - 1)}${marks}`;
  }

  /** Writes it as compilers do: `NAME:LINE:COLUMN: error: MESSAGE`, the line, marks below it. */
  inFile(name) {
    if (!this.hasPlace) return `${name}: error: ${this.#alone}`;
    const place = `${name}:${this.line}:${this.column}`;
    return `${place}: error: ${this.#alone}\n${this.#markedLine()}`;
  }
}
