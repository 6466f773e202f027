// The colours of WGSL in the editor. The library decides what a text is; this only colours it.

import { KEYWORDS } from './keywords.js';

const keywords = new Set(KEYWORDS);
const TYPES = [
  'bool', '[iu]32', 'f16', 'f32', 'vec[234][iufh]?', 'mat[234]x[234][fh]?', 'array', 'atomic',
  'ptr', 'sampler(_comparison)?', 'texture_\\w+',
];
const TYPE = new RegExp(`^(${TYPES.join('|')})$`);
const HEXADECIMAL = /^0[xX][\da-fA-F]*\.?[\da-fA-F]*([pP][+-]?\d+)?[iufh]?/;
const DECIMAL = /^(\d+\.?\d*|\.\d+)([eE][+-]?\d+)?[iufh]?/;

/** Takes characters up to the end of block comments, which nest, or of the line. */
function inComment(stream, state) {
  while (state.depth > 0 && !stream.eol()) {
    if (stream.match('/*')) state.depth += 1;
    else if (stream.match('*/')) state.depth -= 1;
    else stream.next();
  }
  return 'comment';
}

function token(stream, state) {
  if (state.depth > 0) return inComment(stream, state);
  if (stream.eatSpace()) return null;
  if (stream.match('//')) {
    stream.skipToEnd();
    return 'comment';
  }
  if (stream.match('/*')) {
    state.depth = 1;
    return inComment(stream, state);
  }
  if (stream.match(/^@\s*[\p{XID_Start}_][\p{XID_Continue}]*/u)) return 'meta';
  if (stream.match(HEXADECIMAL) || stream.match(DECIMAL)) return 'number';
  const [word] = stream.match(/^[\p{XID_Start}_][\p{XID_Continue}]*/u) ?? [];
  if (word === undefined) {
    stream.next();
    return null;
  }
  if (word === 'true' || word === 'false') return 'atom';
  if (keywords.has(word)) return 'keyword';
  return TYPE.test(word) || /^\p{Lu}/u.test(word) ? 'type' : 'variable';
}

/** How many levels the brackets before the cursor are open. */
function indent(unit) {
  return (state, after) => Math.max(0, state.open - (/^\s*[)}\]]/.test(after) ? 1 : 0)) * unit;
}

CodeMirror.defineMode('wgsl', (config) => ({
  startState: () => ({ depth: 0, open: 0 }),
  token(stream, state) {
    const style = token(stream, state);
    if (style === null && /[([{]/.test(stream.current())) state.open += 1;
    if (style === null && /[)\]}]/.test(stream.current())) state.open -= 1;
    return style;
  },
  indent: indent(config.indentUnit),
  electricInput: /^\s*[)}\]]$/,
  lineComment: '//',
  blockCommentStart: '/*',
  blockCommentEnd: '*/',
}));
