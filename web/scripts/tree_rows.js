// The rows of a syntax tree: of each node or list its name in the node above, and what it is.

/** The fields that are not shown by themselves. */
const TOLD = new Set(['type', 'span']);

/** A text in a row is cut after so many characters. */
const LONGEST = 60;

/** The row of a value: a node, a list, or a word, number or text. */
export function rowOf(name, value) {
  if (Array.isArray(value)) {
    return { name, kind: '', text: `[${value.length}]`, open: value.length > 0, span: null };
  }
  if (typeof value === 'object' && value !== null) {
    const kind = value.type ?? '';
    const text = fieldsOf(value).filter(([, it]) => isPlain(it)).map(([, it]) => shown(it));
    const open = fieldsOf(value).some(([, it]) => !isPlain(it));
    return { name, kind, text: text.join(' '), open, span: value.span ?? null };
  }
  return { name, kind: '', text: shown(value), open: false, span: null };
}

/** The rows of what is in the node or list at a path, from one index to another, and how many are
 * in it. Texts of a node are in its own row. */
export function childrenOf(tree, path, from, to) {
  const value = path.reduce((node, name) => node[name], tree);
  const inside = Array.isArray(value)
    ? value.map((it, at) => [at, it])
    : fieldsOf(value).filter(([, it]) => !isPlain(it));
  const rows = inside.slice(from, to).map(([key, it]) => ({ key, ...rowOf(String(key), it) }));
  return { rows, count: inside.length };
}

/** The fields of a node, without those that have nothing. */
function fieldsOf(node) {
  return Object.entries(node).filter(([name, value]) => !TOLD.has(name) && !isNothing(value));
}

function isNothing(value) {
  return value === null || value === undefined || (Array.isArray(value) && value.length === 0);
}

function isPlain(value) {
  return typeof value !== 'object' || value === null;
}

function shown(value) {
  const text = String(value);
  return text.length > LONGEST ? `${text.slice(0, LONGEST)}…` : text;
}
