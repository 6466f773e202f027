// The worker: calls the library, so that typing never waits for it. It keeps the source, the tree
// and the tokens, of which the page asks for what it shows.

import { init, check, format, minify, parse, tidy, WgslError } from '../module/index.js';
import { childrenOf, rowOf } from './tree_rows.js';
import { TokenList } from './token_list.js';

const encoder = new TextEncoder();
const kept = { source: '', tree: null, tokens: null };

const functions = {
  start: () => init(),

  /** Takes a source, and returns its fault or null. */
  load(source) {
    kept.source = source;
    return faultOf(() => check(source));
  },

  tidy: (options) => written(() => tidy(kept.source, options)),
  format: () => written(() => format(kept.source)),

  async minify(options) {
    let names;
    const found = await written(() => {
      const minified = minify(kept.source, options);
      names = minified.names;
      return minified.text;
    });
    return { ...found, names, source: await sizesOf(kept.source) };
  },

  /** Reads the tree, and returns the row of its root. */
  tree: () => result(() => {
    kept.tree = parse(kept.source);
    return { root: rowOf('', kept.tree) };
  }),

  /** The rows of what a node has; `path` has the names of fields and indices that lead to it. */
  children: (path, from, to) => childrenOf(kept.tree, path, from, to),

  tokens: (comments) => result(() => {
    kept.tokens = new TokenList(kept.source, comments);
    return { count: kept.tokens.length };
  }),

  tokenRows: (from, to) => kept.tokens.rows(from, to),
};

/** What `call` returns, with its time; or the fault that it throws. */
function result(call) {
  const started = performance.now();
  let value;
  const fault = faultOf(() => { value = call(); });
  return fault ? { fault } : { ...value, time: performance.now() - started };
}

async function written(call) {
  const found = result(() => ({ text: call() }));
  return found.fault ? found : { ...found, sizes: await sizesOf(found.text) };
}

function faultOf(call) {
  try {
    call();
    return null;
  } catch (error) {
    if (!(error instanceof WgslError)) throw error;
    const { message, hasPlace, start, end, line, column } = error;
    const place = hasPlace ? { start, end, line, column } : null;
    return { message, place };
  }
}

/** How many bytes a text has, as it is and gzipped. */
async function sizesOf(text) {
  const stream = new Blob([text]).stream().pipeThrough(new CompressionStream('gzip'));
  const gzipped = (await new Response(stream).arrayBuffer()).byteLength;
  return { bytes: encoder.encode(text).length, gzipped };
}

addEventListener('message', async ({ data: { id, name, args } }) => {
  try {
    postMessage({ id, value: await functions[name](...args) });
  } catch (error) {
    postMessage({ id, failed: String(error) });
  }
});
