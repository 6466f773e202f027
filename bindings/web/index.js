// The package for web pages and workers: the module is fetched.

import { isStarted, start } from './engine.js';

export * from './calls.js';
export { packed, treeOf } from './tree.js';
export { WgslError } from './error.js';

let starting;

/** Compiles what `fetch` returns, also if the server does not know the type of the file. */
async function compileResponse(response) {
  if (!response.ok) throw new Error(`${response.url}: status ${response.status}`);
  if (response.headers.get('Content-Type')?.startsWith('application/wasm')) {
    return WebAssembly.compileStreaming(response);
  }
  return WebAssembly.compile(await response.arrayBuffer());
}

/** Compiles a module from its bytes, an address, or what `fetch` returns. */
async function compile(input) {
  const given = await input;
  if (given instanceof WebAssembly.Module) return given;
  if (given instanceof Response) return compileResponse(given);
  if (typeof given === 'string' || given instanceof URL || given instanceof Request) {
    return compileResponse(await fetch(given));
  }
  return WebAssembly.compile(given);
}

/** Takes the module from somewhere: its bytes, its address, or what `fetch` returns. */
export function initFrom(input) {
  starting ??= compile(input()).then(start);
  // another try after a failure
  starting.catch(() => (starting = undefined));
  return starting;
}

/** Makes the calls ready: once, before the first. Without an input the module is fetched. */
export async function init(input) {
  if (isStarted()) return;
  await initFrom(() => input ?? new URL('./centrelilac.wasm', import.meta.url));
}

/** Makes the calls ready at once, by the bytes of the module or a compiled one. */
export function initSync(input) {
  start(input instanceof WebAssembly.Module ? input : new WebAssembly.Module(input));
}
