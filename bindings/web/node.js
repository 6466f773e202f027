// The package for Node: the module is read from its file.

import { readFile } from 'node:fs/promises';
import { isStarted } from './engine.js';
import { initFrom } from './index.js';

export * from './calls.js';
export { packed, treeOf } from './tree.js';
export { WgslError } from './error.js';
export { initSync } from './index.js';

/** Makes the calls ready: once, before the first. Without an input the module's file is read. */
export async function init(input) {
  if (isStarted()) return;
  await initFrom(() => input ?? readFile(new URL('./centrelilac.wasm', import.meta.url)));
}
