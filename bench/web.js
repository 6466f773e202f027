// Measures calls of build/web for bench/web: over the file that is named, the call that each line
// of the standard input names. Prints the milliseconds of each, first those of `init`.

import { readFileSync } from 'node:fs';
import { createInterface } from 'node:readline';
import * as wgsl from '../build/web/node.js';

/** The milliseconds of processor that a call takes. */
function milliseconds(body) {
  const start = process.cpuUsage();
  body();
  const { user, system } = process.cpuUsage(start);
  return (user + system) / 1000;
}

const text = readFileSync(process.argv[2], 'utf8');
const start = performance.now();
await wgsl.init();
console.log(performance.now() - start);
for await (const call of createInterface({ input: process.stdin })) {
  console.log(milliseconds(() => wgsl[call](text)));
}
