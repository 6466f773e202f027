// What a browser is asked for: how its engine does with the rows, and how fast it is.

import { wgsl } from '../package.js';
import { CHECKS } from '../rows.js';

/** The text of which calls are measured. */
let text = '';

/** For how many milliseconds the module is loaded and compiled. */
export async function start() {
  const started = performance.now();
  await wgsl.init();
  return performance.now() - started;
}

/** Runs the rows; returns how many were run of each word, and what failed. */
export async function runRows(address) {
  const rows = await (await fetch(address)).json();
  const counts = {};
  const failures = [];
  for (const row of rows.filter(({ word }) => Object.hasOwn(CHECKS, word))) {
    counts[row.word] = (counts[row.word] ?? 0) + 1;
    try {
      CHECKS[row.word](row);
    } catch (error) {
      failures.push(`${row.shows}: ${error.message}`);
    }
  }
  return { counts, failures };
}

/** Takes a text of which calls are measured. */
export function take(given) {
  text = given;
}

/** How many milliseconds a call takes with that text. */
export function timeOf(name) {
  const started = performance.now();
  wgsl[name](text);
  return performance.now() - started;
}
