// The package that is tested, as a page loads it.

export * as wgsl from '/module/index.js';
export { KINDS } from '/module/kinds.js';
