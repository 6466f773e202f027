// The package that is tested: build/web, which tools/web makes.

const place = new URL('../../../build/web/', import.meta.url);

/** Where a file of the package is. */
export function fileOf(name) {
  return new URL(name, place);
}

export const wgsl = await import(fileOf('node.js'));
export const { KINDS } = await import(fileOf('kinds.js'));
export const { memorySize } = await import(fileOf('engine.js'));
