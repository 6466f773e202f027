// What a bundler makes of a shader, for each of the plugins beside this file.

import { check, init, minify, WgslError } from 'centrelilac';

/** A fault of a shader in a file, with the line in which it is: what is before it and in it. */
export class ShaderError extends Error {
  constructor(fault, source, file) {
    super(fault.inFile(file));
    this.name = 'ShaderError';
    this.fault = fault;
    this.file = file;
    const first = source.slice(0, fault.start).lastIndexOf('\n') + 1;
    const [line] = source.slice(first).split(/\r?\n/, 1);
    this.text = line;
    this.before = line.slice(0, fault.start - first);
    this.inside = line.slice(fault.start - first, fault.end - first);
  }
}

/**
 * Returns `{ code }`, a module of JavaScript whose default export is the text of a shader:
 * minified, or with `minify: false` as it is. Other options are those of `minify`. Throws
 * `ShaderError`.
 */
export async function transform(source, given = {}) {
  const { file = 'shader.wgsl', minify: short = true, ...options } = given;
  await init();
  try {
    if (!short) check(source);
    const text = short ? minify(source, options).text : source;
    return { code: `export default ${JSON.stringify(text)};\n` };
  } catch (error) {
    throw error instanceof WgslError ? new ShaderError(error, source, file) : error;
  }
}
