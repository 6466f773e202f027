// The plugin for esbuild: `plugins: [wgsl()]`.

import { readFile } from 'node:fs/promises';
import path from 'node:path';
import { ShaderError, transform } from './transform.js';

/** Without esbuild's option `minify` a shader is as it is, unless `options.minify` says more. */
export default function wgsl(options = {}) {
  return {
    name: 'centrelilac',

    setup({ initialOptions, onLoad }) {
      onLoad({ filter: /\.wgsl$/ }, async ({ path: file }) => {
        try {
          const source = await readFile(file, 'utf8');
          const chosen = { minify: Boolean(initialOptions.minify), ...options, file };
          return { contents: (await transform(source, chosen)).code, loader: 'js' };
        } catch (error) {
          if (!(error instanceof ShaderError)) throw error;
          return { errors: [messageOf(error)] };
        }
      });
    },
  };
}

/** A fault as esbuild takes it: with its column from 0, and that and its length in bytes. */
function messageOf({ fault, file, text, before, inside }) {
  return {
    text: fault.message,
    location: {
      file: path.relative('', file),
      line: fault.line,
      column: Buffer.byteLength(before),
      length: Buffer.byteLength(inside),
      lineText: text,
    },
  };
}
