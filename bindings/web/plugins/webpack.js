// The loader for webpack: `rules: [{ test: /\.wgsl$/, use: 'centrelilac/webpack' }]`.

import path from 'node:path';
import { ShaderError, transform } from './transform.js';

/** In the mode `development` a shader is as it is, unless the option `minify` says more. */
export default async function load(source) {
  const file = path.relative(this.rootContext, this.resourcePath);
  const chosen = { minify: this.mode !== 'development', ...this.getOptions(), file };
  try {
    return (await transform(source, chosen)).code;
  } catch (error) {
    // webpack prints the message alone, without where in these files it was thrown
    if (error instanceof ShaderError) error.hideStack = true;
    throw error;
  }
}
