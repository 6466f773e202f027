// The plugin for Rollup and Vite: `plugins: [wgsl()]`.

import { ShaderError, transform } from './transform.js';

/** While files are watched or served a shader is as it is, unless `options.minify` says more. */
export default function wgsl(options = {}) {
  let short = null;
  return {
    name: 'centrelilac',

    // of Vite
    configResolved(config) {
      short = config.isProduction;
    },

    async transform(source, id) {
      if (!id.endsWith('.wgsl')) return null;
      try {
        const chosen = { minify: short ?? !this.meta.watchMode, ...options, file: id };
        return { ...await transform(source, chosen), map: { mappings: '' } };
      } catch (error) {
        if (!(error instanceof ShaderError)) throw error;
        return this.error(error.fault.message, error.fault.start);
      }
    },
  };
}
