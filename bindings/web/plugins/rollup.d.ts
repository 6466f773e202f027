// The types of the plugin for Rollup and Vite.

import type { ShaderOptions } from './plugin.js';

/** A plugin by the parts that Rollup and Vite call. */
export interface ShaderPlugin {
  name: string;
  configResolved(config: { isProduction: boolean }): void;
  transform(
    this: any,
    source: string,
    id: string,
  ): Promise<{ code: string; map: { mappings: '' } } | null>;
}

export default function wgsl(options?: ShaderOptions): ShaderPlugin;
