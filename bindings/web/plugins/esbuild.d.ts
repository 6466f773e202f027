// The types of the plugin for esbuild.

import type { ShaderOptions } from './plugin.js';

/** A plugin by the parts that esbuild calls. */
export interface ShaderPlugin {
  name: string;
  setup(build: any): void;
}

export default function wgsl(options?: ShaderOptions): ShaderPlugin;
