// The types of the loader for webpack, whose options are `ShaderOptions`.

export type { ShaderOptions } from './plugin.js';

export default function load(this: any, source: string): Promise<string>;
