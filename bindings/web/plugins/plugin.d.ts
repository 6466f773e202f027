// The types of what the plugins take and return.

import type { MinifyOptions } from 'centrelilac';

/** What the plugins are given: the options of `minify`, and whether a shader is minified. */
export interface ShaderOptions extends MinifyOptions {
  /** Whether it is minified; if this is not said, in production only. */
  minify?: boolean;
}
