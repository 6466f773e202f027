// The types of what the plugins are made of, for a plugin of another bundler.

import type { WgslError } from 'centrelilac';
import type { ShaderOptions } from './plugin.js';

/** A fault of a shader in a file. Its message has the file, the place and the marked line. */
export class ShaderError extends Error {
  readonly fault: WgslError;
  readonly file: string;
  /** The line in which the fault begins, what of it is before the fault, and what is in it. */
  readonly text: string;
  readonly before: string;
  readonly inside: string;
}

/** Returns a module of JavaScript whose default export is the text of a shader. */
export function transform(
  source: string,
  options?: ShaderOptions & { file?: string },
): Promise<{ code: string }>;
