// The texts that a command reads and writes.

import {
  appendFile,
  readFile,
  readdir,
  realpath,
  rename,
  rm,
  stat,
  writeFile,
} from 'node:fs/promises';
import { join } from 'node:path';
import { WgslError } from '../node.js';
import { FAILED, REFUSED, TOO_LARGE } from './status.js';

/** The argument that is the standard input. */
export const STDIN = '-';

/** An error that is reported of a file, with the status that it calls for. */
export class FileError extends Error {
  constructor(status, message) {
    super(message);
    this.status = status;
  }
}

/** Makes an error of the system one of a file: its message and number, without its path. */
function failed(name, error) {
  if (error.errno === undefined) throw error;
  const [, message] = /^\w+: ([^,]+)/.exec(error.message);
  const text = `${message[0].toUpperCase()}${message.slice(1)} (os error ${-error.errno})`;
  return new FileError(FAILED, `${name}: error: ${text}`);
}

/** Makes an error of the library one of a file. */
export function refused(name, error) {
  if (!(error instanceof WgslError)) throw error;
  const isLarge = error.kind === 'OutOfMemory' || error.kind === 'TooDeep';
  return new FileError(isLarge ? TOO_LARGE : REFUSED, error.inFile(name));
}

async function readStandardInput() {
  const chunks = [];
  for await (const chunk of process.stdin) chunks.push(chunk);
  return Buffer.concat(chunks);
}

/** Returns the text of a file or of the standard input, which has a name in messages. */
export async function readText(path, name) {
  let bytes;
  try {
    bytes = path === STDIN ? await readStandardInput() : await readFile(path);
  } catch (error) {
    throw failed(name, error);
  }
  try {
    return new TextDecoder('utf-8', { fatal: true, ignoreBOM: true }).decode(bytes);
  } catch {
    throw new FileError(REFUSED, `${name}: error: not UTF-8`);
  }
}

/**
 * Returns the text of a regular file or of the standard input. What else there is is not read: a
 * device may have no end.
 */
export async function readRegular(path, name) {
  const found = path === STDIN ? undefined : await stat(path).catch(() => undefined);
  if (found !== undefined && !found.isFile() && !found.isDirectory()) {
    throw new FileError(FAILED, `${name}: error: not a regular file`);
  }
  return readText(path, name);
}

/** Replaces a file by a new one with the same permissions; what a link leads to, not the link. */
async function replaceFile(path, text) {
  const file = await realpath(path);
  const { mode } = await stat(file);
  const made = `${file}.${process.pid}.new`;
  try {
    await writeFile(made, text, { mode, flag: 'wx' });
    await rename(made, file);
  } catch (error) {
    await rm(made, { force: true });
    throw error;
  }
}

/** Whether a path leads to something that is no regular file, or to what the process has open. */
async function isStream(path) {
  if (path === '/dev/stderr' || /^\/(dev|proc\/self)\/fd\//.test(path)) return true;
  const found = await stat(path).catch(() => undefined);
  return found !== undefined && !found.isFile();
}

/** Writes a text to a file, also to a new one; what is no regular file is not replaced. */
export async function writeText(path, text) {
  try {
    if (await isStream(path)) await appendFile(path, text);
    else await replaceFile(path, text);
  } catch (error) {
    if (error.code !== 'ENOENT') throw failed(path, error);
    await writeFile(path, text).catch((other) => {
      throw failed(path, other);
    });
  }
}

/** The `.wgsl` files below a folder, without those that are hidden and without links to folders. */
async function filesBelow(folder) {
  const found = [];
  for (const entry of await readdir(folder, { withFileTypes: true })) {
    const path = join(folder, entry.name);
    if (entry.name.startsWith('.')) continue;
    if (entry.isDirectory()) found.push(...(await filesBelow(path)));
    else if (entry.name.endsWith('.wgsl') && (await stat(path)).isFile()) found.push(path);
  }
  return found;
}

/** Puts paths into the order of their bytes. */
function inOrder(paths) {
  return paths.sort((a, b) => Buffer.compare(Buffer.from(a), Buffer.from(b)));
}

/** The files of some paths, in order: of a folder those below it. */
export async function filesOf(paths) {
  const files = [];
  for (const path of paths) {
    const isFolder = path !== STDIN && (await stat(path).catch(() => undefined))?.isDirectory();
    if (!isFolder) files.push(path);
    else files.push(...inOrder(await filesBelow(path)));
  }
  return files.length || paths.length ? files : [STDIN];
}
