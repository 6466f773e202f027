// `centrelilac check`: checks whether files are modules.

import { check } from '../node.js';
import { readArguments } from './arguments.js';
import { STDIN, FileError, filesOf, readRegular, refused } from './files.js';
import { SUCCESS } from './status.js';

export const HELP = `\
Usage: centrelilac check [OPTIONS] [FILE | FOLDER]...

Checks whether each file is a WGSL module, and of each folder all files whose names end with .wgsl.
With no file, or with -, the standard input is checked.

Options:
  --stdin-path NAME  the name of the standard input in messages
  --                 the arguments that follow are files and folders

Status: 0 success, 2 wrong arguments, 3 a file is not a module or not UTF-8, 4 a file could not be
read, 5 out of memory, or a file nests too deep.
`;

async function checkFile(path, name) {
  const text = await readRegular(path, name);
  try {
    check(text);
  } catch (error) {
    throw refused(name, error);
  }
}

/** Checks files, and returns the status. */
export async function run(args) {
  const { values, positionals } = readArguments(args, { 'stdin-path': { type: 'string' } });
  let status = SUCCESS;
  for (const path of await filesOf(positionals)) {
    try {
      await checkFile(path, path === STDIN ? (values['stdin-path'] ?? '<stdin>') : path);
    } catch (error) {
      if (!(error instanceof FileError)) throw error;
      status = Math.max(status, error.status);
      process.stderr.write(`${error.message}\n`);
    }
  }
  return status;
}
