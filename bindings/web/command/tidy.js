// `centrelilac tidy`: formats files in place.

import { tidy } from '../node.js';
import { oneOf, readArguments, wholeNumber } from './arguments.js';
import { STDIN, FileError, filesOf, readRegular, refused, writeText } from './files.js';
import { SUCCESS, WOULD_CHANGE } from './status.js';

export const HELP = `\
Usage: centrelilac tidy [OPTIONS] [FILE | FOLDER]...

Formats WGSL modules. Each file is formatted in place, and in each folder all files whose names end
with .wgsl. With no file, or with -, the standard input is formatted to the standard output.

Options:
  --check            write no file, and list the files that would change
  --quiet            print no summary
  --stdin-path NAME  the name of the standard input in messages
  --width N          break lines of more than N columns (100), with 0 none
  --indent N|tab     indent by N spaces a level (4), or by a tab
  --newlines KIND    end lines with lf, crlf, or as the first one of the text (auto)
  --                 the arguments that follow are files and folders

No .editorconfig file is read.

Status: 0 success, 1 a file would change, 2 wrong arguments, 3 a file has an error or is not UTF-8,
4 a file could not be read or written, 5 out of memory, or a file nests too deep.
`;

const OPTIONS = {
  check: { type: 'boolean' },
  quiet: { type: 'boolean' },
  'stdin-path': { type: 'string' },
  width: { type: 'string' },
  indent: { type: 'string' },
  newlines: { type: 'string' },
};

/** The layout that options choose. */
function layoutOf({ width, indent, newlines }) {
  const layout = { newlines: oneOf('newlines', newlines, ['auto', 'lf', 'crlf']) };
  if (width !== undefined) layout.width = wholeNumber('width', width, 0, 9999);
  if (indent === 'tab') layout.indent = 'tab';
  else if (indent !== undefined) layout.indent = wholeNumber('indent', indent, 1, 16);
  return layout;
}

function tidied(text, name, layout) {
  try {
    return tidy(text, layout);
  } catch (error) {
    throw refused(name, error);
  }
}

/** Formats a file, and returns whether it changes, or would. */
async function tidyFile(path, name, layout, isCheck) {
  const text = await readRegular(path, name);
  const formatted = tidied(text, name, layout);
  const isChanged = formatted !== text;
  if (isCheck) {
    if (isChanged) process.stdout.write(`${name}\n`);
  } else if (path === STDIN) {
    process.stdout.write(formatted);
  } else if (isChanged) {
    await writeText(path, formatted);
  }
  return isChanged;
}

/** Formats files, and returns the status. */
export async function run(args) {
  const { values, positionals } = readArguments(args, OPTIONS);
  const layout = layoutOf(values);
  const files = await filesOf(positionals);
  let [status, changed, wrong] = [SUCCESS, 0, 0];
  for (const path of files) {
    const name = path === STDIN ? (values['stdin-path'] ?? '<stdin>') : path;
    try {
      if (!(await tidyFile(path, name, layout, values.check))) continue;
      changed++;
      if (values.check) status = Math.max(status, WOULD_CHANGE);
    } catch (error) {
      if (!(error instanceof FileError)) throw error;
      wrong++;
      status = Math.max(status, error.status);
      process.stderr.write(`${error.message}\n`);
    }
  }
  if (files.length > 1 && !values.quiet) {
    const word = values.check ? 'would change' : 'formatted';
    process.stderr.write(`${files.length} files, ${changed} ${word}, ${wrong} with errors\n`);
  }
  return status;
}
