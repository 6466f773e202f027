// `centrelilac min`: minifies a module.

import { minify, tokens } from '../node.js';
import { WrongArguments, oneOf, readArguments } from './arguments.js';
import { STDIN, FileError, readText, refused, writeText } from './files.js';
import { SUCCESS, WRONG_ARGUMENTS } from './status.js';

export const HELP = `\
Usage: centrelilac min [OPTIONS] [FILE]

Minifies a WGSL module. With no file, or with -, the standard input is read.

Options:
  -o, --output FILE       write the text to a file
  --names WHICH           the names that get new ones: none, locals or all (all)
  --keep NAME[,NAME]..    names that stay; may be repeated
  --map FILE              write the names that got new ones, with these, to a file as JSON; with -
                          to the standard output

Each name that is declared gets a new name, but those of members, entry points and overrides, and
those in a list of --keep.

Status: 0 success, 2 wrong arguments, 3 the module has an error or is not UTF-8, 4 a file could not
be read or written, 5 out of memory, or the module nests too deep.
`;

const OPTIONS = {
  output: { type: 'string', short: 'o' },
  names: { type: 'string' },
  keep: { type: 'string', multiple: true },
  map: { type: 'string' },
};

function minified(text, name, options) {
  try {
    return minify(text, options);
  } catch (error) {
    throw refused(name, error);
  }
}

/** Throws for a name to keep that is nowhere in a module. */
function checkKept(text, name, keep) {
  const names = tokens(text).filter(({ kind }) => kind === 'Ident');
  const found = new Set(names.map(({ start, end }) => text.slice(start, end)));
  const wrong = keep.find((kept) => !found.has(kept));
  if (wrong === undefined) return;
  const message = `${name}: error: option '--keep' takes names of the module, not \`${wrong}\``;
  throw new FileError(WRONG_ARGUMENTS, message);
}

/** The names of the standard output. */
const STDOUT = ['-', '/dev/stdout'];

/** Whether two paths are of one output. */
function isSame(path, other) {
  return path === other || (STDOUT.includes(path) && STDOUT.includes(other));
}

async function writeOutput(path, text) {
  if (STDOUT.includes(path)) process.stdout.write(text);
  else await writeText(path, text);
}

/** Minifies a file; the new names are written before the text, so no text is there without them. */
async function minifyFile(path, { output, map, names, keep }) {
  const name = path === STDIN ? '<stdin>' : path;
  const text = await readText(path, name);
  const kept = keep.flatMap((list) => list.split(','));
  const made = minified(text, name, { names, keep: kept });
  checkKept(text, name, kept);
  if (map !== undefined) await writeOutput(map, `${JSON.stringify(made.names)}\n`);
  await writeOutput(output, made.text);
}

/** Minifies a file, and returns the status. */
export async function run(args) {
  const { values, positionals } = readArguments(args, OPTIONS);
  oneOf('names', values.names, ['none', 'locals', 'all']);
  if (positionals.length > 1) throw new WrongArguments(`unexpected argument '${positionals[1]}'`);
  const [path, { output = STDOUT[0], map, names, keep = [] }] = [positionals[0] ?? STDIN, values];
  if (map !== undefined && (isSame(map, output) || (path !== STDIN && map === path))) {
    throw new WrongArguments('--map takes a file of its own, or with --output the standard output');
  }
  try {
    await minifyFile(path, { output, map, names, keep });
    return SUCCESS;
  } catch (error) {
    if (!(error instanceof FileError)) throw error;
    process.stderr.write(`${error.message}\n`);
    return error.status;
  }
}
