// The commands, and what the program says of itself.

import { readFile } from 'node:fs/promises';
import { init } from '../node.js';
import { WrongArguments } from './arguments.js';
import * as check from './check.js';
import * as min from './min.js';
import { FAILED, SUCCESS, WRONG_ARGUMENTS } from './status.js';
import * as tidy from './tidy.js';

const COMMANDS = { tidy, min, check };

const HELP = `\
Usage: centrelilac COMMAND [OPTIONS] [FILE]...

Commands:
  tidy       formats WGSL modules
  min        minifies a WGSL module
  check      checks whether files are WGSL modules

Options:
  --help     print this text, after a command that of the command
  --version  print the version
`;

async function version() {
  const file = new URL('../package.json', import.meta.url);
  return JSON.parse(await readFile(file, 'utf8')).version;
}

function print(text) {
  process.stdout.write(text);
  return SUCCESS;
}

async function runCommand(name, command, args) {
  try {
    const options = args.slice(0, args.includes('--') ? args.indexOf('--') : args.length);
    if (options.includes('--help') || options.includes('-h')) return print(command.HELP);
    await init();
    return await command.run(args);
  } catch (error) {
    if (!(error instanceof WrongArguments)) throw error;
    process.stderr.write(`centrelilac ${name}: error: ${error.message}\n`);
    return WRONG_ARGUMENTS;
  }
}

/** Runs what the arguments ask for, and returns the status. */
export async function main([name, ...args]) {
  // the reader of the output may have ended
  process.stdout.on('error', () => process.exit(FAILED));
  if (name === '--help' || name === '-h') return print(HELP);
  if (name === '--version' || name === '-V') return print(`centrelilac ${await version()}\n`);
  if (Object.hasOwn(COMMANDS, name ?? '')) return runCommand(name, COMMANDS[name], args);
  process.stderr.write(HELP);
  return WRONG_ARGUMENTS;
}
