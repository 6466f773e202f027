// The arguments of a command.

import { parseArgs } from 'node:util';

/** What is wrong with the arguments. */
export class WrongArguments extends Error {}

/** Returns the options and the other arguments of a command. */
export function readArguments(args, options) {
  const all = { ...options, help: { type: 'boolean', short: 'h' } };
  try {
    return parseArgs({ args, options: all, allowPositionals: true });
  } catch (error) {
    throw new WrongArguments(error.message.split('. ')[0]);
  }
}

/** Returns the number that the value of an option is. */
export function wholeNumber(name, value, least, most) {
  const number = /^\d+$/.test(value) ? Number(value) : NaN;
  if (number >= least && number <= most) return number;
  throw new WrongArguments(`--${name} takes a number from ${least} to ${most}`);
}

/** Returns the value of an option, which has to be one of these. */
export function oneOf(name, value, values) {
  if (value === undefined || values.includes(value)) return value;
  throw new WrongArguments(`--${name} takes ${values.join(', ')}`);
}
