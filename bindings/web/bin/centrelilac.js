#!/usr/bin/env node
// The command `centrelilac`.

import { main } from '../command/main.js';

process.exitCode = await main(process.argv.slice(2));
