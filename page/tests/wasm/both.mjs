// The same calls to the wasm module and to the native archive, every byte of every answer compared:
//
//     node both.mjs MODULE NATIVE-SERVER-COMMAND [--calls N] [--seed S]
//
// The command starts reference/server's program. Prints the seed, how often each call was answered how, and how many
// calls were compared: 40,000 unless told otherwise. On a difference it prints the call wholly and ends with 1. The
// same seed makes the same calls.

import { askAll } from './asks.mjs';
import { makeBook } from './books.mjs';
import { Comparison } from './comparison.mjs';
import { loadCore } from './core.mjs';
import { Native } from './native.mjs';
import { Random } from './random.mjs';
import { differenceInWords } from './words.mjs';

const USAGE = 'both.mjs MODULE NATIVE-SERVER-COMMAND [--calls N] [--seed S]';

function optionsOf([module, command, ...rest]) {
  const options = { module, command, calls: 40_000, seed: 1 };
  if (!command) throw new Error(USAGE);
  for (let place = 0; place < rest.length; place += 2) {
    const name = { '--calls': 'calls', '--seed': 'seed' }[rest[place]];
    if (!name || !/^[0-9]+$/.test(rest[place + 1])) throw new Error(USAGE);
    options[name] = Number(rest[place + 1]);
  }
  return options;
}

/** Compares; gives whether nothing differed. */
async function compare({ module, command, calls, seed }) {
  console.log(`seed ${seed}`);
  const random = new Random(seed);
  const native = new Native(command);
  const comparison = new Comparison(await loadCore(module), native);
  while (comparison.made < calls && native.isAnswering()) await askAll(comparison, random, makeBook(random));
  await native.end();
  if (native.different) {
    console.log(differenceInWords(native.different));
    return false;
  }
  console.log(comparison.tallyInWords());
  console.log(`${native.compared} calls compared, no difference`);
  return true;
}

try {
  process.exitCode = await compare(optionsOf(process.argv.slice(2))) ? 0 : 1;
} catch (error) {
  console.error(`both.mjs: ${error.message}`);
  process.exit(1);
}
