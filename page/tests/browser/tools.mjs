// What the cases need of the machine: programs by name, folders, and waiting.
import { spawnSync } from 'node:child_process';
import fs from 'node:fs';
import path from 'node:path';
import { fileURLToPath } from 'node:url';

export const TOP = fileURLToPath(new URL('../../..', import.meta.url)).replace(/\/$/, '');

/** The first of these programs that is on the path, or null. */
export function findProgram(names) {
  const folders = (process.env.PATH ?? '').split(path.delimiter);
  for (const name of names) {
    const found = folders.map(folder => path.join(folder, name)).find(isProgram);
    if (found) return found;
  }
  return null;
}

export function isProgram(file) {
  try {
    fs.accessSync(file, fs.constants.X_OK);
    return fs.statSync(file).isFile();
  } catch {
    return false;
  }
}

/** What a program prints for these bytes on its standard input. */
export function output(program, values, input = '') {
  const ran = spawnSync(program, values, { input, maxBuffer: 1 << 28 });
  if (ran.error) throw ran.error;
  if (ran.status !== 0) throw new Error(`${program} ended with ${ran.status}: ${ran.stderr}`);
  return ran.stdout;
}

export const sleep = milliseconds => new Promise(resolve => setTimeout(resolve, milliseconds));

/** Asks again until the answer is good, or the time is over; gives the last answer. */
export async function until(ask, { good = Boolean, milliseconds = 5000, pause = 15 } = {}) {
  const end = performance.now() + milliseconds;
  for (;;) {
    const answer = await ask();
    if (good(answer) || performance.now() > end) return answer;
    await sleep(pause);
  }
}
