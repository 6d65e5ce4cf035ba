// Answers the requests of reference/server/server.c with the wasm module: node server.mjs MODULE
//
// Ends with 0 when its input does, and with a message and 1 when the core stops or a request is none.

import { readSync, writevSync } from 'node:fs';
import { HEAD_BYTES, MOST_REQUEST_BYTES, headOf, slicesOf } from './calls.mjs';
import { loadCore } from './core.mjs';

const STANDARD_INPUT = 0;
const STANDARD_OUTPUT = 1;

/** Requests one after the other, read in blocks as large as they come. */
class Requests {
  constructor() {
    this.block = Buffer.alloc(MOST_REQUEST_BYTES);
    this.filled = 0;
    this.taken = 0;
  }

  /** The next whole request, there until the one after it is asked for; nothing at the end of the input. */
  next() {
    this.block.copyWithin(0, this.taken, this.filled);
    this.filled -= this.taken;
    this.taken = 0;
    if (!this.fill(HEAD_BYTES)) return null;
    const [, end] = slicesOf(headOf(this.block)).at(-1);
    this.fill(end);
    this.taken = end;
    return this.block.subarray(0, end);
  }

  /** Reads until there are so many bytes; gives false if the input ends before the first. */
  fill(bytes) {
    while (this.filled < bytes) {
      const read = readSync(STANDARD_INPUT, this.block, this.filled, this.block.length - this.filled, null);
      if (read === 0 && this.filled === 0) return false;
      if (read === 0) throw new Error('the input ends within a request');
      this.filled += read;
    }
    return true;
  }
}

/** Writes all parts at once: the one who waits for them is woken once. */
function write(parts) {
  let left = parts;
  while (left.length > 0) left = partsAfter(left, writevSync(STANDARD_OUTPUT, left));
}

/** What is left of the parts after so many bytes. */
function partsAfter(parts, bytes) {
  let before = bytes;
  const left = parts.map((part) => {
    const written = Math.min(before, part.length);
    before -= written;
    return part.subarray(written);
  });
  return left.filter((part) => part.length > 0);
}

async function serve(module) {
  if (!module) throw new Error('no module is named');
  const core = await loadCore(module);
  const requests = new Requests();
  for (let request = requests.next(); request; request = requests.next()) write(core.answer(request));
}

try {
  await serve(process.argv[2]);
} catch (error) {
  console.error(`server.mjs: ${error.message}`);
  process.exit(1);
}
