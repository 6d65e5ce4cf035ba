// Files of books, whole and damaged.

import { HELD_NUMBERS, LINE_NUMBERS } from './limits.mjs';

const HEAD_BYTES = 13;
const HELD_BYTES = 10;

/** The book's file, in which wrong numbers have the bytes that there is room for; lines of version 1 are shorter. */
export function fileOf({ version, b, t, held, lines }) {
  const heldCount = Math.floor(held.length / HELD_NUMBERS);
  const linesCount = Math.floor(lines.length / LINE_NUMBERS);
  const isShort = version === 1n;
  const file = Buffer.alloc(HEAD_BYTES + HELD_BYTES * heldCount + (isShort ? 12 : 14) * linesCount);
  let end = 0;
  const write = (bytes, number) => {
    for (let byte = bytes - 1; byte >= 0; byte--) {
      file[end++] = Number(BigInt.asUintN(8, BigInt(number) >> BigInt(8 * byte)));
    }
  };
  write(4, file.length);
  write(1, version);
  for (const number of [t, b, heldCount, linesCount]) write(2, number);
  for (let entry = 0; entry < heldCount; entry++) {
    write(2, held[HELD_NUMBERS * entry]);
    write(8, held[HELD_NUMBERS * entry + 1]);
  }
  for (let line = 0; line < linesCount; line++) {
    const [from, to, difference, length, standing, itsClass] = lines.subarray(LINE_NUMBERS * line);
    write(2, from);
    write(2, to);
    write(4, difference);
    write(4, length);
    if (isShort) continue;
    write(1, itsClass);
    write(1, standing);
  }
  return file;
}

/** The file with a bit flipped, another count, or cut or longer; its stated length is mended at times. */
export function damageFile(random, file) {
  let damaged = Buffer.from(file);
  const part = random.pick([HEAD_BYTES, file.length]);
  switch (random.below(5)) {
    case 0: damaged[random.below(part)] ^= 1 << random.below(8); break;
    case 1: damaged = damaged.subarray(0, random.below(part)); break;
    case 2: damaged = Buffer.concat([damaged, Buffer.alloc(random.pick([1, 10, 12, 14, 16384]), 1)]); break;
    case 3: damaged[random.within(4, HEAD_BYTES - 1)] = random.below(256); break;
    default: damaged = damaged.subarray(0, damaged.length - random.pick([1, 10, 12, 14]));
  }
  if (random.onceIn(2) && damaged.length >= 4) damaged.writeUInt32BE(damaged.length, 0);
  return damaged;
}
