// The limits of include/level.h, to make books and calls at them and beyond.

export const MOST_MARKS = 256;
export const MOST_HELD = 256;
export const MOST_LINES = 512;
export const MOST_LISTED = 65_792;
export const MOST_FILE_BYTES = 9_741;
export const MOST_TOLERANCE = 1000;
export const MOST_CLASS = 4;
export const MOST_DIFFERENCE = 100_000_000;
export const LEAST_LENGTH = 10;
export const MOST_LENGTH = 100_000;
export const MOST_HELD_HEIGHT = 10_000_000_000;
export const MOST_HEIGHT = 50_000_000_000;

// How many numbers a held entry, a line, a report's row and an entry of a sketch have.
export const HELD_NUMBERS = 2;
export const LINE_NUMBERS = 6;
export const ROW_NUMBERS = 5;
export const ENTRY_NUMBERS = 5;

// The class of a line in a book of version 1.
export const NO_CLASS = -1;

// The least and the most that 64 bits hold, and two that often stand for nothing.
export const EXTREMES = [-(2n ** 63n), 2n ** 63n - 1n, -1n, 0n];

/** Numbers at both limits, just beyond them, and far beyond. */
export function aroundLimits(least, most) {
  const [low, high] = [BigInt(least), BigInt(most)];
  return [low - 1n, low, high, high + 1n, 1n << 40n, ...EXTREMES];
}
