// Books for the comparison, of every size, good and broken.
//
// A book is { version, b, t, held, lines }: numbers as the core is lent them, two to a held entry and six to a line.

import {
  EXTREMES, HELD_NUMBERS, LEAST_LENGTH, LINE_NUMBERS, MOST_CLASS, MOST_DIFFERENCE, MOST_HELD, MOST_HELD_HEIGHT,
  MOST_LENGTH, MOST_LINES, MOST_MARKS, MOST_TOLERANCE, NO_CLASS, aroundLimits,
} from './limits.mjs';

/** A book, at times a broken one. */
export function makeBook(random) {
  const marks = random.pick([1, 2, 3, 5, 8, 20, 60, MOST_MARKS]);
  const count = marks === 1 ? random.pick([0, 0, 0, 1]) : random.pick([1, 3, 7, 12, 40, 120, 300, MOST_LINES]);
  const version = random.pick([1, 2]);
  const book = {
    version: BigInt(version),
    b: BigInt(marks),
    t: BigInt(version === 1 ? random.within(1, MOST_TOLERANCE) : 0),
    held: makeHeld(random, marks),
    lines: makeLines(random, version, marks, count),
  };
  breakBook(random, book);
  return { ...book, held: BigInt64Array.from(book.held), lines: BigInt64Array.from(book.lines) };
}

/** Held entries of different marks: a few as a rule, at times none or about as many as there are marks. */
function makeHeld(random, marks) {
  const most = random.pick([0, 1, 1, 2, 3, 6, marks]);
  const held = new Map();
  for (let entry = 0; entry < most; entry++) {
    held.set(random.within(1, marks), random.within(-MOST_HELD_HEIGHT, MOST_HELD_HEIGHT));
  }
  return [...held].flat().map(BigInt);
}

/** Lines whose ends, lengths, differences and classes are each chosen in one manner for the whole book. */
function makeLines(random, version, marks, count) {
  const join = random.pick([anyEnds, onward, nextOnward]);
  const length = random.pick([anyLength, fewLengths, () => 1000]);
  const difference = random.pick([anyDifference, levelledDifferences(random, marks)]);
  const classOf = version === 1 ? () => NO_CLASS : random.pick([anyClass, oneClass(random)]);
  const withdrawn = random.pick([4, 12, 100]);
  const lines = [];
  for (let line = 0; line < count; line++) {
    const [from, to] = line + 1 < marks ? join(random, marks, line) : anyEnds(random, marks);
    lines.push(from, to, difference(random, from, to), length(random), random.onceIn(withdrawn) ? 0 : 1, classOf(random));
  }
  return lines.map(BigInt);
}

/** To the next mark, from any mark before it: with lines enough, all marks are joined. */
function onward(random, marks, line) {
  return [random.within(1, line + 1), line + 2];
}

/** From each mark to the next, so that an adjustment takes many sweeps. */
function nextOnward(random, marks, line) {
  return [line + 1, line + 2];
}

/** Two marks, and of a book with one mark that one twice. */
function anyEnds(random, marks) {
  const from = random.within(1, marks);
  const to = random.within(1, Math.max(marks - 1, 1));
  return [from, to < from || marks === 1 ? to : to + 1];
}

function anyLength(random) {
  return random.within(LEAST_LENGTH, MOST_LENGTH);
}

/** Equal and nearly equal lengths, so that shortest ways tie. */
function fewLengths(random) {
  return random.pick([LEAST_LENGTH, 500, 501, 1000, 2000]);
}

function anyDifference(random) {
  return random.within(-MOST_DIFFERENCE, MOST_DIFFERENCE);
}

/** Differences of one height for each mark, a little off: of their loops some are within and some over. */
function levelledDifferences(random, marks) {
  const off = random.pick([0, 2000, 50_000]);
  const heights = Array.from({ length: marks + 1 }, () => random.within(0, MOST_DIFFERENCE / 2));
  return (again, from, to) => heights[to] - heights[from] + again.within(-off, off);
}

function anyClass(random) {
  return random.within(0, MOST_CLASS);
}

function oneClass(random) {
  const itsClass = anyClass(random);
  return () => itsClass;
}

/** Puts numbers at a limit or beyond it into one book of three or so. */
function breakBook(random, book) {
  if (random.onceIn(5)) random.replaceOne(book.lines, lineLimits(book.b));
  if (random.onceIn(8)) random.replaceOne(book.held, heldLimits(book.b));
  if (random.onceIn(30)) book.lines.push(1n);
  if (random.onceIn(30)) book.held.push(1n);
  if (random.onceIn(40)) book.lines = Array((MOST_LINES + 1) * LINE_NUMBERS).fill(1n);
  if (random.onceIn(40)) book.held = Array((MOST_HELD + 1) * HELD_NUMBERS).fill(1n);
  if (random.onceIn(30)) book.b = random.pick([...aroundLimits(1, MOST_MARKS), 1n << 33n]);
  if (random.onceIn(30)) book.t = random.pick(aroundLimits(1, MOST_TOLERANCE));
  if (random.onceIn(30)) book.version = random.pick([1n, 2n, 3n, 255n, ...EXTREMES]);
}

/** For each of a line's numbers, some around its limits. */
function lineLimits(b) {
  const end = aroundLimits(1, b);
  const difference = aroundLimits(-MOST_DIFFERENCE, MOST_DIFFERENCE);
  const length = aroundLimits(LEAST_LENGTH, MOST_LENGTH);
  return [end, end, difference, length, aroundLimits(0, 1), aroundLimits(0, MOST_CLASS)];
}

/** For each of a held entry's numbers, some around its limits. The mark may be one that is held already. */
function heldLimits(b) {
  return [aroundLimits(1, b), aroundLimits(-MOST_HELD_HEIGHT, MOST_HELD_HEIGHT)];
}
