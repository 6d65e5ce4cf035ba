// What is asked of a book: every call, with lent slices good and bad.

import { damageFile, fileOf } from './files.mjs';
import {
  ENTRY_NUMBERS, EXTREMES, HELD_NUMBERS, LINE_NUMBERS, MOST_DIFFERENCE, MOST_FILE_BYTES, MOST_HEIGHT, MOST_HELD, MOST_LINES,
  MOST_LISTED, MOST_MARKS, ROW_NUMBERS, aroundLimits,
} from './limits.mjs';

// The place in a report's row of the count of the loop's lines.
const COUNT_IN_ROW = 1;
const NO_ANSWER = 0x5c5c5c5c5c5c5c5cn;
const NO_BYTE = 0x5c;

/** Asks every call of a book, on both sides of the comparison. */
export async function askAll(comparison, random, book) {
  const report = await survey(comparison, random, book);
  await list(comparison, random, book, report);
  await sketch(comparison, random, book);
  await adjust(comparison, random, book);
  await correct(comparison, random, book, report);
  await write(comparison, random, book);
  await read(comparison, random, fileOf(book));
}

/** An output of so many numbers, filled with one that no answer has. */
function output(count) {
  return new BigInt64Array(Math.max(count, 0)).fill(NO_ANSWER);
}

/** How many places are lent for an answer of so many: as many or more as a rule, else too few. */
function placesFor(random, need) {
  return random.pick([need, need, need + 1, need + 7, need - 1, need - 5, 0]);
}

/** Surveys with room for any report, then with about as much as this one takes. Gives the report. */
async function survey(comparison, random, book) {
  const surveyed = await comparison.ask('level_survey', book, [output(ROW_NUMBERS * MOST_LINES)]);
  const report = surveyed.third().subarray(0, ROW_NUMBERS * Number(surveyed.numbers[2]));
  await comparison.ask('level_survey', book, [output(placesFor(random, report.length))]);
  return report;
}

/** Lists a loop, all loops and the lines not checked, with much room and with about as much as is needed. */
async function list(comparison, random, book, report) {
  const counts = Array.from(report).filter((_, place) => place % ROW_NUMBERS === COUNT_IN_ROW).map(Number);
  const all = counts.reduce((sum, count) => sum + count, 0);
  const loop = oneOf(random, counts.length);
  await comparison.ask('level_listing', book, [output(MOST_LINES)], loop);
  await comparison.ask('level_listing', book, [output(placesFor(random, counts[loop - 1n] ?? 0))], loop);
  const places = random.onceIn(20) ? MOST_LISTED : placesFor(random, all);
  await comparison.ask('level_listings', book, [output(places)]);
  const { numbers } = await comparison.ask('level_not_checked', book, [output(MOST_LINES)]);
  await comparison.ask('level_not_checked', book, [output(placesFor(random, Number(numbers[2])))]);
}

/**
 * Sketches with room for any sketch, then with as much as this one takes in its links, spurs, loops and run, and in one
 * of the four with about as much.
 */
async function sketch(comparison, random, book) {
  const most = [ENTRY_NUMBERS, ENTRY_NUMBERS, ENTRY_NUMBERS, 1].map((numbers) => numbers * MOST_LINES);
  const { numbers: [, , links, spurs, loops, run] } = await comparison.ask('level_sketch', book, most.map(output));
  const need = [...[links, spurs, loops].map((entries) => ENTRY_NUMBERS * Number(entries)), Number(run)];
  const other = random.below(need.length);
  const lent = need.map((places, slice) => (slice === other ? placesFor(random, places) : places));
  await comparison.ask('level_sketch', book, lent.map(output));
}

/** Adjusts, and asks the rate of a line by the adjusted heights or by any. */
async function adjust(comparison, random, book) {
  const marks = Number(BigInt.asUintN(9, book.b));
  const places = random.onceIn(8) ? random.pick([marks - 1, 0]) : random.pick([MOST_MARKS, marks, marks + 3]);
  const adjusted = await comparison.ask('level_adjust', book, [output(places)]);
  const heights = adjusted.numbers[0] === 0n
    ? adjusted.third().subarray(0, marks)
    : BigInt64Array.from({ length: marks }, () => BigInt(random.within(-MOST_HEIGHT, MOST_HEIGHT)));
  if (random.onceIn(6)) random.replaceOne(heights, [aroundLimits(-MOST_HEIGHT, MOST_HEIGHT)]);
  const lent = random.onceIn(15) ? heights.subarray(1) : heights;
  await comparison.ask('level_rate', book, [lent], lineNumber(random, book));
}

/** Corrections one after the other, each on the book and the kept report that the one before it left. */
async function correct(comparison, random, book, report) {
  let kept = keptReport(random, report);
  let { lines } = book;
  for (let left = random.pick([2, 2, 2, 8]); left > 0; left--) {
    const name = random.pick(['level_rerun', 'level_withdraw']);
    const [line, difference] = [lineNumber(random, book), newDifference(random)];
    const corrected = await comparison.ask(name, { ...book, lines }, [kept], line, difference);
    lines = corrected.lines();
    kept = corrected.third();
  }
}

/** A new difference, now and then at its limit or beyond. */
function newDifference(random) {
  const aroundLimit = random.pick([-1, 1]) * (MOST_DIFFERENCE + random.below(2));
  return BigInt(random.onceIn(8) ? aroundLimit : random.within(-MOST_DIFFERENCE, MOST_DIFFERENCE));
}

/** The report as a rule, with places after it at times; else one that is too short or has a number wrong. */
function keptReport(random, report) {
  const kept = output(random.onceIn(3) ? placesFor(random, report.length) : report.length);
  kept.set(report.subarray(0, kept.length));
  if (random.onceIn(8)) random.replaceOne(kept, [[1n, 2n, ...EXTREMES]]);
  return kept;
}

/** The number of a line of the book as a rule, else of none. */
function lineNumber(random, { lines }) {
  return oneOf(random, Math.floor(lines.length / LINE_NUMBERS));
}

/** A number from 1 to count as a rule, else another. */
function oneOf(random, count) {
  if (random.onceIn(12)) return random.pick([...EXTREMES, BigInt(count + 1)]);
  return BigInt(random.within(1, Math.max(count, 1)));
}

/** Writes with room for any file, then with about as much as this one takes. */
async function write(comparison, random, book) {
  for (const bytes of [MOST_FILE_BYTES, placesFor(random, fileOf(book).length)]) {
    await comparison.ask('level_write', book, [new Uint8Array(Math.max(bytes, 0)).fill(NO_BYTE)]);
  }
}

/** Reads a file as it is, and damaged. */
async function read(comparison, random, file) {
  for (const one of [file, damageFile(random, file)]) {
    const held = output(random.onceIn(8) ? random.below(8) : HELD_NUMBERS * MOST_HELD);
    const lines = output(random.onceIn(8) ? random.below(20) : LINE_NUMBERS * MOST_LINES);
    await comparison.ask('level_read', { version: 0n, b: 0n, t: 0n, held, lines }, [one]);
  }
}
