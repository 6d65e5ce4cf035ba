// What the core's refusals mean, in words and in cells. Which cell is wrong is asked of the core, with the entry alone and
// good numbers in its other places: no limit is tested here. Those in the sentences are held to the core by a test.
import { cellOf } from './book.js';
import { LINE, NO_CLASS, lineCount } from './core.js';
import { namedFew } from './text.js';

export const LIMITS = {
  marks: '1 to 256',
  tolerance: '0.1 to 100 mm per √km',
  difference: '−100 to 100 m',
  length: '10 to 100 000 m',
  class: '0 to 4',
  height: '−10 000 to 10 000 m',
  adjusted: '−50 000 to 50 000 m',
};

const NONE = new BigInt64Array(0);
/** A line that is right in any book of this version with two marks. */
const goodLine = version =>
  ({ from: 1n, to: 2n, difference: 0n, length: 1000n, standing: 1n, class: version === 1n ? NO_CLASS : 0n });

const refuses = (core, number, book) =>
  core.survey({ version: 1n, tolerance: 1n, held: NONE, lines: NONE, ...book }).number === number;

/** Whether the core takes so many marks. */
export const takesMarks = (core, marks) => !refuses(core, 4, { marks });

const outside = (name, what) => `${name} is outside ${LIMITS[what]}`;
const notHere = (mark, marks) => `mark ${mark} is not in this book of ${marks} marks`;

/** What is wrong with the head, if anything is: columns, and why. */
function headFault(core, { version, marks, tolerance }) {
  if (refuses(core, 4, { version, marks: 1n, tolerance })) {
    const byClass = 'in version 2 the tolerance is 0, since each line has that of its class';
    return { columns: ['tolerance'], why: version === 1n ? outside('the tolerance', 'tolerance') : byClass };
  }
  if (!takesMarks(core, marks)) return { columns: ['marks'], why: outside('the number of marks', 'marks') };
  return { columns: [], why: 'there are too many lines or held marks' };
}

/** What is wrong with a held entry that the core refuses. */
function heldFault(core, { marks, held }, row) {
  const [mark, height] = held.subarray(2 * row);
  const wrong = entry => refuses(core, 6, { marks, held: BigInt64Array.from(entry) });
  if (wrong([mark, 0n])) return { columns: ['mark'], why: notHere(mark, marks), mark };
  if (wrong([mark, height])) return { columns: ['height'], why: outside('the height', 'height') };
  return { columns: ['mark'], why: `mark ${mark} is held by an earlier entry` };
}

/** What is wrong with a line, if the core refuses it. */
function lineFault(core, { version, marks, tolerance, lines }, row) {
  const [from, to, difference, length, standing, itsClass] = lines.subarray(LINE * row);
  const wrong = line => {
    const numbers = Object.values({ ...goodLine(version), ...line });
    return refuses(core, 7, { version, marks, tolerance, lines: BigInt64Array.from(numbers) });
  };
  if (!wrong({ from, to, difference, length, standing, class: itsClass })) return null;
  if (wrong({})) return { columns: ['from', 'to'], why: 'a book of one mark has no lines', mark: 2n };
  // Against one of two good marks an end that is in the book is right.
  const isAway = mark => wrong({ from: mark, to: 1n }) && wrong({ from: mark });
  if (isAway(from)) return { columns: ['from'], why: notHere(from, marks), mark: from };
  if (isAway(to)) return { columns: ['to'], why: notHere(to, marks), mark: to };
  if (wrong({ from, to })) return { columns: ['from', 'to'], why: 'it runs from a mark to the same mark' };
  if (wrong({ difference })) return { columns: ['difference'], why: outside('the difference', 'difference') };
  if (wrong({ length })) return { columns: ['length'], why: outside('the length', 'length') };
  return { columns: ['class'], why: outside('the class', 'class') };
}

/** A refusal of the book: where and why, the cells that are wrong, and how many more lines are. */
export function explained(core, numbers, { number, place }) {
  const row = place - 1;
  if (number === 4) return { number, place, ...located('head', 0, headFault(core, numbers)), more: 0 };
  if (number === 6) return { number, place, where: `held entry ${place}`, ...located('held', row, heldFault(core, numbers, row)), more: 0 };
  if (number === 7) return { number, place, where: `line ${place}`, ...explainedLines(core, numbers, row) };
  return { number, place, why: 'this is a fault of this page, please report it', cells: [], more: 0 };
}

const located = (table, row, { columns, why, mark }) => ({ why, mark, cells: columns.map(key => cellOf(table, row, key)) });

/** All wrong lines from the first on: the first is named, the cells of all are marked. */
function explainedLines(core, numbers, first) {
  const found = [];
  for (let row = first; row < lineCount(numbers); row++) {
    const fault = lineFault(core, numbers, row);
    if (fault) found.push(located('lines', row, fault));
  }
  return { ...found[0], cells: found.flatMap(each => each.cells), more: found.length - 1 };
}

/** What is wrong with a file that is not opened. */
export const FILE_WORDS = {
  1: 'It is too short to be a book.',
  2: 'It is not as long as it says: it was cut off, or something was added.',
  3: 'Its version is neither 1 nor 2, or it is no book.',
  4: 'Its marks, tolerance or counts are outside their limits; in version 2 the tolerance is 0.',
  5: 'It has more or fewer entries than it says.',
};

/** Why a book that is not right is not saved. */
export const NOT_RIGHT = 'A file holds only a book that is right. What is wrong stands above the book.';

/** Why the core does not write a book, of which these lines are withdrawn. */
export const writingWords = (number, withdrawn) => ({
  10: 'This is a fault of this page. Please report it.',
  16: `A version 1 file cannot say that a line is withdrawn: ${namedFew('line', withdrawn)}. `
    + 'Make it a version 2 book, by Version beside Tolerance, with a class for each line; or undo the withdrawal.',
}[number] || NOT_RIGHT);

/** Why there are no adjusted heights. */
export const heightsWords = (number, place) => ({
  11: `The piece of the network with mark ${place} has no held mark, so its heights cannot be known.`,
  12: 'The adjustment did not settle in 10 000 sweeps, so it gives no heights.',
  13: `The height of mark ${place} went outside ${LIMITS.adjusted}.`,
}[number]);
