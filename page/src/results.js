// All results of a book, as the core gives them.
import { allowedFor } from './allowed.js';
import { readBook } from './book.js';
import { CoreStopped, LINE, count, lineCount } from './core.js';
import { explained, takesMarks } from './refusals.js';

const KEPT = 40;
const keptLists = new Map();

/** As many marks as lines and held marks name: the highest that the core takes as a count of marks, or 1. */
function namedMarks(core, { held, lines }) {
  const named = [...held.filter((_, i) => i % 2 === 0), ...lines.filter((_, i) => i % LINE < 2)];
  const falling = [...new Set(named)].sort((p, q) => (p < q ? 1 : -1));
  return falling.find(mark => takesMarks(core, mark)) ?? 1n;
}

/**
 * The lines of each loop. No path depends on a difference or a class, so that lists are kept by all else, and a re-run lists nothing
 * anew.
 */
function listsOf(core, numbers, loops) {
  const key = `${numbers.marks}|${numbers.lines.filter((_, i) => ![2, 5].includes(i % LINE)).join()}`;
  if (!keptLists.has(key)) {
    if (keptLists.size >= KEPT) keptLists.delete(keptLists.keys().next().value);
    const { list } = core.listings(numbers);
    let end = 0;
    keptLists.set(key, loops.map(loop => list.slice(end, end += loop.count)));
  }
  return keptLists.get(key);
}

/** The numbers of a line, from 0. */
const lineOf = (numbers, row) => numbers.lines.subarray(LINE * row, LINE * row + LINE);

/** A line's row, of its number with the sense in which a loop runs it. */
export const rowOf = line => (line < 0 ? -line : line) - 1;

/** The rows of the report as loops. */
const loopsOf = report => Array.from({ length: report.length / 5 }, (_, i) => {
  const [closing, lines, length, misclosure, verdict] = report.subarray(5 * i);
  return { closing: count(closing), count: count(lines), length, misclosure, over: verdict === 1n };
});

/** The loops with their lines and what the tolerance allows them. */
function listedLoops(core, numbers, report) {
  const loops = loopsOf(report);
  const lists = listsOf(core, numbers, loops);
  return loops.map((loop, i) => {
    const lines = lists[i];
    const sides = lines.map(line => {
      const [, , , length, , itsClass] = lineOf(numbers, rowOf(line));
      return [length, itsClass];
    });
    return { ...loop, lines, allowed: allowedFor(core, numbers, sides) };
  });
}

/** For each line the loops that pass it, from 0. */
function checkedBy(loops, rows) {
  const by = Array.from({ length: rows }, () => []);
  loops.forEach((loop, i) => loop.lines.forEach(line => by[rowOf(line)].push(i)));
  return by;
}

function worked(core, numbers, { report, pieces }) {
  const loops = listedLoops(core, numbers, report);
  const adjusted = core.adjust(numbers);
  return {
    done: true,
    numbers,
    report,
    pieces,
    loops,
    checkedBy: checkedBy(loops, lineCount(numbers)),
    notChecked: core.notChecked(numbers).list,
    adjusted,
    rates: adjusted.number === 0 ? core.rates(numbers, adjusted.heights) : null,
    faults: [],
  };
}

/** All results of a typed book, or what is wrong with it. After a correction the kept report is given, and is not surveyed again. */
export function resultsOf(core, book, kept) {
  const { numbers, faults } = readBook(book);
  try {
    if (numbers.marks === null) numbers.marks = namedMarks(core, numbers);
    if (faults.length > 0) return { done: false, numbers, faults };
    const answer = kept || core.survey(numbers);
    if (answer.number !== 0) return { done: false, numbers, faults, refusal: explained(core, numbers, answer) };
    return worked(core, numbers, answer);
  } catch (error) {
    if (!(error instanceof CoreStopped)) throw error;
    return { done: false, stopped: true, numbers: { ...numbers, marks: numbers.marks ?? 1n }, faults };
  }
}

/** The cells that are wrong. */
export const wrongCells = ({ faults, refusal }) => [...faults.map(each => each.cell), ...(refusal ? refusal.cells : [])];

/** The marks that a loop passes, from where it begins to there again. */
export function marksOf(numbers, lines) {
  const ends = line => {
    const [from, to] = lineOf(numbers, rowOf(line));
    return line > 0 ? [from, to] : [to, from];
  };
  return [ends(lines[0])[0], ...lines.map(line => ends(line)[1])].map(count);
}
