// The books of the cases: those of books/, and larger ones that small fixed rules make.
import fs from 'node:fs';
import path from 'node:path';
import { bytesOf } from './book-file.mjs';
import { Chance } from './chance.mjs';
import { TOP } from './tools.mjs';

const STORED = [
  'worked', 'memorandum_figure', 'memorandum_network', 'past_the_last_junction', 'two_pieces', 'parallel_lines',
  'three_classes', 'damaged',
];
const MOST_MARKS = 256;
const MOST_LINES = 512;

/** The bytes of a book by its name. */
export function book(name) {
  return STORED.includes(name) ? fs.readFileSync(path.join(TOP, 'books', `${name}.book`)) : bytesOf(table(name));
}

/** The table of a book that is made here. */
export function table(name) {
  if (!MADE[name]) throw new Error(`there is no book ${name}`);
  return MADE[name]();
}

const MADE = {
  town12: () => town(12, 3),
  town25: () => town(25, 5),
  town40: () => town(40, 7),
  town60: () => town(60, 11),
  grid6: () => grid(6),
  full: () => fullRing(32),
  // With one held mark it takes nearly as many sweeps as there may be.
  slowest: () => fullRing(MOST_MARKS),
  random256: randomNetwork,
  parallel512: () => parallel(MOST_LINES),
  chain20: () => levelled(20, pairs(19, line => [line, line + 1]), 17),
  star15: () => levelled(15, pairs(14, line => [1, line + 1]), 19),
  ring12: () => ring(12),
  ring256: () => ring(MOST_MARKS),
  free_tails: freeTails,
  city256: city,
  classes25: () => withClasses(town(25, 5)),
  // As long as a file can be: 9,741 bytes.
  classes_full: () => withClasses(fullRing(1)),
};

/** The same network as a book of version 2: classes by turns, and every ninth line withdrawn. */
function withClasses(table) {
  const lines = table.lines.map((line, row) => [...line, row % 5, row % 9 === 8 ? 0 : 1]);
  return { ...table, version: 2, tolerance: 0, lines };
}

const pairs = (count, ends) => Array.from({ length: count }, (_, row) => ends(row + 1));

/**
 * Marks with chosen heights, and lines run between them with small errors; now and then a blunder takes a loop over.
 */
function levelled(marks, ends, seed, { lengthOf = null, heldEach = marks } = {}) {
  const chance = new Chance(seed);
  const heights = pairs(marks, () => chance.below(40_000) * 1000);
  const lines = ends.map(([from, to], row) => {
    const length = lengthOf ? lengthOf(row) : chance.from(200, 2500);
    const blunder = chance.below(9) === 0 ? 30_000 : 0;
    const error = chance.from(-1500, 1500) + blunder;
    return [from, to, heights[to - 1] - heights[from - 1] + error, length];
  });
  const held = pairs(marks, mark => [mark, 100_000_000 + heights[mark - 1] - heights[0]]);
  return { tolerance: 80, marks, held: held.filter(([mark]) => (mark - 1) % heldEach === 0), lines };
}

/** Marks as in a town: each is joined to the nearest earlier one, and about as many again to other near ones. */
function town(marks, seed) {
  const chance = new Chance(seed);
  const places = [];
  while (places.length < marks) {
    const place = [chance.below(1000), chance.below(700)];
    if (places.every(other => squared(place, other) > 250_000 / marks)) places.push(place);
  }
  const wanted = Math.floor(marks * 1.4);
  const ends = nearestEarlier(places);
  for (const [from, to] of closePairs(places)) {
    if (ends.length === wanted) break;
    const known = ends.some(([p, q]) => (p === from && q === to) || (p === to && q === from));
    if (!known && chance.below(5) > 0) ends.push(chance.below(2) ? [from, to] : [to, from]);
  }
  const lengthOf = row => Math.floor(2 * Math.sqrt(squared(places[ends[row][0] - 1], places[ends[row][1] - 1])));
  return levelled(marks, ends, seed, { lengthOf: row => Math.max(60, lengthOf(row)) });
}

const squared = (p, q) => (p[0] - q[0]) ** 2 + (p[1] - q[1]) ** 2;

function nearestEarlier(places) {
  return places.slice(1).map((place, row) => {
    const earlier = places.slice(0, row + 1).map((other, mark) => [squared(place, other), mark + 1]);
    const [, nearest] = earlier.reduce((best, each) => (each[0] < best[0] ? each : best));
    return [row + 2, nearest];
  });
}

/** Every two marks, nearest first. */
function closePairs(places) {
  const all = [];
  places.forEach((place, p) => {
    for (let q = p + 1; q < places.length; q += 1) all.push([p + 1, q + 1, squared(place, places[q])]);
  });
  return all.sort((one, other) => one[2] - other[2] || one[0] - other[0] || one[1] - other[1]);
}

function grid(side) {
  const ends = [];
  for (let mark = 1; mark <= side * side; mark += 1) {
    if (mark % side !== 0) ends.push([mark, mark + 1]);
    if (mark + side <= side * side) ends.push([mark, mark + side]);
  }
  return levelled(side * side, ends, 29);
}

/** As large as a book can be: every mark is joined to the next and to the next but one. */
function fullRing(heldEach) {
  const after = (mark, steps) => ((mark + steps - 1) % MOST_MARKS) + 1;
  const ends = pairs(MOST_MARKS, mark => mark).flatMap(mark => [[mark, after(mark, 1)], [mark, after(mark, 2)]]);
  return levelled(MOST_MARKS, ends, 31, { heldEach });
}

function randomNetwork() {
  const chance = new Chance(37);
  const ends = pairs(MOST_MARKS - 1, line => [line + 1, chance.from(1, line)]);
  while (ends.length < MOST_LINES) {
    const [from, to] = [chance.from(1, MOST_MARKS), chance.from(1, MOST_MARKS)];
    if (from !== to) ends.push([from, to]);
  }
  return levelled(MOST_MARKS, ends, 37);
}

function parallel(lines) {
  return levelled(2, pairs(lines, line => (line % 3 === 0 ? [2, 1] : [1, 2])), 41);
}

function ring(marks) {
  return levelled(marks, pairs(marks, line => [line, (line % marks) + 1]), 23);
}

/** A ring of six with a tail of one, of two and of five lines: 8 lines that nothing checks. */
function freeTails() {
  const ring = pairs(6, line => [line, (line % 6) + 1]);
  const tails = [[1, 7], [3, 8], [8, 9], [5, 10], [10, 11], [11, 12], [12, 13], [11, 14]];
  return levelled(14, [...ring, ...tails], 43);
}

/** 256 marks: a grid of 15 by 15, and a tail at 31 of its marks. */
function city() {
  const { lines } = grid(15);
  const tails = pairs(31, tail => [tail * 7, 225 + tail]);
  return levelled(MOST_MARKS, [...lines.map(([from, to]) => [from, to]), ...tails], 47);
}
