// A network as the placing of marks sees it: marks from 0, pairs of them with a line, wanted distances, loops, places.
// Lengths and places have a usual line as the unit.
import { drawnLengths, wantedDistances } from './layout-wanted.js';

/** Among more marks than this fields are too small to be kept clear one by one. */
const MOST_WITH_FIELDS = 100;
/** What one crossing is charged; all else is charged beside it. */
export const CROSSING_CHARGE = 8;
/** Lines at a busy mark are drawn at least this long for each of its lines: their other ends need room around it. */
const ROOM_FOR_LINE = 0.1;

/** Pairs of marks with a line between them, each once, the lower mark first, and at what length they are drawn. */
export function joinsOf(lines) {
  const drawn = drawnLengths(lines);
  const byPair = new Map();
  lines.forEach(({ from, to }, line) => {
    const one = Math.min(from, to), other = Math.max(from, to), pair = `${one} ${other}`;
    const known = byPair.get(pair);
    if (!known || drawn[line] < known.drawn) byPair.set(pair, { one, other, drawn: drawn[line] });
  });
  return withRoom([...byPair.values()]);
}

function withRoom(joins) {
  const lines = new Map();
  for (const mark of joins.flatMap(({ one, other }) => [one, other])) lines.set(mark, (lines.get(mark) ?? 0) + 1);
  return joins.map(({ one, other, drawn }) => {
    const room = ROOM_FOR_LINE * Math.max(lines.get(one), lines.get(other));
    return { one, other, drawn: Math.max(drawn, room) };
  });
}

/** For each mark its joins, seen from there. */
function joinsFrom(count, joins) {
  const joinsAt = Array.from({ length: count }, () => []);
  for (const { one, other, drawn } of joins) {
    joinsAt[one].push({ far: other, drawn });
    joinsAt[other].push({ far: one, drawn });
  }
  return joinsAt;
}

const farMarks = joinsAt => joinsAt.map(joins => joins.map(({ far }) => far));

/** One for marks that are listed, zero for others. */
export function flagsOf(count, marks) {
  const flags = new Uint8Array(count);
  for (const mark of marks) flags[mark] = 1;
  return flags;
}

/** The marks that can be reached from a start without those seen before. They are seen then. */
export function reachedFrom(joined, start, isSeen) {
  const reached = [start];
  isSeen[start] = 1;
  for (const mark of reached) {
    for (const next of joined[mark]) {
      if (isSeen[next]) continue;
      isSeen[next] = 1;
      reached.push(next);
    }
  }
  return reached;
}

/** The pieces, each as its marks, the lowest first. */
export function piecesOf(count, joins) {
  const joined = farMarks(joinsFrom(count, joins));
  const isSeen = new Uint8Array(count);
  const pieces = [];
  for (let mark = 0; mark < count; mark++) {
    if (!isSeen[mark]) pieces.push(reachedFrom(joined, mark, isSeen).sort((p, q) => p - q));
  }
  return pieces;
}

/** For each mark the numbers of those lists that have it. */
function numbersBy(count, lists) {
  const numbers = Array.from({ length: count }, () => []);
  lists.forEach((list, number) => { for (const mark of list) numbers[mark].push(number); });
  return numbers;
}

/** The joins and loops within some marks, by the numbers that the marks have there. */
function numberedWithin(members, allJoins, allLoops) {
  const numberOf = new Map(members.map((mark, number) => [mark, number]));
  const isField = loop => loop.length > 2 && loop.every(mark => numberOf.has(mark));
  const fields = members.length > MOST_WITH_FIELDS ? [] : allLoops.filter(isField);
  return {
    joins: allJoins.filter(({ one }) => numberOf.has(one))
      .map(({ one, other, drawn }) => ({ one: numberOf.get(one), other: numberOf.get(other), drawn })),
    loops: fields.map(loop => loop.map(mark => numberOf.get(mark))),
  };
}

/** The network of some whole pieces. Its marks are numbered anew: `members` tells which they are. */
export function networkOf(members, allJoins, allLoops) {
  const count = members.length;
  const { joins, loops } = numberedWithin(members, allJoins, allLoops);
  const joinsAt = joinsFrom(count, joins);
  const wanted = wantedDistances(joinsAt);
  return {
    members,
    count,
    marks: members.map((_, number) => number),
    isFixed: new Uint8Array(count),
    x: new Float64Array(count),
    y: new Float64Array(count),
    wanted,
    weight: wanted.map(distance => (distance > 0 ? 1 / (distance * distance) : 0)),   // none between pieces
    ones: Int32Array.from(joins, ({ one }) => one),
    others: Int32Array.from(joins, ({ other }) => other),
    joined: farMarks(joinsAt),
    linesAt: numbersBy(count, joins.map(({ one, other }) => [one, other])),
    loops,
    isOnLoop: loops.map(loop => flagsOf(count, loop)),
    crossingCharge: CROSSING_CHARGE,
    effort: 0,   // how many steps are left: a clock would make pictures differ from machine to machine
  };
}
