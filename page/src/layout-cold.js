// A piece placed from nothing.
import { chargeOfMarks, crossingsOf, isTangle } from './layout-charge.js';
import { climb } from './layout-climb.js';
import { moveApart, settle } from './layout-settle.js';
import { circledPlaces, spectralPlaces } from './layout-starts.js';
import { layAcross } from './layout-turn.js';
import { moveAcross, turnParts } from './layout-uncross.js';

/** The effort for each line and each mark of a piece, as if there were more marks: a small network is worth it. */
const LINE_EFFORT = 16000;
const MARK_EFFORT = 20000;
const MORE_MARKS = 12;
/** Up to so many marks further starts are tried, and settling goes on to its end. */
const MANY_STARTS = 40;
const TWO_STARTS = 80;
const SETTLED_TO_THE_END = 100;
/** While a piece is new, every gain is worth a move. */
const ANY_GAIN = 0.01;
/** How far apart marks should stand, and how far they must, so that their numbers can be read. */
const CLEAR = 0.6;
const BARELY_CLEAR = 0.35;

/** Places the marks of a piece, one of so many marks in all. */
export function placeAnew(piece, marksInAll) {
  const { marks, count, ones } = piece;
  const effort = LINE_EFFORT * ones.length + MARK_EFFORT * count * (1 + MORE_MARKS / marksInAll);
  piece.effort = effort;
  [piece.x, piece.y] = bestPlaces(piece);
  piece.effort = effort / 2;
  if (!isTangle(piece)) climb(piece, marks, { rounds: 3, furthest: 0.25, nearest: 0.06 });
  moveApart(piece, BARELY_CLEAR, 30);
  layAcross(piece);
}

/** The best places from several starts. A further one is tried only while lines cross. */
function bestPlaces(piece) {
  let best = null;
  for (const start of startsFor(piece.count)) {
    [piece.x, piece.y] = start(piece);
    improvePlaces(piece);
    const found = scoredPlaces(piece);
    if (!best || isLess(found, best)) best = found;
    if (best.crossings === 0 || piece.effort <= 0) break;
  }
  return [best.x, best.y];
}

function startsFor(count) {
  const circles = count <= MANY_STARTS ? 3 : count <= TWO_STARTS ? 1 : 0;
  const circled = Array.from({ length: circles }, (_, circle) => piece => circledPlaces(piece, circle + 1));
  return [spectralPlaces, ...circled];
}

function scoredPlaces(piece) {
  const { marks, x, y } = piece;
  return { crossings: crossingsOf(piece).length, charge: chargeOfMarks(piece, marks, Infinity), x, y };
}

const isLess = (p, q) => p.crossings < q.crossings || (p.crossings === q.crossings && p.charge < q.charge);

/** From a start to places as good as the effort allows. */
function improvePlaces(piece) {
  const { marks, count } = piece;
  settle(piece, marks, count > SETTLED_TO_THE_END ? 40 : 120);
  const isHopeless = isTangle(piece);
  if (isHopeless) moveApart(piece, CLEAR, 20);
  climb(piece, marks, { rounds: 5, furthest: 1.66, nearest: 0.2 });
  if (isHopeless) return;
  const kept = count <= TWO_STARTS ? piece.effort / 2 : 0;   // for another start
  piece.effort -= kept;
  uncross(piece);
  piece.effort += kept;
}

function uncross(piece) {
  const crossings = crossingsOf(piece);
  if (crossings.length === 0) return;
  if (turnParts(piece, crossings)) climb(piece, piece.marks, { rounds: 4, furthest: 0.6, nearest: 0.1 });
  moveAcross(piece, ANY_GAIN);
}
