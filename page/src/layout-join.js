// What comes to marks that have places: new marks, and marks or whole parts that a new line joins to them from afar.
import { chargeOfMarks } from './layout-charge.js';
import { DIRECTIONS } from './layout-climb.js';
import { flagsOf, reachedFrom } from './layout-network.js';

/** A line so many times longer than wanted has just joined what was apart. */
const LOOSE_LINE = 2;
/** If more lines than this, and this share of them, are so many times too long, places from before mean nothing. */
const FEW_LINES = 8;
const LARGE_SHARE = 0.3;
const FAR_TOO_LONG = 2.5;
const NO_DIRECTION = 0.01;

/** Whether most of a piece was not joined before, as when many lines are pasted for marks that were alone. */
export function isScattered(piece, joins, places) {
  const own = joins.filter(({ one, other }) => piece.includes(one) && places[one] && places[other]);
  const long = own.filter(({ one, other, drawn }) => {
    const dx = places[other][0] - places[one][0], dy = places[other][1] - places[one][1];
    return Math.sqrt(dx * dx + dy * dy) > FAR_TOO_LONG * drawn;
  });
  return long.length > FEW_LINES && long.length > LARGE_SHARE * own.length;
}

/** How many times longer than wanted a line is. */
export function stretchOf({ count, x, y, ones, others, wanted }, line) {
  const one = ones[line], other = others[line], dx = x[other] - x[one], dy = y[other] - y[one];
  return Math.sqrt(dx * dx + dy * dy) / wanted[one * count + other];
}

/** Gives places to marks that have none, each outward of a mark that it is joined to; returns these marks. */
export function placeNewMarks(network, isPlaced) {
  const { marks, joined } = network;
  const placed = marks.filter(mark => isPlaced[mark]);
  const found = [];
  for (const from of placed) {   // grows while it is read, so that a chain of new marks is placed from its start
    for (const mark of joined[from]) {
      if (isPlaced[mark]) continue;
      placeOutward(network, mark, from, joined[from].filter(each => isPlaced[each]));
      isPlaced[mark] = 1;
      placed.push(mark);
      found.push(mark);
    }
  }
  return found.sort((p, q) => p - q);
}

/** Places a mark at its distance from another, away from the marks around that; with none around, in any direction. */
function placeOutward({ count, x, y, wanted }, mark, from, around) {
  const dx = around.reduce((sum, each) => sum + x[from] - x[each], 0);
  const dy = around.reduce((sum, each) => sum + y[from] - y[each], 0);
  const length = Math.sqrt(dx * dx + dy * dy), distance = wanted[from * count + mark];
  const [cosine, sine] = length > NO_DIRECTION ? [dx / length, dy / length] : DIRECTIONS[mark % DIRECTIONS.length];
  x[mark] = x[from] + distance * cosine;
  y[mark] = y[from] + distance * sine;
}

/** Brings near what hangs on a single loose line, the smaller part to the larger; returns marks that came alone. */
export function bringNear(network) {
  const alone = [];
  for (let line = 0; line < network.ones.length && network.effort > 0; line++) {
    if (stretchOf(network, line) < LOOSE_LINE) continue;
    const side = movableSide(network, line);
    if (!side) continue;
    shiftPart(network, side);
    if (side.part.length === 1) alone.push(side.end);
  }
  return alone;
}

/** The smaller side of a line; null if it has a fixed mark, which was put there, or if another way joins the sides. */
function movableSide(network, line) {
  const { ones, others, isFixed } = network;
  const one = ones[line], other = others[line];
  if (isFixed[one] || isFixed[other]) return null;
  const sides = [[other, one], [one, other]]
    .map(([end, anchor]) => ({ end, anchor, part: partBehind(network, end, anchor) }));
  if (sides.some(({ part }) => !part)) return null;
  const [smaller] = sides.sort((p, q) => p.part.length - q.part.length);
  return smaller.part.some(mark => isFixed[mark]) ? null : smaller;
}

/** The marks behind one end of a line, or null if they are joined to its other end by another way too. */
function partBehind({ count, joined }, end, anchor) {
  const part = reachedFrom(joined, end, flagsOf(count, [anchor]));
  const isInPart = flagsOf(count, part);
  return joined[anchor].some(mark => mark !== end && isInPart[mark]) ? null : part;
}

/** Moves a part as it is so that its end of the line is as far from the other end as wanted, in the best direction. */
function shiftPart(network, { part, end, anchor }) {
  const { count, x, y, wanted } = network;
  const distance = wanted[end * count + anchor];
  const offsets = part.map(mark => [x[mark] - x[end], y[mark] - y[end]]);
  const shiftTo = ([cosine, sine]) => part.forEach((mark, index) => {
    x[mark] = x[anchor] + distance * cosine + offsets[index][0];
    y[mark] = y[anchor] + distance * sine + offsets[index][1];
  });
  let least = Infinity, best = DIRECTIONS[0];
  for (const direction of DIRECTIONS) {
    shiftTo(direction);
    const charge = chargeOfMarks(network, part, least);
    if (charge < least) [least, best] = [charge, direction];
  }
  shiftTo(best);
}
