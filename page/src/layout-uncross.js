// What a climb leaves crossed, since each single step out of it is worse at first. Larger steps are tried: a part of
// the network is turned about the one or two marks on which it hangs, its hinges; or a mark of a crossing is put on
// the other side.
import { crossingsOf } from './layout-charge.js';
import { DIRECTIONS, climb, keepIfBetter } from './layout-climb.js';
import { CROSSING_CHARGE, flagsOf, reachedFrom } from './layout-network.js';

/** Two hinges lie on one field, and so near each other. */
const FURTHEST_HINGES = 3;
const TURN_GAIN = 0.01;
const NEIGHBOURHOOD = 1.2;
const MOST_PASSES = 3;

/** Turns parts that cross the rest; says whether any stays turned. */
export function turnParts(network, crossings) {
  const { marks, count, wanted } = network;
  let any = false;
  network.crossingCharge = 2 * CROSSING_CHARGE;   // distances can mend later, crossings cannot
  for (const first of marks) {
    for (const second of marks.slice(first)) {
      if (wanted[first * count + second] > FURTHEST_HINGES || network.effort <= 0) continue;
      const parts = partsBehind(network, first, second).filter(part => crossesTheRest(network, part, crossings));
      for (const part of parts) any = turnPart(network, part, first, second) || any;
    }
  }
  network.crossingCharge = CROSSING_CHARGE;
  return any;
}

/** Whether a line of a part crosses one that is not of the part. */
function crossesTheRest({ count, ones, others }, part, crossings) {
  const isInPart = flagsOf(count, part);
  const isOfPart = line => isInPart[ones[line]] === 1 || isInPart[others[line]] === 1;
  return crossings.some(([first, second]) => isOfPart(first) !== isOfPart(second));
}

/** What hangs together when the hinges are taken out, but for the largest part, which stays. */
function partsBehind({ count, joined }, first, second) {
  const isSeen = flagsOf(count, [first, second]);
  const parts = [];
  for (const start of [...joined[first], ...joined[second]]) {
    if (!isSeen[start]) parts.push(reachedFrom(joined, start, isSeen));
  }
  return parts.sort((p, q) => p.length - q.length).slice(0, -1);
}

function turnPart(network, part, first, second) {
  let any = false;
  for (const turn of turnsOf(network, part, first, second)) {
    any = keepIfBetter(network, part, TURN_GAIN, () => turnMarks(network, part, turn)) || any;
  }
  return any;
}

/** The reflection in the line through (px, py) that runs by (dx, dy). */
function reflectionIn(px, py, dx, dy) {
  const square = dx * dx + dy * dy || 1;
  return { px, py, cosine: (dx * dx - dy * dy) / square, sine: 2 * dx * dy / square, flip: -1 };
}

/** A part is flipped in its own length or over its two hinges; about a single hinge it is turned in all directions. */
function turnsOf({ x, y }, part, first, second) {
  const px = (x[first] + x[second]) / 2, py = (y[first] + y[second]) / 2;
  const dx = part.reduce((sum, mark) => sum + x[mark] - px, 0), dy = part.reduce((sum, mark) => sum + y[mark] - py, 0);
  const inLength = reflectionIn(px, py, dx, dy);
  if (first !== second) return [inLength, reflectionIn(px, py, x[second] - x[first], y[second] - y[first])];
  const around = flip => DIRECTIONS.map(([cosine, sine]) => ({ px, py, cosine, sine, flip }));
  return [inLength, ...around(1), ...around(-1)];
}

function turnMarks({ x, y }, marks, { px, py, cosine, sine, flip }) {
  for (const mark of marks) {
    const dx = x[mark] - px, dy = flip * (y[mark] - py);
    x[mark] = px + cosine * dx - sine * dy;
    y[mark] = py + sine * dx + cosine * dy;
  }
}

/** Puts marks of crossings elsewhere where it gains enough, and looks again at what is crossed then. */
export function moveAcross(network, gain) {
  for (let pass = 0; pass < MOST_PASSES; pass++) {
    const moved = crossingsOf(network).filter(([first, second]) => isMovedAcross(network, first, second, gain));
    if (moved.length === 0) return;
  }
}

/** Tries the ways out of one crossing, each with a short climb of the marks around; says whether one of them stays. */
function isMovedAcross(network, first, second, gain) {
  if (network.effort <= 0) return false;
  const marks = marksNear(network, first, second);
  const isKept = change => network.effort > 0 && keepIfBetter(network, marks, gain, () => {
    change();
    climb(network, marks, { rounds: 4, furthest: 0.76, nearest: 0.2 });
  });
  return changesFor(network, first, second).some(isKept);
}

/** Ways out of a crossing: one of the four marks goes over the other line, or two are exchanged. Fixed marks stay. */
function changesFor(network, first, second) {
  const { x, y, ones, others, isFixed } = network;
  const over = line => mark => () => {
    const one = ones[line], other = others[line];
    turnMarks(network, [mark], reflectionIn(x[one], y[one], x[other] - x[one], y[other] - y[one]));
  };
  const exchange = (p, q) => () => { [x[p], x[q], y[p], y[q]] = [x[q], x[p], y[q], y[p]]; };
  const endsOf = line => [ones[line], others[line]].filter(mark => !isFixed[mark]);
  return [
    ...endsOf(first).map(over(second)),
    ...endsOf(second).map(over(first)),
    ...endsOf(first).flatMap(p => endsOf(second).map(q => exchange(p, q))),
  ];
}

/** The marks of two lines and those around, but for fixed ones. */
function marksNear({ marks, x, y, ones, others, isFixed }, first, second) {
  const ends = [ones[first], others[first], ones[second], others[second]];
  const px = ends.reduce((sum, mark) => sum + x[mark], 0) / ends.length;
  const py = ends.reduce((sum, mark) => sum + y[mark], 0) / ends.length;
  const isNear = mark => {
    const dx = x[mark] - px, dy = y[mark] - py;
    return dx * dx + dy * dy < NEIGHBOURHOOD * NEIGHBOURHOOD;
  };
  return marks.filter(mark => !isFixed[mark] && (ends.includes(mark) || isNear(mark)));
}
