// Marks that have places already: they move as little as can be.
import { isTangle } from './layout-charge.js';
import { climb, keepIfBetter } from './layout-climb.js';
import { bringNear, placeNewMarks, stretchOf } from './layout-join.js';
import { flagsOf } from './layout-network.js';
import { settle } from './layout-settle.js';
import { moveAcross } from './layout-uncross.js';

/** The effort spent for each mark, as if there were some more. */
const WARM_EFFORT = 20000;
const SOME_MARKS = 10;
/** What a small step and what a large one must gain: less is no reason to move marks that a reader has found. */
const SMALL_STEP_GAIN = 0.05;
const LARGE_STEP_GAIN = 4;
/** A line so many times longer than wanted pulls at the marks around it. */
const STRAINED_LINE = 1.8;

/** Places the marks of a network, some of which have places already, from those. Fixed marks keep theirs. */
export function placeAgain(network, places) {
  const { count, marks, x, y, isFixed } = network;
  const effort = WARM_EFFORT * (count + SOME_MARKS);
  const isPlaced = flagsOf(count, marks.filter(mark => places[mark]));
  for (const mark of marks) if (places[mark]) [x[mark], y[mark]] = places[mark];
  network.effort = effort;
  placeArrivals(network, isPlaced);
  if (isTangle(network)) return;
  easeStrain(network);
  moveAcross(network, LARGE_STEP_GAIN);
  network.effort = effort;
  const free = marks.filter(mark => !isFixed[mark]);
  climb(network, free, { rounds: 3, furthest: 0.15, nearest: 0.05, gain: SMALL_STEP_GAIN });
}

/** New marks and those that were alone find their places among the others, which stay. */
function placeArrivals(network, isPlaced) {
  const found = placeNewMarks(network, isPlaced);
  const alone = bringNear(network);
  settle(network, found, 60);
  climb(network, [...found, ...alone], { rounds: 5, furthest: 1.2, nearest: 0.1 });
}

/** The marks around lines that are much too long: the longer the line, the further around. */
function strainedMarks(network) {
  const { count, marks, wanted, ones, others, isFixed } = network;
  const isStrained = new Uint8Array(count);
  for (let line = 0; line < ones.length; line++) {
    const one = ones[line], other = others[line], stretch = stretchOf(network, line);
    if (stretch < STRAINED_LINE || isFixed[one] || isFixed[other]) continue;
    const length = stretch * wanted[one * count + other];
    for (const mark of marks) {
      if (Math.min(wanted[one * count + mark], wanted[other * count + mark]) < length) isStrained[mark] = 1;
    }
  }
  return marks.filter(mark => isStrained[mark] && !isFixed[mark]);
}

/** Lets marks give way to a line that has closed a loop. */
function easeStrain(network) {
  const strained = strainedMarks(network);
  keepIfBetter(network, strained, LARGE_STEP_GAIN, () => {
    settle(network, strained, 30);
    climb(network, strained, { rounds: 4, furthest: 0.8, nearest: 0.1 });
  });
}
