// A climb in fixed steps: each mark in turn tries places around it and takes the one with the least charge.
import { lookAround } from './layout-around.js';
import { chargeAt, chargeOfMarks } from './layout-charge.js';

const DIAGONAL = Math.sqrt(0.5);
/** Eight directions, as cosine and sine. */
export const DIRECTIONS = [
  [1, 0], [DIAGONAL, DIAGONAL], [0, 1], [-DIAGONAL, DIAGONAL],
  [-1, 0], [-DIAGONAL, -DIAGONAL], [0, -1], [DIAGONAL, -DIAGONAL],
];
const STRIDES = [1, 0.4];
/** By this the directions turn from round to round, so that none is missed for long. */
const ROUND_TURN = [12 / 13, 5 / 13];
const LEAST_GAIN = 1e-6;

/** Moves marks, in rounds, by steps that shrink from `furthest` to `nearest`, where one gains more than `gain`. */
export function climb(network, marks, { rounds, furthest, nearest, gain = LEAST_GAIN }) {
  const [turnCosine, turnSine] = ROUND_TURN;
  let [cosine, sine] = DIRECTIONS[0];
  for (let round = 0; round < rounds; round++) {
    const reach = furthest - (furthest - nearest) * round / Math.max(1, rounds - 1);
    for (const mark of marks) {
      if (network.effort <= 0) return;
      moveMark(network, mark, { reach, cosine, sine, gain });
    }
    [cosine, sine] = [cosine * turnCosine - sine * turnSine, sine * turnCosine + cosine * turnSine];
  }
}

/** Moves a mark to the best of the places around it: one is ahead by (cosine, sine), the others are turned from it. */
function moveMark(network, mark, { reach, cosine, sine, gain }) {
  const { x, y } = network;
  const around = lookAround(network, mark, reach);
  const homeX = x[mark], homeY = y[mark];
  let limit = chargeAt(network, mark, around, Infinity) - gain, bestX = homeX, bestY = homeY;
  for (const [ahead, aside] of DIRECTIONS) {
    for (const stride of STRIDES) {
      x[mark] = homeX + stride * reach * (ahead * cosine - aside * sine);
      y[mark] = homeY + stride * reach * (ahead * sine + aside * cosine);
      const charge = chargeAt(network, mark, around, limit);
      if (charge < limit) [limit, bestX, bestY] = [charge, x[mark], y[mark]];
    }
  }
  x[mark] = bestX;
  y[mark] = bestY;
}

/** Keeps what a change does to the places of some marks only if it gains more than `gain` on them; says whether. */
export function keepIfBetter(network, marks, gain, change) {
  const { x, y } = network;
  const home = marks.map(mark => [x[mark], y[mark]]);
  const limit = chargeOfMarks(network, marks, Infinity) - gain;
  change();
  if (chargeOfMarks(network, marks, limit) < limit) return true;
  marks.forEach((mark, index) => { [x[mark], y[mark]] = home[index]; });
  return false;
}
