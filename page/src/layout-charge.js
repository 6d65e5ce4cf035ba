// What a picture is charged at one mark: distances that are not as wanted, marks that touch, lines that pass too near
// to a mark, lines that cross, and marks in the field of a loop that does not pass them. A crossing is the worst, then
// a mark on a line.
import { SIGHT, lookAround } from './layout-around.js';

const CLOSE_MARKS = SIGHT;
const CLOSE_MARKS_CHARGE = 30;
const CLOSE_LINE = 0.5;
const CLOSE_LINE_CHARGE = 25;
const FIELD_CHARGE = 2;

/** The charge at a mark where it stands. From the limit on it is worked out no further: such a place is not taken. */
export function chargeAt(network, mark, around, limit) {
  const lines = network.linesAt[mark];
  network.effort -= around.effort;
  let charge = chargeOfDistances(network, mark);
  if (charge < limit) charge += chargeOfPassingLines(network, mark, around.lines);
  for (let index = 0; index < lines.length && charge < limit; index++) {
    charge += chargeOfLine(network, lines[index], around);
  }
  if (charge < limit) charge += chargeOfFields(network, mark, around);
  return charge;
}

/** The charge at some marks together, up to the limit. */
export function chargeOfMarks(network, marks, limit) {
  let charge = 0;
  for (let index = 0; index < marks.length && charge < limit; index++) {
    charge += chargeAt(network, marks[index], lookAround(network, marks[index], 0), limit - charge);
  }
  return charge;
}

function chargeOfDistances({ count, x, y, wanted, weight }, mark) {
  const px = x[mark], py = y[mark];
  let charge = 0;
  for (let other = 0, pair = mark * count; other < count; other++, pair++) {
    if (other === mark) continue;
    const dx = px - x[other], dy = py - y[other];
    const distance = Math.sqrt(dx * dx + dy * dy);
    if (weight[pair] > 0) charge += weight[pair] * (distance - wanted[pair]) * (distance - wanted[pair]);
    if (distance < CLOSE_MARKS) charge += CLOSE_MARKS_CHARGE * (CLOSE_MARKS - distance) * (CLOSE_MARKS - distance);
  }
  return charge;
}

/** The charge of a mark that stands by (dx, dy) from the start of a line which runs by (vx, vy). */
function chargeOfPassing(dx, dy, vx, vy) {
  const square = vx * vx + vy * vy, across = dx * vy - dy * vx;
  if (across * across > CLOSE_LINE * CLOSE_LINE * square) return 0;
  const along = square > 0 ? (dx * vx + dy * vy) / square : 0;
  const part = along < 0 ? 0 : along > 1 ? 1 : along;
  const ex = dx - part * vx, ey = dy - part * vy;
  const distance = Math.sqrt(ex * ex + ey * ey);
  return distance < CLOSE_LINE ? CLOSE_LINE_CHARGE * (CLOSE_LINE - distance) * (CLOSE_LINE - distance) : 0;
}

function chargeOfPassingLines({ x, y, ones, others }, mark, lines) {
  const px = x[mark], py = y[mark];
  let charge = 0;
  for (let index = 0; index < lines.length; index++) {
    const one = ones[lines[index]], other = others[lines[index]];
    charge += chargeOfPassing(px - x[one], py - y[one], x[other] - x[one], y[other] - y[one]);
  }
  return charge;
}

/** The charge of one line of the mark: other marks that it passes, lines that it crosses. */
function chargeOfLine(network, line, { marks, lines }) {
  const { x, y, ones, others } = network;
  const one = ones[line], other = others[line];
  const px = x[one], py = y[one], vx = x[other] - px, vy = y[other] - py;
  let charge = 0;
  for (let index = 0; index < marks.length; index++) {
    const mark = marks[index];
    if (mark !== one && mark !== other) charge += chargeOfPassing(x[mark] - px, y[mark] - py, vx, vy);
  }
  for (let index = 0; index < lines.length; index++) {
    if (linesCross(network, line, lines[index])) charge += network.crossingCharge;
  }
  return charge;
}

/** Whether two lines cross. Lines with a mark in common do not: there the first product is zero, exactly. */
function linesCross({ x, y, ones, others }, first, second) {
  const px = x[ones[first]], py = y[ones[first]], vx = x[others[first]] - px, vy = y[others[first]] - py;
  const ax = x[ones[second]] - px, ay = y[ones[second]] - py;
  const bx = x[others[second]] - px, by = y[others[second]] - py;
  if ((vx * ay - vy * ax) * (vx * by - vy * bx) >= 0) return false;
  const wx = bx - ax, wy = by - ay;
  return (wy * ax - wx * ay) * (wx * (vy - ay) - wy * (vx - ax)) < 0;
}

/** All pairs of lines that cross. */
export function crossingsOf(network) {
  const found = [], lines = network.ones.length;
  for (let first = 0; first < lines; first++) {
    for (let second = first + 1; second < lines; second++) {
      if (linesCross(network, first, second)) found.push([first, second]);
    }
  }
  return found;
}

/** With so many crossings no picture is clear, and little is spent on it. */
export const isTangle = network => crossingsOf(network).length > 2 * network.ones.length;

function chargeOfFields(network, mark, { fields, ownFields }) {
  const { x, y } = network;
  let charge = 0;
  for (const loop of fields) {
    if (isInField(network, loop, x[mark], y[mark])) charge += FIELD_CHARGE;
  }
  for (const { loop, marks } of ownFields) {
    for (const other of marks) {
      if (isInField(network, loop, x[other], y[other])) charge += FIELD_CHARGE;
    }
  }
  return charge;
}

/** Whether a place is in the field of a loop: a ray from it to the right crosses the loop an odd number of times. */
function isInField({ x, y }, loop, px, py) {
  let inside = false;
  for (let index = 0, last = loop[loop.length - 1]; index < loop.length; last = loop[index], index++) {
    const mark = loop[index];
    if ((y[mark] > py) === (y[last] > py)) continue;
    if (px < x[mark] + (x[last] - x[mark]) * (py - y[mark]) / (y[last] - y[mark])) inside = !inside;
  }
  return inside;
}
