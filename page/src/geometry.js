// Curves, fields and room in the picture. This is drawing: no number of a report comes from it. A point is [x, y]; a bow is a curve
// from one point over a second, which pulls it, to a third; a box is [x, y, width, height] around its middle.

export const distance = ([px, py], [qx, qy]) => Math.sqrt((px - qx) ** 2 + (py - qy) ** 2);

const mix = ([px, py], [qx, qy], u) => [px + (qx - px) * u, py + (qy - py) * u];

/** The point of a bow at u, from 0 to 1. */
export const along = ([p, pull, q], u) => mix(mix(p, pull, u), mix(pull, q, u), u);

/** A bow between two points whose middle is so far to the side of the straight way. */
export function bowBetween(p, q, bend) {
  const length = distance(p, q) || 1;
  const [mx, my] = mix(p, q, 0.5);
  const [nx, ny] = [(p[1] - q[1]) / length, (q[0] - p[0]) / length];
  return [p, [mx + 2 * bend * nx, my + 2 * bend * ny], q];
}

/** The outline of a chain of bows, as points. */
export const outline = bows => bows.flatMap(bow => [0, 0.25, 0.5, 0.75].map(u => along(bow, u)));

/** Calls back with each side of an outline. */
function eachSide(points, visit) {
  points.forEach((q, i) => visit(points[i === 0 ? points.length - 1 : i - 1], q));
}

export function areaOf(points) {
  let twice = 0;
  eachSide(points, (p, q) => { twice += p[0] * q[1] - p[1] * q[0]; });
  return Math.abs(twice) / 2;
}

function isInside([x, y], points) {
  let inside = false;
  eachSide(points, ([px, py], [qx, qy]) => {
    if ((py > y) !== (qy > y) && x < (qx - px) * (y - py) / (qy - py) + px) inside = !inside;
  });
  return inside;
}

/** How far a point is from a straight way. */
function fromSide(point, p, q) {
  const [vx, vy] = [q[0] - p[0], q[1] - p[1]];
  const u = ((point[0] - p[0]) * vx + (point[1] - p[1]) * vy) / (vx * vx + vy * vy || 1);
  return distance(point, mix(p, q, Math.min(1, Math.max(0, u))));
}

/** The box around points: its least and its greatest corner. */
export function boxAround(points) {
  const [xs, ys] = [points.map(([x]) => x), points.map(([, y]) => y)];
  return [[Math.min(...xs), Math.min(...ys)], [Math.max(...xs), Math.max(...ys)]];
}

export const centreOf = points =>
  [0, 1].map(axis => points.reduce((sum, point) => sum + point[axis], 0) / points.length);

const GRID = 16;

/** How far a point is from a box; to the side less, since what comes there is wider than high. */
const fromBox = ([x, y], [bx, by, width, height]) =>
  distance([0.6 * Math.max(0, Math.abs(x - bx) - width / 2), Math.max(0, Math.abs(y - by) - height / 2)], [0, 0]);

/** The place inside an outline that has most room around it, from its sides and from boxes, and how much room that is. */
export function roomiest(points, boxes) {
  const [low, high] = boxAround(points);
  let best = { place: centreOf(points), room: 0 };
  for (let cell = 0; cell < GRID * GRID; cell++) {
    const [u, v] = [(cell % GRID + 0.5) / GRID, (Math.floor(cell / GRID) + 0.5) / GRID];
    const place = [low[0] + (high[0] - low[0]) * u, low[1] + (high[1] - low[1]) * v];
    if (!isInside(place, points)) continue;
    let room = Infinity;
    eachSide(points, (p, q) => { room = Math.min(room, fromSide(place, p, q)); });
    for (const box of boxes) room = Math.min(room, fromBox(place, box));
    if (room > best.room) best = { place, room };
  }
  return best;
}

/** Whether two boxes meet. */
export const meet = ([px, py, pw, ph], [qx, qy, qw, qh]) =>
  Math.abs(px - qx) * 2 < pw + qw && Math.abs(py - qy) * 2 < ph + qh;
