// How a piece lies on the page: its longest way across, its lowest mark up and left.

/** A piece this near to round has no longest way: its lines are laid along the page, if they agree on a direction. */
const NEARLY_ROUND = 0.2;
const AGREED = 0.2;
const NEARLY_SQUARE = 0.95;
const RIGHT_ANGLE = [0, 1];

/** Half of the angle with this cosine and sine. */
function halfAngle([cosine, sine]) {
  const along = Math.sqrt(Math.max(0, (1 + cosine) / 2)), across = Math.sqrt(Math.max(0, (1 - cosine) / 2));
  return [along, sine < 0 ? -across : across];
}

/** The angle of the sum of some arrows, and how long the sum is. Where it is nothing the angle is, too. */
function angleOfSum(arrows) {
  const dx = arrows.reduce((sum, arrow) => sum + arrow[0], 0), dy = arrows.reduce((sum, arrow) => sum + arrow[1], 0);
  const length = Math.sqrt(dx * dx + dy * dy);
  return { angle: length > 0 ? [dx / length, dy / length] : [1, 0], length };
}

/** The arrow at twice the angle, with the square of the length: opposite directions become one. */
const doubledArrow = ([dx, dy]) => [dx * dx - dy * dy, 2 * dx * dy];

/** The angle of the longest way, and how far from round the piece is, from 0 to 1. */
function longestWay({ marks, x, y }) {
  const { angle, length } = angleOfSum(marks.map(mark => doubledArrow([x[mark], y[mark]])));
  const size = marks.reduce((sum, mark) => sum + x[mark] * x[mark] + y[mark] * y[mark], 0);
  return { angle: halfAngle(angle), stretch: size > 0 ? length / size : 0 };
}

/** The angle at which most lines lie, but for right angles, and how far they agree, from 0 to 1. */
function commonAngle({ x, y, ones, others }) {
  const arrows = Array.from(ones, (one, line) => {
    const dx = x[others[line]] - x[one], dy = y[others[line]] - y[one], length = Math.sqrt(dx * dx + dy * dy) || 1;
    return doubledArrow(doubledArrow([dx / length, dy / length]));
  });
  const { angle, length } = angleOfSum(arrows);
  return { angle: halfAngle(halfAngle(angle)), agreement: length / (arrows.length || 1) };
}

function centreMarks({ marks, count, x, y }) {
  const mean = places => places.reduce((sum, number) => sum + number, 0) / count;
  const px = mean(x), py = mean(y);
  for (const mark of marks) {
    x[mark] -= px;
    y[mark] -= py;
  }
}

function turnBack({ marks, x, y }, [cosine, sine]) {
  for (const mark of marks) {
    [x[mark], y[mark]] = [cosine * x[mark] + sine * y[mark], cosine * y[mark] - sine * x[mark]];
  }
}

/** Whether a piece should be turned by a right angle: if it is high, or, square, if its numbers do not run in rows. */
function isUpright({ marks, count, x, y }) {
  const width = Math.max(...x) - Math.min(...x), height = Math.max(...y) - Math.min(...y);
  if (Math.min(width, height) < NEARLY_SQUARE * Math.max(width, height)) return height > width;
  const middle = (count - 1) / 2;
  const runAlong = places => Math.abs(marks.reduce((sum, mark) => sum + (mark - middle) * places[mark], 0));
  return runAlong(x) > runAlong(y);
}

/** Turns a piece so that it lies well. */
export function layAcross(network) {
  const { marks, x, y } = network;
  centreMarks(network);
  const way = longestWay(network), common = commonAngle(network);
  turnBack(network, way.stretch < NEARLY_ROUND && common.agreement > AGREED ? common.angle : way.angle);
  if (isUpright(network)) turnBack(network, RIGHT_ANGLE);
  const flipX = x[0] > 0 ? -1 : 1, flipY = y[0] > 0 ? -1 : 1;
  for (const mark of marks) {
    x[mark] *= flipX;
    y[mark] *= flipY;
  }
}
