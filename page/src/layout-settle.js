// Stress majorization: every mark goes to the mean of the places at which each of the other marks would have it.

const SETTLED = 0.002;
const SAME_PLACE = 1e-6;

/** Moves marks, one after the other, until they stay or the rounds are over. */
export function settle(network, marks, rounds) {
  for (let round = 0; round < rounds; round++) {
    let most = 0;
    for (const mark of marks) most = Math.max(most, settleMark(network, mark));
    if (most < SETTLED) return;
  }
}

/** Moves one mark and says how far. The nearer another mark is wanted, the more it weighs. */
function settleMark({ count, x, y, wanted, weight }, mark) {
  const px = x[mark], py = y[mark];
  let sumX = 0, sumY = 0, sum = 0;
  for (let other = 0, pair = mark * count; other < count; other++, pair++) {
    if (weight[pair] === 0) continue;
    let dx = px - x[other], dy = py - y[other];
    let distance = Math.sqrt(dx * dx + dy * dy);
    if (distance < SAME_PLACE) [dx, dy, distance] = [mark > other ? 1 : -1, 0, 1];
    const stretch = wanted[pair] / distance;
    sumX += weight[pair] * (x[other] + stretch * dx);
    sumY += weight[pair] * (y[other] + stretch * dy);
    sum += weight[pair];
  }
  if (sum === 0) return 0;
  x[mark] = sumX / sum;
  y[mark] = sumY / sum;
  return Math.abs(x[mark] - px) + Math.abs(y[mark] - py);
}

/** Pushes marks apart that are nearer than a distance, and does no more. */
export function moveApart({ count, x, y }, least, rounds) {
  for (let round = 0; round < rounds; round++) {
    for (let mark = 0; mark < count; mark++) {
      for (let other = mark + 1; other < count; other++) {
        const dx = x[other] - x[mark], dy = y[other] - y[mark], square = dx * dx + dy * dy;
        if (square >= least * least || square < SAME_PLACE) continue;
        const push = (least / Math.sqrt(square) - 1) / 2;
        x[mark] -= push * dx;
        y[mark] -= push * dy;
        x[other] += push * dx;
        y[other] += push * dy;
      }
    }
  }
}
