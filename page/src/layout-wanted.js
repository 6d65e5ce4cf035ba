// How far apart marks should stand in the picture, with a usual line as the unit.
//
// All files of the layout keep to sums, products, quotients and square roots: these are the same to the last bit in
// every browser. Charges are compared, so that a last bit could become another picture.

const SHORTEST_DRAWN = 0.85;
const LONGEST_DRAWN = 1.6;
/** Lines of loops stand wide, so that a badge has room in the field; tails are drawn short: they enclose nothing. */
const CHECKED_STRETCH = 1.1;
const UNCHECKED_STRETCH = 0.72;
/** Longer ways are drawn shorter, so that they bend and leave room. */
const STRAIGHT_WAY = 2;

/** The length at which each line is drawn: by the root of its length beside the median, neither tiny nor huge. */
export function drawnLengths(lines) {
  const lengths = lines.map(line => line.length).sort((p, q) => p - q);
  const median = lengths[lengths.length >> 1];
  return lines.map(line => {
    const root = Math.sqrt(line.length / median);
    const drawn = root > SHORTEST_DRAWN ? Math.min(root, LONGEST_DRAWN) : SHORTEST_DRAWN;
    return drawn * (line.unchecked ? UNCHECKED_STRETCH : CHECKED_STRETCH);
  });
}

/** The shortest ways from one mark to all marks; Infinity to those of another piece. */
function shortestWays(joinsAt, mark) {
  const ways = new Float64Array(joinsAt.length).fill(Infinity);
  const reached = [mark];   // grows while it is read: a mark comes again when a shorter way to it is found
  ways[mark] = 0;
  for (const near of reached) {
    for (const { far, drawn } of joinsAt[near]) {
      if (ways[near] + drawn >= ways[far]) continue;
      ways[far] = ways[near] + drawn;
      reached.push(far);
    }
  }
  return ways;
}

/** A long way to the power of 7/8. */
function shortenedWay(way) {
  if (way <= STRAIGHT_WAY || way === Infinity) return way;
  return way / Math.sqrt(Math.sqrt(Math.sqrt(way / STRAIGHT_WAY)));
}

/** The wanted distance of any two marks, in a table of count times count. */
export function wantedDistances(joinsAt) {
  const count = joinsAt.length;
  const wanted = new Float64Array(count * count);
  for (let mark = 0; mark < count; mark++) {
    const ways = shortestWays(joinsAt, mark);
    for (let other = 0; other < count; other++) wanted[mark * count + other] = shortenedWay(ways[other]);
  }
  return wanted;
}
