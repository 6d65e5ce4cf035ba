// What the tolerance allows a loop, or the classes of its lines do: asked of the core, so that it stays right when the rule of the verdict
// changes. A side is what counts of a line: its length and its class.

const KEPT = 20_000;
const kept = new Map();
const NONE = new BigInt64Array(0);
// By class, in tenths of mm per root km.
const TOLERANCES = [40n, 50n, 60n, 80n, 120n];

/** Whether the core calls a ring of these sides within, if its misclosure is m. */
function isWithin(core, { version, tolerance }, sides, m) {
  const marks = BigInt(sides.length);
  const lines = sides.flatMap(([length, itsClass], i) => {
    const from = BigInt(i + 1);
    return [from, from === marks ? 1n : from + 1n, i === 0 ? m : 0n, length, 1n, itsClass];
  });
  const { number, report } = core.survey({ version, marks, tolerance, held: NONE, lines });
  return number === 0 && report[4] === 0n;
}

/** A first guess by a root. It counts only if the core says that it is right. */
function guess({ tolerance }, sides) {
  const allows = sides.reduce((all, [length, itsClass]) => {
    const own = TOLERANCES[itsClass] ?? tolerance;
    return all + own * own * (length < 250n ? 250n : length);
  }, 0n);
  return BigInt(Math.floor(Math.sqrt(Number(10n * allows))));
}

/** The greatest misclosure within, between one that is and one that is not. */
function between(within, low, high) {
  while (high - low > 1n) {
    const middle = (low + high) / 2n;
    if (within(middle)) low = middle;
    else high = middle;
  }
  return low;
}

function greatestWithin(within, first) {
  if (within(first) && !within(first + 1n)) return first;
  let high = 1n;
  while (within(high)) high *= 2n;
  return between(within, high / 2n, high);
}

/** The greatest misclosure that the core calls within, of a loop with these sides in a book of this version and tolerance. */
export function allowedFor(core, book, sides) {
  const key = `${book.tolerance}:${sides.join()}`;
  if (!kept.has(key)) {
    if (kept.size >= KEPT) kept.clear();
    kept.set(key, greatestWithin(m => isWithin(core, book, sides, m), guess(book, sides)));
  }
  return kept.get(key);
}
