// Places to start from. They are fixed: the same network is drawn the same each time.

const SPECTRAL_ROUNDS = 30;
/** The turn by the golden angle, and the golden ratio: no two of their multiples come near each other soon. */
const GOLDEN_COSINE = -0.7373688780783197;
const GOLDEN_SINE = 0.6754902942615238;
const GOLDEN_RATIO = 0.6180339887498949;
/** Marks must not start one on the other. */
const SCATTER = 0.002;

/** A number from -0.5 to 0.5 for each mark, without a pattern. */
const scattered = mark => (mark + 1) * GOLDEN_RATIO - Math.floor((mark + 1) * GOLDEN_RATIO) - 0.5;

/** Wanted distances squared and centred: the scalar products of places that have just these distances. */
function scalarProducts({ count, wanted }) {
  const products = new Float64Array(count * count);
  const means = new Float64Array(count);
  let mean = 0;
  for (let mark = 0, pair = 0; mark < count; mark++) {
    for (let other = 0; other < count; other++, pair++) means[mark] += wanted[pair] * wanted[pair] / count;
    mean += means[mark] / count;
  }
  for (let mark = 0, pair = 0; mark < count; mark++) {
    for (let other = 0; other < count; other++, pair++) {
      products[pair] = (means[mark] + means[other] - mean - wanted[pair] * wanted[pair]) / 2;
    }
  }
  return products;
}

function scalarProduct(p, q) {
  let sum = 0;
  for (let mark = 0; mark < p.length; mark++) sum += p[mark] * q[mark];
  return sum;
}

/** The product of a table with an axis. */
function timesAxis(table, axis) {
  const count = axis.length, product = new Float64Array(count);
  for (let mark = 0, pair = 0; mark < count; mark++) {
    let sum = 0;
    for (let other = 0; other < count; other++, pair++) sum += table[pair] * axis[other];
    product[mark] = sum;
  }
  return product;
}

/** The longest axis of a table, by repeated products, at right angles to another if there is one; and its length. */
function longestAxis(table, count, other) {
  let axis = Float64Array.from({ length: count }, (_, mark) => scattered(mark));
  let length = 0;
  for (let round = 0; round < SPECTRAL_ROUNDS; round++) {
    const along = other ? scalarProduct(axis, other) : 0;
    if (other) for (let mark = 0; mark < count; mark++) axis[mark] -= along * other[mark];
    axis = timesAxis(table, axis);
    length = Math.sqrt(scalarProduct(axis, axis)) || 1;
    for (let mark = 0; mark < count; mark++) axis[mark] /= length;
  }
  return { axis, length };
}

/** Classical scaling: the two longest axes of the wanted distances. */
export function spectralPlaces(network) {
  const table = scalarProducts(network);
  const first = longestAxis(table, network.count, null);
  const second = longestAxis(table, network.count, first.axis);
  const root = Math.sqrt(first.length), secondRoot = Math.sqrt(second.length);
  return [
    first.axis.map(number => number * root),
    second.axis.map((number, mark) => number * secondRoot + scattered(mark) * SCATTER),
  ];
}

/** Marks around a circle, each so many golden turns from the last. */
export function circledPlaces({ count }, turns) {
  const radius = Math.sqrt(count);
  const x = new Float64Array(count), y = new Float64Array(count);
  let cosine = 1, sine = 0;
  for (let mark = 0; mark < count; mark++) {
    for (let turn = 0; turn < turns; turn++) {
      [cosine, sine] = [cosine * GOLDEN_COSINE - sine * GOLDEN_SINE, sine * GOLDEN_COSINE + cosine * GOLDEN_SINE];
    }
    x[mark] = radius * cosine;
    y[mark] = radius * sine;
  }
  return [x, y];
}
