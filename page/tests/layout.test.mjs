// Where marks stand in the picture: the same each time, apart from each other, with as few crossings as can be, and
// with little movement when a book goes on.
import assert from 'node:assert/strict';
import { test } from 'node:test';
import { UNIT, placeMarks } from '../src/layout.js';

// Networks: how many marks, and lines from 0 as [from, to, length], tails told by `unchecked`.

const line = ([from, to, length, unchecked = false]) => ({ from, to, length, unchecked });
const network = (marks, lines, loops = []) => ({ marks, lines: lines.map(line), loops });

const WORKED = network(5, [
  [0, 2, 1600], [1, 2, 2500], [4, 1, 1000], [4, 0, 4000], [0, 3, 1600], [3, 2, 1250], [4, 3, 2000],
], [[3, 2, 0], [4, 0, 3], [4, 1, 2, 3]]);

/** Numbers from 0 to 1, the same each time. */
function numbersFrom(seed) {
  let state = seed;
  return () => {
    state = (Math.imul(state, 1664525) + 1013904223) >>> 0;
    return state / 2 ** 32;
  };
}

function gridOf(width, height) {
  const lines = [], loops = [];
  for (let mark = 0; mark < width * height; mark++) {
    const isLast = mark % width === width - 1, isLowest = mark >= width * (height - 1);
    if (!isLast) lines.push([mark, mark + 1, 500]);
    if (!isLowest) lines.push([mark, mark + width, 600]);
    if (!isLast && !isLowest) loops.push([mark, mark + 1, mark + width + 1, mark + width]);
  }
  return network(width * height, lines, loops);
}

function ringOf(marks, tail = 0) {
  const ring = Array.from({ length: marks }, (_, mark) => [mark, (mark + 1) % marks, 500]);
  const lines = Array.from({ length: tail }, (_, i) => [i === 0 ? 0 : marks + i - 1, marks + i, 700, true]);
  return network(marks + tail, [...ring, ...lines], [ring.map(([from]) => from)]);
}

function treeOf(marks, seed) {
  const next = numbersFrom(seed);
  return network(marks, Array.from({ length: marks - 1 }, (_, i) =>
    [Math.floor(next() * (i + 1)), i + 1, 300 + Math.floor(900 * next()), true]));
}

const isSeparate = (a, b, c, d) => new Set([a, b, c, d]).size === 4;
const side = (p, q, r) => Math.sign((q[0] - p[0]) * (r[1] - p[1]) - (q[1] - p[1]) * (r[0] - p[0]));
const isCrossing = (places, [a, b], [c, d]) => isSeparate(a, b, c, d)
  && side(places[a], places[b], places[c]) !== side(places[a], places[b], places[d])
  && side(places[c], places[d], places[a]) !== side(places[c], places[d], places[b]);

/** Streets between marks in a plane: a tree of the shortest ones, and some more that cross none. */
function townOf(marks, seed) {
  const next = numbersFrom(seed);
  const plan = Array.from({ length: marks }, () => [next(), next()]);
  const ways = plan.flatMap((_, a) => plan.slice(0, a).map((__, b) => [b, a, Math.ceil(6000 * between(plan, a, b))]));
  ways.sort((p, q) => p[2] - q[2]);
  const root = plan.map((_, mark) => mark);
  const tree = ways.filter(([a, b]) => {
    const [one, other] = [root[a], root[b]];
    root.forEach((each, mark) => { if (each === one) root[mark] = other; });
    return one !== other;
  });
  const lines = tree.slice();
  for (const way of ways.filter(each => !tree.includes(each))) {
    const isTaken = lines.length < 1.45 * marks && next() < 0.6;
    if (isTaken && !lines.some(each => isCrossing(plan, each, way))) lines.push(way);
  }
  return network(marks, lines);
}

function thrown(marks, lines, seed) {
  const next = numbersFrom(seed);
  return network(marks, Array.from({ length: lines }, () => {
    const from = Math.floor(next() * marks);
    return [from, (from + 1 + Math.floor(next() * (marks - 1))) % marks, 10 + Math.floor(next() * 99991)];
  }));
}

/** The lines of a network with other marks. */
const shifted = ({ lines }, by) => lines.map(each => ({ ...each, from: each.from + by, to: each.to + by }));

// What is seen in a picture.

const between = (places, a, b) => Math.sqrt((places[a][0] - places[b][0]) ** 2 + (places[a][1] - places[b][1]) ** 2);
const pairsOf = marks => Array.from({ length: marks }, (_, a) => Array.from({ length: a }, (__, b) => [b, a])).flat();
const nearest = places => Math.min(...pairsOf(places.length).map(([a, b]) => between(places, a, b))) / UNIT;
const furthestMove = (before, after) =>
  Math.max(...before.map((place, mark) => between([place, after[mark]], 0, 1))) / UNIT;

function crossingsIn({ lines }, places) {
  const ways = lines.map(({ from, to }) => [from, to]);
  return pairsOf(ways.length).filter(([p, q]) => isCrossing(places, ways[p], ways[q])).length;
}

function fromLine(places, mark, { from, to }) {
  const [p, q, r] = [places[from], places[to], places[mark]];
  const [vx, vy] = [q[0] - p[0], q[1] - p[1]];
  const along = ((r[0] - p[0]) * vx + (r[1] - p[1]) * vy) / (vx * vx + vy * vy);
  const part = Math.min(1, Math.max(0, along));
  return between([[p[0] + part * vx, p[1] + part * vy], r], 0, 1) / UNIT;
}

const nearestToLine = ({ lines }, places) => Math.min(...lines.flatMap(each =>
  places.map((_, mark) => (mark === each.from || mark === each.to ? Infinity : fromLine(places, mark, each)))));

function isInside(places, mark, loop) {
  const [px, py] = places[mark];
  return loop.filter((each, i) => {
    const [[ax, ay], [bx, by]] = [places[each], places[loop[(i + 1) % loop.length]]];
    return (ay > py) !== (by > py) && px < ax + (bx - ax) * (py - ay) / (by - ay);
  }).length % 2 === 1;
}

function boxOf(places) {
  const [xs, ys] = [places.map(([x]) => x), places.map(([, y]) => y)];
  return { left: Math.min(...xs), right: Math.max(...xs), top: Math.min(...ys), bottom: Math.max(...ys) };
}

const cold = ({ marks, lines, loops }) => placeMarks({ marks, lines, before: null, pinned: new Set(), loops });
const warm = ({ marks, lines, loops }, before, pinned = []) =>
  placeMarks({ marks, lines, before, pinned: new Set(pinned), loops });
const isWhole = (places, marks) => places.length === marks
  && places.every(place => place.length === 2 && place.every(each => Number.isFinite(each)));

const CLEAR = {
  'the worked network': WORKED,
  'a grid of 4 by 4': gridOf(4, 4),
  'a grid of 6 by 6': gridOf(6, 6),
  'a ring of 12': ringOf(12),
  'a ring with a tail': ringOf(9, 4),
  'a tree of 20': treeOf(20, 1),
  'a town of 25': townOf(25, 3),
  'a town of 40': townOf(40, 5),
  'a town of 60': townOf(60, 7),
};
const HARD = {
  'a tangle of 20': thrown(20, 30, 1),
  'a tangle of 60': thrown(60, 90, 2),
  '512 lines thrown': thrown(256, 512, 3),
};

for (const [name, each] of Object.entries(CLEAR)) {
  test(`${name}: no line crosses another, no mark is on a line or on a mark`, () => {
    const places = cold(each);
    assert.equal(crossingsIn(each, places), 0);
    assert.ok(nearest(places) > 0.3, `marks ${nearest(places)}`);
    assert.ok(nearestToLine(each, places) > 0.2, `a mark and a line ${nearestToLine(each, places)}`);
  });

  test(`${name}: its longest way is across, its lowest mark up and left`, () => {
    const places = cold(each);
    const { left, right, top, bottom } = boxOf(places);
    assert.ok(right - left > 0.9 * (bottom - top));
    assert.ok(places[0][0] < (left + right) / 2 + UNIT && places[0][1] < (top + bottom) / 2 + UNIT);
    assert.deepEqual([left, top], [0, 0]);
  });

  test(`${name}: once placed it stays when nothing has changed`, () => {
    const places = cold(each);
    assert.ok(furthestMove(places, warm(each, places)) < 0.35);
    assert.ok(furthestMove(places, warm({ ...each, loops: [] }, places)) < 0.35);
  });

  test(`${name}: typed line by line`, () => {
    let places = [];
    each.lines.forEach((_, i) => {
      const lines = each.lines.slice(0, i + 1);
      const marks = Math.max(...lines.flatMap(({ from, to }) => [from, to])) + 1;
      places = warm({ marks, lines, loops: [] }, places);
      assert.ok(isWhole(places, marks));
    });
    assert.ok(crossingsIn(each, places) <= each.lines.length / 20, `${crossingsIn(each, places)} crossings`);
    assert.ok(nearest(places) > 0.3);
  });
}

for (const [name, each] of Object.entries({ ...CLEAR, ...HARD })) {
  test(`${name}: the same each time, in whole parts, and what is given stays as it is`, () => {
    const places = cold(each);
    assert.ok(isWhole(places, each.marks));
    assert.deepEqual(places, cold(structuredClone(each)));
    assert.ok(places.flat().every(number => Number.isInteger(number * 64) && !Object.is(number, -0)));
    const given = structuredClone(places);
    const again = warm(each, places, [0]);
    assert.deepEqual(places, given);
    assert.deepEqual(again, warm(each, given, [0]));
  });
}

test('the loops of the worked network are fields: no other mark stands in one', () => {
  const places = cold(WORKED);
  for (const loop of WORKED.loops) {
    assert.deepEqual(places.filter((_, mark) => !loop.includes(mark) && isInside(places, mark, loop)), []);
  }
});

test('lines not checked are drawn shorter, long lines longer, but not by far', () => {
  const { marks, lines } = ringOf(4, 1);
  const stretched = lines.map((each, i) => (i === 0 ? { ...each, length: 50000 } : each));
  const places = cold({ marks, lines: stretched, loops: [] });
  const [long, second, , , tail] = lines.map(({ from, to }) => between(places, from, to));
  assert.ok(long > 1.1 * second && long < 2.5 * second, `${long} ${second}`);
  assert.ok(tail < second);
});

test('two pieces, three pieces and marks alone do not overlap', () => {
  const lines = [...WORKED.lines, ...shifted(ringOf(6, 2), 5), ...shifted(treeOf(7, 2), 13)];
  const places = cold({ marks: 22, lines, loops: [] });
  const parts = [places.slice(0, 5), places.slice(5, 13), places.slice(13, 20), [places[20]], [places[21]]].map(boxOf);
  for (const [p, q] of pairsOf(parts.length).map(pair => pair.map(i => parts[i]))) {
    const gap = Math.max(p.left - q.right, q.left - p.right, p.top - q.bottom, q.top - p.bottom);
    assert.ok(gap > 0.5 * UNIT, `${gap}`);
  }
});

test('no marks, one mark, parallel lines, marks alone', () => {
  assert.deepEqual(cold(network(0, [])), []);
  assert.deepEqual(cold(network(1, [])), [[0, 0]]);
  const two = cold(network(2, Array.from({ length: 10 }, (_, i) => [i % 2, 1 - i % 2, 500 + i])));
  assert.equal(two[0][1], two[1][1]);
  assert.ok(two[0][0] < two[1][0]);
  const alone = cold(network(256, []));
  assert.ok(isWhole(alone, 256) && nearest(alone) > 0.5);
});

test('a tangle is not clear, but no mark hides another', () => {
  for (const each of Object.values(HARD)) {
    const places = cold(each);
    assert.ok(isWhole(places, each.marks) && nearest(places) > 0.3, `${nearest(places)}`);
  }
  assert.ok(crossingsIn(HARD['a tangle of 20'], cold(HARD['a tangle of 20'])) <= 6);
});

test('a new mark stands near its neighbour, and others stay', () => {
  for (const each of [WORKED, gridOf(6, 6), townOf(25, 3)]) {
    const places = cold(each);
    const more = { ...each, marks: each.marks + 1, lines: [...each.lines, line([0, each.marks, 800, true])] };
    const next = warm(more, places);
    assert.ok(between(next, 0, each.marks) < 1.5 * UNIT);
    assert.ok(furthestMove(places, next.slice(0, each.marks)) < 0.35);
    assert.equal(crossingsIn(more, next), 0);
    assert.ok(nearest(next) > 0.3);
  }
});

test('a new line moves marks a little, and they keep their order', () => {
  const each = townOf(40, 5), places = cold(each);
  const next = warm({ ...each, lines: each.lines.concat(line([0, 20, 900])) }, places);
  for (const axis of [0, 1]) {
    const apart = pairsOf(each.marks).filter(([a, b]) => Math.abs(places[a][axis] - places[b][axis]) > 2 * UNIT);
    const turned = apart.filter(([a, b]) => (places[a][axis] < places[b][axis]) !== (next[a][axis] < next[b][axis]));
    assert.ok(turned.length < apart.length / 10, `${turned.length} of ${apart.length}`);
  }
});

test('a line that goes, and a mark that goes, move nothing by far', () => {
  const each = gridOf(4, 4), places = cold(each);
  const without = { marks: 16, lines: each.lines.slice(0, -1), loops: [] };
  assert.ok(furthestMove(places, warm(without, places)) < 0.35);
  const fewer = { marks: 15, lines: each.lines.filter(({ from, to }) => from < 15 && to < 15), loops: [] };
  assert.ok(furthestMove(places.slice(0, 15), warm(fewer, places)) < 0.35);
});

test('pinned marks stay exactly, wherever they were dragged', () => {
  const each = townOf(25, 3), places = cold(each);
  places[4] = [places[4][0] + 700.1234567, places[4][1] - 300.7654321];
  places[9] = [places[2][0] + 1, places[2][1]];
  const next = warm({ ...each, lines: each.lines.concat(line([4, 9, 700])) }, places, [4, 9]);
  assert.deepEqual([next[4], next[9]], [places[4], places[9]]);
  assert.notEqual(next[4], places[4]);
  assert.ok(isWhole(next, 25) && between(next, 2, 9) > 0.2 * UNIT);
});

test('a tail that was dragged far away does not draw the others to it', () => {
  const each = ringOf(9, 4), places = cold(each);
  places[12] = [places[12][0] - 2000, places[12][1] + 900];
  const next = warm({ ...each, marks: 14 }, places, [12]);
  assert.deepEqual(next[12], places[12]);
  assert.ok(furthestMove(places, next.slice(0, 13)) < 0.35);
});

test('a new piece goes below, and nothing else moves', () => {
  const places = cold(WORKED);
  const more = [...WORKED.lines, line([5, 6, 500]), line([6, 7, 500])];
  const next = warm({ marks: 9, lines: more, loops: WORKED.loops }, places);
  assert.deepEqual(next.slice(0, 5), places);
  assert.ok(Math.min(...next.slice(5).map(([, y]) => y)) > Math.max(...places.map(([, y]) => y)) + 0.5 * UNIT);
});

test('a mark that was alone comes to its first neighbour, a piece to the piece that it is joined to', () => {
  const alone = cold(network(12, []));
  const pair = warm(network(12, [[0, 11, 500]]), alone);
  assert.deepEqual(pair.slice(0, 11), alone.slice(0, 11));
  assert.ok(between(pair, 0, 11) < 1.5 * UNIT);
  const apart = { marks: 12, lines: [...ringOf(5).lines, ...shifted(ringOf(7), 5)], loops: [] };
  const places = cold(apart);
  const next = warm({ ...apart, lines: apart.lines.concat(line([0, 6, 500, true])) }, places);
  assert.ok(between(next, 0, 6) < 2 * UNIT);
  assert.ok(furthestMove(places.slice(5), next.slice(5)) < 0.35);
});

test('many lines pasted for marks that were alone are placed anew', () => {
  const each = townOf(40, 5);
  assert.deepEqual(warm(each, cold(network(40, []))), cold(each));
});

test('places from before may be few, many, missing or no places', () => {
  const places = cold(WORKED);
  const broken = [
    [...places, [1, 1], [2, 2]],
    places.slice(0, 2),
    [],
    [null, , places[2]],
    [[NaN, 0], [1], 'x', places[3], [1e300, 0]],
  ];
  for (const before of broken) assert.ok(isWhole(warm(WORKED, before, [0, 1, 7]), 5));
  assert.deepEqual(warm(WORKED, []), places);
  assert.ok(isWhole(warm(WORKED, Array.from({ length: 5 }, () => [7, 7])), 5));
  assert.ok(isWhole(placeMarks({ marks: 5, lines: WORKED.lines }), 5));
});

test('loops are a hint: those that are not of the network do no harm', () => {
  const { marks, lines } = WORKED;
  const loops = [[], [0], [0, 1], [0, 1, 99], [0, 0, 0], [4, 3, 2, 1, 0], [0, 2, 3]];
  assert.ok(isWhole(placeMarks({ marks, lines, before: null, pinned: new Set(), loops }), 5));
});

/** A fixed piece of work of the layout's kind, by which the pace of a machine is told: points that push each other away. */
function yardstick() {
  const next = numbersFrom(9);
  const apart = ([x, y], [p, q]) => [x - p, y - q];
  const pushed = (from, _, points) => points.map(to => apart(from, to))
    .map(([x, y]) => [x, y, 1e-3 / (1 + Math.hypot(x, y))])
    .reduce(([x, y], [p, q, push]) => [x + push * p, y + push * q], from);
  let points = Array.from({ length: 200 }, () => [next(), next()]);
  for (let round = 0; round < 5; round++) points = points.map(pushed);
  return points;
}

/** What the yardstick takes, in milliseconds, on the machine of which the limits below speak. */
const PACE = 32;
const MOST_TRIES = 20;

function millisecondsOf(work) {
  const start = process.cpuUsage();
  work();
  const { user, system } = process.cpuUsage(start);
  return (user + system) / 1000;
}

/** The time that a slower machine takes is counted by its own pace. */
function timeOf(work) {
  const before = millisecondsOf(yardstick), time = millisecondsOf(work), after = millisecondsOf(yardstick);
  return time / Math.max(1, Math.min(before, after) / PACE);
}

test('it does not take long', () => {
  // What else the machine does only adds to a time, so a try that took too long is made again.
  const least = (each, limit) => {
    let time = Infinity;
    for (let tries = 0; tries < MOST_TRIES && time >= limit; tries++) time = Math.min(time, timeOf(() => cold(each)));
    return time;
  };
  const limits = [
    [townOf(20, 4), 60], [HARD['a tangle of 20'], 60],
    [CLEAR['a town of 60'], 150], [HARD['a tangle of 60'], 150],
    [gridOf(16, 16), 400], [HARD['512 lines thrown'], 400],
  ];
  for (const [each, limit] of limits) {
    const time = least(each, limit);
    assert.ok(time < limit, `${each.marks} marks, ${each.lines.length} lines: ${time} ms`);
  }
});
