// The junction sketch, with the core itself.
import assert from 'node:assert/strict';
import { readFileSync } from 'node:fs';
import { test } from 'node:test';
import { bookOf } from '../src/book.js';
import { openCore } from '../src/core.js';
import { setCore } from '../src/desk.js';
import { entriesOf, junctionsOf, sketchOf } from '../src/junctions.js';
import { resultsOf } from '../src/results.js';

const file = name => new Uint8Array(readFileSync(new URL(`../../${name}`, import.meta.url)));
const core = await openCore(file('target/page/level.wasm'));
const worked = () => bookOf(core.read(file('books/worked.book')).numbers);
const memorandum = core.read(file('books/memorandum_network.book')).numbers;

/** A book of lines [from, to], [from, to, difference] or [from, to, difference, length]; 0 and 100 m unless they are given. */
const numbersOf = (marks, lines) => ({
  version: 1n,
  marks: BigInt(marks),
  tolerance: 80n,
  held: new BigInt64Array(),
  lines: BigInt64Array.from(lines.flatMap(([from, to, difference = 0, length = 100]) => [from, to, difference, length, 1, -1]), BigInt),
});

/** The book with another number in a line's place: its difference is the third, its standing the fifth. */
const changed = (numbers, line, place, number) => {
  const lines = numbers.lines.slice();
  lines[6 * (line - 1) + place - 1] = number;
  return { ...numbers, lines };
};

/** Each entry in one row: its marks, length and difference, then its lines. */
const inWords = ({ links, spurs, loops }) => [['link', links], ['spur', spurs], ['loop', loops]].flatMap(([word, entries]) =>
  entries.map(({ first, last, length, difference, lines }) => `${word} ${first} ${last} ${length} ${difference}: ${lines.join(' ')}`));
const sketched = (...given) => inWords(core.sketch(numbersOf(...given)));

test("the Memorandum's network", () => {
  const sketch = core.sketch(memorandum);
  assert.deepEqual([sketch.number, sketch.place], [0, 0]);
  assert.deepEqual(inWords(sketch), [
    'link 1 2 200 0: 1 2', 'link 2 3 100 0: 3', 'link 3 4 200 0: 4 5', 'link 1 4 100 0: -6', 'link 1 3 200 0: 7 8', 'link 2 4 100 0: 9',
    'spur 16 15 100 0: -20', 'spur 15 14 100 0: -19', 'spur 12 10 200 0: -15 -14', 'spur 8 6 100 0: -10',
    'loop 12 12 300 0: 16 17 18', 'loop 8 8 300 0: 11 12 13',
  ]);
  assert.deepEqual(junctionsOf(sketch).sort(), [1, 2, 3, 4]);
  assert.deepEqual(entriesOf(sketch).map(entry => entry.count), entriesOf(sketch).map(entry => entry.lines.length));
});

test('quantities are whole numbers as the core gives them, marks and lines are indices', () => {
  const { spurs: [spur] } = core.sketch(numbersOf(3, [[1, 2, 100_000_000, 100_000], [2, 3, 5, 10]]));
  assert.deepEqual(spur, { first: 1, last: 2, count: 1, length: 100_000n, difference: 100_000_000n, lines: [1] });
});

test('a ring hangs at its highest mark', () => {
  assert.deepEqual(sketched(4, [[3, 4, 1], [1, 2, 2], [3, 2, 4], [1, 4, 8]]), ['loop 4 4 400 -9: 1 -4 2 -3']);
});

test('two parallel lines become a loop, three stay three links', () => {
  assert.deepEqual(sketched(2, [[1, 2, 7], [1, 2, 5]]), ['loop 2 2 200 2: 1 -2']);
  assert.deepEqual(sketched(2, [[1, 2, 7], [2, 1, 5], [1, 2, 6]]), ['link 1 2 100 7: 1', 'link 1 2 100 -5: -2', 'link 1 2 100 6: 3']);
});

test('a withdrawn line is in none, any other in one', () => {
  const lines = entriesOf(core.sketch(changed(memorandum, 6, 5, 0n))).flatMap(entry => entry.lines).map(line => Math.abs(line));
  assert.deepEqual(lines.sort((p, q) => p - q), Array.from({ length: 20 }, (_, i) => i + 1).filter(line => line !== 6));
});

test('a line that is run again changes differences only', () => {
  const rest = ({ difference, ...entry }) => entry;
  const before = entriesOf(core.sketch(memorandum));
  const after = entriesOf(core.sketch(changed(memorandum, 4, 3, 2_500n)));
  assert.deepEqual(after.map(rest), before.map(rest));
  assert.deepEqual(after.flatMap((entry, i) => (entry.difference === before[i].difference ? [] : [[i, entry.difference]])), [[2, 2_500n]]);
});

test('nothing is sketched of a book without lines, and all of the largest books', () => {
  assert.deepEqual(sketched(3, []), []);
  assert.equal(core.sketch(numbersOf(2, Array.from({ length: 512 }, () => [1, 2]))).links.length, 512);
  const { loops: [ring] } = core.sketch(numbersOf(256, Array.from({ length: 256 }, (_, i) => [i + 1, (i + 1) % 256 + 1])));
  assert.deepEqual([ring.first, ring.count, ring.lines.length], [256, 256, 256]);
});

test('a sketch is asked for once', async () => {
  const own = await openCore(file('target/page/level.wasm'));
  setCore(own);
  let asked = 0;
  const { level_sketch: call } = own.exports;
  own.exports = { ...own.exports, level_sketch: (...words) => { asked += 1; return call(...words); } };
  const results = resultsOf(own, worked());
  assert.equal(asked, 0);
  assert.deepEqual(inWords(sketchOf(results)), inWords(core.sketch(results.numbers)));
  assert.equal(sketchOf(results), sketchOf(results));
  assert.equal(asked, 1);
});

test('after a trap there is no sketch, and a new core has it', async () => {
  const own = await openCore(file('target/page/level.wasm'));
  setCore(own);
  const results = resultsOf(own, worked());
  own.exports = { ...own.exports, level_sketch: () => { throw new WebAssembly.RuntimeError('unreachable'); } };
  assert.equal(sketchOf(results), null);
  assert.deepEqual(entriesOf(sketchOf(results)), []);
  await own.start();
  assert.deepEqual(inWords(sketchOf(results)), inWords(core.sketch(results.numbers)));
});
