// Results, refusals and what still stands, with the core itself.
import assert from 'node:assert/strict';
import { readFileSync } from 'node:fs';
import { test } from 'node:test';
import { bookOf, cellName, cellOf, emptyBook, withCell, withVersion } from '../src/book.js';
import { CoreStopped, openCore } from '../src/core.js';
import { marksOf, resultsOf } from '../src/results.js';
import { changes, compared, tallyText } from '../src/since.js';

const file = name => new Uint8Array(readFileSync(new URL(`../../${name}`, import.meta.url)));
const core = await openCore(file('target/page/level.wasm'));
const worked = () => bookOf(core.read(file('books/worked.book')).numbers);
const put = (book, ...changed) => changed.reduce((all, [table, row, key, text]) => withCell(all, cellOf(table, row, key), text), book);
const refusalOf = book => {
  const { number, where, why, cells } = resultsOf(core, book).refusal;
  return [number, where, why, cells.map(cell => (cell.table === 'head' ? cell.column : cellName(cell)))];
};
const refusal = (...changed) => refusalOf(put(worked(), ...changed));

/** A ring of version 2, of lines [length, class]; the first has the misclosure as its difference. */
function ringOf(sides, misclosure) {
  const cells = sides.flatMap(([length, itsClass], row) => Object.entries({
    from: row + 1, to: (row + 1) % sides.length + 1, difference: row === 0 ? misclosure : '0', length, class: itsClass,
  }).map(([key, text]) => ['lines', row, key, `${text}`]));
  return put(withVersion(emptyBook(), '2'), ...cells);
}
const judgedRing = (sides, misclosure) => resultsOf(core, ringOf(sides, misclosure)).loops.map(loop => [loop.over, loop.allowed]);

test('the worked network', () => {
  const { loops, pieces, notChecked, adjusted, numbers } = resultsOf(core, worked());
  assert.deepEqual(loops.map(loop => [loop.lines, loop.misclosure, loop.over, loop.allowed]), [
    [[6, -1, 5], -40_000n, true, 25_314n], [[4, 5, -7], -5_000n, false, 33_081n], [[3, 2, -6, -7], 65_000n, true, 31_176n],
  ]);
  assert.deepEqual([pieces, notChecked, adjusted.sweeps], [1, [], 15]);
  assert.deepEqual(marksOf(numbers, [6, -1, 5]), [4, 3, 1, 4]);
});

test('a line shorter than 250 m is judged as one of 250 m and shown as it is', () => {
  const ring = misclosure => [[1, 2], [2, 3], [3, 4], [4, 1]].flatMap(([from, to], row) =>
    Object.entries({ from, to, difference: row === 0 ? misclosure : '0', length: 40 }).map(([key, text]) => ['lines', row, key, `${text}`]));
  const judged = misclosure => resultsOf(core, put(emptyBook(), ['head', 0, 'tolerance', '4.0'], ...ring(misclosure))).loops
    .map(loop => [loop.length, loop.over, loop.allowed]);
  assert.deepEqual(judged('0.004'), [[160n, false, 4_000n]]);
  assert.deepEqual(judged('-0.004'), [[160n, false, 4_000n]]);
  assert.deepEqual(judged('0.004001'), [[160n, true, 4_000n]]);
});

test('a line of version 2 is judged by the tolerance of its class', () => {
  const sides = [[1000, 0], [1000, 4]];
  for (const within of ['0.012649', '-0.012649']) assert.deepEqual(judgedRing(sides, within), [[false, 12_649n]]);
  for (const over of ['0.01265', '-0.01265']) assert.deepEqual(judgedRing(sides, over), [[true, 12_649n]]);
  const edges = [[0, 4_000n], [1, 5_000n], [2, 6_000n], [3, 8_000n], [4, 12_000n]];
  for (const [each, allowed] of edges) assert.deepEqual(judgedRing([[500, each], [500, each]], '0'), [[false, allowed]]);
  // 10 * (1,600 + 2,500 + 3,600 + 6,400 + 14,400) * 250, as a line shorter than 250 m counts 250 m.
  assert.deepEqual(judgedRing([0, 1, 2, 3, 4].map(each => [40, each]), '0.00844'), [[false, 8_440n]]);
  assert.deepEqual(judgedRing([0, 1, 2, 3, 4].map(each => [40, each]), '0.008441'), [[true, 8_440n]]);
});

test('the worked network with class 4 throughout is judged as with the tolerance of 12 mm', () => {
  const book = put(withVersion(worked(), '2'), ...worked().lines.map((_, row) => ['lines', row, 'class', '4']));
  const { loops, numbers, report } = resultsOf(core, book);
  assert.deepEqual([numbers.version, numbers.tolerance], [2n, 0n]);
  assert.deepEqual(report, resultsOf(core, worked()).report);
  assert.deepEqual(loops, resultsOf(core, worked()).loops);
});

test('a class that is changed turns a verdict, and no loop', () => {
  const book = ringOf([[1000, 4], [1000, 4], [1000, 4]], '0.02');
  const [loop] = resultsOf(core, book).loops;
  const [turned] = resultsOf(core, put(book, ['lines', 1, 'class', '0'])).loops;
  assert.deepEqual([loop.over, loop.allowed, turned.over, turned.allowed], [false, 20_784n, true, 17_435n]);
  assert.deepEqual([turned.lines, turned.length, turned.misclosure], [loop.lines, loop.length, loop.misclosure]);
});

test('a class that is refused is found in its cell, also of a withdrawn line', () => {
  const book = bookOf(core.read(file('books/three_classes.book')).numbers);
  for (const text of ['5', '255', '-1', '99999999999']) {
    assert.deepEqual(refusalOf(put(book, ['lines', 2, 'class', text])), [7, 'line 3', 'the class is outside 0 to 4', ['Line 3, class']]);
    assert.deepEqual(refusalOf(put(book, ['lines', 7, 'class', text]))[3], ['Line 8, class']);
  }
  assert.deepEqual(refusalOf(put(book, ['lines', 2, 'class', '5'], ['lines', 2, 'length', '9']))[3], ['Line 3, length']);
  assert.deepEqual(refusalOf({ ...book, tolerance: '0.1' }),
    [4, undefined, 'in version 2 the tolerance is 0, since each line has that of its class', ['tolerance']]);
  assert.deepEqual(refusal(['head', 0, 'tolerance', '0'])[3], ['tolerance']);
});

test('a correction keeps the class of its line', () => {
  const { numbers } = core.read(file('books/three_classes.book'));
  const { report } = core.survey(numbers);
  const classes = lines => lines.filter((_, i) => i % 6 === 5);
  assert.deepEqual(classes(core.rerun(numbers, report, 4, 0n).lines), classes(numbers.lines));
  assert.deepEqual(classes(core.withdraw(numbers, report, 4).lines), classes(numbers.lines));
});

test('marks that are left empty are as many as are named, and a slip of the pen is not a mark', () => {
  assert.equal(resultsOf(core, put(worked(), ['head', 0, 'marks', ''])).numbers.marks, 5n);
  assert.equal(resultsOf(core, emptyBook()).numbers.marks, 1n);
  assert.deepEqual(refusal(['head', 0, 'marks', ''], ['lines', 2, 'to', '999']),
    [7, 'line 3', 'mark 999 is not in this book of 5 marks', ['Line 3, to']]);
});

test('a refusal is found in its cell', () => {
  assert.deepEqual(refusal(['lines', 2, 'to', '5']), [7, 'line 3', 'it runs from a mark to the same mark', ['Line 3, from', 'Line 3, to']]);
  assert.deepEqual(refusal(['lines', 2, 'from', '0'])[3], ['Line 3, from']);
  assert.deepEqual(refusal(['lines', 1, 'difference', '100.000001'])[3], ['Line 2, difference']);
  assert.deepEqual(refusal(['lines', 1, 'length', '9'])[3], ['Line 2, length']);
  assert.deepEqual(refusal(['held', 0, 'mark', '6'])[3], ['Held entry 1, mark']);
  assert.deepEqual(refusal(['held', 0, 'height', '10000.000001'])[3], ['Held entry 1, height']);
  assert.deepEqual(refusal(['held', 1, 'mark', '1'], ['held', 1, 'height', '5']).slice(0, 3),
    [6, 'held entry 2', 'mark 1 is held by an earlier entry']);
  assert.deepEqual(refusal(['head', 0, 'tolerance', '100.1'])[3], ['tolerance']);
  assert.deepEqual(refusal(['head', 0, 'marks', '257'])[3], ['marks']);
  assert.deepEqual(refusal(['head', 0, 'marks', '99999999999'])[3], ['marks']);
});

test('all wrong lines are marked, the first is named', () => {
  const book = put(worked(), ['lines', 5, 'length', '1'], ['lines', 2, 'to', '6'], ['lines', 6, 'to', '5']);
  const { refusal: { where, cells, more } } = resultsOf(core, book);
  assert.deepEqual([where, more], ['line 3', 2]);
  assert.deepEqual(cells.map(cellName), ['Line 3, to', 'Line 6, length', 'Line 7, from', 'Line 7, to']);
});

test('a book of one mark has no lines', () => {
  const line = [['from', '1'], ['to', '1'], ['difference', '1'], ['length', '100']].map(([key, text]) => ['lines', 0, key, text]);
  const book = put(emptyBook(), ['head', 0, 'marks', '1'], ...line);
  assert.equal(resultsOf(core, book).refusal.why, 'a book of one mark has no lines');
});

test('what still stands after line 6 is run again', () => {
  const start = resultsOf(core, worked());
  const { number, report, pieces } = core.rerun(start.numbers, start.report, 6, 2_428_000n);
  const now = resultsOf(core, put(worked(), ['lines', 5, 'difference', '2.428']), { number, report, pieces });
  assert.deepEqual(now.report, resultsOf(core, put(worked(), ['lines', 5, 'difference', '2.428'])).report);
  const comparison = compared(start, now);
  assert.equal(tallyText(comparison, ' · '), '1 stands · 2 changed');
  assert.equal(changes(start.loops[0], now.loops[0]), 'was OVER; misclosure was −40.000');
});

test('what still stands after line 3 is withdrawn', () => {
  const start = resultsOf(core, worked());
  const kept = core.withdraw(start.numbers, start.report, 3);
  const book = worked();
  book.lines[2] = { ...book.lines[2], standing: false };
  const comparison = compared(start, resultsOf(core, book, kept));
  assert.equal(tallyText(comparison, ', '), '2 stand, 1 gone');
  assert.deepEqual([comparison.gone, comparison.lost], [[2], [2]]);
});

test('after a trap the book is kept, and a new core answers', async () => {
  const own = await openCore(file('target/page/level.wasm'));
  const { exports } = own;
  own.exports = { ...exports, level_survey: () => { throw new WebAssembly.RuntimeError('unreachable'); } };
  assert.throws(() => own.survey(core.read(file('books/worked.book')).numbers), CoreStopped);
  assert.ok(resultsOf(own, worked()).stopped);
  await own.start();
  assert.ok(resultsOf(own, worked()).done);
});
