// The book as it is typed.
import assert from 'node:assert/strict';
import { readFileSync } from 'node:fs';
import { test } from 'node:test';
import {
  bookOf, cellName, cellOf, emptyBook, faultWords, pasted, readBook, sameBook, withCell, withVersion, withoutRow,
} from '../src/book.js';
import { numbersIn } from '../src/file.js';

const stored = name => new Uint8Array(readFileSync(new URL(`../../books/${name}.book`, import.meta.url)));
const WORKED = stored('worked');
const THREE_CLASSES = stored('three_classes');
const line = (from, to, difference, length, standing = true, itsClass = '') =>
  ({ from, to, difference, length, class: itsClass, standing });
const worked = () => bookOf(numbersIn(WORKED));
const classed = () => bookOf(numbersIn(THREE_CLASSES));
const lineFaults = book => readBook(book).faults.map(faultWords);

test('the numbers of a book of either version are the same after its texts were read back', () => {
  for (const file of [WORKED, THREE_CLASSES]) {
    const { held, lines, ...head } = numbersIn(file);
    const { numbers, faults } = readBook(bookOf(numbersIn(file)));
    assert.deepEqual(faults, []);
    assert.deepEqual(numbers, { ...head, held: BigInt64Array.from(held), lines: BigInt64Array.from(lines) });
  }
});

test('a line of version 2 has its class and its standing, one of version 1 has no class', () => {
  const { version, tolerance, lines } = classed();
  assert.deepEqual([version, tolerance], ['2', '0.0']);
  assert.deepEqual(lines.map(each => each.class), ['0', '0', '0', '2', '4', '4', '2', '4']);
  assert.deepEqual(lines.map(each => each.standing), [true, true, true, true, true, true, true, false]);
  assert.deepEqual(readBook(classed()).numbers.lines.slice(-6), BigInt64Array.of(6n, 4n, 367_800n, 610n, 0n, 4n));
  assert.deepEqual(readBook(worked()).numbers.lines.slice(0, 6), BigInt64Array.of(1n, 3n, 6_345_000n, 1600n, 1n, -1n));
  assert.deepEqual([...new Set(worked().lines.map(each => each.class))], ['']);
});

test('a book that is made one of version 2 needs a class for each line, and as one of version 1 is as it was', () => {
  const book = withVersion(worked(), '2');
  assert.equal(book.tolerance, '0.0');
  assert.deepEqual(lineFaults(book), [1, 2, 3, 4, 5, 6].map(row => `Line ${row}: the class is empty`));
  const filled = book.lines.reduce((all, _, row) => withCell(all, cellOf('lines', row, 'class'), ' 04 '), book);
  assert.deepEqual(lineFaults(filled), []);
  assert.deepEqual(readBook(filled).numbers.lines.filter((_, i) => i % 6 === 5), new BigInt64Array(7).fill(4n));
  const back = withVersion(filled, '1');
  assert.deepEqual(readBook(back).numbers, readBook(worked()).numbers);
  assert.deepEqual(withVersion(back, '2'), filled);
  assert.deepEqual(lineFaults(withCell(filled, cellOf('lines', 2, 'class'), '1.5')),
    ['Line 3: the class must be a whole number, without point or comma: “1.5”']);
});

test('a withdrawn line keeps its place, even the last one without a class', () => {
  const book = worked();
  book.lines[6] = { ...book.lines[6], standing: false };
  const { numbers, faults } = readBook(withVersion(book, '2'));
  assert.equal(numbers.lines.length, 42);
  assert.equal(faults.length, 7);
});

test('a cell is taken in its plain form, or as it was typed', () => {
  const book = withCell(worked(), cellOf('lines', 5, 'difference'), ' +2,4280 ');
  assert.equal(book.lines[5].difference, '2.428');
  assert.equal(withCell(book, cellOf('lines', 5, 'difference'), ' abc ').lines[5].difference, 'abc');
  assert.equal(withCell(book, cellOf('head', 0, 'tolerance'), '4').tolerance, '4.0');
  assert.equal(worked().lines[5].difference, '2.410');
});

test('a last row that is not full is not in the book', () => {
  const book = withCell(worked(), cellOf('lines', 7, 'from'), '1');
  assert.equal(book.lines.length, 8);
  const { numbers, faults } = readBook(book);
  assert.equal(numbers.lines.length, 42);
  assert.deepEqual(faults, []);
});

test('in version 2 a last row without its class is not in the book', () => {
  const cells = Object.entries({ from: '1', to: '2', difference: '2', length: '900' });
  const book = cells.reduce((all, [key, text]) => withCell(all, cellOf('lines', 8, key), text), classed());
  assert.equal(readBook(book).numbers.lines.length, 48);
  assert.equal(readBook(withCell(book, cellOf('lines', 8, 'class'), '3')).numbers.lines.length, 54);
});

test('a text that cannot be read is a fault even in a row that is not full', () => {
  const { faults } = readBook(withCell(worked(), cellOf('lines', 7, 'from'), 'x'));
  assert.deepEqual(faults.map(faultWords), ['Line 8: From is not a number: “x”']);
});

test('rows that are emptied at the end go, one in the middle is a fault', () => {
  const keys = ['from', 'to', 'difference', 'length'];
  const empty = (book, row) => keys.reduce((all, key) => withCell(all, cellOf('lines', row, key), ''), book);
  assert.equal(empty(worked(), 6).lines.length, 6);
  const { faults } = readBook(empty(worked(), 2));
  assert.deepEqual(faults.map(({ cell }) => cellName(cell)), ['Line 3, from', 'Line 3, to', 'Line 3, difference', 'Line 3, length']);
  assert.equal(withoutRow(empty(worked(), 2), 'lines', 2).lines.length, 6);
});

test('cells are pasted in the forms that programs copy', () => {
  const want = [line('1', '2', '1.500', '100'), line('2', '1', '-1.500', '100')];
  for (const text of [
    'From\tTo\tDiff\tLength\n1\t2\t1.5\t100\n2\t1\t-1.5\t100', '1\t1\t2\t1.5\t100\n2\t2\t1\t-1.5\t100\n',
    '1;2;1,5;100\r\n2;1;-1,5;100', '1 2 1.5 100\n2 1 -1.5 100', ' 1   2  1.500000  100 \n 2 1 −1.5 100',
  ]) {
    const { book, taken, left } = pasted(emptyBook(), cellOf('lines', 0, 'from'), text);
    assert.deepEqual(book.lines, want, text);
    assert.deepEqual([taken, left], [2, 0]);
  }
});

test('cells of version 2 are pasted with their class, with the number of the line in front or without', () => {
  const empty = withVersion(emptyBook(), '2');
  for (const text of ['1;2;1,5;100;0\n2;1;-1,5;100;4', '1\t1\t2\t1.5\t100\t0\n2\t2\t1\t-1.5\t100\t4']) {
    const { book } = pasted(empty, cellOf('lines', 0, 'from'), text);
    assert.deepEqual(book.lines, [line('1', '2', '1.500', '100', true, '0'), line('2', '1', '-1.500', '100', true, '4')], text);
  }
  const { book, beyond } = pasted(classed(), cellOf('lines', 0, 'class'), '1\n2\t7');
  assert.deepEqual([book.lines[0].class, book.lines[1].class, beyond], ['1', '2', 1]);
});

test('what does not fit is left out and counted; a withdrawn line is not written over', () => {
  const rows = Array.from({ length: 514 }, () => '1\t2\t0.5\t700').join('\n');
  const { book, taken, left } = pasted(emptyBook(), cellOf('lines', 0, 'from'), rows);
  assert.deepEqual([book.lines.length, taken, left], [512, 512, 2]);
  const gone = { ...emptyBook(), lines: [line('1', '2', '1.000', '10', false)] };
  assert.deepEqual(pasted(gone, cellOf('lines', 0, 'from'), '3\t4\t5\t60').book.lines, gone.lines);
  assert.equal(pasted(emptyBook(), cellOf('held', 0, 'mark'), '1\t100\n2\t101').book.held.length, 2);
  const { taken: rowsTaken, beyond } = pasted(emptyBook(), cellOf('lines', 0, 'length'), '4100\tremark\t7\n1000\t\t');
  assert.deepEqual([rowsTaken, beyond], [2, 2]);
});

test('withdrawn lines keep their place, and books are compared by their texts', () => {
  const book = worked();
  book.lines[2] = { ...book.lines[2], standing: false };
  assert.equal(readBook(book).numbers.lines[16], 0n);
  assert.ok(sameBook(worked(), worked()));
  assert.ok(!sameBook(book, worked()));
});
