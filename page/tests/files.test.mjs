// Book files, as the core itself reads and writes them.
import assert from 'node:assert/strict';
import { readFileSync } from 'node:fs';
import { test } from 'node:test';
import { bookOf, readBook } from '../src/book.js';
import { CoreStopped, LINE, openCore } from '../src/core.js';
import { numbersIn } from '../src/file.js';
import { NOT_RIGHT, writingWords } from '../src/refusals.js';

const file = name => new Uint8Array(readFileSync(new URL(`../../${name}`, import.meta.url)));
const core = await openCore(file('target/page/level.wasm'));
const BOOKS = ['worked', 'memorandum_figure', 'memorandum_network', 'two_pieces', 'parallel_lines', 'three_classes']
  .map(name => file(`books/${name}.book`));
const worked = () => core.read(file('books/worked.book')).numbers;
const NO_BYTES = new Uint8Array(0);

/** The book with another number in one place of a line, of its number from 1. */
function withNumber(book, line, place, number) {
  const lines = book.lines.slice();
  lines[LINE * (line - 1) + place] = number;
  return { ...book, lines };
}
const withdrawn = (book, line) => withNumber(book, line, 4, 0n);

/** As large as a book of a version can be. */
function fullBook(version) {
  const line = version === 1n ? [1n, 256n, -100_000_000n, 100_000n, 1n, -1n] : [256n, 1n, 100_000_000n, 10n, 0n, 4n];
  const held = Array.from({ length: 256 }, (_, i) => [BigInt(i + 1), i % 2 === 0 ? 10_000_000_000n : -10_000_000_000n]);
  return {
    version,
    marks: 256n,
    tolerance: version === 1n ? 1_000n : 0n,
    held: BigInt64Array.from(held.flat()),
    lines: BigInt64Array.from(Array(512).fill(line).flat()),
  };
}

test('a file that was read, shown and typed back is written with the same bytes', () => {
  for (const bytes of BOOKS) {
    const { number, numbers } = core.read(bytes);
    assert.equal(number, 0);
    assert.deepEqual(core.write(numbers), { number: 0, place: 0, bytes });
    assert.deepEqual(core.write(readBook(bookOf(numbers)).numbers).bytes, bytes);
  }
});

test('a book that was written is read back the same, withdrawn lines and the largest too', () => {
  const classed = core.read(file('books/three_classes.book')).numbers;
  for (const [book, length] of [[fullBook(1n), 8_717], [fullBook(2n), 9_741], [withdrawn(classed, 3), 13 + 10 + 14 * 8]]) {
    const { number, bytes } = core.write(book);
    assert.deepEqual([number, bytes.length], [0, length]);
    assert.deepEqual(core.read(bytes).numbers, book);
  }
});

test('a book that was written keeps its bytes when another is', () => {
  const { bytes } = core.write(worked());
  core.write(fullBook(2n));
  assert.deepEqual(bytes, file('books/worked.book'));
});

test('a version 1 book with withdrawn lines is not written, and the words name them', () => {
  assert.deepEqual(core.write(withdrawn(worked(), 3)), { number: 16, place: 0, bytes: NO_BYTES });
  assert.equal(writingWords(16, [3]), 'A version 1 file cannot say that a line is withdrawn: line 3. '
    + 'Make it a version 2 book, by Version beside Tolerance, with a class for each line; or undo the withdrawal.');
  assert.match(writingWords(16, [3, 5]), /is withdrawn: lines 3 5\. Make/);
});

test('a book that the survey refuses is not written, for the same reason', () => {
  const good = worked();
  for (const book of [
    { ...good, version: 3n }, { ...good, marks: 0n }, { ...good, tolerance: 0n },
    { ...good, held: BigInt64Array.of(6n, 0n) }, withNumber(good, 3, 3, 9n), withNumber(withdrawn(good, 2), 3, 5, 0n),
  ]) {
    const { number, place } = core.survey(book);
    assert.notEqual(number, 0);
    assert.deepEqual(core.write(book), { number, place, bytes: NO_BYTES });
    assert.equal(writingWords(number, []), NOT_RIGHT);
  }
});

test('the entries of a file that the core takes are the ones that it reads', () => {
  for (const bytes of BOOKS) {
    const { held, lines, ...head } = numbersIn(bytes);
    assert.deepEqual({ ...head, held: BigInt64Array.from(held), lines: BigInt64Array.from(lines) }, core.read(bytes).numbers);
  }
});

test('after a trap in the writer a new core writes', async () => {
  const own = await openCore(file('target/page/level.wasm'));
  own.exports = { ...own.exports, level_write: () => { throw new WebAssembly.RuntimeError('unreachable'); } };
  assert.throws(() => own.write(worked()), CoreStopped);
  await own.start();
  assert.deepEqual(own.write(worked()).bytes, file('books/worked.book'));
});
