// The book as it is typed: texts, cell by cell, and never lost. What they mean is read off them in whole numbers.
import { LINE, NO_CLASS } from './core.js';
import { decimalText, faultText, metres, wholeFrom } from './text.js';

const column = (key, decimals, words = `the ${key}`) => ({ key, decimals, words });

/** The tables of a book: their columns, what a row is called, and how many rows the page offers. */
export const TABLES = {
  held: { row: 'Held entry', most: 256, columns: [column('mark', 0), column('height', 6)] },
  lines: {
    row: 'Line',
    most: 512,
    columns: [column('from', 0, 'From'), column('to', 0, 'To'), column('difference', 6), column('length', 0), column('class', 0)],
  },
};
const HEAD = { marks: { words: 'the number of marks', decimals: 0 }, tolerance: { words: 'the tolerance', decimals: 1 } };

/** Whether each line has a class, by which it is judged, in the place of one tolerance for all. */
export const hasClasses = ({ version }) => version === '2';

/** The columns that a table has in a book. */
export const columnsOf = (book, table) => TABLES[table].columns.filter(({ key }) => key !== 'class' || hasClasses(book));

/** A cell is a table with a row from 0 and a column, or of the table `head` a column alone. */
export const cellOf = (table, row, key) => ({ table, row, column: key });
export const sameCell = (p, q) => p.table === q.table && p.row === q.row && p.column === q.column;
const columnOf = ({ table, column: key }) => (table === 'head' ? HEAD[key] : TABLES[table].columns.find(each => each.key === key));
export const decimalsOf = cell => columnOf(cell).decimals;

/** "Line 3, difference": a cell's name. */
export const cellName = ({ table, row, column: key }) => `${TABLES[table].row} ${row + 1}, ${key}`;

/** "Line 3: the difference": a cell in a sentence. */
const cellWords = cell => (cell.table === 'head' ? '' : `${TABLES[cell.table].row} ${cell.row + 1}: `) + columnOf(cell).words;

export const emptyBook = () => ({ version: '1', marks: '', tolerance: '12.0', held: [], lines: [] });

/** The book as one of another version. Its lines keep the classes that they have; what they lack is for the user to type. */
export function withVersion(book, version) {
  const { tolerance } = emptyBook();
  return { ...book, version, tolerance: hasClasses({ version }) ? '0.0' : tolerance };
}

const blankRow = table => {
  const row = Object.fromEntries(TABLES[table].columns.map(each => [each.key, '']));
  return table === 'lines' ? { ...row, standing: true } : row;
};
const isBlank = (columns, row) => columns.every(each => row[each.key].trim() === '');
const isFull = (columns, row) => columns.every(each => row[each.key].trim() !== '');

/** Whether a row has nothing in it. */
export const rowIsBlank = (book, table, row) => isBlank(columnsOf(book, table), book[table][row]);

/** Numbers in groups of so many. */
export function groups(numbers, many) {
  return Array.from({ length: numbers.length / many }, (_, row) => numbers.slice(many * row, many * (row + 1)));
}

/** The texts of a book of whole numbers. */
export function bookOf({ version, marks, tolerance, held, lines }) {
  return {
    version: String(version),
    marks: String(marks),
    tolerance: decimalText(tolerance, 1, 1, '-'),
    held: groups(held, 2).map(([mark, height]) => ({ mark: String(mark), height: metres(height, 3, '-') })),
    lines: groups(lines, LINE).map(([from, to, difference, length, standing, itsClass]) => ({
      from: String(from),
      to: String(to),
      difference: metres(difference, 3, '-'),
      length: String(length),
      class: itsClass === NO_CLASS ? '' : String(itsClass),
      standing: standing === 1n,
    })),
  };
}

/** A text as it is kept: a number in its plain form, anything else as it was typed. */
function tidy(cell, text) {
  const decimals = decimalsOf(cell);
  const { whole, fault } = wholeFrom(text, decimals);
  if (fault) return text.trim();
  return decimalText(whole, decimals, decimals === 6 ? 3 : decimals, '-');
}

export function textAt(book, { table, row, column: key }) {
  if (table === 'head') return book[key];
  return row < book[table].length ? book[table][row][key] : '';
}

/** The book with another text in one cell. Rows that are empty at the end go. */
export function withCell(book, cell, text) {
  const kept = tidy(cell, text);
  if (cell.table === 'head') return { ...book, [cell.column]: kept };
  const rows = book[cell.table].slice();
  while (rows.length <= cell.row) rows.push(blankRow(cell.table));
  rows[cell.row] = { ...rows[cell.row], [cell.column]: kept };
  return withRows(book, cell.table, rows);
}

function withRows(book, table, rows) {
  const columns = columnsOf(book, table);
  let end = rows.length;
  while (end > 0 && isBlank(columns, rows[end - 1])) end--;
  return { ...book, [table]: rows.slice(0, end) };
}

/** The book without a row; later rows move up. */
export const withoutRow = (book, table, row) => withRows(book, table, book[table].filter((_, i) => i !== row));

/** The cells of a text that was copied: rows by line ends, cells by tab, else semicolon, else spaces. */
function gridOf(text) {
  const rows = text.replace(/\r\n?/g, '\n').replace(/\n+$/, '').split('\n').map(line => {
    const between = line.includes('\t') ? '\t' : line.includes(';') ? ';' : /\s+/;
    return (between instanceof RegExp ? line.trim() : line).split(between);
  });
  // A first row without digits is a heading.
  return rows.length > 0 && !/[0-9]/.test(rows[0].join('')) ? rows.slice(1) : rows;
}

/** Whether cells that are pasted at From have the line's number in front. */
const areNumbered = (cell, columns, grid) => cell.column === 'from' && grid.every(row => row.length === columns.length + 1);

/**
 * Pastes cells from a cell on, to the right and down: the book, how many rows were taken and how many left out, and how many cells
 * are beyond the last column.
 */
export function pasted(book, cell, text) {
  const { most } = TABLES[cell.table];
  const columns = columnsOf(book, cell.table);
  const grid = gridOf(text);
  const first = columns.findIndex(each => each.key === cell.column);
  const rows = book[cell.table].slice();
  let [taken, beyond] = [0, 0];
  grid.map(row => (areNumbered(cell, columns, grid) ? row.slice(1) : row)).forEach((texts, down) => {
    const at = cell.row + down;
    // A withdrawn line is not written over.
    if (at >= most || (rows[at] && rows[at].standing === false)) return;
    while (rows.length <= at) rows.push(blankRow(cell.table));
    rows[at] = { ...rows[at], ...pastedCells(cell.table, columns.slice(first), at, texts) };
    taken++;
    beyond += texts.slice(columns.length - first).filter(each => each.trim() !== '').length;
  });
  return { book: withRows(book, cell.table, rows), taken, left: grid.length - taken, beyond };
}

const pastedCells = (table, columns, row, texts) => Object.fromEntries(columns.slice(0, texts.length)
  .map((each, i) => [each.key, tidy(cellOf(table, row, each.key), texts[i])]));

/** How many rows are in the book: a last row that is not full yet is not, unless it is a withdrawn line, which keeps its place. */
function rowsIn(columns, rows) {
  const last = rows.at(-1);
  return last && last.standing !== false && !isFull(columns, last) ? rows.length - 1 : rows.length;
}

const readRows = new WeakMap();

/** What each text of a row means; read once, as a row that is changed is another row. */
function rowMeanings(table, row) {
  if (!readRows.has(row)) readRows.set(row, TABLES[table].columns.map(({ key, decimals }) => wholeFrom(row[key], decimals)));
  return readRows.get(row);
}

/** The numbers of a table's rows, and the faults of texts that cannot be read. In a row that is not complete an empty cell waits. */
function readTable(book, table) {
  const columns = columnsOf(book, table);
  const many = rowsIn(columns, book[table]);
  const meanings = book[table].flatMap((row, i) => rowMeanings(table, row).slice(0, columns.length).map(({ whole = 0n, fault }, at) => {
    const { key } = columns[at];
    return { whole, fault: (i < many || fault !== 'empty') && fault, cell: cellOf(table, i, key), text: row[key] };
  }));
  return { numbers: meanings.slice(0, many * columns.length).map(({ whole }) => whole), faults: meanings.filter(({ fault }) => fault) };
}

/** The numbers of lines with their standing, before the class; a line of version 1 has none. */
const withStanding = (book, numbers) => groups(numbers, columnsOf(book, 'lines').length).flatMap(
  ([from, to, difference, length, itsClass = NO_CLASS], i) =>
    [from, to, difference, length, book.lines[i].standing ? 1n : 0n, itsClass]);

/**
 * What the texts mean: the numbers of the book (marks is null where the field is empty), and the faults, each with its cell,
 * of texts that cannot be read.
 */
export function readBook(book) {
  const head = ['marks', 'tolerance'].map(key => {
    const cell = cellOf('head', 0, key);
    return { ...wholeFrom(book[key], decimalsOf(cell)), cell, text: book[key] };
  });
  const [marks, tolerance] = head;
  const isLeftOpen = marks.fault === 'empty';
  const held = readTable(book, 'held');
  const lines = readTable(book, 'lines');
  const faults = [...head.filter(({ fault }) => fault).slice(isLeftOpen ? 1 : 0), ...held.faults, ...lines.faults];
  const numbers = {
    version: BigInt(book.version),
    marks: isLeftOpen ? null : marks.whole ?? 0n,
    tolerance: tolerance.whole ?? 0n,
    held: BigInt64Array.from(held.numbers),
    lines: BigInt64Array.from(withStanding(book, lines.numbers)),
  };
  return { numbers, faults };
}

/** "Line 3: the difference is not a number: “abc”": a fault in words. */
export const faultWords = ({ cell, fault, text }) => `${cellWords(cell)} ${faultText(fault, text, decimalsOf(cell))}`;

/** Whether two books have the same texts. */
export const sameBook = (p, q) => p === q || JSON.stringify(p) === JSON.stringify(q);
