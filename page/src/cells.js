// The cells of the book on the page: where each is, what it shows, and which one an element is.
import { cellOf, decimalsOf, textAt } from './book.js';
import { byId, focusOn } from './dom.js';
import { metres, wholeFrom } from './text.js';

const FEWEST_DECIMALS = 3;
const finestOf = new WeakMap();

/** The field of a cell, or null. */
export function fieldOf({ table, row, column }) {
  if (table === 'head') return byId(column);
  return byId(table).querySelector(`tr[data-row="${row}"] input[data-column="${column}"]`);
}

/** The cell of a field, or null if an element is none. */
export function cellAt(element) {
  if (element.id === 'marks' || element.id === 'tolerance') return cellOf('head', 0, element.id);
  const row = element.closest('#held > tr, #lines > tr[data-row]');
  const { column } = element.dataset;
  return row && column ? cellOf(row.parentNode.id, rowIndex(row), column) : null;
}

/** The row of a table's row element, from 0. */
export const rowIndex = row => Number(row.dataset.row);

/** Brings a cell into sight and puts the focus on it. */
export function goTo(cell) {
  const field = fieldOf(cell);
  if (!field) return false;
  field.scrollIntoView({ block: 'nearest' });
  return focusOn(field);
}

/** As many decimals as the finest entry of a column has; found once for the rows of a book. */
export function finest(rows, key) {
  if (!finestOf.has(rows)) {
    const decimals = rows.map(row => (/^-?[0-9]+\.([0-9]{1,6})$/.exec(row[key]) || ['', ''])[1].length);
    finestOf.set(rows, decimals.reduce((most, each) => (each > most ? each : most), FEWEST_DECIMALS));
  }
  return finestOf.get(rows);
}

/** The text of a cell as it is shown. */
export function shownText(book, cell) {
  const text = textAt(book, cell);
  if (decimalsOf(cell) !== 6) return text;
  const { whole, fault } = wholeFrom(text, 6);
  return fault ? text : metres(whole, finest(book[cell.table], cell.column), '-');
}
