// The keyboard and the clipboard: moving through cells, correcting, undoing, pasting.
import { TABLES, cellOf, columnsOf, pasted } from './book.js';
import { cellAt, fieldOf, goTo } from './cells.js';
import { choose } from './choice.js';
import { cancelCorrection, correctedLine, openCorrection } from './correction.js';
import { edit, go, present } from './desk.js';
import { byId, focusOn } from './dom.js';
import { takeCell } from './entry.js';
import { askForFile, saveFile } from './files.js';
import { tell, undoHere } from './notice.js';
import { MINUS, plural } from './text.js';
import { goToWrong } from './trouble.js';

const MOST_PASTED = 400_000;

/** Whether a field has a text that is not in the book yet. */
const isTyped = field => field.dataset.was !== undefined && field.value !== field.dataset.was;

const take = (field, cell) => takeCell(cell, field.value);

/** Undo and redo; while a text is being typed they are the browser's own. */
function undoKey(event, key) {
  if (isTyped(event.target)) return;
  event.preventDefault();
  go(key === 'y' || event.shiftKey ? 1 : -1);
}

function saveKey(event) {
  event.preventDefault();
  const cell = cellAt(event.target);
  if (cell) take(event.target, cell);
  saveFile();
}

function openKey(event) {
  event.preventDefault();
  askForFile();
}

const WITH_CONTROL = { z: undoKey, y: undoKey, s: saveKey, o: openKey };

const ALWAYS = {
  F1: () => byId('help-box').showModal(),
  F8: goToWrong,
};

/** Down the column; from the last column to the next row's first. */
function enter({ table, row, column }) {
  const columns = columnsOf(present().book, table);
  const at = columns.findIndex(each => each.key === column);
  if (at === columns.length - 1) return goTo(cellOf(table, row + 1, columns[0].key));
  return goTo(cellOf(table, row + 1, column)) || goTo(cellOf(table, row, columns[at + 1].key));
}

/** The cell beside, if the cursor is at the text's end on that side. */
function beside({ table, row, column }, field, by) {
  const edge = by < 0 ? 0 : field.value.length;
  if (field.selectionStart !== edge || field.selectionEnd !== edge) return false;
  const columns = columnsOf(present().book, table);
  const next = columns[columns.findIndex(each => each.key === column) + by];
  return next !== undefined && goTo(cellOf(table, row, next.key));
}

/** What a key does in a cell; false if it does nothing of ours. */
function cellKey(key, field, cell) {
  const { table, row, column } = cell;
  switch (key) {
    case 'Escape':
      field.value = field.dataset.was;
      return focusOn(field);
    case 'Enter':
      take(field, cell);
      return table === 'head' ? focusOn(field) : enter(cell) || true;
    case 'F2':
      if (table !== 'lines') return false;
      if (isTyped(field)) take(field, cell);
      openCorrection(row);
      return true;
    case 'ArrowDown': return table !== 'head' && (goTo(cellOf(table, row + 1, column)) || true);
    case 'ArrowUp': return table !== 'head' && (goTo(cellOf(table, row - 1, column)) || true);
    case 'ArrowLeft': return table !== 'head' && beside(cell, field, -1);
    case 'ArrowRight': return table !== 'head' && beside(cell, field, 1);
    default: return false;
  }
}

function onKey(event) {
  const key = event.key.toLowerCase();
  if ((event.ctrlKey || event.metaKey) && !event.altKey) {
    if (WITH_CONTROL[key]) WITH_CONTROL[key](event, key);
    return;
  }
  if (ALWAYS[event.key]) {
    event.preventDefault();
    ALWAYS[event.key]();
    return;
  }
  if (event.key === 'Escape' && event.target.closest('.correction')) return cancelCorrection();
  const cell = cellAt(event.target);
  if (cell && cellKey(event.key, event.target, cell)) event.preventDefault();
}

/** Several cells that were copied fill from the cell on, to the right and down. */
function onPaste(event) {
  const cell = cellAt(event.target);
  const text = event.clipboardData.getData('text/plain').slice(0, MOST_PASTED);
  if (!cell || cell.table === 'head' || !/[\t\n\r;]/.test(text.trim())) return;
  event.preventDefault();
  const { book, ...counts } = pasted(present().book, cell, text);
  edit(book);
  goTo(cell);
  tell(`${pastedWords(cell.table, counts)}. `, undoHere());
}

/** What was pasted, and what did not fit. */
function pastedWords(table, { taken, left, beyond }) {
  const most = `a book has at most ${TABLES[table].most} ${table === 'lines' ? 'lines' : 'held marks'}`;
  return [
    `${plural(taken, 'row')} pasted`,
    left > 0 && `${left} left out: ${most}, and withdrawn lines are not written over`,
    beyond > 0 && `${plural(beyond, 'cell')} left out: there is no column for them`,
  ].filter(Boolean).join('; ');
}

/** What is copied has plain minus signs, as other programs read them. */
function onCopy(event) {
  const text = String(getSelection());
  if (!text.includes(MINUS)) return;
  event.clipboardData.setData('text/plain', text.replaceAll(MINUS, '-'));
  event.preventDefault();
}

/** A cell counts when it is left. */
function onChange({ target }) {
  const cell = cellAt(target);
  if (!cell) return;
  const focused = document.activeElement;
  take(target, cell);
  // The field that was gone to may be in a row that is no longer there.
  if (focused && !focused.isConnected) fieldOf(cellOf('lines', 0, 'from')).focus();
}

/** A text that is being typed when the page is left is taken, so that it is in the draft. */
function onLeave() {
  const field = document.activeElement;
  const cell = field && cellAt(field);
  if (cell && isTyped(field)) take(field, cell);
}

/** The line that is being worked on is seen in the picture. */
function onFocus({ target }) {
  const cell = cellAt(target);
  const line = target.closest('.correction') ? correctedLine() : cell && cell.table === 'lines' ? cell.row : -1;
  choose({ line });
}

export function wireKeys() {
  document.addEventListener('keydown', onKey);
  document.addEventListener('paste', onPaste);
  document.addEventListener('copy', onCopy);
  document.addEventListener('change', onChange);
  document.addEventListener('focusin', onFocus);
  addEventListener('pagehide', onLeave);
}
