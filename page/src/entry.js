// The panel of the book: marks, version, tolerance, held marks and lines. Rows stay, and only what differs is written into them, so that
// neither typing nor focus is ever lost.
import {
  TABLES, cellName, cellOf, columnsOf, decimalsOf, hasClasses, sameCell, textAt, withCell, withVersion, withoutRow,
} from './book.js';
import { fieldOf, finest, rowIndex, shownText } from './cells.js';
import { chosen, onChoice } from './choice.js';
import { lineCount } from './core.js';
import { edit, present } from './desk.js';
import { button, byId, chip, make, refill, setText } from './dom.js';
import { openCorrection } from './correction.js';
import { tell, undoHere } from './notice.js';
import { wrongCells } from './results.js';

const LOOPS_NAMED = 4;

const field = cell => make('input', {
  'data-column': cell.column,
  'autocomplete': 'off',
  'spellcheck': 'false',
  // Keypads for decimals have no minus on some phones.
  'inputmode': decimalsOf(cell) === 0 && 'numeric',
  'aria-label': cellName(cell),
});

function makeRow(book, table, row) {
  const cells = columnsOf(book, table).map(({ key }) => make('td', { class: key }, field(cellOf(table, row, key))));
  const [state, chips, acts] = ['state', 'chips', 'acts'].map(kind => make('span', { class: kind }));
  if (table === 'held') return make('tr', { 'data-row': row }, cells, make('td', { class: 'act' }, acts, state, chips));
  const number = make('td', { class: 'number' }, String(row + 1));
  const checkedBy = make('td', { class: 'checked-by' }, state, chips);
  return make('tr', { 'data-row': row }, number, cells, checkedBy, make('td', { class: 'act' }, acts));
}

/** As many rows as the book has, and an empty one, as long as there may be more. Another version has rows of its own. */
function rowsOf(book, table) {
  const body = byId(table);
  const rows = [...body.querySelectorAll('tr[data-row]')];
  const wanted = Math.min(TABLES[table].most, book[table].length + 1);
  rows.splice(body.dataset.version === book.version ? wanted : 0).forEach(row => row.remove());
  body.dataset.version = book.version;
  const added = Array.from({ length: wanted - rows.length }, (_, i) => makeRow(book, table, rows.length + i));
  body.append(...added);
  return [...rows, ...added];
}

function checkedWords({ done, checkedBy }, row) {
  if (!done) return '';
  const loops = checkedBy[row].map(loop => loop + 1);
  const shown = loops.length > LOOPS_NAMED ? [...loops.slice(0, LOOPS_NAMED), '…'] : loops;
  return `${loops.length === 1 ? 'loop' : 'loops'} ${shown.join(' ')}`;
}

/** How a line stands: the look of its row, framed words, plain words, and whether it can be corrected. */
function lineState({ book, results, log }, row) {
  const line = book.lines[row];
  if (!line) return { look: 'waiting' };
  if (row >= lineCount(results.numbers)) return { look: 'waiting', words: 'not complete' };
  if (!line.standing) return { look: 'withdrawn', chips: [['withdrawn', 'withdrawn']] };
  const isOpen = results.done && results.notChecked.includes(row + 1);
  const chips = [...(isOpen ? [['unchecked', 'NOT CHECKED']] : [])];
  if (log.some(each => each.line === row + 1)) chips.push(['rerun', 're-run']);
  return { look: '', words: isOpen ? '' : checkedWords(results, row), chips, act: results.done };
}

function heldState({ book, results }, row) {
  if (!book.held[row]) return { look: 'waiting' };
  return row < results.numbers.held.length / 2 ? { look: '', act: true } : { look: 'waiting', words: 'not complete', act: true };
}

const correctButton = row => button([
  make('span', { class: 'word' }, 'Correct'), make('span', { 'class': 'sign', 'aria-hidden': 'true' }, '✎'),
], () => openCorrection(row), {
  'class': 'correct', 'tabindex': -1, 'title': 'Re-run or withdraw this line (F2)', 'aria-label': `Correct line ${row + 1}`,
});

const removeButton = row => button('Remove', () => edit(withoutRow(present().book, 'held', row)), {
  'class': 'remove', 'tabindex': -1, 'aria-label': `Remove held entry ${row + 1}`,
});

/** What is locked can still be mended. */
function writeField(step, cell, input, wrong, isLocked = false) {
  const text = shownText(step.book, cell);
  if (input.value !== text) input.value = text;
  input.dataset.was = text;
  const isWrong = wrong.some(each => sameCell(each, cell));
  input.disabled = isLocked && !isWrong;
  input.setAttribute('aria-invalid', isWrong);
  input.parentNode.classList.toggle('wrong', isWrong);
}

/** Words, chips and button of a row; what is the same stays. */
function writeState(table, element, { chips = [], words = '', act = false }) {
  const row = rowIndex(element);
  setText(element.querySelector('.state'), words);
  refill(element.querySelector('.chips'), chips, () => chips.map(([meaning, text]) => chip(meaning, text)));
  refill(element.querySelector('.acts'), act, () => act && (table === 'lines' ? correctButton(row) : removeButton(row)));
}

/** The cells of a row, if they are not as they were. */
function writeCells(step, table, element, look, wrong) {
  const row = rowIndex(element);
  const signature = JSON.stringify([step.book[table][row], placesOf(step.book, table), look, wrong]);
  if (element.signature === signature) return;
  element.signature = signature;
  for (const input of element.querySelectorAll('input')) {
    writeField(step, cellOf(table, row, input.dataset.column), input, wrong, look === 'withdrawn');
  }
  element.className = look + (table === 'lines' && chosen.line === row ? ' chosen' : '');
}

const placesOf = (book, table) => TABLES[table].columns.map(({ key, decimals }) => (decimals === 6 ? finest(book[table], key) : 0));

function showTable(step, table) {
  const stateOf = table === 'lines' ? lineState : heldState;
  const wrong = wrongCells(step.results).filter(cell => cell.table === table);
  rowsOf(step.book, table).forEach((element, row) => {
    const state = stateOf(step, row);
    writeCells(step, table, element, state.look, wrong.filter(cell => cell.row === row));
    writeState(table, element, state);
  });
}

/** The head of the book. Where lines have classes the tolerance is 0, and not for the user to set. */
function showHead(step) {
  const wrong = wrongCells(step.results).filter(cell => cell.table === 'head');
  const areClasses = hasClasses(step.book);
  byId('version').value = step.book.version;
  byId('book').classList.toggle('classes', areClasses);
  for (const key of ['marks', 'tolerance']) {
    writeField(step, cellOf('head', 0, key), byId(key), wrong, areClasses && key === 'tolerance');
  }
  byId('marks').placeholder = step.book.marks === '' ? String(step.results.numbers.marks) : '';
}

export function showEntry(step) {
  showHead(step);
  showTable(step, 'held');
  showTable(step, 'lines');
}

/** Takes the text of a field into the book. What is no change is only shown again in its plain form. */
export function takeCell(cell, text) {
  const { book } = present();
  const next = withCell(book, cell, text);
  if (textAt(next, cell) !== textAt(book, cell)) edit(next);
  else writeField(present(), cell, fieldOf(cell), wrongCells(present().results));
}

/** Makes the book one of the version that is chosen. */
function takeVersion() {
  const book = withVersion(present().book, byId('version').value);
  edit(book);
  if (hasClasses(book) && book.lines.some(line => line.class === '')) tell('Now each line needs its class, 0 to 4. ', undoHere());
}

export function wireEntry() {
  byId('version').addEventListener('change', takeVersion);
  onChoice(before => {
    const rows = byId('lines').querySelectorAll('tr[data-row]');
    if (rows[before.line]) rows[before.line].classList.remove('chosen');
    if (rows[chosen.line]) rows[chosen.line].classList.add('chosen');
  });
}
