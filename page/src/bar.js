// The bar: the book's name, and the buttons for all of it.
import { emptyBook, cellOf } from './book.js';
import { goTo } from './cells.js';
import { chooseNothing } from './choice.js';
import { canGo, go, isSaved, openBook, present, takeStep } from './desk.js';
import { byId } from './dom.js';
import { cleanName } from './files.js';
import { hush, tell, undoHere } from './notice.js';

/** Shows the name, unless another is being typed. */
function writeName(name) {
  const field = byId('name');
  if (field.value === (field.dataset.was ?? '')) field.value = name;
  field.dataset.was = name;
}

export function showBar({ name }) {
  const saved = isSaved();
  writeName(name);
  byId('unsaved').hidden = saved;
  byId('undo').disabled = !canGo(-1);
  byId('redo').disabled = !canGo(1);
  document.title = `${saved ? '' : '• '}${name || 'level book'} – Yorrabesk`;
}

function newBook() {
  chooseNothing();
  openBook('', emptyBook(), true);
  tell('An empty book. Type the first line, or paste rows from a spreadsheet. ', undoHere('Bring the old book back'));
  goTo(cellOf('lines', 0, 'from'));
}

function goBy(by) {
  hush();
  go(by);
}

/** The name is kept as a file can have it. */
function rename() {
  const step = present();
  const field = byId('name');
  const name = cleanName(field.value);
  field.value = name;
  field.dataset.was = name;
  if (name !== step.name) takeStep({ ...step, name }, step.results);
}

export function wireBar() {
  byId('new').addEventListener('click', newBook);
  byId('undo').addEventListener('click', () => goBy(-1));
  byId('redo').addEventListener('click', () => goBy(1));
  byId('name').addEventListener('change', rename);
  byId('help').addEventListener('click', () => byId('help-box').showModal());
}
