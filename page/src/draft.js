// Drafts: a book that is not saved is kept in the browser, as texts, so that a closed tab loses nothing. Each book has a draft of its
// own, until it is saved or forgotten. Where the browser keeps nothing, the page works without.
import { TABLES } from './book.js';
import { isSaved, onStep, openBook, present } from './desk.js';
import { button } from './dom.js';
import { ask, hush, strong } from './notice.js';
import { plural, short } from './text.js';

const KEY = 'yorrabesk-draft-';
const AFTER = 400;
const MOST = 8;
const tab = new Date().getTime().toString(36);
const waiting = new Map();
let timer = 0;

/** Does something with the browser's storage, which may be denied, broken or full. */
function inStorage(act) {
  try {
    return act(localStorage);
  } catch {
    return null;
  }
}

const keyOf = step => `${KEY}${tab}-${step.document}`;

/** Keeps a book, or forgets it once it is saved. Says whether it could. */
function keep(step) {
  const { name, book } = step;
  const text = JSON.stringify({ version: 1, name, when: new Date().toLocaleString(), book });
  return inStorage(storage => {
    if (isSaved(step)) storage.removeItem(keyOf(step));
    else storage.setItem(keyOf(step), text);
    return true;
  });
}

function keepNow() {
  clearTimeout(timer);
  waiting.forEach(keep);
  waiting.clear();
}

const isText = text => typeof text === 'string';
const areRows = (table, rows) => rows.length <= TABLES[table].most
  && rows.every(row => TABLES[table].columns.every(({ key }) => isText(row[key])))
  && (table === 'held' || rows.every(({ standing }) => typeof standing === 'boolean'));
const isBook = ({ version, marks, tolerance, held, lines }) => ['1', '2'].includes(version) && isText(marks) && isText(tolerance)
  && areRows('held', held) && areRows('lines', lines);

/** A draft, if it is one. */
function draftOf(text) {
  try {
    const { version, name, when, book: kept } = JSON.parse(text);
    const book = plainBook(kept);
    return version === 1 && isText(name) && isText(when) && isBook(book) ? { name, when, book } : null;
  } catch {
    return null;
  }
}

/** The texts of a draft's book and no more. One that was kept before there were classes is of version 1. */
function plainBook({ version = '1', marks, tolerance, held, lines }) {
  return {
    version,
    marks,
    tolerance,
    held: held.map(({ mark, height }) => ({ mark, height })),
    lines: lines.map(({ from, to, difference, length, class: itsClass = '', standing }) =>
      ({ from, to, difference, length, class: itsClass, standing })),
  };
}

/** The drafts that other pages left, with their keys; what is broken, and what is too many, goes. */
function drafts() {
  const isLeft = key => key.startsWith(KEY) && !key.startsWith(`${KEY}${tab}-`);
  const keys = inStorage(storage => Object.keys(storage).filter(isLeft).sort()) || [];
  const found = keys.map(key => ({ key, draft: draftOf(inStorage(storage => storage.getItem(key))) }));
  const good = found.filter(({ draft }) => draft).slice(-MOST);
  found.filter(each => !good.includes(each)).forEach(({ key }) => forget(key));
  return good.reverse();
}

const forget = key => inStorage(storage => storage.removeItem(key));

function bringBack({ key, draft }) {
  openBook(draft.name, draft.book, false);
  // It is now a draft of this page.
  if (keep(present())) forget(key);
}

/** Offers the drafts, newest first. */
export function offerDrafts() {
  const left = drafts();
  if (left.length === 0) return;
  const press = act => each => {
    act(each);
    hush();
    offerDrafts();
  };
  const offers = left.map(each => [
    ' ', strong(short(each.draft.name) || 'without name'), `, ${plural(each.draft.book.lines.length, 'line')}, ${short(each.draft.when)}. `,
    button('Bring it back', () => press(bringBack)(each), { class: 'draft-yes' }), ' ',
    button('Forget it', () => press(({ key }) => forget(key))(each), { class: 'draft-no' }),
  ]);
  ask(left.length === 1 ? 'A book that was not saved is still here:' : `${left.length} books that were not saved are still here:`,
    ...offers.flat());
}

export function wireDrafts() {
  onStep(step => {
    waiting.set(step.document, step);
    clearTimeout(timer);
    timer = setTimeout(keepNow, AFTER);
  });
  addEventListener('pagehide', keepNow);
  document.addEventListener('visibilitychange', keepNow);
}
