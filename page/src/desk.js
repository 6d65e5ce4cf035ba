// What lies on the desk: the steps that were taken, each a book with its results, and the one that is shown. Nothing is ever
// overwritten, so that Undo takes back everything, New and Open too.
import { sameBook } from './book.js';
import { compared } from './since.js';
import { resultsOf } from './results.js';

const MOST_STEPS = 300;

const listeners = [];
const savedBooks = new Map();
let core = null;
let steps = [];
let at = -1;
let documents = 0;

/** Takes the core to work with. */
export const setCore = opened => { core = opened; };
export const theCore = () => core;

/**
 * The step that is shown: name, book, its results; log, the corrections since the start; start, the results of then, or null;
 * and the document, a number that New and Open change.
 */
export const present = () => steps[at];

/** Calls back whenever another step is shown. */
export const onStep = listener => listeners.push(listener);

const show = () => listeners.forEach(listener => listener(present()));

/** The results of a book; after a correction, from the report that was kept. */
export const work = (book, kept) => resultsOf(core, book, kept);

/** Takes a step. */
export function takeStep(next, results = work(next.book)) {
  steps = [...steps.slice(0, at + 1), { ...next, results }].slice(-MOST_STEPS);
  at = steps.length - 1;
  show();
}

export const edit = book => takeStep({ ...present(), book });

export const canGo = by => at + by >= 0 && at + by < steps.length;

/** Undo by -1, redo by 1. */
export function go(by) {
  if (!canGo(by)) return;
  at += by;
  show();
}

/** Puts another book on the desk. */
export function openBook(name, book, isSaved) {
  scrollTo(0, 0);
  documents += 1;
  if (isSaved) savedBooks.set(documents, book);
  takeStep({ name, book, log: [], start: null, document: documents });
}

export const setSaved = () => {
  savedBooks.set(present().document, present().book);
  show();
};

export function isSaved(step = present()) {
  const saved = savedBooks.get(step.document);
  return saved !== undefined && sameBook(saved, step.book);
}

let lastCompared = {};

/** The shown results beside those of the start, or null without a start or results. */
export function sinceStart() {
  const { start, results } = present();
  if (!start || !results.done) return null;
  if (lastCompared.start !== start || lastCompared.results !== results) {
    lastCompared = { start, results, comparison: compared(start, results) };
  }
  return lastCompared.comparison;
}

/** From now on, results are compared with those that are shown. */
export function makeStart() {
  const step = present();
  takeStep({ ...step, start: step.results, log: [] }, step.results);
}
