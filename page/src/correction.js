// A line that was run again, or is withdrawn: asked in a row of its own under the line, done by the core on the kept report.
import { fieldOf, goTo } from './cells.js';
import { cellOf } from './book.js';
import { CoreStopped, LINE, lineCount } from './core.js';
import { present, takeStep, theCore, work } from './desk.js';
import { button, byId, fill, make } from './dom.js';
import { strong, tell, undoHere } from './notice.js';
import { LIMITS } from './refusals.js';
import { compared, tallyText } from './since.js';
import { faultText, metres, named, wholeFrom } from './text.js';

const DECIMALS = 6;
let open = null;

function form(row) {
  const difference = make('input', {
    'id': 'new-difference', 'class': 'cell', 'data-was': '', 'autocomplete': 'off', 'spellcheck': 'false',
    'aria-describedby': 'correction-trouble',
  });
  const made = make('form', { autocomplete: 'off' },
    make('b', {}, `Correct line ${row + 1}`),
    make('div', { class: 'acts' },
      make('label', {}, 'New difference ', difference, make('span', { class: 'unit' }, ' m')),
      make('button', { id: 'rerun', type: 'submit' }, 'Re-run'),
      make('span', { class: 'dim' }, 'or'),
      button('Withdraw the line', () => withdraw(row), { id: 'withdraw' }),
      button('Cancel', cancelCorrection, { id: 'cancel' })),
    make('div', { id: 'correction-trouble', role: 'alert' }));
  made.addEventListener('submit', event => {
    event.preventDefault();
    rerun(row, difference.value);
  });
  return made;
}

/** Opens the row for correcting a standing line of a book with results. */
export function openCorrection(row) {
  closeCorrection();
  const { book, results } = present();
  const above = fieldOf(cellOf('lines', row, 'from'));
  if (!above || !results.done || row >= lineCount(results.numbers) || !book.lines[row].standing) return;
  const line = above.closest('tr');
  const element = make('tr', { class: 'correction' }, make('td', { colspan: line.cells.length }, form(row)));
  open = { row, element, version: book.version };
  line.after(element);
  element.scrollIntoView({ block: 'nearest' });
  byId('new-difference').focus();
}

function closeCorrection() {
  if (open) open.element.remove();
  open = null;
}

export function cancelCorrection() {
  const { row } = open;
  closeCorrection();
  goTo(cellOf('lines', row, 'difference'));
}

/** The line that is being corrected, from 0, or -1. */
export const correctedLine = () => (open ? open.row : -1);

/** A row for a correction that can no longer be made goes. */
export function showCorrection({ book, results }) {
  const line = open && book.lines[open.row];
  if (open && !(results.done && line && line.standing && book.version === open.version)) closeCorrection();
}

function fail(words, isField) {
  fill(byId('correction-trouble'), make('div', { class: 'box refused' }, words));
  const field = byId('new-difference');
  field.setAttribute('aria-invalid', isField);
  field.focus();
}

const REFUSED = {
  4: () => `The new difference is outside ${LIMITS.difference}.`,
  8: line => `There is no line ${line}, or it is withdrawn already.`,
};

/** The core's answer to a correction; of a refusal null, once it is shown. */
function answered(line, call) {
  try {
    const answer = call(theCore(), present().results);
    if (answer.number === 0) return answer;
    const why = REFUSED[answer.number] || (() => 'This is a fault of this page. Please report it.');
    fail([strong(`Refused ${answer.number}.`), ` ${why(line)}`], answer.number === 4);
  } catch (error) {
    if (!(error instanceof CoreStopped)) throw error;
    fail([strong('The core stopped.'), ' Please report this book.'], false);
    theCore().start();
  }
  return null;
}

function rerun(row, text) {
  const { whole, fault } = wholeFrom(text, DECIMALS);
  if (fault) return fail(`The new difference ${faultText(fault, text, DECIMALS)}.`, true);
  const answer = answered(row + 1, (core, { numbers, report }) => core.rerun(numbers, report, row + 1, whole));
  if (!answer) return;
  const was = present().results.numbers.lines[LINE * row + 2];
  accept(row, { difference: metres(whole, 3, '-') }, `Line ${row + 1} re-run: ${metres(was)} m became ${metres(whole)} m.`, answer);
}

function withdraw(row) {
  const answer = answered(row + 1, (core, { numbers, report }) => core.withdraw(numbers, report, row + 1));
  if (answer) accept(row, { standing: false }, `Line ${row + 1} withdrawn.`, answer);
}

/** Takes the step of a correction that the core has made, and says what it did to the loops. */
function accept(row, change, words, kept) {
  const step = present();
  const lines = step.book.lines.map((line, i) => (i === row ? { ...line, ...change } : line));
  const book = { ...step.book, lines };
  const results = work(book, kept);
  const effect = results.done ? compared(step.results, results) : null;
  const entry = { line: row + 1, words, loops: effect ? tallyText(effect, ', ') : '' };
  closeCorrection();
  takeStep({ ...step, book, start: step.start || step.results, log: [...step.log, entry] }, results);
  if (effect) report(entry, effect);
  // A withdrawn line has no cell that could take the focus.
  if (!goTo(cellOf('lines', row, 'difference')) && byId('undo-here')) byId('undo-here').focus();
}

function report({ words, loops }, { lost }) {
  const open = lost.length > 0 && [' ', strong(`No longer checked: ${named('line', lost)}.`)];
  tell(`${words} Loops: ${loops}.`, ...(open || []), ' ', undoHere());
}
