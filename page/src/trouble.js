// What is wrong with the book, loudly and with its place, and what can be done about it. While it is, there are no results.
import { faultWords, rowIsBlank, withoutRow } from './book.js';
import { edit, present, theCore } from './desk.js';
import { button, byId, fill, make } from './dom.js';
import { goTo } from './cells.js';
import { strong } from './notice.js';
import { takesMarks } from './refusals.js';
import { wrongCells } from './results.js';
import { plural, sentence } from './text.js';

const SHOWN = 5;
const said = words => make('span', {}, `${sentence(words)}.`);
const goToCell = () => button('Go to the cell (F8)', goToWrong, { id: 'goto' });

/** Goes to the first cell that is wrong. */
export function goToWrong() {
  const [first] = wrongCells(present().results);
  if (first) goTo(first);
}

/** A row in the middle that was emptied can go; but once there is a start the numbers of lines stay. */
function dropButton({ book, start }, { cell: { table, row } }) {
  if (table === 'head' || !rowIsBlank(book, table, row) || (table === 'lines' && start)) return null;
  const words = table === 'lines' ? `Delete line ${row + 1}: later lines move up` : `Remove held entry ${row + 1}`;
  return button(words, () => edit(withoutRow(book, table, row)), { id: 'drop' });
}

function faultBox(step) {
  const { faults } = step.results;
  const others = faults.slice(1, SHOWN).map(fault => make('li', {}, `${sentence(faultWords(fault))}.`));
  const more = faults.length > SHOWN && make('li', {}, `and ${plural(faults.length - SHOWN, 'more cell')}`);
  return [
    strong('Cannot be read.'), said(faultWords(faults[0])), goToCell(), dropButton(step, faults[0]),
    others.length > 0 && make('ul', {}, others, more),
  ];
}

/** A mark beyond the last may be meant: the book can be made to have it. */
function growButton({ book, results }) {
  const { mark } = results.refusal;
  if (mark === undefined || mark <= results.numbers.marks || !takesMarks(theCore(), mark)) return null;
  return button(`Make it ${mark} marks`, () => edit({ ...book, marks: String(mark) }), { id: 'grow' });
}

function refusalBox(step) {
  const { number, where, why, cells, more } = step.results.refusal;
  return [
    strong(`Refused ${number}${where ? ` at ${where}` : ''}.`),
    said(why),
    more > 0 && make('span', {}, `${plural(more, 'more line is', 'more lines are')} wrong too.`),
    cells.length > 0 && goToCell(),
    growButton(step),
  ];
}

function stoppedBox() {
  return [strong('The core stopped.'), make('span', {}, 'Please report this book. What you typed is kept.')];
}

export function showTrouble(step) {
  const { done, faults, stopped } = step.results;
  const parts = done ? null : stopped ? stoppedBox() : faults.length > 0 ? faultBox(step) : refusalBox(step);
  fill(byId('trouble'), parts && make('div', { class: 'box refused' }, parts));
}
