// The panel of the junction sketch: the links between junctions, and the spurs and self-closing loops that came off before.
import { choosableRows } from './choosable.js';
import { byId, fill, make, none, paler, refill, setText, tableHead, writeRows } from './dom.js';
import { whenSeen } from './insight.js';
import { entriesOf, junctionsOf, sketchOf } from './junctions.js';
import { strong } from './notice.js';
import { marksOf } from './results.js';
import { metres, millimetres, plural, signedLine } from './text.js';

const chosenEntry = choosableRows('sketch-box', 'entry');

/** A column: its title, a unit or other small word below that, and what it shows of an entry. */
const column = (title, unit, parts) => ({ title, unit, parts });
const first = (title, unit) => column(title, unit, entry => String(entry.first));
const last = (title, unit) => column(title, unit, entry => String(entry.last));
const length = column('Length', 'm', entry => String(entry.length));
const difference = column('Difference', 'm', entry => paler(metres(entry.difference)));
const misclosure = column('Misclosure', 'mm', entry => millimetres(entry.difference));

const LISTS = [
  {
    name: 'links',
    title: 'Links',
    empty: 'No links: this network has no junction.',
    columns: [first('From', 'junction'), last('To', 'junction'), length, difference],
  },
  { name: 'spurs', title: 'Spurs', empty: 'No spurs.', columns: [first('Mark'), last('Other end'), length, difference] },
  { name: 'loops', title: 'Self-closing loops', empty: 'No self-closing loops.', columns: [first('Mark'), length, misclosure] },
];

function countsWords(sketch) {
  const { links, spurs, loops } = sketch;
  return `${plural(junctionsOf(sketch).length, 'junction')}, ${plural(links.length, 'link')}, ${plural(spurs.length, 'spur')}, `
    + `${plural(loops.length, 'self-closing loop')}.`;
}

function blankTable({ name, columns }) {
  const head = tableHead(...columns.map(({ title, unit }) => [title, unit]), 'Lines, as run');
  return make('table', { class: `sketch of-${name} rows stacked` }, head, make('tbody'));
}

function blankRow({ columns }) {
  const cells = columns.map(({ title, unit }) => make('td', { 'data-title': unit ? `${title} ${unit}` : title }));
  return make('tr', {}, cells, make('td', { class: 'lines' }, make('span', { class: 'run' }), make('span', { class: 'below' })));
}

/** An entry with the marks that it passes, if there are any between its ends. */
function writeEntry(row, { columns }, { at, entry, marks }) {
  row.dataset.entry = at;
  columns.forEach(({ parts }, i) => fill(row.cells[i], parts(entry)));
  setText(row.querySelector('.run'), entry.lines.map(signedLine).join(' '));
  setText(row.querySelector('.below'), entry.count > 1 ? `marks ${marks.join('–')}` : '');
}

function writeList(list, entries, before, numbers) {
  if (entries.length === 0) return;
  const shown = entries.map((entry, i) => ({ at: before + i, entry, marks: marksOf(numbers, entry.lines) }));
  const body = byId('sketch-box').querySelector(`.of-${list.name} tbody`);
  writeRows(body, shown, blankRow(list), (row, i) => writeEntry(row, list, shown[i]));
}

/** The lists under their titles, without rows; of one that is empty, that it is. */
function blankLists(sketch) {
  const parts = LISTS.map(list => [
    make('h3', {}, list.title), sketch[list.name].length > 0 ? blankTable(list) : none(list.empty),
  ]);
  return [make('p', { class: 'tally' }), parts];
}

function writeLists(box, sketch, numbers) {
  const { links, spurs, loops } = sketch;
  const areEmpty = [links, spurs, loops].map(entries => entries.length === 0);
  refill(box, areEmpty, () => blankLists(sketch));
  setText(box.querySelector('.tally'), countsWords(sketch));
  let before = 0;
  for (const list of LISTS) {
    writeList(list, sketch[list.name], before, numbers);
    before += sketch[list.name].length;
  }
  chosenEntry.mark();
}

const stoppedBox = () => make('div', { class: 'box refused' }, strong('The core stopped.'), ' Please report this book.');

function writeSketch({ results }) {
  const box = byId('sketch-box');
  const sketch = results.done && sketchOf(results);
  if (!results.done) refill(box, 'wrong', () => none('No sketch is shown while something in the book is wrong.'));
  else if (!sketch) refill(box, 'stopped', stoppedBox);
  else if (entriesOf(sketch).length === 0) refill(box, 'empty', () => none('No line stands, so that there is nothing to sketch.'));
  else writeLists(box, sketch, results.numbers);
}

const panel = whenSeen('sketch', writeSketch);
export const showSketch = panel.show;

export function wireSketch() {
  panel.wire();
  chosenEntry.wire();
}
