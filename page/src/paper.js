// What is only on paper: the head of the report, and the field sheet.
import { hasClasses } from './book.js';
import { count, lineCount } from './core.js';
import { present } from './desk.js';
import { byId, fill, make, tableHead } from './dom.js';
import { writeUnseen } from './insight.js';
import { drawForPaper, drawPicture } from './network.js';
import { named, plural } from './text.js';

const EMPTY_ROWS = 20;

function countsWords({ results, book }) {
  const { numbers, done, pieces, loops } = results;
  const counts = [plural(count(numbers.marks), 'mark'), plural(lineCount(numbers), 'line')];
  if (done) counts.push(plural(pieces, 'piece'), `${plural(loops.length, 'loop')} (${loops.filter(loop => loop.over).length} over)`);
  const tolerance = hasClasses(book) ? 'by class: 4, 5, 6, 8, 12 mm per √km for 0, 1, 2, 3, 4' : `${book.tolerance} mm per √km`;
  return `${counts.join(', ')}. Tolerance ${tolerance}. Printed ${new Date().toLocaleString()}.`;
}

function checkedWords({ done, notChecked }) {
  if (!done) return make('div', { class: 'frame' }, 'This book is refused: there are no results.');
  if (notChecked.length === 0) return make('div', {}, 'Every standing line is checked by a loop.');
  const words = `NOT CHECKED: ${named('line', notChecked)}. No closed loop passes here. A blunder would not show.`;
  return make('div', { class: 'frame' }, words);
}

const head = step => [
  make('h1', {}, `Level book: ${step.name || 'without name'}`), make('div', {}, countsWords(step)), checkedWords(step.results),
];

/** Standing lines with their ends, lengths and classes. Old differences would lead the observer, and are left out. */
function fieldSheet({ name, book, results }) {
  const classes = hasClasses(book) ? ['Class'] : [];
  const lines = book.lines.slice(0, lineCount(results.numbers))
    .map((line, i) => [line.standing, i + 1, line.from, line.to, line.length, ...classes.map(() => line.class)])
    .filter(([standing]) => standing).map(([, ...cells]) => cells);
  const rows = lines.length > 0 ? lines : Array.from({ length: EMPTY_ROWS }, () => ['', '', '', '', ...classes.map(() => '')]);
  return [
    make('h1', {}, `Field sheet${name ? `: ${name}` : ''}`),
    make('div', { class: 'blanks' }, ['Party', 'Date', 'Instrument', 'Staves', 'Weather'].map(word => make('span', {}, word))),
    make('table', {},
      tableHead('Line', 'From', 'To', 'Length m', ...classes, 'Difference run forward, m', 'Difference run back, m', 'Remarks'),
      make('tbody', {}, rows.map(cells => make('tr', {}, [...cells, '', '', ''].map(text => make('td', {}, String(text))))))),
  ];
}

export function wirePaper() {
  addEventListener('beforeprint', () => {
    writeUnseen();
    drawForPaper();
    fill(byId('paper'), head(present()));
    fill(byId('field-sheet'), fieldSheet(present()));
  });
  addEventListener('afterprint', () => {
    document.body.classList.remove('sheet');
    drawPicture();
  });
  byId('print').addEventListener('click', () => print());
  byId('sheet').addEventListener('click', () => {
    document.body.classList.add('sheet');
    print();
  });
}
