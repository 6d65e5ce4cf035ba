// The panel of the adjusted heights, corrections and rates.
import { cellOf, groups, hasClasses } from './book.js';
import { goTo } from './cells.js';
import { LINE, NO_CLASS, count } from './core.js';
import { edit, present, sinceStart } from './desk.js';
import { button, byId, chip, fill, make, none, paler, tableHead } from './dom.js';
import { whenSeen } from './insight.js';
import { strong } from './notice.js';
import { heightsWords } from './refusals.js';
import { metres, millimetres, plural, rateText } from './text.js';

const cell = (title, ...parts) => make('td', { 'data-title': title }, parts);

/** Adds an entry for the lowest mark of a piece that has no held mark; its height is the user's to type. */
function hold(mark) {
  const { book, results } = present();
  const held = book.held.slice(0, results.numbers.held.length / 2);
  edit({ ...book, held: [...held, { mark: String(mark), height: '' }] });
  goTo(cellOf('held', held.length, 'height'));
}

function refusedBox({ number, place }) {
  return make('div', { class: 'box refused' },
    strong(`Refused ${number}${place > 0 ? ` at mark ${place}` : ''}.`), make('span', {}, heightsWords(number, place)),
    number === 11 && button(`Hold mark ${place}`, () => hold(place), { id: 'hold' }));
}

function settledWords({ sweeps }, comparison) {
  const moved = comparison && comparison.moved;
  const since = moved === null || moved === undefined ? ''
    : ` ${moved > 0 ? `${plural(moved, 'height')} moved` : 'No height moved'} since the start.`;
  return make('p', { class: 'hint' }, `Settled after ${plural(sweeps, 'sweep')}. Weight: inverse to length.${since}`);
}

function markRow(height, mark, held, was) {
  const isMoved = was !== undefined && was !== height;
  return make('tr', {}, cell('Mark', String(mark)), cell('Height m', paler(metres(height))),
    make('td', { class: 'words' }, held.has(mark) && '▲ held', isMoved && chip('changed', 'moved')),
    was !== undefined && make('td', { 'class': 'dim', 'data-title': 'At the start m' }, isMoved && paler(metres(was))));
}

function marksTable({ results, start }, comparison) {
  const { numbers, adjusted } = results;
  const held = new Set(groups(numbers.held, 2).map(([mark]) => count(mark)));
  const before = comparison && start.adjusted.number === 0 ? start.adjusted.heights : null;
  const rows = Array.from(adjusted.heights, (height, i) => markRow(height, i + 1, held, before ? before[i] ?? height : undefined));
  const head = tableHead('Mark', ['Height', 'm'], '', ...(before ? [['At the start', 'm']] : []));
  return make('table', { class: 'stacked' }, head, make('tbody', {}, rows));
}

function lineResult(standing, rate) {
  if (standing === 0n) return make('td', { colspan: 2, class: 'words' }, chip('withdrawn', 'withdrawn'));
  if (!rate) return [make('td'), make('td')];
  return [
    cell('Correction mm', millimetres(rate.correction)),
    make('td', { 'title': rate.rate, 'data-title': 'Rate mm/km' }, rateText(rate.rate)),
  ];
}

const lineRow = ([from, to, difference, length, standing, itsClass], i, rates) => make('tr', {},
  cell('Line', String(i + 1)), cell('From', String(from)), cell('To', String(to)), cell('Observed m', paler(metres(difference))),
  cell('Length m', String(length)), itsClass !== NO_CLASS && cell('Class', String(itsClass)), lineResult(standing, rates && rates[i]));

function linesTable({ book, results: { numbers, rates } }) {
  const head = tableHead('Line', 'From', 'To', ['Observed', 'm'], ['Length', 'm'], ...(hasClasses(book) ? ['Class'] : []),
    ['Correction', 'mm'], ['Rate', 'mm/km']);
  const rows = groups(numbers.lines, LINE).map((line, i) => lineRow(line, i, rates));
  // Without heights the lines are still wanted on paper, where the book's own table is not.
  return make('table', { class: rates ? 'stacked' : 'stacked paper-only' }, head, make('tbody', {}, rows));
}

function writeHeights(step) {
  const { results } = step;
  if (!results.done) {
    fill(byId('heights-box'), none('No heights are shown while something in the book is wrong.'));
    return;
  }
  const comparison = sinceStart();
  const isRefused = results.adjusted.number !== 0;
  fill(byId('heights-box'), isRefused ? refusedBox(results.adjusted) : settledWords(results.adjusted, comparison),
    make('div', { class: 'beside' }, !isRefused && marksTable(step, comparison), linesTable(step)));
}

const panel = whenSeen('heights', writeHeights);
export const showHeights = panel.show;
export const wireHeights = panel.wire;
