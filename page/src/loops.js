// The panel of the loops: verdicts, misclosures and lines, and beside a start what still stands.
import { choosableRows } from './choosable.js';
import { makeStart, sinceStart } from './desk.js';
import { byId, chip, dim, draw, fill, make, none, refill, setText, tableHead, writeRows } from './dom.js';
import { marksOf } from './results.js';
import { changes, tally } from './since.js';
import { millimetres, named, signedLine, size } from './text.js';

const MANY_OPEN = 14;
const SIGNS = { stands: '= stands', changed: '≠ changed', new: '+ new', gone: '− gone' };
const BAR = { width: 86, allowed: 40 };

const chosenLoop = choosableRows('loops-box', 'loop');

const COLUMNS = [
  ['loop', 'Loop'], ['verdict', ''], ['since', ''], ['misclosure', 'Misclosure mm'], ['allowed', 'Allowed ± mm'], ['bar', ''],
  ['length', 'Length m'], ['lines', ''],
];

/** A row without anything in it; only beside a start it says how the loop stands. */
function blankRow(isCompared) {
  const cells = COLUMNS.filter(([kind]) => isCompared || kind !== 'since')
    .map(([kind, title]) => make('td', { 'class': kind, 'data-title': title }, kind === 'bar' && blankBar()));
  cells[0].append(make('b'));
  cells.at(-1).append(make('span', { class: 'run' }), make('span', { class: 'below' }));
  return make('tr', {}, cells);
}

const blankBar = () => draw('svg', { 'width': BAR.width, 'height': 16, 'aria-hidden': 'true' },
  draw('rect', { y: 4, height: 8 }), draw('path', { class: 'more', d: 'M80 2l6 6-6 6z' }),
  draw('path', { class: 'tick', d: `M${BAR.allowed} 0v16` }));

/** How long the misclosure is beside what is allowed: drawing only. */
function writeBar(svg, loop) {
  svg.setAttribute('class', loop ? (loop.over ? 'over' : 'within') : 'none');
  if (!loop) return;
  const reach = loop.misclosure === 0n ? 0 : BAR.allowed * Number(size(loop.misclosure)) / Number(loop.allowed);
  svg.querySelector('rect').setAttribute('width', Math.min(reach, BAR.width - 6).toFixed(1));
  svg.querySelector('.more').classList.toggle('unused', reach <= BAR.width - 6);
}

const below = words => make('span', { class: 'below' }, words);

/** How a loop stands beside the start, with what it was. */
function sinceParts({ start, results }, { word, was, like }, i) {
  const more = word === 'changed' ? changes(start.loops[was], results.loops[i])
    : like !== undefined ? `same lines as loop ${like + 1} before` : '';
  return [chip(word, SIGNS[word]), more && below(more)];
}

/** What is the same of a loop that is there and of one that is gone. */
function writeLoop(row, loop, under) {
  const cellOf = kind => row.querySelector(`td.${kind}`);
  setText(cellOf('misclosure'), millimetres(loop.misclosure));
  setText(cellOf('length'), String(loop.length));
  setText(row.querySelector('.run'), loop.lines.map(signedLine).join(' '));
  setText(cellOf('lines').lastElementChild, under);
  return cellOf;
}

function writeLoopRow(step, comparison, row, i) {
  const { numbers, loops } = step.results;
  const loop = loops[i];
  row.dataset.loop = i;
  row.classList.remove('gone');
  const cellOf = writeLoop(row, loop, `marks ${marksOf(numbers, loop.lines).join('–')}`);
  setText(cellOf('loop').firstElementChild, String(i + 1));
  refill(cellOf('verdict'), loop.over, () => (loop.over ? chip('over', '✗ OVER') : chip('within', '✓ within')));
  setText(cellOf('allowed'), millimetres(loop.allowed));
  writeBar(row.querySelector('svg'), loop);
  if (comparison) fill(cellOf('since'), sinceParts(step, comparison.loops[i], i));
}

function writeGoneRow({ start }, row, i) {
  const loop = start.loops[i];
  delete row.dataset.loop;
  // It may have been a loop that was chosen.
  row.removeAttribute('tabindex');
  row.className = 'gone';
  const cellOf = writeLoop(row, loop, `was loop ${i + 1}`);
  setText(cellOf('loop').firstElementChild, '');
  refill(cellOf('verdict'), `was ${loop.over}`, () => (loop.over ? 'was OVER' : 'was within'));
  setText(cellOf('allowed'), '');
  writeBar(row.querySelector('svg'), null);
  fill(cellOf('since'), chip('gone', SIGNS.gone));
}

/** The table's body, under a head that fits. */
function tableFor(comparison) {
  const box = byId('loops-box');
  const kind = comparison ? 'loops rows stacked compared' : 'loops rows stacked';
  if (!box.firstElementChild || box.firstElementChild.className !== kind) {
    const head = tableHead('Loop', 'Verdict', ...(comparison ? ['Since the start'] : []), ['Misclosure', 'mm'], ['Allowed', '± mm'], '',
      ['Length', 'm'], 'Lines, as run');
    fill(box, make('table', { class: kind }, head, make('tbody')));
  }
  return box.querySelector('tbody');
}

function showTable(step, comparison) {
  const { loops, numbers } = step.results;
  const { start } = step;
  const gone = comparison ? comparison.gone : [];
  const shown = [
    ...loops.map((loop, i) => {
      const since = comparison && comparison.loops[i];
      return [i, loop, marksOf(numbers, loop.lines), since, since && start.loops[since.was]];
    }),
    ...gone.map(i => ['gone', i, start.loops[i]]),
  ];
  writeRows(tableFor(comparison), shown, blankRow(comparison !== null), (row, i) => {
    if (i < loops.length) writeLoopRow(step, comparison, row, i);
    else writeGoneRow(step, row, gone[i - loops.length]);
  });
  chosenLoop.mark();
}

/** The corrections since the start, and how many loops stand. */
function startParts({ log, results }, counts) {
  const open = results.notChecked.length > MANY_OPEN
    && make('p', { class: 'tally' }, chip('unchecked', 'NOT CHECKED'), ` ${named('line', results.notChecked)}`);
  if (!counts) return open;
  const entries = log.map(({ words, loops }) => make('li', {}, words, loops && [' ', dim(`Loops: ${loops}.`)]));
  const chips = counts.map(([word, words]) => [' ', chip(word, words)]);
  return [
    open,
    entries.length > 0 && make('ol', { class: 'log' }, entries),
    make('p', { class: 'tally' }, 'Since the start:', chips.length > 0 ? chips : ' no loops'),
  ];
}

/** What the loops say of a closed walk that is none of them, and that a line which is not checked has no part in it. */
function showWalks({ loops = [], notChecked = [] }) {
  byId('any-walk').hidden = loops.length === 0;
  byId('walk-closes').hidden = loops.some(({ misclosure }) => misclosure !== 0n);
  byId('walk-open').hidden = notChecked.length === 0;
}

function showStart({ results }, comparison) {
  byId('restart').hidden = !results.done;
  byId('restart').textContent = comparison ? 'Make this the new start' : 'Make this the start';
}

export function showLoops(step) {
  const { results } = step;
  const comparison = sinceStart();
  const counts = comparison && tally(comparison);
  showStart(step, comparison);
  showWalks(results);
  refill(byId('since'), [results.done, results.notChecked, step.log, counts], () => results.done && startParts(step, counts));
  if (!results.done) fill(byId('loops-box'), none('No loops are shown while something in the book is wrong.'));
  else if (results.loops.length === 0 && !(comparison && comparison.gone.length > 0)) {
    fill(byId('loops-box'), none('Nothing closes: there is no loop in this network, so nothing is checked.'));
  } else showTable(step, comparison);
}

export function wireLoops() {
  byId('restart').addEventListener('click', makeStart);
  chosenLoop.wire();
}
