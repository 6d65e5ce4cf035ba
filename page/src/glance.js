// The book at a glance: tiles, and what is not watched first of them.
import { count, lineCount } from './core.js';
import { sinceStart } from './desk.js';
import { byId, make, refill } from './dom.js';
import { tallyText } from './since.js';
import { named, namedFew, plural } from './text.js';

/** A tile: what it means, its title, and words below. */
const tile = (meaning, title, words) => ({ meaning, title, words });
const made = ({ meaning, title, words }) =>
  make('div', { class: `tile ${meaning}` }, make('b', {}, title), make('span', { class: 'dim' }, words));

function notCheckedTile({ notChecked }, comparison) {
  if (notChecked.length === 0) return null;
  const lost = comparison && comparison.lost.length > 0 ? ` Checked at the start: ${named('line', comparison.lost)}.` : '';
  return tile('loud', `NOT CHECKED: ${namedFew('line', notChecked)}`, `No closed loop passes here. A blunder would not show.${lost}`);
}

function loopsTile({ loops }) {
  const over = loops.filter(loop => loop.over).length;
  const many = loops.length;
  if (many === 0) return tile('', 'No loops', 'nothing closes yet');
  if (many === 1) return over ? tile('bad', 'The loop is OVER', 'the tolerance') : tile('good', 'The loop is within', 'the tolerance');
  if (over > 0) return tile('bad', `${over} of ${many} loops OVER`, `${many - over} within`);
  return tile('good', many === 2 ? 'Both loops within' : `All ${many} loops within`, 'the tolerance');
}

function linesTile({ book, results }) {
  const { numbers, notChecked, pieces } = results;
  const many = lineCount(numbers);
  const withdrawn = book.lines.filter(line => !line.standing).length;
  const lines = plural(many, 'line') + (withdrawn > 0 ? `, ${withdrawn} withdrawn` : '');
  const network = `${plural(count(numbers.marks), 'mark')}, ${plural(pieces, 'piece')}`;
  if (notChecked.length > 0 || many === withdrawn) return tile('', lines, network);
  return tile('good', 'Every line is checked', `${lines}, ${network}`);
}

function heightsTile({ numbers, adjusted }) {
  const { number, place, sweeps } = adjusted;
  if (number === 0) {
    return tile('good', 'Heights adjusted', `${plural(sweeps, 'sweep')}, ${plural(numbers.held.length / 2, 'held mark')}`);
  }
  return tile('note', 'No heights', number === 11 ? `refused 11: hold a mark in the piece of mark ${place}` : `refused ${number}`);
}

function sinceTile({ log }, comparison) {
  if (!comparison) return null;
  return tile('note', log.length > 0 ? `After ${plural(log.length, 'correction')}` : 'Since the start', tallyText(comparison, ' · '));
}

function tiles(step) {
  const { results } = step;
  if (!results.done) return [tile('bad', 'No results', results.stopped ? 'the core stopped' : 'while something in the book is wrong')];
  const comparison = sinceStart();
  return [
    notCheckedTile(results, comparison), loopsTile(results), linesTile(step), heightsTile(results), sinceTile(step, comparison),
  ].filter(each => each !== null);
}

export function showGlance(step) {
  const shown = tiles(step);
  if (refill(byId('glance'), shown, () => shown.map(made))) {
    byId('live').textContent = shown.map(({ title, words }) => `${title}, ${words}`).join('. ');
  }
}
