// Lines that nothing checks are the first and the loudest thing that the page says.
import { book } from '../books.mjs';
import { holds, includes, same } from '../check.mjs';
import { textOfPaper } from '../paper.mjs';

export const cases = [
  { name: 'case-e-not-checked-is-loud', run: withdrawThree, browsers: ['chromium', 'firefox'] },
  { name: 'not-checked-comes-first', run: notCheckedComesFirst, needs: ['pdftotext'] },
  { name: 'many-lines-not-checked', run: manyLines },
];

async function withdrawThree(desk) {
  await desk.withdraw(3);
  const [first] = await desk.tiles();
  same(first.split(' / ')[0], 'NOT CHECKED: line 2', 'the first tile');
  includes(first, 'No closed loop passes here. A blunder would not show.', 'the first tile');
  includes(first, 'Checked at the start', 'the first tile');
  includes(await desk.checkedBy(2), 'NOT CHECKED', 'the row');
  includes(await desk.notice(), 'No longer checked: line 2', 'the message');
  const { lines, labels } = await desk.picture();
  same(lines.filter(line => line.kinds.includes('unchecked-over')).length, 1, 'dashes in the picture');
  same(lines.filter(line => line.kinds.includes('unchecked-under')).length, 1, 'their ground in the picture');
  holds(labels.some(label => /^2 (NOT CHECKED|!)$/.test(label)), `the label is among ${labels.join(', ')}`);
  await desk.undo();
  same(await desk.count('.tile.loud'), 0, 'undone');
}

/** In the glance by place, size and ground; in the picture by the widest stroke; on paper before everything else. */
async function notCheckedComesFirst(desk) {
  await desk.openBook(book('past_the_last_junction'), 'tail.book');
  const [first, ...others] = await desk.evaluate(tilesAsSeen);
  holds(first.isLoud, 'the first tile is the loud one');
  holds(others.every(tile => tile.y > first.y || (tile.y === first.y && tile.x > first.x)), 'it stands first');
  holds(others.every(tile => tile.width <= first.width), 'it is the widest');
  holds(others.every(tile => tile.ground !== first.ground), 'its ground is its own');
  holds(first.isStriped, 'it has hazard stripes');
  const [open, checked] = await desk.evaluate(widestLines);
  holds(open > checked, `lines not checked are the thickest: ${open} and ${checked}`);
  const [paper] = textOfPaper(await desk.page.pdf());
  const placeOf = words => paper.indexOf(words);
  const at = placeOf('NOT CHECKED: lines 4 5 6 7');
  holds(at >= 0, 'it is on the first sheet');
  const later = ['The network', 'Loops', 'Adjusted heights'].map(placeOf).filter(place => place >= 0);
  holds(later.length > 0 && later.every(place => place > at), `it comes first on paper: ${at}, then ${later}`);
}

/** Inside the page: where each tile stands, and how it looks. */
function tilesAsSeen() {
  const hasStripes = (tile, part) => getComputedStyle(tile, part).backgroundImage.includes('gradient');
  return Array.from(document.querySelectorAll('#glance .tile'), tile => {
    const { x, y, width } = tile.getBoundingClientRect();
    const isLoud = tile.classList.contains('loud');
    const isStriped = [null, '::before', '::after'].some(part => hasStripes(tile, part));
    return { x, y, width, isLoud, isStriped, ground: getComputedStyle(tile).backgroundColor };
  });
}

/** Inside the page: the width of the thickest line that is not checked, and of the thickest other one. */
function widestLines() {
  const widthOf = line => parseFloat(getComputedStyle(line).strokeWidth);
  const widest = selector => Math.max(...Array.from(document.querySelectorAll(`#svgbox ${selector}`), widthOf));
  return [widest('path.line.unchecked-under'), widest('path.line:not(.unchecked-under):not(.unchecked-over)')];
}

async function manyLines(desk) {
  await desk.openBook(book('city256'), 'city.book');
  const all = Array.from({ length: 31 }, (_, tail) => 421 + tail);
  const [first] = await desk.tiles();
  same(first.split(' / ')[0], `NOT CHECKED: lines ${all.slice(0, 12).join(' ')} and 19 more`, 'the first tile');
  includes(await desk.text('#since'), all.join(' '), 'all of them above the loops');
  const { labels } = await desk.picture();
  const missing = all.filter(line => !labels.some(label => label === `${line} !` || label === `${line} NOT CHECKED`));
  same(missing, [], 'lines without a label in the picture');
}
