// From the smallest phone to a wide screen.
import { book } from '../books.mjs';
import { holds, includes, same } from '../check.mjs';
import { heldCell, lineCell } from '../desk.mjs';

const PHONE = { width: 320, height: 640, mobile: true };

export const cases = [
  { name: 'no-sideways-scroll-320-390-768', run: noSidewaysScroll, window: PHONE },
  { name: 'phone-320', run: phone, window: PHONE },
  { name: 'two-columns-from-1024', run: twoColumns },
];

/** Inside the page: what scrolls sideways. Both tables of lines, the book's and the one beside the heights, may. */
function sideways(width) {
  const scrolls = element => ['auto', 'scroll'].includes(getComputedStyle(element).overflowX)
    && element.scrollWidth > element.clientWidth + 1 && element.checkVisibility();
  const hasLines = element => element.querySelector('#lines') || element.closest('#heights-box');
  const found = [...document.querySelectorAll('body *')].filter(element => scrolls(element) && !hasLines(element))
    .map(element => `${element.closest('[id]').id} ${element.className}`);
  const { scrollWidth } = document.documentElement;
  return scrollWidth > width ? [`the page: ${scrollWidth}`, ...found] : found;
}

const SCREENS = [[320, 640], [390, 844], [768, 1024]];
const LONG_NAME = 'a book with a very long name that somebody gave it without much thought.book';

async function noSidewaysScroll(desk) {
  for (const [width, height] of SCREENS) {
    await desk.page.resize({ width, height, mobile: width < 700 });
    const fits = async what => same(await desk.evaluate(sideways, width), [], `${width} px, ${what}`);
    const large = width === 320 ? ['random256'] : [];
    for (const name of ['worked', 'past_the_last_junction', 'memorandum_network', 'three_classes', 'town25', ...large]) {
      await desk.openBook(book(name), `${name}.book`);
      await desk.picture();
      await desk.sketchPanel();
      await desk.heightsPanel();
      await fits(name);
    }
    await holdStates(desk, fits);
  }
}

/** The states of a book in which most is shown. */
async function holdStates(desk, fits) {
  await desk.openBook(book('worked'), LONG_NAME);
  await fits('a long name');
  await desk.withdraw(1);
  await desk.rerun(6, '2.428');
  await desk.openCorrection(2);
  await desk.sketchPanel();
  await desk.heightsPanel();
  await fits('corrections');
  await desk.write(lineCell(2, 'difference'), 'a rather long text that is no number at all');
  await fits('a cell that cannot be read');
  await desk.openBook(book('damaged'), 'damaged.book');
  await fits('a refused file');
  await desk.press('#help');
  await fits('the help');
  await desk.evaluate(() => document.getElementById('help-box').close());
  await desk.shutNotice();
}

const ROWS = [['1', '2', '1.204', '800'], ['2', '3', '-0.3105', '650'], ['3', '1', '-0.793', '900']];

/** A whole afternoon on the smallest screen, with a finger. */
async function phone(desk) {
  const fill = async (cell, text) => {
    await desk.tap(cell);
    await desk.page.type(text);
  };
  await desk.tap('#new');
  for (const [row, values] of ROWS.entries()) {
    for (const [place, column] of ['from', 'to', 'difference', 'length'].entries()) {
      await fill(lineCell(row + 1, column), values[place]);
    }
  }
  await fill(heldCell(1, 'mark'), '1');
  await fill(heldCell(1, 'height'), '52.31');
  await desk.page.press('Enter');
  includes(await desk.glance(), 'The loop is OVER', 'the verdict');
  includes(await desk.glance(), 'Heights adjusted', 'the heights');
  await desk.tap('#lines tr[data-row="2"] .correct');
  await fill('#new-difference', '-0.893');
  await desk.tap('#rerun');
  includes(await desk.glance(), 'The loop is within', 'after the re-run');
  await desk.shutNotice();
  same((await desk.picture()).marks.length, 3, 'the picture');
  same(await desk.evaluate(smallControls), [], 'too small for a finger');
  await holdLinks(desk);
}

/** Inside the page: what is to be tapped and has not 24 px each way. */
function smallControls() {
  return [...document.querySelectorAll('button, select, summary, nav a, input:not([type="file"])')]
    .filter(each => each.checkVisibility())
    .map(each => [each.id || each.className || each.textContent, each.getBoundingClientRect()])
    .filter(([, { width, height }]) => width < 24 || height < 24)
    .map(([name, { width, height }]) => `${name} ${width} × ${height}`);
}

/** The row of links goes along, and brings each part into sight. */
async function holdLinks(desk) {
  const found = () => Array.from(document.querySelectorAll('nav a'), link => link.getAttribute('href'));
  const links = await desk.evaluate(found);
  holds(links.length >= 4 && links.every(link => link.startsWith('#')), `links to the parts: ${links}`);
  for (const link of links) {
    await desk.tap(`nav a[href="${link}"]`);
    const top = await desk.evaluate(part => document.querySelector(part).getBoundingClientRect().top, link);
    holds(top > -5 && top < PHONE.height, `${link} is in sight: ${top}`);
  }
}

/** Inside the page: where the panels are, the book's first. */
function panels() {
  return ['#lines', '#svgbox', '#loops-box', '#sketch-box', '#heights-box'].map(part => {
    const { left, top, right } = document.querySelector(part).closest('section').getBoundingClientRect();
    return { left, top, right };
  });
}

async function twoColumns(desk) {
  const areInOrder = parts => parts.every((part, place) => place === 0 || part.top > parts[place - 1].top);
  for (const width of [1024, 1366, 1920]) {
    await desk.page.resize({ width, height: 768 });
    const [left, ...right] = await desk.evaluate(panels);
    holds(right.every(part => part.left >= left.right), `${width} px: the book is on the left`);
    holds(areInOrder(right), `${width} px: the rest in its order`);
  }
  for (const width of [1023, 768, 390]) {
    await desk.page.resize({ width, height: 768 });
    holds(areInOrder(await desk.evaluate(panels)), `${width} px: one column in its order`);
  }
}
