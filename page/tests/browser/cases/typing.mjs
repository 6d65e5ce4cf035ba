// A book typed in by hand: keys, cells, controls, and that nothing typed is ever lost.
import { bytesOf, tableOf, whole } from '../book-file.mjs';
import { book } from '../books.mjs';
import { holds, includes, same } from '../check.mjs';
import { heldCell, lineCell } from '../desk.mjs';
import { sleep } from '../tools.mjs';

export const cases = [
  { name: 'typed-by-keyboard-alone', run: typedByKeyboardAlone },
  { name: 'keys-go-through-the-cells', run: keysGoThroughTheCells },
  { name: 'every-control-by-tab', run: everyControlByTab },
  { name: 'incomplete-last-line', run: incompleteLastLine },
  { name: 'typing-is-never-lost', run: typingIsNeverLost },
];

const ROWS = [['1', '2', '1.204', '800'], ['2', '3', '-0.3105', '650'], ['3', '1', '-0.893', '900']];

/** From an empty book to a saved file, with no mouse. */
async function typedByKeyboardAlone(desk) {
  const { page } = desk;
  await tabTo(desk, 'new');
  await page.press('Enter');
  same(await desk.focused(), 'Line 1, from', 'after New');
  for (const row of ROWS) {
    for (const value of row) {
      await page.type(value);
      await page.press('Tab');
    }
  }
  same(await desk.focused(), 'Line 4, from', 'after three lines');
  includes(await desk.glance(), 'The loop is within', 'the verdict');
  await desk.keys('ArrowUp', 'F2');
  same(await desk.focused(), 'new-difference', 'F2');
  await page.type('-0.993');
  await page.press('Enter');
  includes(await desk.glance(), 'The loop is OVER', 'after the re-run');
  await page.press('z', { control: true });
  includes(await desk.glance(), 'The loop is within', 'Ctrl+Z');
  await page.press('y', { control: true });
  includes(await desk.glance(), 'The loop is OVER', 'Ctrl+Y');
  await page.press('z', { control: true });
  await page.press('F1');
  holds(await desk.evaluate(() => document.getElementById('help-box').open), 'F1 opens the help');
  same(await desk.evaluate(() => document.getElementById('help-box').scrollTop), 0, 'at its beginning');
  await page.press('Escape');
  holds(!await desk.evaluate(() => document.getElementById('help-box').open), 'Escape closes it');
  await withdrawByKeys(desk);
  await saveByKeys(desk);
}

/** F2, then to the button by Tab; the focus is then on Undo, which brings the line back. */
async function withdrawByKeys(desk) {
  await desk.focus(lineCell(2, 'difference'));
  await desk.keys('F2', 'Tab');
  same(await desk.focused(), 'rerun', 'Tab from the new difference');
  await desk.keys('Tab');
  same(await desk.focused(), 'withdraw', 'Tab once more');
  await desk.keys('Enter');
  includes(await desk.checkedBy(2), 'withdrawn', 'withdrawn by keys');
  same(await desk.focused(), 'undo-here', 'the focus');
  await desk.keys('Enter');
  includes(await desk.checkedBy(2), 'loop 1', 'brought back by keys');
  holds(await desk.focused() !== 'body', 'the focus is somewhere');
}

async function saveByKeys(desk) {
  await desk.focus(heldCell(1, 'mark'));
  await desk.page.type('1');
  await desk.page.press('Tab');
  await desk.page.type('52.31');
  // The cell is not left before Ctrl+S: what is in it counts.
  const file = await desk.save(() => desk.page.press('s', { control: true }));
  const lines = ROWS.map(([from, to, difference, length]) => [+from, +to, Math.round(difference * 1e6), +length]);
  const wanted = bytesOf({ tolerance: 120, marks: 3, held: [[1, 52_310_000]], lines });
  same(file?.bytes.toString('hex'), wanted.toString('hex'), 'the saved bytes');
}

async function tabTo(desk, name) {
  for (let tries = 0; tries < 60; tries += 1) {
    if (await desk.focused() === name) return;
    await desk.page.press('Tab');
  }
  throw new Error(`${name} is not reached by Tab`);
}

async function keysGoThroughTheCells(desk) {
  const { page } = desk;
  const goes = async (from, key, to, modifiers) => {
    await desk.focus(from);
    await page.press(key, modifiers);
    same(await desk.focused(), to, `${key} from ${from}`);
  };
  await goes(lineCell(2, 'difference'), 'Enter', 'Line 3, difference');
  await goes(lineCell(2, 'length'), 'Enter', 'Line 3, from');
  await goes(lineCell(2, 'difference'), 'ArrowDown', 'Line 3, difference');
  await goes(lineCell(2, 'difference'), 'ArrowUp', 'Line 1, difference');
  await goes(lineCell(2, 'length'), 'Tab', 'Line 3, from');
  await goes(lineCell(3, 'from'), 'Tab', 'Line 2, length', { shift: true });
  await goes(heldCell(1, 'height'), 'Tab', 'Held entry 2, mark');
  await desk.focus(lineCell(2, 'difference'));
  await page.press('a', { control: true });
  await page.type('9.999');
  await page.press('Escape');
  same(await desk.value(lineCell(2, 'difference')), '4.235', 'Escape restores the cell');
  holds(await desk.evaluate(() => document.getElementById('undo').disabled), 'no step was taken');
  // In a cell that is being typed Ctrl+Z is the browser's: the step before is not taken back.
  await desk.write(lineCell(1, 'difference'), '6.4');
  await desk.focus(lineCell(2, 'difference'));
  await page.press('a', { control: true });
  await page.type('9.999');
  await page.press('z', { control: true });
  same(await desk.value(lineCell(1, 'difference')), '6.400', 'Ctrl+Z leaves the step before');
  same(await desk.value(lineCell(2, 'difference')), '4.235', 'and takes back the typing');
  await page.press('o', { control: true });
  await sleep(50);
  same(page.choosers, 1, 'Ctrl+O asks for a file');
}

const CONTROLS = [
  'name', 'new', 'open', 'save', 'print', 'sheet', 'help', 'marks', 'version', 'tolerance', 'Held entry 1, mark', 'Line 1, from',
  'Line 7, length', 'Line 8, length', 'labels', 'smaller', 'larger', 'tidy', 'svgbox',
];

/** Inside the page: the names of all that can have the focus. */
function focusable() {
  const isOffered = each => each.tabIndex >= 0 && !each.disabled && !each.closest('dialog')
    && each.checkVisibility({ visibilityProperty: true });
  return [...document.querySelectorAll('a[href], button, input, select, summary, [tabindex]')].filter(isOffered)
    .map(each => each.id || each.getAttribute('aria-label') || each.textContent.trim().slice(0, 30));
}

/** All that can have the focus has it once in a round of Tab; what Tab passes over has a key of its own in its row. */
async function everyControlByTab(desk) {
  await desk.sketchPanel();
  await desk.focus('#name');
  const wanted = await desk.evaluate(focusable);
  const reached = new Set(['name']);
  for (let tries = 0; tries < wanted.length + 10; tries += 1) {
    await desk.page.press('Tab');
    reached.add(await desk.evaluate(() => {
      const each = document.activeElement;
      return each.id || each.getAttribute('aria-label') || each.textContent.trim().slice(0, 30);
    }));
  }
  same([...wanted, ...CONTROLS].filter(name => !reached.has(name)), [], 'not reached by Tab');
  same(await desk.count('button[tabindex="-1"]:not(.correct, .remove)'), 0, 'buttons that no key reaches');
  same(await desk.count('#loops-box tr[tabindex="0"]'), 1, 'the loops are one stop');
  same(await desk.count('#sketch-box tr[tabindex="0"]'), 1, 'the sketch is one stop');
}

async function incompleteLastLine(desk) {
  const text = await desk.texts();
  await desk.write(lineCell(8, 'from'), '1');
  same(await desk.texts(), text, 'the line is not in the book');
  includes(await desk.checkedBy(8), 'not complete', 'the row');
  same(await desk.count('#lines tr[data-row]'), 9, 'and one empty row');
  const file = await desk.save();
  same(file?.bytes.toString('hex'), book('worked').toString('hex'), 'the saved bytes');
  includes(await desk.notice(), 'Line 8 is not complete', 'the message');
  await desk.writeLine(8, [1, 2, '2.1', '900']);
  includes((await desk.report()), 'LINES 8', 'complete');
}

async function typingIsNeverLost(desk) {
  const { page } = desk;
  const half = async text => {
    await desk.focus(lineCell(2, 'difference'));
    await page.press('a', { control: true });
    await page.type(text);
  };
  // While the page draws by itself, and messages go, a cell that is being typed stays.
  await desk.openBook(book('town60'), 'town.book');
  await desk.write(lineCell(1, 'difference'), '1.5');
  await half('12.3');
  await sleep(700);
  same(await desk.value(lineCell(2, 'difference')), '12.3', 'while the picture is drawn');
  await page.type('4');
  same(await desk.value(lineCell(2, 'difference')), '12.34', 'and the cursor stays');
  // A click elsewhere takes the cell first.
  const micrometres = async () => whole(await desk.value(lineCell(2, 'difference')), 6);
  const [before] = tableOf(book('town60')).lines.slice(1).map(line => line[2]);
  await desk.click('#undo');
  same(await micrometres(), before, 'Undo by a click takes back the cell');
  await desk.redo();
  same(await micrometres(), 12_340_000, 'and Redo brings it');
  await half('5.5');
  await page.press('F2');
  same(await micrometres(), 5_500_000, 'F2 takes the cell');
  await desk.press('#cancel');
  await half('7.25');
  await desk.click('#help');
  await page.press('Escape');
  same(await micrometres(), 7_250_000, 'the help takes nothing away');
  await half('what is this, and how long may it be? '.repeat(6));
  await page.press('Tab');
  const kept = await desk.value(lineCell(2, 'difference'));
  includes(kept, 'what is this, and how long may it be?', 'text that is no number stays');
  await sleep(600);
  await desk.goto();
  await desk.press('.draft-yes');
  same(await desk.value(lineCell(2, 'difference')), kept, 'and comes back after the page was closed');
}
