// Names, contrast and focus: everybody can use the page.
import { book } from '../books.mjs';
import { holds, includes, same } from '../check.mjs';
import { lowContrasts, lowPictureContrasts } from '../contrast.mjs';
import { lineCell } from '../desk.mjs';

export const cases = [
  { name: 'names-for-assistive-technology', run: namesForAssistiveTechnology },
  { name: 'results-are-read-out', run: resultsAreReadOut },
  { name: 'contrast', run: contrast },
  { name: 'focus-is-always-visible', run: focusIsAlwaysVisible },
  { name: 'focus-is-never-lost', run: focusIsNeverLost },
  { name: 'copied-minus-is-plain', run: copiedMinusIsPlain },
];

/** Inside the page: controls without a name. */
function nameless() {
  const isNamed = each => each.getAttribute('aria-label') || each.labels?.length > 0 || each.textContent.trim();
  return [...document.querySelectorAll('input, button, select, summary, [tabindex]')]
    .filter(each => each.checkVisibility() && !isNamed(each)).map(each => each.outerHTML.slice(0, 90));
}

/** Inside the page: ids that are there twice, and ids that are named and not there. */
function wrongIds() {
  const ids = Array.from(document.querySelectorAll('[id]'), each => each.id);
  const naming = ['aria-labelledby', 'aria-describedby', 'for'];
  const named = [...document.querySelectorAll('[aria-labelledby], [aria-describedby], label[for]')]
    .flatMap(each => naming.map(name => each.getAttribute(name))).filter(Boolean);
  return [...ids.filter((id, place) => ids.indexOf(id) !== place), ...named.filter(id => !ids.includes(id))];
}

async function namesForAssistiveTechnology(desk) {
  await desk.withdraw(3);
  await desk.openCorrection(1);
  await desk.sketchPanel();
  await desk.heightsPanel();
  same(await desk.evaluate(nameless), [], 'without a name');
  same(await desk.evaluate(wrongIds), [], 'ids');
  const parts = await desk.page.accessibleParts();
  const controls = ['textbox', 'button', 'combobox', 'link'];
  same(parts.filter(part => controls.includes(part.role) && part.name.trim() === ''), [], 'told without a name');
  for (const name of ['Line 3, difference', 'Line 1, from', 'Held entry 1, height', 'Version']) {
    holds(parts.some(part => part.name === name), `${name} is a field's name`);
  }
  same(await desk.count('#trouble[role="alert"]'), 1, 'trouble is told at once');
  const picture = parts.find(part => ['image', 'img'].includes(part.role) && part.name.includes('5 marks'));
  holds(picture, 'the picture has a summary as its name');
  for (const words of ['7 lines', '2 loops', '1 over']) includes(picture.name, words, 'the summary');
  holds(/\b1 (line )?not checked/.test(picture.name), `the summary names what is not checked: ${picture.name}`);
  same(await desk.evaluate(() => document.documentElement.lang), 'en', 'the language');
}

async function resultsAreReadOut(desk) {
  same(await desk.evaluate(() => document.getElementById('live').getAttribute('aria-live')), 'polite', 'politely');
  await desk.withdraw(3);
  includes(await desk.text('#live'), 'NOT CHECKED: line 2', 'the glance is read out');
  await desk.write(lineCell(1, 'length'), '5');
  includes(await desk.text('#live'), 'No results', 'and that there are none');
}

async function contrast(desk) {
  const states = {
    'a withdrawal': () => desk.withdraw(3),
    'a re-run': () => desk.rerun(6, '2.428'),
    'a correction': () => desk.openCorrection(1),
    'a refused file': () => desk.openBook(book('damaged'), 'damaged.book'),
    'a refused book': () => desk.write(lineCell(1, 'length'), '5'),
    'an unreadable book': () => desk.write(lineCell(1, 'length'), 'abc'),
    'lines not checked': () => desk.openBook(book('past_the_last_junction')),
    'a spur that is chosen': async () => {
      await desk.sketchPanel();
      await desk.press('#sketch-box tr[data-entry="0"]');
    },
    'no held mark': () => desk.press('#held .remove'),
    'classes and a withdrawn line': () => desk.openBook(book('three_classes')),
    'a class that is refused': () => desk.write(lineCell(2, 'class'), '5'),
  };
  for (const [what, reach] of Object.entries(states)) {
    await reach();
    await desk.sketchPanel();
    await desk.heightsPanel();
    same(await desk.evaluate(lowContrasts, 'body'), [], what);
    await desk.evaluate(() => document.querySelector('#svgbox').scrollIntoView({ block: 'center' }));
    await desk.picture();
    same(await desk.evaluate(lowPictureContrasts), [], `${what}, the picture`);
  }
  await desk.press('#help');
  same(await desk.evaluate(lowContrasts, '#help-box'), [], 'the help');
}

/** Inside the page: whether what has the focus looks otherwise than without it. */
function focusShows() {
  const element = document.activeElement;
  const look = () => {
    const style = getComputedStyle(element);
    const outline = style.outlineStyle === 'none' ? 'none' : style.outline;
    return [outline, style.boxShadow, style.borderColor, style.backgroundColor].join();
  };
  const name = element.id || element.getAttribute('aria-label') || element.outerHTML.slice(0, 60);
  const withFocus = look();
  element.blur();
  const without = look();
  element.focus({ focusVisible: true });
  return { name, shows: withFocus !== without };
}

async function focusIsAlwaysVisible(desk) {
  await desk.focus('#name');
  const seen = new Set();
  for (let step = 0; step < 75; step += 1) {
    await desk.page.press('Tab');
    if (await desk.focused() === 'body') continue;
    const { name, shows } = await desk.evaluate(focusShows);
    if (seen.has(name)) break;
    seen.add(name);
    holds(shows, `the focus on ${name} is not seen`);
  }
  holds(seen.size > 30, `${seen.size} controls were seen`);
}

/** What can take away the element that has the focus. */
const TAKING = {
  'a re-run': async desk => {
    await desk.focus(lineCell(6, 'difference'));
    await desk.page.press('F2');
    await desk.page.type('2.428');
    await desk.page.press('Enter');
  },
  'a withdrawal': async desk => {
    await desk.page.press('F2');
    await desk.click('#withdraw');
  },
  'Undo in a message': desk => desk.page.press('Enter'),
  'a held mark is removed': desk => desk.click('#held .remove'),
  'a mark is held': async desk => {
    await desk.heightsPanel();
    await desk.click('#hold');
  },
  'a new start': desk => desk.click('#restart'),
  'a refused file is shown': async desk => {
    await desk.openBook(book('damaged'), 'damaged.book');
    await desk.click('#show-it');
  },
  'marks are added': async desk => {
    await desk.write(lineCell(3, 'to'), '9');
    await desk.click('#grow');
  },
  'a message is closed': async desk => {
    await desk.openBook(book('worked'), 'worked.book');
    await desk.click('#shut');
  },
  'a row of the sketch goes': async desk => {
    await desk.openBook(book('memorandum_network'), 'memorandum.book');
    await desk.sketchPanel();
    await desk.focus('#sketch-box tr[data-entry="0"]');
    await desk.keys('Enter', ...Array(11).fill('ArrowDown'));
    await desk.page.press('z', { control: true });
  },
  'a line is deleted': async desk => {
    for (const column of ['from', 'to', 'difference', 'length']) await desk.write(lineCell(2, column), '');
    await desk.click('#drop');
  },
  'Undo': desk => desk.click('#undo'),
  'another version by Undo': async desk => {
    await desk.chooseVersion('2');
    await desk.focus(lineCell(1, 'class'));
    await desk.page.press('z', { control: true });
  },
  'New': desk => desk.click('#new'),
};

async function focusIsNeverLost(desk) {
  const after = {};
  for (const [what, act] of Object.entries(TAKING)) {
    await act(desk);
    after[what] = await desk.focused();
  }
  same(Object.keys(after).filter(what => ['body', 'html'].includes(after[what])), [], 'the focus is lost after');
  same(after['a withdrawal'], 'undo-here', 'after a withdrawal');
  same(after['a mark is held'], 'Held entry 1, height', 'after a mark is held');
  same(after.New, 'Line 1, from', 'after New');
}

async function copiedMinusIsPlain(desk) {
  const copied = await desk.evaluate(() => {
    const box = document.querySelector('#loops-box');
    getSelection().selectAllChildren(box);
    const clipboardData = new DataTransfer();
    box.dispatchEvent(new ClipboardEvent('copy', { clipboardData, bubbles: true, cancelable: true }));
    return clipboardData.getData('text/plain');
  });
  includes(copied, '-40.000', 'what was copied');
  holds(!copied.includes('−'), 'no other minus in it');
}
