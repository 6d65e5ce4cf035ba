// What a beginner types wrong: it is said at once and at its place, nothing breaks, and nothing is lost.
import { bytesOf } from '../book-file.mjs';
import { book } from '../books.mjs';
import { holds, includes, same } from '../check.mjs';
import { heldCell, lineCell } from '../desk.mjs';
import { RUBBISH } from '../rubbish.mjs';
import { until } from '../tools.mjs';

const BOTH = ['chromium', 'firefox'];

export const cases = [
  { name: 'wrong-cells-are-marked', run: wrongCellsAreMarked },
  { name: 'several-wrong-lines', run: severalWrongLines },
  { name: 'held-twice', run: heldTwice },
  { name: 'mark-beyond-the-last', run: markBeyondTheLast },
  { name: 'no-held-mark', run: noHeldMark },
  { name: 'rubbish-in-every-field', run: rubbishInEveryField, browsers: BOTH },
  { name: 'empty-middle-line-can-be-deleted', run: emptyMiddleLine },
];

const WRONG = [
  [lineCell(3, 'to'), '5', ['Line 3, from', 'Line 3, to'], '7 at line 3. It runs from a mark to the same mark.'],
  [lineCell(3, 'to'), '6', ['Line 3, to'], 'Refused 7 at line 3.'],
  [lineCell(3, 'from'), '0', ['Line 3, from'], 'Refused 7 at line 3.'],
  [lineCell(3, 'from'), '-1', ['Line 3, from'], 'Refused 7 at line 3.'],
  [lineCell(2, 'difference'), '100.000001', ['Line 2, difference'], 'Refused 7 at line 2.'],
  [lineCell(2, 'difference'), '-100.000001', ['Line 2, difference'], 'Refused 7 at line 2.'],
  [lineCell(2, 'length'), '9', ['Line 2, length'], 'Refused 7 at line 2.'],
  [lineCell(2, 'length'), '100001', ['Line 2, length'], 'Refused 7 at line 2.'],
  [heldCell(1, 'mark'), '6', ['Held entry 1, mark'], 'Refused 6 at held entry 1.'],
  [heldCell(1, 'height'), '10000.000001', ['Held entry 1, height'], 'Refused 6 at held entry 1.'],
  ['#tolerance', '100.1', ['tolerance'], 'Refused 4.'],
  ['#tolerance', '0', ['tolerance'], 'Refused 4.'],
  ['#marks', '257', ['marks'], 'Refused 4.'],
  ['#marks', '0', ['marks'], 'Refused 4.'],
  [lineCell(3, 'difference'), 'abc', ['Line 3, difference'], 'Cannot be read. Line 3: the difference is not a number'],
  [lineCell(1, 'difference'), '1 000', ['Line 1, difference'], 'Line 1: the difference is not a number: “1 000”.'],
  [lineCell(1, 'length'), '1600.5', ['Line 1, length'], 'must be a whole number, without point or comma: “1600.5”.'],
  [lineCell(1, 'difference'), '1.2345678', ['Line 1, difference'], 'has more than 6 decimals: “1.2345678”.'],
  [lineCell(1, 'difference'), '123456789012', ['Line 1, difference'], 'is too long a number: “123456789012”.'],
  [lineCell(1, 'difference'), '', ['Line 1, difference'], 'Line 1: the difference is empty.'],
];

/** Inside the page: the ground of a field, its own or what shines through from its cell, and the frames of both. */
function lookOf(selector) {
  const field = document.querySelector(selector);
  const styles = [field, field.parentElement].map(each => getComputedStyle(each));
  const isClear = colour => /^rgba\(.*, 0\)$/.test(colour);
  const ground = styles.map(style => style.backgroundColor).find(colour => !isClear(colour)) ?? 'none';
  const frames = styles.map(style => [style.borderColor, style.outlineStyle, style.outlineColor, style.boxShadow]);
  return { ground, frame: frames.join() };
}

/** With and without the focus a wrong cell looks otherwise than a right one, in its ground and its frame. */
async function holdLooks(desk) {
  const cell = lineCell(2, 'length');
  const looks = async () => {
    await desk.focus(cell);
    const withFocus = await desk.evaluate(lookOf, cell);
    await desk.focus('#name');
    return [withFocus, await desk.evaluate(lookOf, cell)];
  };
  const right = await looks();
  await desk.write(cell, '5');
  const wrong = await looks();
  ['with the focus', 'without the focus'].forEach((when, place) => {
    holds(wrong[place].ground !== right[place].ground, `the ground of a wrong cell ${when}: ${wrong[place].ground}`);
    holds(wrong[place].frame !== right[place].frame, `the frame of a wrong cell ${when}: ${wrong[place].frame}`);
  });
  await desk.undo();
}

async function wrongCellsAreMarked(desk) {
  const before = await desk.state();
  await holdLooks(desk);
  for (const [cell, text, cells, words] of WRONG) {
    await desk.write(cell, text);
    same(await desk.wrongCells(), cells, `${cell} ${text}`);
    includes(await desk.trouble(), words, text);
    same(await desk.tiles(), ['No results / while something in the book is wrong'], 'no results stay');
    same(await desk.count('#loops-box table'), 0, 'no loops stay');
    await until(async () => await desk.count('#svgbox svg .field') === 0, { milliseconds: 1000 });
    same(await desk.count('#svgbox svg .field'), 0, 'no loop fields stay');
    await desk.focus('#name');
    await desk.page.press('F8');
    holds(cells.includes(await desk.focused()), `F8 goes to ${await desk.focused()}`);
    await desk.focus('#name');
    await desk.click('#goto');
    holds(cells.includes(await desk.focused()), `the button goes to ${await desk.focused()}`);
    await desk.undo();
    same(await desk.wrongCells(), [], 'undone');
  }
  same(await desk.state(), before, 'all undone');
  same(await desk.count('#trouble[role="alert"]'), 1, 'it is read out at once');
}

async function severalWrongLines(desk) {
  await desk.write(lineCell(2, 'length'), '5');
  await desk.write(lineCell(4, 'to'), '5');
  await desk.write(lineCell(6, 'difference'), '101');
  includes(await desk.trouble(), 'Refused 7 at line 2.', 'the first');
  includes(await desk.trouble(), '2 more lines are wrong too.', 'the others');
  const cells = ['Line 2, length', 'Line 4, from', 'Line 4, to', 'Line 6, difference'];
  same(await desk.wrongCells(), cells, 'all are marked');
  const { lines } = await desk.picture();
  // Line 4 has no two marks to be drawn between.
  same(lines.filter(line => line.kinds.includes('wrong')).map(line => line.line + 1), [2, 6], 'in the picture');
  await desk.write(lineCell(3, 'difference'), 'x');
  await desk.write(lineCell(5, 'difference'), 'y');
  includes(await desk.trouble(), 'Line 3: the difference is not a number: “x”.', 'what cannot be read comes first');
  includes(await desk.trouble(), 'Line 5: the difference is not a number: “y”.', 'each of them is named');
}

async function heldTwice(desk) {
  await desk.write(heldCell(2, 'mark'), '1');
  await desk.write(heldCell(2, 'height'), '5');
  includes(await desk.trouble(), 'Refused 6 at held entry 2. Mark 1 is held by an earlier entry.', 'the message');
  same(await desk.wrongCells(), ['Held entry 2, mark'], 'the cell');
  await desk.write(heldCell(2, 'mark'), '2');
  same(await desk.trouble(), '', 'mended');
}

async function markBeyondTheLast(desk) {
  await desk.write(lineCell(3, 'to'), '9');
  includes(await desk.trouble(), 'Mark 9 is not in this book of 5 marks.', 'the message');
  same(await desk.text('#grow'), 'Make it 9 marks', 'the offer');
  await desk.click('#grow');
  same(await desk.value('#marks'), '9', 'marks');
  includes(await desk.glance(), '9 marks', 'it works');
  await desk.undo();
  await desk.write(lineCell(3, 'to'), '300');
  same(await desk.count('#grow'), 0, 'no offer that the core refuses');
  await desk.undo();
  await desk.write('#marks', '');
  await desk.write(lineCell(3, 'to'), '9');
  same(await desk.trouble(), '', 'an empty field has as many marks as are named');
  same(await desk.evaluate(() => document.getElementById('marks').placeholder), '9', 'shown grey');
}

async function noHeldMark(desk) {
  await desk.press('#held .remove');
  includes(await desk.glance(), 'No heights refused 11: hold a mark in the piece of mark 1', 'the glance');
  includes(await desk.heightsPanel(), 'Refused 11 at mark 1', 'the panel');
  same((await desk.loops()).length, 3, 'the loops stay');
  same(await desk.trouble(), '', 'only the heights are gone');
  await desk.click('#hold');
  same(await desk.focused(), 'Held entry 1, height', 'the focus');
  same(await desk.value(heldCell(1, 'mark')), '1', 'the entry');
  await desk.page.type('100');
  await desk.page.press('Enter');
  includes(await desk.glance(), 'Heights adjusted', 'with its height');
  await desk.openBook(book('two_pieces'), 'two.book');
  await desk.press('#held tr[data-row="1"] .remove');
  includes(await desk.heightsPanel(), 'Refused 11 at mark 4', 'the second piece');
}

/** A triangle with a held mark, and the fields of it and of the rows that wait for more. */
const SIDES = [[1, 2, 500_000, 700], [2, 3, 250_000, 400], [3, 1, -749_000, 900]];
const TRIANGLE = { tolerance: 80, marks: 3, held: [[1, 0]], lines: SIDES };
const FIELDS = [
  '#name', '#marks', '#tolerance',
  heldCell(1, 'mark'), heldCell(1, 'height'), heldCell(2, 'mark'), heldCell(2, 'height'),
  lineCell(1, 'from'), lineCell(2, 'to'), lineCell(3, 'difference'), lineCell(1, 'length'),
  lineCell(4, 'from'), lineCell(4, 'difference'),
];
const FEW_FIELDS = ['#tolerance', heldCell(1, 'height'), lineCell(3, 'difference'), '#name'];

/** Inside the page: puts each text into a field, looks, and undoes until all is as before. */
function tryTexts(selector, texts) {
  const shown = part => document.querySelector(part).textContent.trim();
  const field = () => document.querySelector(selector);
  const undo = document.querySelector('#undo');
  const read = () => [field().value, shown('#textbox'), document.querySelector('#name').value].join('\n');
  return texts.map(text => {
    const before = read();
    field().focus();
    field().value = text;
    const typed = field().value;
    field().dispatchEvent(new Event('input', { bubbles: true }));
    field().dispatchEvent(new Event('change', { bubbles: true }));
    const answer = { text, typed, value: field().value, glance: shown('#glance'), trouble: shown('#trouble') };
    undo.focus();
    for (let tries = 0; tries < 3 && read() !== before; tries += 1) undo.click();
    return { ...answer, isBack: read() === before };
  });
}

function holdAnswer(field, { text, typed, value, glance, trouble, isBack }) {
  const what = `${field} ${text.slice(0, 40)}`;
  same(glance.includes('No results'), trouble !== '', `${what}: either results or a reason: ${glance} ${trouble}`);
  if (trouble.startsWith('Cannot be read')) same(value, typed.trim(), `${what} stays as it was typed`);
  holds(isBack, `${what} is not undone`);
}

/** So many texts are tried before the page may draw: drawing takes the most time. */
const AT_ONCE = 8;

async function rubbishInEveryField(desk, { browser }) {
  await desk.openBook(bytesOf(TRIANGLE), 'triangle.book');
  await desk.report();
  const fields = browser === 'firefox' ? FEW_FIELDS : FIELDS;
  for (const field of fields) {
    for (let first = 0; first < RUBBISH.length; first += AT_ONCE) {
      const answers = await desk.evaluate(tryTexts, field, RUBBISH.slice(first, first + AT_ONCE));
      answers.forEach(answer => holdAnswer(field, answer));
    }
  }
  same(await desk.evaluate(() => globalThis.wasRun), undefined, 'what was typed ran');
  return `${fields.length} fields, ${RUBBISH.length} texts`;
}

async function emptyMiddleLine(desk) {
  for (const column of ['from', 'to', 'difference', 'length']) await desk.write(lineCell(3, column), '');
  includes(await desk.trouble(), 'Line 3', 'the message');
  same(await desk.text('#drop'), 'Delete line 3: later lines move up', 'the offer');
  await desk.click('#drop');
  includes(await desk.report(), 'MARKS 5 LINES 6', 'deleted');
  same(await desk.value(lineCell(3, 'from')), '5', 'the next has moved up');
  await desk.openBook(book('worked'), 'worked.book');
  await desk.rerun(6, '2.428');
  for (const column of ['from', 'to', 'difference', 'length']) await desk.write(lineCell(3, column), '');
  same(await desk.count('#drop'), 0, 'not after the first correction: numbers of lines stay');
}
