// Books of version 2: each line has a class, by which it is judged, and files say which lines are withdrawn.
import { bytesOf, decimal, tableOf } from '../book-file.mjs';
import { book, table } from '../books.mjs';
import { holds, includes, lacks, same } from '../check.mjs';
import { heldCell, lineCell } from '../desk.mjs';
import { textOfPaper } from '../paper.mjs';
import { allTexts, report } from '../programs.mjs';

const BOTH = ['chromium', 'firefox'];
const PAPER = { needs: ['pdftotext'], window: { before: 'window.print = () => {};' } };

export const cases = [
  { name: 'version-2-book-opens', run: versionTwoOpens, browsers: BOTH, needs: ['programs'] },
  { name: 'version-1-book-has-no-classes', run: versionOneHasNone },
  { name: 'case-edge-of-two-classes', run: edgeOfTwoClasses, browsers: BOTH },
  { name: 'class-turns-a-verdict', run: classTurnsAVerdict },
  { name: 'class-is-refused-at-its-cell', run: classIsRefused },
  { name: 'classes-in-the-help-are-those-of-the-core', run: classesInTheHelp },
  { name: 'version-2-book-is-begun-by-keyboard', run: begunByKeyboard },
  { name: 'version-is-chosen-and-undone', run: versionIsChosen },
  { name: 'withdrawn-lines-are-saved-in-version-2', run: withdrawnLinesAreSaved },
  { name: 'saved-bytes-of-version-2-are-the-opened-bytes', run: savedBytes },
  { name: 'damaged-version-2-files-as-the-report-program', run: damagedFiles, needs: ['programs'] },
  { name: 'refused-line-that-is-withdrawn-is-mended', run: withdrawnIsMended },
  { name: 'classes-come-back-with-a-draft', run: draftHasClasses },
  { name: 'classes-are-printed', run: classesArePrinted, ...PAPER },
];

const openThree = desk => desk.openBook(book('three_classes'), 'three.book');
const classes = desk => desk.evaluate(() =>
  Array.from(document.querySelectorAll('#lines input[data-column="class"]'), each => each.value));
const isLocked = (desk, selector) => desk.evaluate(field => document.querySelector(field).disabled, selector);
const HINT = 'The tolerance is 0, since each line has that of its class: 4, 5, 6, 8 or 12 mm per √km for class 0, 1, 2, 3 or 4.';
const hint = async desk => (await desk.evaluate(() => {
  const words = document.querySelector('#book .hint.of-classes');
  return words.checkVisibility() ? words.textContent : '';
})).replace(/\s+/g, ' ');

async function versionTwoOpens(desk) {
  includes(await openThree(desk), 'Opened three : 6 marks, 8 lines.', 'the message');
  same(await desk.texts(), await allTexts(book('three_classes')), 'the texts');
  same(await classes(desk), ['0', '0', '0', '2', '4', '4', '2', '4', ''], 'the classes, and a row that waits');
  same([await desk.value('#version'), await desk.value('#tolerance')], ['2', '0.0'], 'version and tolerance');
  holds(await isLocked(desk, '#tolerance'), 'the tolerance is not for the user to set');
  same(await hint(desk), HINT, 'why');
  includes(await desk.checkedBy(8), 'withdrawn', 'the withdrawn line');
  same(await desk.count('#lines tr.withdrawn input:disabled'), 5, 'its locked cells');
  same((await desk.loops()).map(({ verdict, misclosure, allowed, lines }) => [verdict, misclosure, allowed, lines]), [
    ['✗ OVER', '9.000', '8.000', '2 3 1'], ['✓ within', '15.000', '16.509', '5 6 2 4'],
  ], 'the loops');
  same((await desk.tiles())[0].split(' / ')[0], 'NOT CHECKED: line 7', 'the first tile');
  const heights = await desk.heightsPanel();
  for (const words of ['Class', 'withdrawn']) includes(heights, words, 'the lines beside the heights');
}

async function versionOneHasNone(desk) {
  await openThree(desk);
  await desk.openBook(book('worked'), 'worked.book');
  same([await desk.value('#version'), await desk.value('#tolerance')], ['1', '12.0'], 'version and tolerance');
  holds(!await isLocked(desk, '#tolerance'), 'the tolerance can be typed');
  same([await classes(desk), await hint(desk)], [[], ''], 'no class, and no word of them');
  const heads = () => [...document.querySelectorAll('.entry.lines th')].filter(each => each.checkVisibility()).length;
  same(await desk.evaluate(heads), 6, 'the heads of the columns');
  includes(await desk.report(), 'LEVEL BOOK 1\n', 'the text');
  lacks(await desk.heightsPanel(), 'Class', 'the lines beside the heights');
  const { table: shown } = await desk.shownTable();
  same(bytesOf(shown).equals(book('worked')), true, 'the book is as it was');
}

/** Two lines of 1,000 m, of class 0 and class 4: 10 * (40 * 40 + 120 * 120) * 1,000 is 160,000,000. */
async function edgeOfTwoClasses(desk) {
  await desk.newBook();
  await desk.chooseVersion('2');
  await desk.writeLine(1, [1, 2, '1', 1000, 0]);
  for (const misclosure of [12_649, -12_649, 12_650, -12_650]) {
    await desk.writeLine(2, [2, 1, decimal(misclosure - 1_000_000, 6), 1000, 4]);
    const [loop] = await desk.loops();
    const verdict = Math.abs(misclosure) > 12_649 ? '✗ OVER' : '✓ within';
    same([loop.verdict, loop.allowed], [verdict, '12.649'], `${misclosure}`);
  }
}

/** An edit of a class changes the allowable and the verdict of the loops that pass its line, and nothing else. */
async function classTurnsAVerdict(desk) {
  await openThree(desk);
  const places = await desk.places();
  const [before] = await desk.loops();
  await desk.press('#restart');
  await desk.write(lineCell(1, 'class'), '4');
  const [first, second] = await desk.loops();
  same([first.verdict, first.allowed], ['✓ within', '14.923'], 'loop 1');
  same([first.lines, first.length, first.misclosure], [before.lines, before.length, before.misclosure], 'all else of it');
  includes(first.since, 'was OVER', 'since the start');
  includes(second.since, 'stands', 'the other loop');
  same(await desk.places(), places, 'the picture');
  await desk.rerun(1, '2.3164');
  same((await classes(desk)).slice(0, 2), ['4', '0'], 'a re-run keeps the class');
  await desk.undo(2);
  same((await desk.loops())[0].verdict, '✗ OVER', 'undone');
}

async function classIsRefused(desk) {
  await openThree(desk);
  const refused = 'Refused 7 at line 3. The class is outside 0 to 4.';
  const wrong = {
    '5': refused, '255': refused, '-1': refused,
    'x': 'Cannot be read. Line 3: the class is not a number: “x”.',
    '2.5': 'Cannot be read. Line 3: the class must be a whole number, without point or comma: “2.5”.',
    '': 'Cannot be read. Line 3: the class is empty.',
  };
  for (const [text, words] of Object.entries(wrong)) {
    await desk.write(lineCell(3, 'class'), text);
    includes(await desk.trouble(), words, text);
    same(await desk.wrongCells(), ['Line 3, class'], 'the cell');
    same(await desk.tiles(), ['No results / while something in the book is wrong'], 'no results stay');
    await desk.focus('#name');
    await desk.page.press('F8');
    same(await desk.focused(), 'Line 3, class', 'F8');
    await desk.undo();
  }
  for (const text of ['0', '4']) {
    await desk.write(lineCell(3, 'class'), text);
    same(await desk.trouble(), '', `class ${text} is taken`);
  }
}

/** Of each class that the help names, a ring of 1,000 m is allowed what the help says. */
async function classesInTheHelp(desk) {
  const help = (await desk.text('#help-box')).replace(/\s+/g, ' ');
  includes(help, '0 and 1 are first order, classes I and II, with 4 and 5 mm per √km;', 'the help');
  includes(help, '2 and 3 second order, with 6 and 8; 4 third order, with 12.', 'the help');
  const tolerances = ['4', '5', '6', '8', '12'];
  for (const [itsClass, tolerance] of tolerances.entries()) {
    const lines = [[1, 2, 0, 500, itsClass, 1], [2, 1, 0, 500, itsClass, 1]];
    await desk.openBook(bytesOf({ version: 2, tolerance: 0, marks: 2, held: [], lines }));
    same((await desk.loops())[0].allowed, `${tolerance}.000`, `class ${itsClass}`);
  }
  holds(HINT.includes(`${tolerances.slice(0, 4).join(', ')} or 12 mm`), 'and so does the hint');
}

const ROWS = [['1', '2', '1.204', '800', '0'], ['2', '3', '-0.3105', '650', '3'], ['3', '1', '-0.893', '900', '4']];

async function begunByKeyboard(desk) {
  const { page } = desk;
  await desk.newBook();
  await desk.focus('#version');
  await page.press('ArrowDown');
  same(await desk.value('#version'), '2', 'the version');
  same(await desk.notice(), 'An empty book. Type the first line, or paste rows from a spreadsheet.', 'nothing is lacking');
  await desk.focus(lineCell(1, 'from'));
  for (const row of ROWS) {
    for (const value of row) {
      await page.type(value);
      await page.press('Tab');
    }
  }
  same(await desk.focused(), 'Line 4, from', 'after three lines');
  includes(await desk.glance(), 'The loop is within', 'the verdict');
  await desk.focus(lineCell(2, 'class'));
  await page.press('Enter');
  same(await desk.focused(), 'Line 3, from', 'Enter in the last column');
  await desk.focus(lineCell(2, 'length'));
  await page.press('Enter');
  same(await desk.focused(), 'Line 3, length', 'Enter in the one before');
  const lines = ROWS.map(([from, to, difference, length, itsClass]) =>
    [+from, +to, Math.round(difference * 1e6), +length, +itsClass, 1]);
  const wanted = bytesOf({ version: 2, tolerance: 0, marks: 3, held: [], lines });
  same((await desk.save())?.bytes.toString('hex'), wanted.toString('hex'), 'the saved bytes');
}

async function versionIsChosen(desk) {
  const before = await desk.state();
  await desk.chooseVersion('2');
  includes(await desk.notice(), 'Now each line needs its class, 0 to 4.', 'the message');
  includes(await desk.trouble(), 'Line 1: the class is empty.', 'what is lacking');
  same(await desk.value('#tolerance'), '0.0', 'the tolerance');
  await desk.paste(lineCell(1, 'class'), '4\n4\n4\n4\n4\n4\n4');
  const after = await desk.state();
  same(after.texts.report, before.texts.report.replace('LEVEL BOOK 1', 'LEVEL BOOK 2'), 'class 4 is as 12 mm');
  same(after.loops, before.loops, 'the loops');
  await desk.chooseVersion('1');
  same((await desk.state()).texts, before.texts, 'as one of version 1 it is as it was');
  await desk.undo();
  same(await desk.state(), after, 'undone');
  await desk.undo(2);
  same(await desk.state(), before, 'all undone');
  same(await desk.isUnsaved(), false, 'as it was opened');
  await desk.openCorrection(2);
  await desk.redo();
  same(await desk.count('tr.correction'), 0, 'a correction that was begun is closed');
}

async function withdrawnLinesAreSaved(desk) {
  await desk.withdraw(3);
  same(await desk.saveInVain(), null, 'not in version 1');
  includes(await desk.notice(), 'Not saved. Refused 16.', 'the message');
  includes(await desk.notice(), 'Make it a version 2 book, by Version beside Tolerance, with a class for each line;', 'the message');
  await desk.chooseVersion('2');
  await desk.paste(lineCell(1, 'class'), '4\n4\n4\n4\n4\n4\n4');
  same(await desk.wrongCells(), ['Line 3, class'], 'a withdrawn line is not pasted over');
  await desk.write(lineCell(3, 'class'), '4');
  holds(await isLocked(desk, lineCell(3, 'class')), 'once it is right it is locked again');
  const file = await desk.save();
  const lines = tableOf(book('worked')).lines.map((line, row) => [...line, 4, row === 2 ? 0 : 1]);
  const wanted = bytesOf({ ...tableOf(book('worked')), version: 2, tolerance: 0, lines });
  same(file?.bytes.toString('hex'), wanted.toString('hex'), 'the saved bytes');
  same(await desk.isUnsaved(), false, 'saved');
  const saved = await desk.texts();
  await desk.openBook(file.bytes, 'again.book');
  same(await desk.texts(), saved, 'opened again');
  includes(await desk.checkedBy(3), 'withdrawn', 'the line');
  same((await desk.save())?.bytes.equals(file.bytes), true, 'saved again');
  await desk.chooseVersion('1');
  same(await desk.saveInVain(), null, 'not as one of version 1 again');
  includes(await desk.notice(), 'Refused 16. A version 1 file cannot say that a line is withdrawn: line 3.', 'the message');
  same(await desk.isUnsaved(), true, 'not saved');
}

async function savedBytes(desk) {
  for (const name of ['three_classes', 'classes25', 'classes_full']) {
    await desk.openBook(book(name), `${name}.book`);
    const file = await desk.save();
    same([file?.name, file?.bytes.equals(book(name))], [`${name}.book`, true], name);
  }
  same(book('classes_full').length, 9_741, 'bytes of the longest file');
  await openThree(desk);
  await desk.write(lineCell(3, 'class'), '1');
  await desk.rerun(1, '2.3164');
  await desk.withdraw(5);
  const corrected = tableOf(book('three_classes'));
  corrected.lines[2][4] = 1;
  corrected.lines[0][2] = 2_316_400;
  corrected.lines[4][5] = 0;
  same((await desk.save())?.bytes.toString('hex'), bytesOf(corrected).toString('hex'), 'after corrections');
}

/** Every cut and two flips of every byte, versions that are none, and each version's lines under the other's name. */
function damaged() {
  const good = book('three_classes');
  const files = Array.from({ length: good.length }, (_, length) => good.subarray(0, length));
  const changed = (bytes, at, number) => {
    const other = Buffer.from(bytes);
    other[at] = number;
    return other;
  };
  good.forEach((byte, at) => files.push(changed(good, at, byte ^ 0x80), changed(good, at, byte ^ 0x01)));
  const versions = [0, 3, 255].map(version => changed(good, 4, version));
  const tolerances = [1, 120].map(tolerance => bytesOf({ ...tableOf(good), tolerance }));
  const renamed = [changed(good, 4, 1), changed(book('worked'), 4, 2)];
  const empty = [[1, 120], [2, 0], [2, 120], [1, 0]]
    .map(([version, tolerance]) => bytesOf({ version, tolerance, marks: 2, held: [], lines: [] }));
  return [...files, ...versions, ...tolerances, ...renamed, ...empty];
}

async function damagedFiles(desk) {
  const files = damaged();
  files.forEach(bytes => report(bytes));
  let shown = await desk.report();
  let refused = 0;
  for (const bytes of files) {
    const what = bytes.toString('hex').slice(0, 80);
    const message = await desk.openBook(bytes, 'x.book');
    const [text, wanted] = await Promise.all([desk.report(), report(bytes)]);
    const refusal = /^REFUSED (\d+) AT (\d+)/.exec(wanted);
    if (refusal) {
      const [, number, place] = refusal;
      includes(message, `x was not opened. Refused ${number}${place === '0' ? '.' : ` at ${place}.`}`, what);
      refused += 1;
    } else {
      includes(message, 'Opened x', what);
      shown = wanted;
    }
    same(text, shown, what);
  }
  return `${files.length} files, ${refused} refused`;
}

/** First line 8, which is withdrawn, is wrong by its class, then line 2 by its standing, which no cell shows. */
async function withdrawnIsMended(desk) {
  const wrong = tableOf(book('three_classes'));
  wrong.lines[7][4] = 7;
  includes(await desk.openBook(bytesOf(wrong)), 'Refused 7 at 8. Line 8 is wrong.', 'the message');
  await desk.press('#show-it');
  includes(await desk.trouble(), 'Refused 7 at line 8. The class is outside 0 to 4.', 'why');
  same(await desk.count('#lines tr.withdrawn input:disabled'), 4, 'only the wrong cell of a withdrawn line can be typed in');
  await desk.page.press('F8');
  same(await desk.focused(), 'Line 8, class', 'F8');
  await desk.write(lineCell(8, 'class'), '4');
  same(await desk.trouble(), '', 'mended');
  same((await desk.save())?.bytes.equals(book('three_classes')), true, 'the saved bytes');
  wrong.lines[7][4] = 4;
  wrong.lines[1][5] = 2;
  includes(await desk.openBook(bytesOf(wrong)), 'Refused 7 at 2. Line 2 is wrong.', 'a standing that is none');
  await desk.press('#show-it');
  includes(await desk.notice(), 'Standing mark neither 0 nor 1, so shown as withdrawn: line 2.', 'it is said');
  includes(await desk.checkedBy(2), 'withdrawn', 'and so it is shown');
}

async function draftHasClasses(desk) {
  await openThree(desk);
  await desk.write(lineCell(3, 'class'), '1');
  await desk.write(heldCell(1, 'height'), '251');
  const { book: shown } = await desk.state();
  await new Promise(resolve => setTimeout(resolve, 700));
  await desk.goto();
  await desk.press('.draft-yes');
  same((await desk.state()).book, shown, 'the book is back');
}

async function classesArePrinted(desk) {
  await openThree(desk);
  const printed = async button => {
    await desk.press(button);
    return textOfPaper(await desk.page.pdf()).join(' ').replace(/\s+/g, ' ');
  };
  const paper = await printed('#print');
  for (const words of [
    'Tolerance by class: 4, 5, 6, 8, 12 mm per √km for 0, 1, 2, 3, 4.', 'Length m Class Correction mm', '5 4 5 −0.431500 820 4 −2.849 −3.474',
    '8 6 4 0.367800 610 4 withdrawn',
  ]) includes(paper, words, 'the report');
  lacks(paper, 'Tolerance 0.0', 'the report');
  const sheet = await printed('#sheet');
  for (const words of ['Length m Class Difference run forward, m', '5 4 5 820 4']) includes(sheet, words, 'the field sheet');
  lacks(sheet, '6 4 610', 'a withdrawn line');
  await desk.openBook(bytesOf(table('town25')), 'town.book');
  lacks(await printed('#sheet'), 'Class', 'a field sheet of version 1');
}
