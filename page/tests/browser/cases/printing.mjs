// Paper: the report and the field sheet, as the printer gets them.
import { book } from '../books.mjs';
import { holds, includes, lacks, same } from '../check.mjs';
import { lineCell } from '../desk.mjs';
import { colourOfPaper, sizesOfPaper, textOfPaper } from '../paper.mjs';

// The dialogue of a browser stays shut; what it would print is then asked for.
const NO_DIALOGUE = 'window.print = () => {};';
const PAPER = { needs: ['pdftotext'], window: { before: NO_DIALOGUE } };
const A4 = [210, 297];

export const cases = [
  { name: 'print-has-all', run: printHasAll, ...PAPER },
  { name: 'print-of-lines-not-checked', run: printOfLinesNotChecked, ...PAPER },
  { name: 'print-after-corrections', run: printAfterCorrections, ...PAPER },
  { name: 'print-of-a-refused-book', run: printOfARefusedBook, ...PAPER },
  { name: 'print-without-heights', run: printWithoutHeights, ...PAPER },
  { name: 'print-of-many-sheets', run: printOfManySheets, ...PAPER },
  { name: 'field-sheet', run: fieldSheet, ...PAPER },
  { name: 'print-is-black-and-white', run: printIsBlackAndWhite, ...PAPER },
];

/** Prints; the text of each sheet, with any white space as one space. */
async function printed(desk, button = '#print') {
  await desk.press(button);
  const pdf = await desk.page.pdf();
  const sizes = sizesOfPaper(pdf);
  holds(sizes.length > 0 && sizes.every(size => `${size}` === `${A4}`), `every sheet is A4: ${sizes.join(' | ')}`);
  return textOfPaper(pdf).map(sheet => sheet.replace(/\s+/g, ' '));
}

const WORKED_WORDS = [
  'Level book: worked', '5 marks, 7 lines, 1 piece, 3 loops (2 over)', 'Tolerance 12.0 mm per √km', 'Printed',
  'Every standing line is checked by a loop.', 'The network', 'Not to scale: a book has no coordinates.',
  'Loops', '✗ OVER', '✓ within', '−40.000', '25.314', '4450', '6 −1 5', 'marks 4–3–1–4', '65.000', '3 2 −6 −7',
  'Junction sketch', '4 junctions, 6 links, 0 spurs, 0 self-closing loops.', 'marks 3–2–5', 'No spurs.',
  'Adjusted heights', '102.123536', '106.335770', '103.907', '99.072', '100.000000', 'held',
  'Observed', 'Correction', 'Rate', '−9.230', '−5.769',
];

async function printHasAll(desk) {
  const paper = (await printed(desk)).join(' ');
  for (const words of WORKED_WORDS) includes(paper, words, 'the report');
  const others = ['Undo', 'Print field sheet', 'Open…', 'Field sheet', 'Party', 'Withdraw'];
  for (const words of others) lacks(paper, words, 'the report');
  // The picture of the screen comes back.
  same((await desk.picture()).marks.length, 5, 'the picture on the screen');
}

async function printOfLinesNotChecked(desk) {
  await desk.openBook(book('past_the_last_junction'), 'tail.book');
  const [first] = await printed(desk);
  includes(first, 'NOT CHECKED: lines 4 5 6 7', 'the report');
  lacks(first, 'Every standing line is checked', 'the report');
  holds(first.indexOf('NOT CHECKED: lines') < first.indexOf('The network'), 'it comes first');
  await desk.page.showAs('print');
  const frame = await desk.evaluate(() => {
    const words = [...document.querySelectorAll('#paper *')].find(each => each.textContent.startsWith('NOT CHECKED'));
    return parseFloat(getComputedStyle(words).borderTopWidth);
  });
  await desk.page.showAs('');
  holds(frame >= 2, `in a thick frame: ${frame}`);
  await desk.openBook(book('chain20'), 'chain.book');
  const all = Array.from({ length: 19 }, (_, row) => row + 1).join(' ');
  includes((await printed(desk))[0], `NOT CHECKED: lines ${all}`, 'all lines not checked are named');
}

async function printAfterCorrections(desk) {
  await desk.rerun(6, '2.428');
  await desk.withdraw(3);
  const paper = (await printed(desk)).join(' ');
  for (const words of [
    'NOT CHECKED: line 2', 'Line 6 re-run: 2.410000 m became 2.428000 m.', 'Line 3 withdrawn.', 'Since the start',
    'was OVER', 'misclosure was −40.000', 'gone', 'At the start', 'withdrawn', 'not as at the start',
  ]) includes(paper, words, 'the report');
  lacks(paper, 'Make this the new start', 'no buttons');
}

async function printOfARefusedBook(desk) {
  await desk.write(lineCell(2, 'length'), '5');
  const paper = (await printed(desk)).join(' ');
  includes(paper, 'This book is refused', 'a refused book');
  lacks(paper, 'OVER', 'no results');
  await desk.newBook();
  const empty = (await printed(desk)).join(' ');
  includes(empty, 'Level book', 'an empty book');
  includes(empty, '0 lines', 'an empty book');
}

async function printWithoutHeights(desk) {
  await desk.press('#held .remove');
  const paper = (await printed(desk)).join(' ');
  includes(paper, 'Refused 11 at mark 1', 'why there are none');
  lacks(paper, 'Hold mark', 'no buttons');
  for (const words of ['6.345000', '1600', 'Observed']) includes(paper, words, 'the lines are there all the same');
}

const HEADS = ['Lines, as run', 'Height m', 'Observed'];

async function printOfManySheets(desk) {
  await desk.openBook(book('random256'), 'random256.book');
  const loops = (await desk.loops()).length;
  const sheets = await printed(desk);
  holds(sheets.length > 5, 'the book takes many sheets');
  const headless = sheets.slice(1).filter(sheet => !HEADS.some(head => sheet.includes(head)));
  same(headless.map(sheet => sheet.slice(0, 80)), [], "sheets without a table's head");
  const paper = sheets.join(' ');
  same(paper.match(/✗ OVER|✓ within/g)?.length, loops, 'verdicts');
  for (let line = 1; line <= 512; line += 1) includes(paper, ` ${line} `, 'all lines are there');
}

/** Red, green and blue of every dot are the same, but for what rounding makes of them. */
async function printIsBlackAndWhite(desk) {
  const states = {
    'the worked network': async () => {},
    'corrections': async () => {
      await desk.rerun(6, '2.428');
      await desk.withdraw(3);
    },
    'a refused book': () => desk.write(lineCell(2, 'to'), '2'),
    'lines not checked': () => desk.openBook(book('past_the_last_junction')),
    'no held mark': () => desk.press('#held .remove'),
    'the field sheet': () => desk.press('#sheet'),
  };
  const coloured = [];
  for (const [what, reach] of Object.entries(states)) {
    await reach();
    const apart = colourOfPaper(await desk.page.pdf());
    if (apart > 8) coloured.push(`${what}: ${apart}`);
  }
  same(coloured, [], 'how far red, green and blue of a dot are apart');
}

const SHEET_WORDS = [
  'Field sheet: worked', 'Party', 'Date', 'Instrument', 'Staves', 'Weather', 'Line', 'From', 'To', 'Length', 'forward',
  'back', 'Remarks', '1600', '1250',
];

async function fieldSheet(desk) {
  await desk.withdraw(3);
  const sheet = (await printed(desk, '#sheet')).join(' ');
  for (const words of SHEET_WORDS) includes(sheet, words, 'the sheet');
  // Neither old differences nor verdicts may lead the observer, and line 3 is withdrawn.
  const others = ['6.345', '6345', '2.41', 'OVER', 'NOT CHECKED', 'Level book', '1000'];
  for (const words of others) lacks(sheet, words, 'the sheet');
  // After it, Print report prints the report again.
  includes((await printed(desk)).join(' '), 'Level book: worked', 'the report');
  await desk.newBook();
  const empty = (await printed(desk, '#sheet')).join(' ');
  includes(empty, 'Field sheet', 'an empty book');
  same(await desk.count('#field-sheet tbody tr'), 20, 'empty rows');
  await desk.openBook(book('town60'), 'town60.book');
  await desk.press('#sheet');
  const sheets = textOfPaper(await desk.page.pdf());
  holds(sheets.length > 2, 'a large book takes several sheets');
  sheets.forEach((each, place) => includes(each, 'Remarks', `the head on sheet ${place + 1}`));
}
