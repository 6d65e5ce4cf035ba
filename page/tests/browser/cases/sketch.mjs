// The junction sketch: its panel says what the sketch program says, and what is chosen in it shows in the picture.
import { tableOf, whole } from '../book-file.mjs';
import { book } from '../books.mjs';
import { holds, includes, lacks, same } from '../check.mjs';
import { lineCell } from '../desk.mjs';
import { colourOfPaper, textOfPaper } from '../paper.mjs';
import { sketch, sketchWithdrawn } from '../programs.mjs';

const BOTH = ['chromium', 'firefox'];
const PHONE = { width: 320, height: 640, mobile: true };
const PAPER = { needs: ['pdftotext'], window: { before: 'window.print = () => {};' } };

export const cases = [
  { name: 'sketch-of-the-memorandum', run: sketchOfTheMemorandum, browsers: BOTH },
  { name: 'sketch-rows-equal-program', run: sketchRowsEqualProgram, needs: ['programs'] },
  { name: 'sketch-after-corrections', run: sketchAfterCorrections, needs: ['programs'] },
  { name: 'sketch-of-a-wrong-book', run: sketchOfAWrongBook },
  { name: 'empty-lists-of-a-sketch', run: emptyLists },
  { name: 'sketch-row-chosen-by-click-shows-in-picture', run: chosenByClick, browsers: BOTH },
  { name: 'sketch-row-chosen-by-key-shows-in-picture', run: chosenByKey },
  { name: 'sketch-row-shows-its-sense', run: showsItsSense },
  { name: 'sketch-choice-goes-with-the-book', run: choiceGoesWithTheBook },
  { name: 'sketch-on-a-phone', run: sketchOnAPhone, window: PHONE },
  { name: 'print-has-the-sketch', run: printHasTheSketch, ...PAPER },
  { name: 'print-of-a-long-sketch', run: printOfALongSketch, ...PAPER },
];

const row = (numbers, lines, marks = '') => ({ numbers, lines, marks: marks && `marks ${marks}` });

const MEMORANDUM = {
  links: [
    row(['1', '2', '200', '0.000000'], '1 2', '1–5–2'),
    row(['2', '3', '100', '0.000000'], '3'),
    row(['3', '4', '200', '0.000000'], '4 5', '3–7–4'),
    row(['1', '4', '100', '0.000000'], '−6'),
    row(['1', '3', '200', '0.000000'], '7 8', '1–6–3'),
    row(['2', '4', '100', '0.000000'], '9'),
  ],
  spurs: [
    row(['16', '15', '100', '0.000000'], '−20'),
    row(['15', '14', '100', '0.000000'], '−19'),
    row(['12', '10', '200', '0.000000'], '−15 −14', '12–11–10'),
    row(['8', '6', '100', '0.000000'], '−10'),
  ],
  loops: [
    row(['12', '300', '0.000'], '16 17 18', '12–13–14–12'),
    row(['8', '300', '0.000'], '11 12 13', '8–9–10–8'),
  ],
};

const openMemorandum = desk => desk.openBook(book('memorandum_network'), 'memorandum.book');

async function sketchOfTheMemorandum(desk) {
  await openMemorandum(desk);
  same(await desk.sketchRows(), MEMORANDUM, 'the rows');
  includes(await desk.text('#sketch-box'), '4 junctions, 6 links, 4 spurs, 2 self-closing loops.', 'the counts');
}

const plain = text => text.replaceAll('\u2212', '-');

/** The rows of the panel in the form of the program; of a spur it does not print the other end. */
function asPrinted({ links, spurs, loops }) {
  const rest = (word, length, micrometres, lines) => `LENGTH ${length} ${word} ${micrometres}: ${plain(lines)}`;
  return [
    ...links.map(({ numbers: [first, last, length, difference], lines }) =>
      `LINK ${first} ${last} ${rest('DIFFERENCE', length, whole(difference, 6), lines)}`),
    ...spurs.map(({ numbers: [mark, , length, difference], lines }) =>
      `SPUR ${mark} ${rest('DIFFERENCE', length, whole(difference, 6), lines)}`),
    ...loops.map(({ numbers: [mark, length, misclosure], lines }) =>
      `LOOP ${mark} ${rest('MISCLOSURE', length, whole(misclosure, 3), lines)}`),
  ];
}

/** The mark at which the lines of a row, as they are run, end. */
function endOf({ lines }, table) {
  const last = Number(plain(lines).split(' ').at(-1));
  return table.lines[Math.abs(last) - 1][last > 0 ? 1 : 0];
}

function holdRows(rows, text, table, what) {
  same(asPrinted(rows), text.trimEnd().split('\n').slice(2), what);
  const otherEnds = rows.spurs.map(({ numbers }) => Number(numbers[1]));
  same(otherEnds, rows.spurs.map(spur => endOf(spur, table)), `${what}: the other ends of spurs`);
}

const SKETCHED = [
  'worked', 'memorandum_figure', 'parallel_lines', 'past_the_last_junction', 'two_pieces', 'town25', 'star15', 'ring12',
  'free_tails', 'full', 'city256', 'random256', 'parallel512',
];

async function sketchRowsEqualProgram(desk) {
  SKETCHED.forEach(name => sketch(book(name)));
  for (const name of SKETCHED) {
    await desk.openBook(book(name), `${name}.book`);
    holdRows(await desk.sketchRows(), await sketch(book(name)), tableOf(book(name)), name);
  }
  return `${SKETCHED.length} books`;
}

/** What a re-run may not change: marks, lines, lengths and order. */
function withoutDifferences({ links, spurs, loops }) {
  const shape = ({ numbers, lines, marks }) => [numbers.slice(0, -1), lines, marks];
  return [links, spurs, loops].map(list => list.map(shape));
}

async function sketchAfterCorrections(desk) {
  await openMemorandum(desk);
  const morning = await desk.sketchRows();
  await desk.rerun(4, '0.25');
  await desk.rerun(17, '-0.5');
  const rerun = await desk.sketchRows();
  same(withoutDifferences(rerun), withoutDifferences(morning), 'a re-run changes differences only');
  same([rerun.links[2].numbers[3], rerun.loops[0].numbers[2]], ['0.250000', '−500.000'], 'and these it changes');
  await desk.withdraw(6);
  await desk.withdraw(17);
  const { table, standing } = await desk.shownTable();
  const fresh = await desk.sketchRows();
  holdRows(fresh, await sketchWithdrawn(table, standing), table, 'withdrawals give the fresh sketch');
  holds(asPrinted(fresh).every(line => !/[ -](6|17)\b/.test(line.split(':')[1])), 'no withdrawn line is in it');
  await desk.undo(4);
  same(await desk.sketchRows(), morning, 'undone');
  await desk.redo();
  same((await desk.sketchRows()).links[2].numbers[3], '0.250000', 'redone');
}

const WRONG = {
  'a refused book': desk => desk.write(lineCell(2, 'length'), '5'),
  'a book that cannot be read': desk => desk.write(lineCell(2, 'difference'), 'abc'),
};

async function sketchOfAWrongBook(desk) {
  const before = await desk.sketchRows();
  const { sketch: text } = await desk.texts();
  includes(text, 'JUNCTION SKETCH\nMARKS 5 LINES 7 LINKS 6 SPURS 0 LOOPS 0\n', 'the text');
  for (const [what, spoil] of Object.entries(WRONG)) {
    await spoil(desk);
    const words = 'No sketch is shown while something in the book is wrong.';
    same(await desk.sketchPanel(), words, `the panel of ${what}`);
    same(await desk.count('#sketch-box table'), 0, `tables of ${what}`);
    same((await desk.texts()).sketch, '', `the text of ${what}`);
    await desk.undo();
    same(await desk.sketchRows(), before, `${what}, undone`);
    same((await desk.texts()).sketch, text, `the text of ${what}, undone`);
  }
}

const NO_LINKS = 'No links: this network has no junction.';
const EMPTY = {
  ring12: ['0 junctions, 0 links, 0 spurs, 1 self-closing loop.', NO_LINKS, 'No spurs.'],
  chain20: ['0 junctions, 0 links, 19 spurs, 0 self-closing loops.', NO_LINKS, 'No self-closing loops.'],
  full: ['256 junctions, 512 links, 0 spurs, 0 self-closing loops.', 'No spurs.', 'No self-closing loops.'],
};

async function emptyLists(desk) {
  for (const [name, parts] of Object.entries(EMPTY)) {
    await desk.openBook(book(name), `${name}.book`);
    const text = await desk.sketchPanel();
    for (const part of parts) includes(text, part, name);
  }
  const nothing = 'No line stands, so that there is nothing to sketch.';
  await desk.openBook(book('parallel_lines'), 'parallel.book');
  for (const line of [1, 2, 3, 4]) await desk.withdraw(line);
  same(await desk.sketchPanel(), nothing, 'all lines are withdrawn');
  await desk.newBook();
  same(await desk.sketchPanel(), nothing, 'an empty book');
  same((await desk.texts()).sketch, 'JUNCTION SKETCH\nMARKS 1 LINES 0 LINKS 0 SPURS 0 LOOPS 0\n', 'its text');
}

const hotLines = async desk => {
  const { lines } = await desk.picture();
  const hot = lines.filter(line => line.kinds.includes('hot')).map(line => line.line + 1);
  return [...new Set(hot)].sort((p, q) => p - q);
};
const entry = number => `#sketch-box tr[data-entry="${number}"]`;
const linesOf = ({ lines }) => plain(lines).split(' ').map(line => Math.abs(line)).sort((p, q) => p - q);
const chosenRows = desk => desk.evaluate(() =>
  Array.from(document.querySelectorAll('#sketch-box tr.chosen'), each => Number(each.dataset.entry)));

async function chosenByClick(desk, { browser }) {
  await openMemorandum(desk);
  await desk.sketchPanel();
  const entries = Object.values(MEMORANDUM).flat();
  const tried = browser === 'firefox' ? [2, 8] : entries.map((_, number) => number);
  for (const number of tried) {
    await desk.click(`${entry(number)} td.lines`);
    same(await hotLines(desk), linesOf(entries[number]), `the lines of row ${number + 1}`);
    same(await chosenRows(desk), [number], 'the row that is chosen');
  }
  await desk.click(`${entry(tried.at(-1))} td.lines`);
  same([await hotLines(desk), await chosenRows(desk)], [[], []], 'chosen again, nothing is');
  await desk.click(`${entry(4)} td.lines`);
  await desk.click('#loops-box tr[data-loop="4"] td.verdict');
  same([await hotLines(desk), await chosenRows(desk)], [[16, 17, 18], []], 'a loop is chosen instead');
  await desk.click(`${entry(4)} td.lines`);
  same([await hotLines(desk), await desk.count('#loops-box tr.chosen')], [[7, 8], 0], 'and a link instead of the loop');
  await desk.focus(lineCell(3, 'difference'));
  same([await hotLines(desk), await chosenRows(desk)], [[3], []], 'a line is chosen instead');
}

async function chosenByKey(desk) {
  await openMemorandum(desk);
  await desk.sketchPanel();
  same(await desk.count('#sketch-box tr[tabindex="0"]'), 1, 'the sketch is one stop');
  await desk.focus('#restart');
  await desk.keys('Tab', 'Tab');
  const focused = () => desk.evaluate(() => document.activeElement.dataset.entry);
  same(await focused(), '0', 'Tab goes from the loops to the sketch');
  await desk.keys('Enter');
  same(await hotLines(desk), [1, 2], 'Enter chooses the first link');
  await desk.keys('ArrowDown', 'ArrowDown');
  same([await focused(), await hotLines(desk)], ['2', [4, 5]], 'arrows go on');
  await desk.keys('ArrowDown', 'ArrowDown', 'ArrowDown', 'ArrowDown');
  same([await focused(), await hotLines(desk)], ['6', [20]], 'and from the links to the spurs');
  await desk.keys('ArrowUp');
  same([await focused(), await hotLines(desk)], ['5', [9]], 'and back');
  await desk.keys(' ');
  same([await focused(), await hotLines(desk)], ['5', []], 'the space key chooses nothing again, and the focus stays');
  await desk.keys(' ', 'ArrowDown', 'ArrowDown', 'ArrowDown', 'ArrowDown', 'ArrowDown', 'ArrowDown', 'ArrowDown');
  same([await focused(), await hotLines(desk)], ['11', [11, 12, 13]], 'the last row is the last');
}

/** Inside the page: the mark that the arrow of the one chosen line is nearest to. */
function markAtArrow() {
  const placeOf = part => part.getAttribute('transform').match(/-?[\d.]+/g).slice(0, 2).map(Number);
  const [x, y] = placeOf(document.querySelector('#svgbox .arrow.hot'));
  const wayTo = mark => Math.hypot(placeOf(mark)[0] - x, placeOf(mark)[1] - y);
  const marks = [...document.querySelectorAll('#svgbox g.mark')].sort((one, other) => wayTo(one) - wayTo(other));
  return Number(marks[0].dataset.mark) + 1;
}

/** Line 6 was levelled from mark 4 to mark 1, and the link is read from 1 to 4. */
async function showsItsSense(desk) {
  await openMemorandum(desk);
  await desk.sketchPanel();
  await desk.click(`${entry(3)} td.lines`);
  same([await hotLines(desk), await desk.evaluate(markAtArrow)], [[6], 4], 'as the link is read');
  await desk.focus(lineCell(6, 'difference'));
  same([await hotLines(desk), await desk.evaluate(markAtArrow)], [[6], 1], 'as the line was levelled');
}

/** What is chosen stays in its row under a step back, and goes with another book. */
async function choiceGoesWithTheBook(desk) {
  await openMemorandum(desk);
  await desk.rerun(4, '0.25');
  await desk.sketchPanel();
  await desk.click(`${entry(8)} td.lines`);
  await desk.press('#undo');
  same([await hotLines(desk), await chosenRows(desk)], [[14, 15], [8]], 'after a step back');
  await desk.openBook(book('two_pieces'), 'two.book');
  await desk.sketchPanel();
  same([await hotLines(desk), await chosenRows(desk)], [[], []], 'in another book');
}

async function sketchOnAPhone(desk) {
  await openMemorandum(desk);
  await desk.shutNotice();
  await desk.tap('nav a[href="#sketch"]');
  const { top, wide } = await desk.evaluate(() => ({
    top: document.querySelector('#sketch').getBoundingClientRect().top,
    wide: document.documentElement.scrollWidth,
  }));
  holds(top > 0 && top < PHONE.height / 2, `the link brings it into sight: ${top}`);
  same(wide, PHONE.width, 'the page does not scroll sideways');
  same(await desk.sketchRows(), MEMORANDUM, 'the rows');
  for (const box of ['#sketch-box', '#parts']) {
    const scrolls = await desk.evaluate(part => {
      const { scrollWidth, clientWidth } = document.querySelector(part);
      return scrollWidth > clientWidth;
    }, box);
    same(scrolls, false, `${box} scrolls sideways`);
  }
  await desk.tap(`${entry(10)} td.lines`);
  same(await hotLines(desk), [16, 17, 18], 'a row is chosen with a finger');
}

async function printed(desk) {
  await desk.press('#print');
  return desk.page.pdf();
}

const PRINTED = [
  'Junction sketch', '4 junctions, 6 links, 4 spurs, 2 self-closing loops.',
  'Links', '1 2 200 0.000000 1 2 marks 1–5–2', 'Spurs', '12 10 200 0.000000 −15 −14 marks 12–11–10',
  'Self-closing loops', '8 300 0.000 11 12 13 marks 8–9–10–8',
];

async function printHasTheSketch(desk) {
  await openMemorandum(desk);
  const pdf = await printed(desk);
  const paper = textOfPaper(pdf).join(' ').replace(/\s+/g, ' ');
  for (const words of PRINTED) includes(paper, words, 'the report');
  const order = ['The network', 'Loops', 'Junction sketch', 'Adjusted heights'].map(title => paper.indexOf(title));
  same(order, [...order].sort((p, q) => p - q), 'in its order');
  // What is chosen on the screen is nothing on paper: lines not checked keep their dashes.
  await desk.sketchPanel();
  await desk.click(`${entry(8)} td.lines`);
  same(await desk.evaluate(hotOnPaper), 0, 'chosen lines on paper');
  holds(colourOfPaper(await printed(desk)) <= 8, 'it is black and white');
  same(await hotLines(desk), [14, 15], 'and on the screen they are chosen still');
  await desk.write(lineCell(2, 'length'), '5');
  const wrong = textOfPaper(await printed(desk)).join(' ').replace(/\s+/g, ' ');
  includes(wrong, 'No sketch is shown while something in the book is wrong.', 'a refused book');
  lacks(wrong, 'Self-closing', 'a refused book');
}

/** Inside the page: how many lines are drawn as chosen while it is printed. */
function hotOnPaper() {
  dispatchEvent(new Event('beforeprint'));
  const hot = document.querySelectorAll('#svgbox .hot').length;
  dispatchEvent(new Event('afterprint'));
  return hot;
}

/** The longest sketch there is, and the longest row. */
async function printOfALongSketch(desk) {
  await desk.openBook(book('full'), 'full.book');
  const sheets = textOfPaper(await printed(desk)).map(sheet => sheet.replace(/\s+/g, ' '));
  const from = sheets.findIndex(sheet => sheet.includes('Junction sketch'));
  const to = sheets.findIndex(sheet => sheet.includes('Adjusted heights'));
  holds(to > from + 5, `it takes many sheets: ${from} to ${to}`);
  sheets.slice(from, to).forEach((sheet, place) => includes(sheet, 'Lines, as run', `the head on sheet ${place + 1}`));
  await desk.openBook(book('ring256'), 'ring256.book');
  const ring = textOfPaper(await printed(desk)).join(' ').replace(/\s+/g, ' ');
  includes(ring, '254 255 256 marks 1–2–3', 'a loop of 256 lines');
}
