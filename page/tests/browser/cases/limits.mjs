// Limits and allowances: what the page says of them is what the core does.
import { bytesOf, decimal, tableOf, whole } from '../book-file.mjs';
import { book } from '../books.mjs';
import { holds, includes, same } from '../check.mjs';
import { heldCell, lineCell } from '../desk.mjs';

export const cases = [
  { name: 'case-f-edge-of-the-allowable', run: edgeOfTheAllowable },
  { name: 'short-lines-at-their-edge', run: shortLinesAtTheirEdge },
  { name: "limits-in-messages-are-the-core's", run: limitsInMessages },
  { name: "limits-in-the-help-are-the-core's", run: limitsInTheHelp },
  { name: "allowed-is-the-core's", run: allowedIsTheCores },
  { name: 'numbers-are-read-exactly', run: numbersAreReadExactly },
];

async function edgeOfTheAllowable(desk) {
  await desk.newBook();
  await desk.write('#tolerance', '4.0');
  await desk.writeLine(1, [1, 2, '1', 500]);
  const edges = { '-0.996': '✓ within', '-1.004': '✓ within', '-1.004001': '✗ OVER', '-0.995999': '✗ OVER' };
  for (const [difference, verdict] of Object.entries(edges)) {
    await desk.writeLine(2, [2, 1, difference, 500]);
    const [loop] = await desk.loops();
    same([loop.verdict, loop.allowed], [verdict, '4.000'], difference);
  }
}

/** Request 03: four lines of 40 m count as 1000 m and are shown as 160 m; 249, 250 and 251 m count as 751 m. */
async function shortLinesAtTheirEdge(desk) {
  const rings = [
    { lengths: [40, 40, 40, 40], length: '160', allowed: '4.000', edges: { '0.004': '✓ within', '-0.004': '✓ within', '0.004001': '✗ OVER' } },
    { lengths: [249, 250, 251], length: '750', allowed: '3.466', edges: { '0.003466': '✓ within', '-0.003467': '✗ OVER' } },
  ];
  includes(await helpText(desk), 'a line shorter than 250 m counts 250 m', 'the help');
  for (const { lengths, length, allowed, edges } of rings) {
    await desk.newBook();
    await desk.write('#tolerance', '4.0');
    for (const [i, metres] of lengths.entries()) await desk.writeLine(i + 1, [i + 1, (i + 1) % lengths.length + 1, '0', metres]);
    for (const [difference, verdict] of Object.entries(edges)) {
      await desk.write(lineCell(1, 'difference'), difference);
      const [loop] = await desk.loops();
      same([loop.verdict, loop.allowed, loop.length], [verdict, allowed, length], difference);
    }
  }
}

/** "outside −10 000 to 10 000 m": the two limits of a message, in units of the last decimal. */
function limitsIn(text, decimals) {
  const number = '[−-]?[\\d\\s]*\\d(?:\\.\\d+)?';
  const found = new RegExp(`(${number}) to (${number})`).exec(text);
  holds(found, `there are no limits in “${text}”`);
  return found.slice(1).map(limit => whole(limit.replace(/\s/g, ''), decimals));
}

/** Where a limit can be tried: the cell, its decimals, a value beyond, and the refusal that then comes. */
const CLASS = { cell: lineCell(3, 'class'), decimals: 0, beyond: '5', refusal: 'Refused 7 at line 3', name: 'three_classes' };
const PLACES = {
  difference: { cell: lineCell(2, 'difference'), decimals: 6, beyond: '100.000001', refusal: 'Refused 7 at line 2' },
  length: { cell: lineCell(2, 'length'), decimals: 0, beyond: '9', refusal: 'Refused 7 at line 2' },
  height: { cell: heldCell(1, 'height'), decimals: 6, beyond: '99999', refusal: 'Refused 6 at held entry 1' },
  tolerance: { cell: '#tolerance', decimals: 1, beyond: '0', refusal: 'Refused 4' },
};

const typed = (number, decimals) => (decimals === 0 ? String(number) : decimal(number, decimals));

/** The limits that the message names are taken, and what is one unit beyond is refused with that message. */
async function holdLimits(desk, { cell, decimals, beyond, refusal, name = 'worked' }) {
  await desk.openBook(book(name), `${name}.book`);
  await desk.write(cell, beyond);
  const message = await desk.trouble();
  includes(message, refusal, beyond);
  const [low, high] = limitsIn(message, decimals);
  for (const limit of [low, high]) {
    await desk.write(cell, typed(limit, decimals));
    same(await desk.trouble(), '', `${cell} ${limit} is taken`);
    holds((await desk.loops()).length > 0, 'with results');
  }
  for (const outside of [low - 1, high + 1]) {
    await desk.write(cell, typed(outside, decimals));
    same(await desk.trouble(), message, `${cell} ${outside} is refused`);
  }
  await desk.openBook(book('worked'), 'worked.book');
  return [low, high];
}

async function marksLimits(desk) {
  await desk.newBook();
  await desk.write('#marks', '257');
  const message = await desk.trouble();
  includes(message, 'Refused 4', '257 marks');
  const [low, high] = limitsIn(message, 0);
  for (const limit of [low, high]) {
    await desk.write('#marks', String(limit));
    same(await desk.trouble(), '', `${limit} marks are taken`);
  }
  for (const outside of [low - 1, high + 1]) {
    await desk.write('#marks', String(outside));
    same(await desk.trouble(), message, `${outside} marks are refused`);
  }
  await desk.openBook(book('worked'), 'worked.book');
  return [low, high];
}

/** The form for a correction names the limits too. */
async function correctionLimits(desk) {
  await desk.openCorrection(2);
  await desk.write('#new-difference', '100.000001');
  await desk.press('#rerun');
  const message = await desk.text('#correction-trouble');
  const [low, high] = limitsIn(message, 6);
  for (const outside of [low - 1, high + 1]) {
    await desk.write('#new-difference', decimal(outside, 6));
    await desk.press('#rerun');
    same(await desk.text('#correction-trouble'), message, `${outside} is refused`);
  }
  for (const limit of [low, high]) {
    await desk.rerun(2, decimal(limit, 6));
    includes(await desk.notice(), 'Line 2 re-run', `${limit} is taken`);
  }
  return [low, high];
}

async function limitsInMessages(desk) {
  const difference = await holdLimits(desk, PLACES.difference);
  await holdLimits(desk, PLACES.length);
  await holdLimits(desk, PLACES.height);
  await holdLimits(desk, PLACES.tolerance);
  await holdLimits(desk, CLASS);
  await marksLimits(desk);
  same(await correctionLimits(desk), difference, 'of a correction');
}

/** What the help says after a word: its limits, in units of the last decimal. */
function helpLimits(help, word, decimals) {
  const at = help.search(new RegExp(`\\b${word}\\b\\s+[−\\d]`, 'i'));
  holds(at >= 0, `the help has no limits of ${word}: ${help}`);
  return limitsIn(help.slice(at), decimals);
}

async function helpText(desk) {
  await desk.press('#help');
  const help = (await desk.text('#help-box')).replace(/\s+/g, ' ');
  await desk.page.press('Escape');
  return help;
}

async function limitsInTheHelp(desk) {
  const help = await helpText(desk);
  for (const [word, place] of Object.entries(PLACES)) {
    same(helpLimits(help, word, place.decimals), await holdLimits(desk, place), `${word} in the help`);
  }
  same(helpLimits(help, 'class', 0), await holdLimits(desk, CLASS), 'class in the help');
  same(helpLimits(help, 'marks', 0), await marksLimits(desk), 'marks in the help');
  const counts = { lines: /lines up to (\d+)/i.exec(help)?.[1], held: /held marks up to (\d+)/i.exec(help)?.[1] };
  await holdCount(desk, Number(counts.lines), lines => ({ tolerance: 80, marks: 2, held: [], lines }), [1, 2, 0, 100]);
  await holdHeldCount(desk, Number(counts.held));
  const decimals = Number(/up to (\d+) decimals/i.exec(help)?.[1]);
  await desk.write(lineCell(2, 'difference'), `4.${'1'.repeat(decimals)}`);
  same(await desk.trouble(), '', `${decimals} decimals are read`);
  await desk.write(lineCell(2, 'difference'), `4.${'1'.repeat(decimals + 1)}`);
  includes(await desk.trouble(), `has more than ${decimals} decimals`, 'one more is not');
}

/** A file with so many lines is opened, and with one more refused. */
async function holdCount(desk, most, tableWith, line) {
  const lines = count => Array.from({ length: count }, () => line);
  includes(await desk.openBook(bytesOf(tableWith(lines(most + 1)))), 'Refused 4', `${most + 1} lines`);
  includes(await desk.openBook(bytesOf(tableWith(lines(most)))), 'Opened', `${most} lines`);
  same(await desk.count('#lines tr[data-row]'), most, 'no row is offered beyond');
}

async function holdHeldCount(desk, most) {
  const table = count => ({
    tolerance: 80, marks: 256, held: Array.from({ length: count }, (_, row) => [row + 1, 0]), lines: [],
  });
  includes(await desk.openBook(bytesOf(table(most + 1))), 'Refused 4', `${most + 1} held marks`);
  includes(await desk.openBook(bytesOf(table(most))), 'Opened', `${most} held marks`);
  same(await desk.count('#held tr[data-row]'), most, 'no row is offered beyond');
  await desk.openBook(book('worked'), 'worked.book');
}

/** Books of several shapes and tolerances; of large ones only the first loops are tried. */
const ALLOWED_BOOKS = [
  'worked', 'memorandum_figure', 'two_pieces', 'parallel_lines', 'ring12', 'town25', 'grid6', 'three_classes', 'classes25',
];
const MOST_LOOPS = 3;

async function allowedIsTheCores(desk) {
  let tried = 0;
  for (const name of ALLOWED_BOOKS) tried += await holdAllowances(desk, tableOf(book(name)), name);
  for (const tolerance of [1, 1000]) {
    const table = { ...tableOf(book('worked')), tolerance };
    tried += await holdAllowances(desk, table, `tolerance ${tolerance}`);
  }
  return `${tried} loops`;
}

async function holdAllowances(desk, table, what) {
  includes(await desk.openBook(bytesOf(table), 'allowed.book'), 'Opened', what);
  const loops = await desk.loops();
  const tried = Math.min(loops.length, MOST_LOOPS);
  for (let loop = 0; loop < tried; loop += 1) {
    const { allowed } = loops[loop];
    const most = whole(allowed, 3);
    for (const misclosure of [most, -most, most + 1, -most - 1]) {
      await setMisclosure(desk, loop, misclosure);
      const now = (await desk.loops())[loop];
      const verdict = Math.abs(misclosure) > most ? '✗ OVER' : '✓ within';
      const shown = [whole(now.misclosure, 3), now.verdict, now.allowed];
      same(shown, [misclosure, verdict, allowed], `${what}, loop ${loop + 1}`);
    }
  }
  return tried;
}

/** Re-runs a loop's closing line, which it runs in its own sense, so that the loop has this misclosure. */
async function setMisclosure(desk, loop, wanted) {
  const { misclosure, lines } = (await desk.loops())[loop];
  const closing = Number(lines.split(' ')[0]);
  const difference = whole(await desk.value(lineCell(closing, 'difference')), 6);
  await desk.rerun(closing, decimal(difference - whole(misclosure, 3) + wanted, 6));
}

/** Texts and what they mean in micrometres. */
const READINGS = {
  '2.428': 2_428_000, '-0.000001': -1, '100': 100_000_000, '-100': -100_000_000, '99.999999': 99_999_999,
  '0,1234': 123_400, '−1.5': -1_500_000, '–1.5': -1_500_000, '‒1.5': -1_500_000, '+3.': 3_000_000, '.5': 500_000,
  ',5': 500_000, '00012.5': 12_500_000, ' 7.25 ': 7_250_000, '-0': 0, '0.1': 100_000, '0.3': 300_000,
  '2.675': 2_675_000, '1.005': 1_005_000, '33.333333': 33_333_333,
};

async function numbersAreReadExactly(desk) {
  const [, , line] = (await desk.report()).split('\n');
  const others = Number(/MISCLOSURE (-?\d+)/.exec(line)[1]) - 2_410_000;
  for (const [text, difference] of Object.entries(READINGS)) {
    await desk.write(lineCell(6, 'difference'), text);
    const found = /LOOP 1 LENGTH 4450 MISCLOSURE (-?\d+)/.exec(await desk.report());
    same(Number(found?.[1]), difference + others, text);
    same(whole(await desk.value(lineCell(6, 'difference')), 6), difference, `${text} in its cell`);
  }
}
