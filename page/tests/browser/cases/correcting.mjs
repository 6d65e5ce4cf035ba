// Lines corrected after lunch: what stands, what changed, and that Undo takes everything back.
import { bytesOf, tableOf } from '../book-file.mjs';
import { book } from '../books.mjs';
import { holds, includes, lacks, same } from '../check.mjs';
import { heldCell, lineCell } from '../desk.mjs';
import { heightsWithdrawn, report, reportWithdrawn, sketchWithdrawn } from '../programs.mjs';

const BOTH = ['chromium', 'firefox'];

export const cases = [
  { name: 'case-c-rerun-6', run: rerunSix, browsers: BOTH, needs: ['programs'] },
  { name: 'case-d-withdraw-6', run: withdrawSix, browsers: BOTH, needs: ['programs'] },
  { name: 'rerun-to-the-same-value-stands', run: rerunToTheSameValueStands },
  { name: 'kept-report-equals-fresh-after-a-chain', run: keptReportEqualsFresh, needs: ['programs'] },
  { name: 'correction-refused-4', run: correctionRefused },
  { name: 'corrections-are-listed', run: correctionsAreListed },
  { name: 'new-start', run: newStart },
  { name: 'new-loop-names-its-lines', run: newLoopNamesItsLines },
  { name: 'undo-and-redo', run: undoAndRedo },
  { name: 'undo-takes-back-everything', run: undoTakesBackEverything },
  { name: 'three-hundred-steps', run: threeHundredSteps },
];

const sinceWords = loops => loops.map(loop => loop.since.match(/stands|changed|new/)?.[0]);

async function rerunSix(desk) {
  await desk.rerun(6, '2.428');
  const loops = await desk.loops();
  same(sinceWords(loops), ['changed', 'stands', 'changed'], 'since the start');
  same(loops.map(loop => loop.misclosure), ['−22.000', '−5.000', '47.000'], 'misclosures');
  same(loops.map(loop => loop.verdict), ['✓ within', '✓ within', '✗ OVER'], 'verdicts');
  includes(loops[0].since, 'was OVER; misclosure was −40.000', 'loop 1');
  includes(loops[2].since, 'misclosure was 65.000', 'loop 3');
  for (const word of ['was OVER', 'was within', 'lines were']) lacks(loops[2].since, word, 'loop 3');
  const said = 'Line 6 re-run: 2.410000 m became 2.428000 m. Loops: 1 stands, 2 changed.';
  includes(await desk.notice(), said, 'the message');
  includes(await desk.text('#since'), said, 'the list of corrections');
  includes(await desk.checkedBy(6), 're-run', 'the row');
  same((await desk.tiles()).at(-1), 'After 1 correction / 1 stands · 2 changed', 'the glance');
  const { badges } = await desk.picture();
  same(badges.filter(badge => badge.isChanged).map(badge => badge.loop).sort(), [0, 2], 'badges');
  const corrected = tableOf(book('worked'));
  corrected.lines[5][2] = 2_428_000;
  same(await desk.report(), await report(bytesOf(corrected)), 'the text');
}

async function withdrawSix(desk) {
  await desk.withdraw(6);
  const texts = await desk.texts();
  same(texts.report.split('\n').slice(1, 5), [
    'MARKS 5 LINES 7 PIECES 1 LOOPS 2',
    'LOOP 1 LENGTH 7600 MISCLOSURE -5000 WITHIN: 4 5 -7',
    'LOOP 2 LENGTH 8700 MISCLOSURE 25000 WITHIN: 3 2 -1 5 -7',
    'NOT CHECKED 0:',
  ], 'the text');
  const standing = [true, true, true, true, true, false, true];
  const worked = tableOf(book('worked'));
  same(texts.report, await reportWithdrawn(worked, standing), 'the report program');
  same(texts.sketch, await sketchWithdrawn(worked, standing), 'the sketch program');
  same(texts.heights, await heightsWithdrawn(worked, standing), 'the heights program');
  const loops = await desk.loops();
  same(sinceWords(loops), ['stands', 'changed'], 'since the start');
  includes(loops[1].since, 'was OVER; misclosure was 65.000; lines were 3 2 −6 −7', 'loop 2');
  const gone = await desk.goneLoops();
  same(gone.length, 1, 'loops that are gone');
  for (const part of ['was OVER', 'gone', '−40.000', '6 −1 5', 'was loop 1']) includes(gone[0], part, 'what is gone');
  includes(await desk.checkedBy(6), 'withdrawn', 'the row');
  same(await desk.count('#lines tr.withdrawn input:disabled'), 4, 'locked cells');
  same(await desk.count('#lines tr.withdrawn .correct'), 0, 'a withdrawn line is not corrected');
  const { lines } = await desk.picture();
  same(lines.filter(line => line.kinds.includes('withdrawn')).map(line => line.line), [5], 'drawn as withdrawn');
  same(await desk.focused(), 'undo-here', 'the focus');
}

async function rerunToTheSameValueStands(desk) {
  await desk.rerun(6, '2.41');
  same(sinceWords(await desk.loops()), ['stands', 'stands', 'stands'], 'since the start');
  same((await desk.tiles()).at(-1), 'After 1 correction / 3 stand', 'the glance');
}

/** After a chain of corrections: fresh by an edit there and back, and fresh by the programs. */
async function keptReportEqualsFresh(desk) {
  await desk.openBook(book('town25'), 'town25.book');
  for (let step = 1; step <= 14; step += 1) {
    const line = step * 2;
    if (step % 3 === 0) await desk.rerun(line, `${step / 2}`);
    else await desk.withdraw(line);
    const { table, standing } = await desk.shownTable();
    const { report: text, sketch } = await desk.texts();
    same(text, await reportWithdrawn(table, standing), `the report program after correction ${step}`);
    same(sketch, await sketchWithdrawn(table, standing), `the sketch program after correction ${step}`);
  }
  const kept = await desk.texts();
  const tolerance = await desk.value('#tolerance');
  await desk.write('#tolerance', '99.9');
  await desk.write('#tolerance', tolerance);
  same(await desk.texts(), kept, 'surveyed afresh');
  const { table, standing } = await desk.shownTable();
  same(kept.heights, await heightsWithdrawn(table, standing), 'the heights program');
}

async function correctionRefused(desk) {
  const before = await desk.state();
  await desk.openCorrection(1);
  const tries = [
    ['100.000001', 'Refused 4'], ['-100.000001', 'Refused 4'], ['abc', 'is not a number: “abc”'], ['', 'is empty'],
    ['1.2345678', 'has more than 6 decimals'], ['99999999999999999999', 'is too long a number'],
  ];
  for (const [text, words] of tries) {
    await desk.write('#new-difference', text);
    await desk.press('#rerun');
    includes(await desk.text('#correction-trouble'), words, text);
    same(await desk.value('#new-difference'), text, 'what was typed stays');
    same(await desk.focused(), 'new-difference', 'the focus');
  }
  holds(await desk.evaluate(() => document.getElementById('undo').disabled), 'no step was taken');
  await desk.press('#cancel');
  same(await desk.focused(), 'Line 1, difference', 'the focus after Cancel');
  same(await desk.state(), before, 'nothing changed');
  await desk.rerun(1, '100');
  includes(await desk.notice(), 'Line 1 re-run: 6.345000 m became 100.000000 m.', 'the limit itself is taken');
}

async function correctionsAreListed(desk) {
  await desk.rerun(6, '2.428');
  await desk.withdraw(3);
  const listed = () => Array.from(document.querySelectorAll('#since li'), each => each.textContent.trim());
  same(await desk.evaluate(listed), [
    'Line 6 re-run: 2.410000 m became 2.428000 m. Loops: 1 stands, 2 changed.',
    'Line 3 withdrawn. Loops: 2 stand, 1 gone.',
  ], 'the list');
  includes(await desk.text('#restart'), 'Make this the new start', 'the button');
  same((await desk.tiles()).at(-1), 'After 2 corrections / 1 stands · 1 changed · 1 gone', 'the glance');
  includes(await desk.notice(), 'No longer checked: line 2.', 'the message');
  // Editing a cell later does not move the start.
  await desk.write(lineCell(1, 'difference'), '6.346');
  includes((await desk.loops())[0].since, 'misclosure was −40.000', 'after an edit');
}

async function newStart(desk) {
  await desk.rerun(6, '2.428');
  await desk.withdraw(3);
  const text = await desk.texts();
  await desk.press('#restart');
  same(await desk.texts(), text, 'results stay');
  same(await desk.goneLoops(), [], 'what was gone');
  lacks((await desk.tiles()).join(), 'correction', 'the glance');
  await desk.rerun(5, '3.9');
  includes((await desk.loops())[0].since, 'misclosure was −22.000', 'compared with the new start');
  same((await desk.tiles()).at(-1), 'After 1 correction / 2 changed', 'the glance');
}

/** Without line 1 the loop of lines 2, 3, 6 and 7 is closed by another of them. */
async function newLoopNamesItsLines(desk) {
  await desk.withdraw(1);
  const fresh = (await desk.loops()).find(loop => loop.lines === '2 −6 −7 3');
  holds(fresh, 'line 2 closes it now');
  includes(fresh.since, 'new', 'since the start');
  includes(fresh.since, 'same lines as loop 3 before', 'since the start');
  const gone = await desk.goneLoops();
  holds(gone.some(loop => loop.includes('was loop 3')), `loop 3 is gone: ${gone.join(' | ')}`);
}

async function undoAndRedo(desk) {
  const states = [await desk.state()];
  await desk.rerun(6, '2.428');
  states.push(await desk.state());
  await desk.withdraw(3);
  states.push(await desk.state());
  await desk.write(lineCell(1, 'length'), '1700');
  states.push(await desk.state());
  for (const wanted of [2, 1, 0]) {
    await desk.undo();
    same(await desk.state(), states[wanted], `undone to step ${wanted}`);
  }
  holds(await desk.evaluate(() => document.getElementById('undo').disabled), 'nothing more to undo');
  same(await desk.isUnsaved(), false, 'as it was opened');
  for (const wanted of [1, 2, 3]) {
    await desk.redo();
    same(await desk.state(), states[wanted], `redone to step ${wanted}`);
  }
  holds(await desk.evaluate(() => document.getElementById('redo').disabled), 'nothing more to redo');
}

/** Each thing that a person can do to the book, from a book with two corrections in it. */
const CHANGES = {
  'a cell is typed': desk => desk.write(lineCell(2, 'difference'), '4.236'),
  'a cell is made unreadable': desk => desk.write(lineCell(2, 'difference'), 'abc'),
  'a cell is refused': desk => desk.write(lineCell(2, 'length'), '5'),
  'a new line is typed': desk => desk.writeLine(8, [2, 4, '1.5', 900]),
  'marks': desk => desk.write('#marks', '6'),
  'tolerance': desk => desk.write('#tolerance', '4.0'),
  'name': desk => desk.write('#name', 'afternoon'),
  'a held mark is added': async desk => {
    await desk.write(heldCell(2, 'mark'), '2');
    await desk.write(heldCell(2, 'height'), '102.1');
  },
  'a held mark is removed': desk => desk.press('#held .remove'),
  'a line is re-run': desk => desk.rerun(5, '3.9'),
  'a line is withdrawn': desk => desk.withdraw(4),
  'a new start': desk => desk.press('#restart'),
  'rows are pasted': desk => desk.paste(lineCell(1, 'difference'), '6.3\n4.2'),
  'New': desk => desk.newBook(),
  'Open': desk => desk.openBook(book('two_pieces'), 'two.book'),
  'a file that is mended': async desk => {
    await desk.openBook(book('damaged'), 'damaged.book');
    await desk.press('#show-it');
  },
  'more marks are made': async desk => {
    await desk.write(lineCell(2, 'from'), '9');
    await desk.press('#grow');
  },
  'a mark is held': async desk => {
    await desk.press('#held .remove');
    await desk.heightsPanel();
    await desk.press('#hold');
  },
};

async function undoTakesBackEverything(desk) {
  await desk.rerun(6, '2.428');
  await desk.withdraw(3);
  const before = await desk.state();
  for (const [what, change] of Object.entries(CHANGES)) {
    const steps = await change(desk).then(() => stepsBack(desk, before, what));
    same(await desk.state(), before, `${what}, undone`);
    holds(steps <= 4, `${what} took ${steps} steps`);
  }
  await emptyLineIsBroughtBack(desk);
  return `${Object.keys(CHANGES).length + 1} changes`;
}

/** Undoes until the book is as before, and brings it all again and back once more. */
async function stepsBack(desk, before, what) {
  const after = await desk.state();
  holds(JSON.stringify(after) !== JSON.stringify(before), `${what} changes something`);
  let steps = 0;
  while (steps < 8 && JSON.stringify(await desk.state()) !== JSON.stringify(before)) {
    await desk.undo();
    steps += 1;
  }
  for (let step = 0; step < steps; step += 1) await desk.redo();
  same(await desk.state(), after, `${what}, redone`);
  await desk.undo(steps);
  return steps;
}

/** A line can be deleted only before the first correction. */
async function emptyLineIsBroughtBack(desk) {
  await desk.openBook(book('worked'), 'worked.book');
  const before = await desk.state();
  for (const column of ['from', 'to', 'difference', 'length']) await desk.write(lineCell(3, column), '');
  await desk.press('#drop');
  includes(await desk.report(), 'LINES 6', 'the line is deleted');
  await desk.undo(5);
  same(await desk.state(), before, 'a deleted line, undone');
}

async function threeHundredSteps(desk) {
  await desk.newBook();
  const { steps, tolerance } = await desk.evaluate(() => {
    const field = document.getElementById('tolerance');
    const undo = document.getElementById('undo');
    for (let step = 1; step <= 305; step += 1) {
      field.value = `${step % 90}.5`;
      field.dispatchEvent(new Event('change', { bubbles: true }));
    }
    let taken = 0;
    for (; !undo.disabled; taken += 1) undo.click();
    return { steps: taken, tolerance: field.value };
  });
  holds(steps >= 299 && steps <= 300, `${steps} steps were kept`);
  same(tolerance, `${(305 - steps) % 90}.5`, 'the first that is kept');
}
