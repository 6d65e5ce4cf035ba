// Somebody plays with the page: 400 steps that no one planned. While the book is right, it says what the programs say.
import { book } from '../books.mjs';
import { Chance } from '../chance.mjs';
import { same } from '../check.mjs';
import { heldCell, lineCell } from '../desk.mjs';
import { heightsWithdrawn, reportWithdrawn, sketchWithdrawn } from '../programs.mjs';
import { RUBBISH } from '../rubbish.mjs';

const STEPS = 400;

/** The texts that are held to their programs, one in each step by turns. */
const TURNS = ['report', 'sketch', 'report', 'heights'];
const PROGRAMS = { report: reportWithdrawn, sketch: sketchWithdrawn, heights: heightsWithdrawn };

export const cases = [
  { name: 'monkey', run: monkey, needs: ['programs'] },
];

const COLUMNS = ['from', 'to', 'difference', 'length'];
const BOOKS = ['worked', 'town12', 'damaged', 'two_pieces', 'three_classes', 'classes25'];

/** What can happen to a line of the table that is not withdrawn. */
const LINE_ACTS = [
  ({ desk, chance, line }) => desk.write(lineCell(line, chance.pick(['from', 'to'])), String(chance.from(1, 13))),
  ({ desk, chance, line }) => {
    const millionths = String(chance.below(1_000_000)).padStart(6, '0');
    return desk.write(lineCell(line, 'difference'), `${chance.pick(['', '-'])}${chance.below(50)}.${millionths}`);
  },
  ({ desk, chance, line }) => desk.write(lineCell(line, 'length'), String(chance.below(3000))),
  ({ desk, chance, line }) => writeClass(desk, lineCell(line, 'class'), String(chance.below(6))),
  ({ desk, chance, line }) => desk.write(lineCell(line, chance.pick(COLUMNS)), chance.pick(RUBBISH).slice(0, 40)),
  ({ desk, chance, line }) => correct(desk, chance, line),
  ({ desk, chance, line }) => correct(desk, chance, line),
];

/** What else can happen. */
const OTHER_ACTS = [
  ({ desk, chance }) => desk.undo(1 + chance.below(4)),
  ({ desk }) => desk.redo(),
  ({ desk, chance }) => writeTolerance(desk, `${chance.from(1, 30)}.${chance.below(10)}`),
  ({ desk, chance }) => desk.write(heldCell(1, chance.pick(['mark', 'height'])), String(chance.from(1, 13))),
  ({ desk, chance }) => desk.paste(lineCell(1, 'difference'), `${chance.below(9)}.5\n${chance.below(9)}.25`),
  ({ desk, chance }) => (chance.below(4) > 0 ? desk.redo() : openAnother(desk, chance)),
];

/** A class of a line, or none in a book of version 1. */
async function writeClass(desk, cell, text) {
  if (await desk.count(cell) > 0) await desk.write(cell, text);
}

/** Or the book becomes one of version 1, where the tolerance is locked. */
async function writeTolerance(desk, text) {
  if (await desk.value('#version') === '2') await desk.chooseVersion('1');
  else await desk.write('#tolerance', text);
}

function openAnother(desk, chance) {
  return desk.openBook(book(chance.pick(BOOKS)), 'other.book');
}

/** One act by chance. */
function act(desk, chance, lines) {
  const line = chance.from(1, lines.length);
  const acts = lines[line - 1].standing && chance.below(2) === 0 ? LINE_ACTS : OTHER_ACTS;
  return chance.pick(acts)({ desk, chance, line });
}

async function correct(desk, chance, line) {
  if (await desk.count(`#lines tr[data-row="${line - 1}"] .correct`) === 0) return;
  if (chance.below(2) === 0) await desk.withdraw(line);
  else await desk.rerun(line, String(chance.below(90) / 10));
}

async function monkey(desk) {
  const chance = new Chance(42);
  const compared = [];
  await desk.openBook(book('town12'), 'town12.book');
  for (let step = 1; step <= STEPS; step += 1) {
    await act(desk, chance, (await desk.shownBook()).lines);
    if ((await desk.glance()).includes('No results')) await desk.undo(3);
    else compared.push(await promised(desk, step));
    same(desk.page.errors, [], `errors in step ${step}`);
  }
  // The programs have worked beside the page; only now their answers are waited for.
  for (const { step, text, wanted } of compared) same(text, await wanted, `step ${step}`);
  return `${compared.length} books compared with the programs`;
}

/** One of the texts that the page shows, and the promise of what its program prints for that book. */
async function promised(desk, step) {
  const [texts, { table, standing }] = await Promise.all([desk.texts(), desk.shownTable()]);
  const program = TURNS[step % TURNS.length];
  const wanted = PROGRAMS[program](table, standing);
  wanted.catch(() => {});
  return { step, text: texts[program], wanted };
}
