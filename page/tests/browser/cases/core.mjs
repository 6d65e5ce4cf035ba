// If the core ever stops, the book is kept, and the page goes on with a new core.
import { book } from '../books.mjs';
import { holds, includes, same } from '../check.mjs';
import { lineCell } from '../desk.mjs';
import { scrollTo } from '../seen.mjs';
import { sleep } from '../tools.mjs';

export const cases = [
  { name: 'core-trap-keeps-the-book', run: coreTrapKeepsTheBook, window: { before: `(${setTraps})()` } },
  { name: 'core-trap-in-the-sketch', run: coreTrapInTheSketch, window: { before: `(${setTraps})()` } },
];

/** Run before the page's own script: a call of the core, by its name, throws once on demand, as a trap does. */
function setTraps() {
  const traps = { next: null, sprung: 0, cores: 0 };
  globalThis.traps = traps;
  const { instantiate, Instance, RuntimeError } = WebAssembly;
  const guarded = (name, call) => (...values) => {
    if (traps.next === name) {
      Object.assign(traps, { next: null, sprung: traps.sprung + 1 });
      throw new RuntimeError('unreachable');
    }
    return call(...values);
  };
  const wrapped = ({ exports }) => {
    traps.cores += 1;
    const isCall = each => typeof each === 'function';
    const parts = Object.entries(exports).map(([name, each]) => [name, isCall(each) ? guarded(name, each) : each]);
    return { exports: Object.fromEntries(parts) };
  };
  WebAssembly.instantiate = async (...values) => {
    const made = await instantiate.apply(WebAssembly, values);
    return made instanceof Instance ? wrapped(made) : { module: made.module, instance: wrapped(made.instance) };
  };
  WebAssembly.Instance = function Core(...values) { return wrapped(new Instance(...values)); };
}

const CALLS_OF_AN_EDIT = ['level_survey', 'level_listings', 'level_not_checked', 'level_adjust', 'level_rate'];

const setTrap = (desk, name) => desk.evaluate(call => { globalThis.traps.next = call; }, name);
const traps = desk => desk.evaluate(() => globalThis.traps);
const STOPPED = /The core stopped\. Please report this book\./;

/** All that the page says: trouble, message, and the form of a correction. */
async function said(desk) {
  return [await desk.trouble(), await desk.notice(), await desk.text('#correction-trouble')].join(' ');
}

async function coreTrapKeepsTheBook(desk) {
  same((await traps(desk)).cores, 1, 'the traps are set');
  for (const call of CALLS_OF_AN_EDIT) await trapInAnEdit(desk, call);
  await trapInACorrection(desk, 'level_rerun', () => desk.rerun(6, '2.428'));
  await trapInACorrection(desk, 'level_withdraw', () => desk.withdraw(6));
  await trapInOpening(desk);
  await trapInSaving(desk);
  same((await traps(desk)).sprung, 9, 'traps that were sprung');
}

/** A cell that is typed stays, the message comes, and the next edit has results again from a new core. */
async function trapInAnEdit(desk, call) {
  await desk.openBook(book('worked'), 'worked.book');
  const { cores } = await traps(desk);
  const before = await desk.shownBook();
  await setTrap(desk, call);
  await desk.write(lineCell(1, 'length'), '1700');
  holds(STOPPED.test(await said(desk)), `${call}: the message is “${await said(desk)}”`);
  same(await desk.value(lineCell(1, 'length')), '1700', `${call}: the typed cell`);
  same((await desk.shownBook()).lines.slice(1), before.lines.slice(1), `${call}: the other lines`);
  same((await traps(desk)).next, null, `${call} was made`);
  await sleep(20);
  await desk.write(lineCell(1, 'length'), '1600');
  same(await desk.trouble(), '', `${call}: the next edit`);
  includes(await desk.glance(), '2 of 3 loops OVER', `${call}: has results again`);
  holds((await traps(desk)).cores > cores, `${call}: of a new core`);
}

async function trapInACorrection(desk, call, correct) {
  await desk.openBook(book('worked'), 'worked.book');
  const before = await desk.state();
  await setTrap(desk, call);
  await correct();
  holds(STOPPED.test(await said(desk)), `${call}: the message is “${await said(desk)}”`);
  same((await desk.state()).book, before.book, `${call}: the book`);
  await sleep(20);
  await correct();
  includes(await desk.glance(), 'After 1 correction', `${call}: works again`);
}

/** All that is shown beside the sketch. */
const besideTheSketch = desk => Promise.all([desk.shownBook(), desk.tiles(), desk.loops(), desk.heightsPanel()]);

/** The sketch is asked for where it is seen, not in an edit. If the core stops then, all but the sketch stays. */
async function coreTrapInTheSketch(desk) {
  await desk.openBook(book('town60'), 'town.book');
  await setTrap(desk, 'level_sketch');
  await desk.write(lineCell(1, 'length'), '1700');
  same((await traps(desk)).sprung, 0, 'an edit does not ask for a sketch that is out of sight');
  includes(await desk.sketchPanel(), 'The core stopped. Please report this book.', 'the panel');
  const shown = await besideTheSketch(desk);
  await goesOn(desk, 1);
  await desk.undo();
  same(await besideTheSketch(desk), shown, 'all else stayed');
  await trapInTheText(desk);
  await trapInThePicture(desk);
  same((await traps(desk)).sprung, 3, 'traps that were sprung');
}

/** The next edit has a sketch again, of a new core. */
async function goesOn(desk, stopped) {
  same((await traps(desk)).cores, 1 + stopped, 'a new core');
  same(await desk.trouble(), '', 'no trouble');
  await desk.write(lineCell(1, 'length'), '1600');
  includes(await desk.sketchPanel(), 'junctions', 'the next edit has a sketch');
}

async function trapInTheText(desk) {
  await desk.evaluate(scrollTo, '#glance');
  await desk.write(lineCell(1, 'length'), '1800');
  await setTrap(desk, 'level_sketch');
  const { report, sketch, heights } = await desk.texts();
  same(sketch, 'THE CORE STOPPED\n', 'the text');
  includes(report, 'MARKS 60', 'the report');
  includes(heights, 'ADJUSTED HEIGHTS', 'the heights');
  await goesOn(desk, 2);
  includes((await desk.texts()).sketch, 'JUNCTION SKETCH', 'the text of the next edit');
}

/** A row that is chosen is asked for by the picture first. */
async function trapInThePicture(desk) {
  await desk.openBook(book('worked'), 'worked.book');
  await desk.sketchPanel();
  await desk.press('#sketch-box tr[data-entry="0"]');
  await setTrap(desk, 'level_sketch');
  await desk.write('#tolerance', '5.0');
  const { lines, marks } = await desk.picture();
  same([marks.length, lines.filter(line => line.kinds.includes('hot')).length], [5, 0], 'marks and chosen lines');
  includes(await desk.sketchPanel(), 'The core stopped.', 'the panel');
  await desk.write('#tolerance', '6.0');
  includes(await desk.sketchPanel(), '6 links', 'the next edit has a sketch');
}

async function trapInOpening(desk) {
  await desk.openBook(book('worked'), 'worked.book');
  const before = await desk.state();
  await setTrap(desk, 'level_read');
  await desk.openBook(book('two_pieces'), 'two.book');
  holds(STOPPED.test(await said(desk)), `level_read: the message is “${await said(desk)}”`);
  same((await desk.state()).book, before.book, 'level_read: the book');
  await sleep(20);
  includes(await desk.openBook(book('two_pieces'), 'two.book'), 'Opened two', 'level_read: works again');
}

async function trapInSaving(desk) {
  await desk.openBook(book('worked'), 'worked.book');
  await desk.write(lineCell(1, 'length'), '1700');
  const before = await desk.state();
  await setTrap(desk, 'level_write');
  same(await desk.saveInVain(), null, 'level_write: no file comes');
  same(await desk.notice(), 'Not saved. The core stopped. Please report this book.', 'level_write: the message');
  same([await desk.state(), await desk.isUnsaved()], [before, true], 'level_write: the book');
  holds(await desk.save() !== null, 'level_write: works again');
  same(await desk.isUnsaved(), false, 'level_write: saved');
}
