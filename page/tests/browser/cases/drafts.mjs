// What was not saved is kept in the browser's storage, if there is one, and offered at the next opening.
import { holds, includes, lacks, same } from '../check.mjs';
import { lineCell } from '../desk.mjs';
import { sleep, until } from '../tools.mjs';

const KEPT_AFTER = 700;

export const cases = [
  { name: 'draft-comes-back', run: draftComesBack, browsers: ['chromium', 'firefox'] },
  { name: 'draft-is-forgotten', run: draftIsForgotten },
  { name: 'draft-goes-when-saved', run: draftGoesWhenSaved },
  { name: 'two-drafts-at-once', run: twoDraftsAtOnce },
  { name: 'broken-draft-is-ignored', run: brokenDraftIsIgnored },
  { name: 'draft-with-markup-in-its-name', run: draftWithMarkup },
  { name: 'draft-of-a-refused-book', run: draftOfARefusedBook },
  { name: 'cell-typed-while-closing', run: cellTypedWhileClosing },
  { name: 'storage-denied', run: storageDenied, window: { before: `(${denyStorage})()` } },
  { name: 'storage-full', run: storageFull, window: { before: `(${fillStorage})()` } },
];

const keys = () => Object.keys(localStorage).filter(key => key.startsWith('yorrabesk-draft-'));
const drafts = desk => desk.evaluate(keys);
const offers = desk => desk.count('#notice .draft-yes');

/** Waits until so many drafts are kept. */
async function draftsAre(desk, many) {
  const kept = await until(() => drafts(desk), { good: keys => keys.length === many, milliseconds: 2000 });
  same(kept.length, many, 'drafts in the storage');
}

const LINE = { from: '1', to: '2', difference: '1.5', length: '100', standing: true };
const BACK = { ...LINE, from: '2', to: '1', difference: '-1.5' };
const BOOK = { marks: '', tolerance: '4.0', held: [], lines: [LINE, BACK] };
// As it was kept before there were classes.
const DRAFT = { version: 1, name: 'yesterday', when: 'Monday, 5 pm', book: BOOK };

/** Puts drafts into the storage, and opens the page anew. */
async function withDrafts(desk, ...texts) {
  await desk.evaluate(values => {
    localStorage.clear();
    values.forEach((value, place) => localStorage.setItem(`yorrabesk-draft-${place + 1}`, value));
  }, texts);
  // Chromium writes its storage a moment later.
  await sleep(150);
  await desk.goto();
}

async function draftComesBack(desk) {
  same([await offers(desk), await drafts(desk)], [0, []], 'at first there is none');
  await desk.write(lineCell(6, 'difference'), '2.5');
  await desk.withdraw(3);
  await draftsAre(desk, 1);
  await sleep(KEPT_AFTER);
  const { book } = await desk.state();
  await desk.goto();
  includes(await desk.notice(), 'A book that was not saved is still here', 'the offer');
  same(await desk.value(lineCell(6, 'difference')), '2.410', 'until it is taken, the page is as ever');
  await desk.press('.draft-yes');
  same((await desk.state()).book, book, 'the book is back, withdrawn lines too');
  same(await desk.isUnsaved(), true, 'and still not saved');
  await desk.undo();
  same(await desk.value(lineCell(6, 'difference')), '2.410', 'Undo takes that back too');
}

async function draftIsForgotten(desk) {
  await withDrafts(desk, JSON.stringify(DRAFT));
  includes(await desk.notice(), 'yesterday', 'the offer names it');
  includes(await desk.notice(), 'Monday, 5 pm', 'and when it was');
  await desk.press('.draft-no');
  same([await offers(desk), await drafts(desk)], [0, []], 'forgotten');
  await desk.goto();
  same(await offers(desk), 0, 'for good');
}

async function draftGoesWhenSaved(desk) {
  await desk.write(lineCell(6, 'difference'), '2.5');
  await draftsAre(desk, 1);
  holds(await desk.save() !== null, 'saved');
  await sleep(KEPT_AFTER);
  await draftsAre(desk, 0);
  await desk.goto();
  same(await offers(desk), 0, 'nothing is offered');
}

/** Two windows, each with a book of its own: neither writes over the other's draft. */
async function twoDraftsAtOnce(desk) {
  const other = await desk.another();
  await desk.write('#name', 'first window');
  await desk.write(lineCell(6, 'difference'), '2.5');
  await other.write('#name', 'second window');
  await other.write(lineCell(6, 'difference'), '2.6');
  await draftsAre(desk, 2);
  await sleep(KEPT_AFTER);
  await other.closeWindow();
  await desk.goto();
  includes(await desk.notice(), 'first window', 'the offer');
  includes(await desk.notice(), 'second window', 'the offer');
  same(await offers(desk), 2, 'a pair of buttons for each');
  await desk.press('.draft-yes');
  const back = await desk.value(lineCell(6, 'difference'));
  holds(['2.500', '2.600'].includes(back), `one of them is back: ${back}`);
  same(await desk.value('#name'), back === '2.500' ? 'first window' : 'second window', 'with its name');
  await sleep(KEPT_AFTER);
  holds((await drafts(desk)).length >= 2, 'the other stays in the storage');
  await desk.goto();
  same(await offers(desk), 2, 'both are offered again');
  same(other.page.errors, [], 'errors of the other window');
}

/** The text of a draft with this name that differs in this, or whose book does. */
const draftBut = (name, change) => JSON.stringify({ ...DRAFT, name, ...change });
const bookBut = (name, change) => draftBut(name, { book: { ...BOOK, ...change } });

const BROKEN = [
  '', 'null', '7', '[1,2,3]', '{"version":1,"name":"no JSON",',
  draftBut('another version', { version: 2 }),
  draftBut(5, {}),
  draftBut('no book', { book: null }),
  bookBut('marks that are no text', { marks: 5 }),
  bookBut('lines that are no list', { lines: 'x' }),
  bookBut('a line that is no line', { lines: [null] }),
  bookBut('a cell that is no text', { lines: [{ ...LINE, length: 100 }] }),
  bookBut('a standing that is none', { lines: [{ ...LINE, standing: 'no' }] }),
  bookBut('a version that is none', { version: '3' }),
  bookBut('a version that is no text', { version: 2 }),
  bookBut('a class that is no text', { version: '2', lines: [{ ...LINE, class: 4 }] }),
  bookBut('held marks without marks', { held: [{ height: '1' }] }),
  bookBut('513 lines', { lines: Array(513).fill(LINE) }),
  bookBut('257 held marks', { held: Array(257).fill({ mark: '1', height: '1' }) }),
];

async function brokenDraftIsIgnored(desk) {
  await withDrafts(desk, ...BROKEN);
  same([await offers(desk), await desk.notice()], [0, ''], 'none is offered');
  includes(await desk.glance(), '2 of 3 loops OVER', 'the page works');
  await withDrafts(desk, ...BROKEN.slice(0, 8), JSON.stringify(DRAFT), ...BROKEN.slice(8));
  same(await offers(desk), 1, 'a good one among them is offered');
  await desk.press('.draft-yes');
  includes(await desk.report(), 'MARKS 2 LINES 2 PIECES 1 LOOPS 1', 'and comes back');
}

async function draftWithMarkup(desk) {
  const name = '<img src=x onerror=window.wasRun=1><script>window.wasRun=1</script>';
  await withDrafts(desk, JSON.stringify({ ...DRAFT, name, when: name }));
  same(await desk.count('#notice img, #notice script'), 0, 'markup in the offer');
  await desk.press('.draft-yes');
  lacks(await desk.evaluate(() => document.getElementById('glance').innerHTML), '<img', 'the page');
  await desk.page.pdf();
  same(await desk.evaluate(() => globalThis.wasRun), undefined, 'nothing of it ran');
}

/** A cell that is being typed when the window is closed is not left any more. */
async function cellTypedWhileClosing(desk) {
  await desk.focus(lineCell(6, 'difference'));
  await desk.page.press('a', { control: true });
  await desk.page.type('2.4321');
  await desk.goto();
  same(await offers(desk), 1, 'a draft is offered');
  await desk.press('.draft-yes');
  same(await desk.value(lineCell(6, 'difference')), '2.4321', 'the cell');
}

/** A book that cannot be read has the most typing in it that can be lost. */
async function draftOfARefusedBook(desk) {
  await desk.write(lineCell(2, 'length'), 'two kilometres');
  await desk.write(lineCell(8, 'from'), '4');
  await sleep(KEPT_AFTER);
  await desk.goto();
  await desk.press('.draft-yes');
  same(await desk.value(lineCell(2, 'length')), 'two kilometres', 'a cell that cannot be read');
  same(await desk.value(lineCell(8, 'from')), '4', 'a line that is not complete');
  includes(await desk.trouble(), 'Line 2: the length is not a number', 'and what is wrong');
}

/** Run before the page's own script: a browser that gives a page from disk no storage. */
function denyStorage() {
  const get = () => { throw new DOMException('denied', 'SecurityError'); };
  for (const name of ['localStorage', 'sessionStorage']) Object.defineProperty(globalThis, name, { get });
}

function fillStorage() {
  Storage.prototype.setItem = () => { throw new DOMException('full', 'QuotaExceededError'); };
}

async function workOn(desk) {
  await desk.write(lineCell(6, 'difference'), '2.428');
  await desk.withdraw(3);
  await sleep(KEPT_AFTER);
  includes(await desk.glance(), 'NOT CHECKED: line 2', 'the page works');
  await desk.undo();
  holds(await desk.save() !== null, 'and saves');
  same(desk.page.errors, [], 'page errors');
}

async function storageDenied(desk) {
  holds(await desk.evaluate(() => { try { return !localStorage; } catch { return true; } }), 'there is no storage');
  await workOn(desk);
}

async function storageFull(desk) {
  await workOn(desk);
}
