// Book files: opened, refused, mended, saved. A damaged file never replaces the book that is open.
import fs from 'node:fs';
import os from 'node:os';
import path from 'node:path';
import { book } from '../books.mjs';
import { holds, includes, same } from '../check.mjs';
import { heldCell, lineCell } from '../desk.mjs';
import { report } from '../programs.mjs';
import { until } from '../tools.mjs';

const BOTH = ['chromium', 'firefox'];

export const cases = [
  { name: 'damaged-files-as-the-report-program', run: damagedFiles, needs: ['programs'] },
  { name: 'refused-file-changes-nothing', run: refusedFileChangesNothing, browsers: BOTH },
  { name: 'damaged-file-never-replaces-the-book', run: damagedFileNeverReplaces },
  { name: 'very-large-file', run: veryLargeFile },
  { name: 'file-is-dropped-on-the-page', run: fileIsDropped },
  { name: 'saved-bytes-are-the-opened-bytes', run: savedBytesAreTheOpenedBytes },
  { name: 'withdrawn-line-is-not-saved', run: withdrawnLineIsNotSaved },
  { name: 'refused-book-is-not-saved', run: refusedBookIsNotSaved },
  { name: 'name-is-the-name-of-the-file', run: nameIsTheNameOfTheFile },
  { name: 'leaving-unsaved-asks', run: leavingUnsavedAsks, browsers: BOTH },
  { name: 'messages-go-and-refusals-stay', run: messagesGo, window: { before: `(${quickClock})()` } },
];

/** Every cut and two flips of every byte of the worked network, and some files that are no books at all. */
function damaged() {
  const good = book('worked');
  const files = [];
  for (let length = 0; length < good.length; length += 1) files.push(good.subarray(0, length));
  for (let at = 0; at < good.length; at += 1) {
    for (const bits of [0x80, 0x01]) {
      const bytes = Buffer.from(good);
      bytes[at] ^= bits;
      files.push(bytes);
    }
  }
  const others = [Buffer.concat([good, good]), Buffer.alloc(20_000, 7), Buffer.alloc(16_384), Buffer.alloc(13)];
  return [...files, ...others, Buffer.from('PK\x03\x04 this is not a book at all, but a longer text')];
}

async function damagedFiles(desk) {
  const files = damaged();
  files.forEach(bytes => report(bytes));
  let shown = await desk.report();
  let refused = 0;
  for (const bytes of files) {
    const what = bytes.toString('hex').slice(0, 80);
    const message = await desk.openBook(bytes, 'x.book');
    const [text, wanted] = await Promise.all([desk.report(), report(bytes)]);
    const refusal = /^REFUSED (\d+) AT (\d+)/.exec(wanted);
    if (refusal) {
      const [, number, place] = refusal;
      includes(message, `x was not opened. Refused ${number}${place === '0' ? '.' : ` at ${place}.`}`, what);
      includes(message, 'The book shown is the one from before.', what);
      refused += 1;
    } else {
      includes(message, 'Opened x', what);
      shown = wanted;
    }
    same(text, shown, what);
  }
  return `${files.length} files, ${refused} refused`;
}

async function refusedFileChangesNothing(desk) {
  const before = await desk.state();
  const said = 'damaged was not opened. Refused 7 at 3. Line 3 is wrong. The book shown is the one from before.';
  same(await desk.openBook(book('damaged'), 'damaged.book'), said, 'the message');
  same(await desk.state(), before, 'nothing changed');
  await desk.press('#show-it');
  same(await desk.wrongCells(), ['Line 3, from', 'Line 3, to'], 'its wrong cells');
  includes(await desk.trouble(), 'Refused 7 at line 3. It runs from a mark to the same mark.', 'why');
  await desk.write(lineCell(3, 'to'), '2');
  includes(await desk.glance(), '2 of 3 loops OVER', 'mended');
  same(await desk.isUnsaved(), true, 'a mended book is not saved yet');
}

/** Not while there are corrections, nor while another book is refused, nor if it is dropped. */
async function damagedFileNeverReplaces(desk) {
  const cut = book('worked').subarray(0, 60);
  const files = [Buffer.alloc(0), cut, book('damaged'), Buffer.alloc(13, 255), Buffer.from('no book')];
  await desk.rerun(6, '2.428');
  await desk.withdraw(3);
  const corrected = await desk.state();
  for (const bytes of files) {
    includes(await desk.openBook(bytes), 'was not opened', 'opened over corrections');
    same(await desk.state(), corrected, 'corrections stay');
    includes(await desk.dropBook(bytes), 'was not opened', 'dropped over corrections');
    same(await desk.state(), corrected, 'corrections stay');
  }
  await desk.write(lineCell(1, 'length'), 'half');
  const refused = await desk.state();
  for (const bytes of files) {
    await desk.openBook(bytes);
    same(await desk.state(), refused, 'a book that cannot be read stays');
  }
  same(await desk.value(lineCell(1, 'length')), 'half', 'what was typed');
}

async function veryLargeFile(desk) {
  const folder = fs.mkdtempSync(path.join(os.tmpdir(), 'page-large-'));
  const file = path.join(folder, 'huge.book');
  fs.writeFileSync(file, Buffer.alloc(60_000_000, 1));
  try {
    const before = await desk.state();
    await desk.page.giveFiles('#file', [file]);
    includes(await until(() => desk.notice()), 'huge was not opened. Refused 2.', 'the message');
    same(await desk.state(), before, 'nothing changed');
  } finally {
    fs.rmSync(folder, { recursive: true });
  }
}

async function fileIsDropped(desk) {
  includes(await desk.dropBook(book('two_pieces'), 'Two.BOOK'), 'Opened Two', 'the message');
  includes(await desk.glance(), 'Both loops within', 'the book');
  await desk.click('#open');
  await until(() => desk.page.choosers > 0);
  same(desk.page.choosers, 1, 'Open asks for a file');
}

async function savedBytesAreTheOpenedBytes(desk) {
  for (const name of ['worked', 'town60', 'full', 'two_pieces']) {
    await desk.openBook(book(name), `${name}.book`);
    const file = await desk.save();
    same([file?.name, file?.bytes.equals(book(name))], [`${name}.book`, true], name);
    includes(await desk.notice(), `Saved as ${name}.book , ${book(name).length} bytes.`, 'the message');
    const saved = await desk.state();
    await desk.openBook(file.bytes, file.name);
    same(await desk.state(), saved, 'opened again');
  }
  await desk.write(lineCell(1, 'length'), '710');
  same(await desk.isUnsaved(), true, 'after a change');
  await desk.save();
  same(await desk.isUnsaved(), false, 'after it is saved');
  await desk.undo();
  same(await desk.isUnsaved(), true, 'and undone');
}

/** Saves in vain: no file comes, the message is this one, nothing changes, and the book is still one that is not saved. */
async function holdsNotSaved(desk, words) {
  const before = await desk.state();
  same(await desk.saveInVain(), null, 'no file comes');
  same(await desk.notice(), words, 'the message');
  same(await desk.focused(), 'save', 'the focus stays');
  same(await desk.state(), before, 'nothing changed');
  same(await desk.isUnsaved(), true, 'not saved');
}

const notSaved16 = lines => `Not saved. Refused 16. A version 1 file cannot say that a line is withdrawn: ${lines}. `
  + 'Make it a version 2 book, by Version beside Tolerance, with a class for each line; or undo the withdrawal.';

async function withdrawnLineIsNotSaved(desk) {
  await desk.withdraw(3);
  await holdsNotSaved(desk, notSaved16('line 3'));
  await desk.withdraw(1);
  await holdsNotSaved(desk, notSaved16('lines 1 3'));
  await desk.click('#shut');
  same([await desk.notice(), await desk.focused()], ['', 'save'], 'the message is closed');
  await desk.focus('#tolerance');
  const byKey = () => desk.page.press('s', { control: true });
  same(await desk.saveInVain(byKey), null, 'no file comes by Ctrl+S');
  same(await desk.notice(), notSaved16('lines 1 3'), 'the message');
  same(await desk.focused(), 'tolerance', 'the focus stays');
  await desk.undo(2);
  same(await desk.isUnsaved(), false, 'as it was opened');
  same((await desk.save())?.bytes.equals(book('worked')), true, 'after Undo');
}

/** The core refuses numbers; texts that cannot be read are none, so that it is not asked. */
async function refusedBookIsNotSaved(desk) {
  const right = 'A file holds only a book that is right. What is wrong stands above the book.';
  for (const [cell, text, refused] of [
    [lineCell(1, 'length'), '5', ' Refused 7 at 1.'], [lineCell(3, 'to'), '5', ' Refused 7 at 3.'],
    [heldCell(1, 'mark'), '6', ' Refused 6 at 1.'], ['#tolerance', '0', ' Refused 4.'], ['#marks', '257', ' Refused 4.'],
    [lineCell(1, 'length'), 'abc', ''], [lineCell(1, 'length'), '', ''], ['#marks', 'five', ''],
  ]) {
    await desk.write(cell, text);
    await holdsNotSaved(desk, `Not saved.${refused} ${right}`);
    holds(await desk.trouble() !== '', 'what is wrong stands above');
    await desk.undo();
  }
  await desk.withdraw(3);
  await desk.write(lineCell(1, 'length'), '5');
  await holdsNotSaved(desk, `Not saved. Refused 7 at 1. ${right}`);
}

async function nameIsTheNameOfTheFile(desk) {
  for (const name of ['East ridge', 'a/b\\c:d*e?f"g<h>i|j', '', '../../etc/passwd', '<b>x</b>']) {
    await desk.write('#name', name);
    const file = await desk.save();
    holds(file !== null && file.bytes.equals(book('worked')), `saved under “${name}”`);
    if (name === 'East ridge') same(file.name, 'East ridge.book', 'the name');
    holds(/^[^\\/:*?"<>|]+\.book$/.test(file.name), `a name that any system takes: ${file.name}`);
    same(await desk.count('#notice i, #notice b b, #notice script'), 0, 'a name is no markup');
  }
}

async function leavingUnsavedAsks(desk) {
  await desk.goto();
  same(desk.page.dialogs, [], 'a saved book is left without a question');
  await desk.click(lineCell(1, 'length'));
  await desk.page.type('0');
  await desk.page.press('Tab');
  same(await desk.isUnsaved(), true, 'a change');
  desk.page.acceptDialogs = false;
  await desk.goto().then(() => { throw new Error('the page was left'); }, () => {});
  same(desk.page.dialogs.map(dialog => dialog.type), ['beforeunload'], 'an unsaved one is not');
  same(await desk.isUnsaved(), true, 'and it is still here');
  desk.page.acceptDialogs = true;
}

/** Runs before the page's own script: its clock goes twenty times as fast. */
function quickClock() {
  const { setTimeout } = globalThis;
  globalThis.setTimeout = (task, milliseconds = 0, ...values) => setTimeout(task, milliseconds / 20, ...values);
}

async function messagesGo(desk) {
  await desk.openBook(book('two_pieces'), 'two.book');
  includes(await desk.notice(), 'Opened two', 'a message');
  same(await until(() => desk.notice(), { good: text => text === '', milliseconds: 2000 }), '', 'it goes by itself');
  await desk.openBook(book('damaged'), 'damaged.book');
  await new Promise(resolve => setTimeout(resolve, 900));
  includes(await desk.notice(), 'was not opened', 'a refusal stays');
  await desk.click('#shut');
  same(await desk.notice(), '', 'until it is closed');
  await desk.withdraw(1);
  await new Promise(resolve => setTimeout(resolve, 900));
  includes(await desk.notice(), 'Line 1 withdrawn', 'not while the focus is on its Undo');
}
