// How much of the processor the page takes, in its own time: what else the machine does then counts little. The
// budgets are of the machine on which they were set; where a fixed work takes longer, they are longer in proportion.
import fs from 'node:fs';
import { decimal, tableOf } from '../book-file.mjs';
import { book } from '../books.mjs';
import { under } from '../check.mjs';
import { lineCell, PAGE } from '../desk.mjs';
import { sleep } from '../tools.mjs';

const TRIES = 4;
const MANY_LINES = 150;
/** Milliseconds of the fixed work on the machine of the budgets. */
const FIXED_WORK = 7.6;

export const cases = [
  { name: 'page-is-under-200-kb', run: pageIsSmall },
  { name: 'first-results-under-100-ms', run: firstResults, isAlone: true },
  { name: 'edit-under-50-ms-to-60-marks', run: editOfATown, isAlone: true },
  { name: 'edit-under-100-ms-at-512-lines', run: editOfAFullBook, isAlone: true },
  { name: 'correction-under-100-ms-at-512-lines', run: correctionOfAFullBook, isAlone: true },
  { name: 'picture-of-60-marks-under-300-ms', run: pictureOfATown, isAlone: true },
];

async function pageIsSmall() {
  const { size } = fs.statSync(PAGE);
  under(size, 200_000, 'bytes of the page');
  return `${size} bytes`;
}

/** The least of several tries, as the first ones are not compiled yet and others may be disturbed. */
async function least(tries, measure) {
  let best = Infinity;
  for (let each = 0; each < tries; each += 1) best = Math.min(best, await measure(each));
  return best;
}

/** Holds a time to its budget, and tells it. */
async function holdTime(desk, time, most, what) {
  if (time >= most) under(time, most * await slowness(desk), `ms for ${what}`);
  return `${time.toFixed(0)} ms`;
}

/** Inside the page: some work that is always the same. */
function fixedWork() {
  const rows = Array.from({ length: 400 }, (_, row) => ({ row, text: String(row * 7919) }));
  let found = 0;
  for (let round = 0; round < 60; round += 1) {
    found += JSON.stringify(rows).length;
    found += rows.map(({ text }) => BigInt(text) * 3n).filter(each => each % 7n === 0n).length;
  }
  return found;
}

/** How much slower than the machine of the budgets this one is just now; 1 if it is not. */
async function slowness(desk) {
  const time = await least(8, () => desk.page.cpuTimeOf(fixedWork));
  return Math.max(1, time / FIXED_WORK);
}

/** Time of a new page until its results are there. It is asked again and again, so that drawing them is not in it. */
async function firstResults(desk) {
  const time = await least(4, async () => {
    const page = await desk.profile.openPage();
    const opened = page.goto(desk.address);
    let spent = 0;
    for (let isReady = false; !isReady;) {
      const ready = page.evaluate(() => document.documentElement?.hasAttribute('data-ready')).catch(() => false);
      [isReady, spent] = await Promise.all([ready, page.cpuTime()]);
      await sleep(2);
    }
    await opened;
    await page.close();
    return spent;
  });
  return holdTime(desk, time, 100, 'the first results');
}

/**
 * Time of one change with the layout that it needs. The picture of a larger book comes later, and is not in it; nor is
 * that of the change before: it is waited for, or, in a book of many lines, put off by this change.
 */
async function timeOf(desk, task, ...values) {
  if (await desk.count('#lines tr[data-row]') > MANY_LINES) await sleep(60);
  else await desk.picture();
  return desk.page.cpuTimeOf(task, ...values);
}

function typeAndLayOut(selector, text) {
  const field = document.querySelector(selector);
  field.focus();
  field.value = text;
  field.dispatchEvent(new Event('input', { bubbles: true }));
  field.dispatchEvent(new Event('change', { bubbles: true }));
  return document.body.offsetHeight;
}

/** Edits of each column: a difference moves numbers, a length or an end changes loops. */
async function editTimes(desk, name) {
  await desk.openBook(book(name), `${name}.book`);
  await desk.picture();
  const line = 7;
  const { marks, lines } = tableOf(book(name));
  const [from, to, difference, length] = lines[line - 1];
  const other = Array.from({ length: marks }, (_, mark) => mark + 1).find(mark => mark !== from && mark !== to);
  const texts = {
    difference: i => decimal(difference + 1000 * (i + 1), 6),
    length: i => String(length + 1 + i),
    to: i => String(i % 2 ? to : other),
  };
  const times = {};
  for (const [column, text] of Object.entries(texts)) {
    times[column] = await least(TRIES, i => timeOf(desk, typeAndLayOut, lineCell(line, column), text(i)));
  }
  return times;
}

async function holdEdits(desk, names, most) {
  const told = [];
  for (const name of names) {
    for (const [column, time] of Object.entries(await editTimes(desk, name))) {
      told.push(`${name} ${column} ${await holdTime(desk, time, most, `an edit of a ${column} in ${name}`)}`);
    }
  }
  return told.join(', ');
}

function editOfATown(desk) {
  return holdEdits(desk, ['worked', 'town25', 'town60'], 50);
}

function editOfAFullBook(desk) {
  return holdEdits(desk, ['full', 'random256', 'classes_full'], 100);
}

async function correctionOfAFullBook(desk) {
  const told = [];
  for (const name of ['full', 'random256']) {
    await desk.openBook(book(name), `${name}.book`);
    await desk.picture();
    const time = await least(4, async i => {
      await desk.openCorrection(9 + i);
      await desk.write('#new-difference', '0.5');
      return timeOf(desk, id => {
        document.getElementById(id).click();
        return document.body.offsetHeight;
      }, i % 2 ? 'withdraw' : 'rerun');
    });
    told.push(`${name} ${await holdTime(desk, time, 100, `a correction in ${name}`)}`);
  }
  return told.join(', ');
}

/** Tidy places all marks anew and draws them. */
async function pictureOfATown(desk) {
  await desk.openBook(book('town60'), 'town60.book');
  await desk.picture();
  const time = await least(4, async () => {
    const before = await desk.page.cpuTime();
    await desk.evaluate(() => {
      document.getElementById('tidy').click();
      return document.body.offsetHeight;
    });
    await sleep(250);
    return await desk.page.cpuTime() - before;
  });
  return holdTime(desk, time, 300, 'the picture of 60 marks');
}
