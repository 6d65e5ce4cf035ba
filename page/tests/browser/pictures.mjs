// Screenshots of the main states of the page, for people to look at:
//     node page/tests/browser/run.mjs --only none --pictures FOLDER
import fs from 'node:fs';
import path from 'node:path';
import { book } from './books.mjs';
import { lineCell, openDesk } from './desk.mjs';
import { drawPaper, paperToolsAreThere } from './paper.mjs';

const SCREENS = {
  1366: { width: 1366, height: 768 },
  390: { width: 390, height: 844, mobile: true },
};

const LONGEST = 4000;

const opened = name => desk => desk.openBook(book(name), `${name}.book`);

/** The states, and how each is reached from the page as it opens. */
const STATES = {
  'first': async () => {},
  'correct': desk => desk.openCorrection(6),
  'rerun': desk => desk.rerun(6, '2.428'),
  'withdrawn': async desk => {
    await desk.rerun(6, '2.428');
    await desk.withdraw(3);
  },
  'not-checked': opened('past_the_last_junction'),
  'refused-file': opened('damaged'),
  'refused': desk => desk.write(lineCell(3, 'to'), '5'),
  'unreadable': desk => desk.write(lineCell(3, 'difference'), 'abc'),
  'mended': async desk => {
    await desk.openBook(book('damaged'), 'damaged.book');
    await desk.press('#show-it');
    await desk.write(lineCell(3, 'to'), '2');
  },
  'no-held-mark': desk => desk.press('#held .remove'),
  'empty': desk => desk.newBook(),
  'help': desk => desk.press('#help'),
  'sketch': async desk => {
    await desk.openBook(book('memorandum_network'), 'memorandum.book');
    await desk.sketchPanel();
    await desk.press('#sketch-box tr[data-entry="2"]');
  },
  'classes': opened('three_classes'),
  'class-refused': async desk => {
    await desk.openBook(book('three_classes'), 'three_classes.book');
    await desk.write(lineCell(2, 'class'), '5');
  },
  'two-pieces': opened('two_pieces'),
  'parallel-lines': opened('parallel_lines'),
  'free-tails': opened('free_tails'),
  'town-60': opened('town60'),
  'grid-6': opened('grid6'),
  'full-256': opened('full'),
  'city-256': opened('city256'),
  'city-256-larger': async desk => {
    await desk.openBook(book('city256'), 'city256.book');
    for (let step = 0; step < 4; step += 1) await desk.press('#larger');
  },
};

export async function takePictures(browser, file, folder) {
  fs.mkdirSync(folder, { recursive: true });
  for (const [size, screen] of Object.entries(SCREENS)) {
    for (const [name, reach] of Object.entries(STATES)) {
      const desk = await openDesk(browser, { file, ...screen });
      await reach(desk);
      await desk.picture();
      await desk.page.screenshot(path.join(folder, `${name}-${size}.png`));
      await showWhole(desk, screen);
      await desk.page.screenshot(path.join(folder, `${name}-${size}-whole.png`));
      await desk.close();
    }
  }
  if (paperToolsAreThere()) await takePaper(browser, file, folder);
  console.log(`pictures are in ${folder}`);
}

/** Makes the window as high as the page, up to a length that can be looked at: what is out of sight is not drawn. */
async function showWhole(desk, screen) {
  await desk.heightsPanel();
  const height = await desk.evaluate(() => document.documentElement.scrollHeight);
  await desk.page.resize({ ...screen, height: Math.min(height, LONGEST) });
  await desk.picture();
  await desk.evaluate(() => scrollTo(0, 0));
}

async function takePaper(browser, file, folder) {
  for (const name of ['first', 'withdrawn', 'not-checked', 'classes', 'sketch', 'town-60', 'empty']) {
    const desk = await openDesk(browser, { file, before: 'window.print = () => {};' });
    await STATES[name](desk);
    drawPaper(await desk.page.pdf(), path.join(folder, `paper-${name}`));
    await desk.press('#sheet');
    drawPaper(await desk.page.pdf(), path.join(folder, `sheet-${name}`));
    await desk.close();
  }
}
