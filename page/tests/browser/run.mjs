// The page's cases in real browsers:
//     node page/tests/browser/run.mjs [--only NAME-PART] [--browser chromium|firefox] [--page FILE] [--lanes N]
//         [--pictures FOLDER]
// Prints a line for each case, what is not tested and why, and last "N cases, M failed".
import fs from 'node:fs';
import path from 'node:path';
import { parseArgs } from 'node:util';
import { CHROMIUM_NAMES, launchChromium } from './chromium.mjs';
import { openDesk, PAGE } from './desk.mjs';
import { FIREFOX_NAMES, launchFirefox } from './firefox.mjs';
import { paperToolsAreThere } from './paper.mjs';
import { takePictures } from './pictures.mjs';
import { programsAreThere } from './programs.mjs';
import { findProgram, TOP } from './tools.mjs';

const BROWSERS = {
  chromium: { names: CHROMIUM_NAMES, launch: launchChromium },
  // Its tabs disturb each other: one opens beside the tab in front, which may be going, and a tab behind another waits.
  firefox: { names: FIREFOX_NAMES, launch: launchFirefox, mostLanes: 1 },
};

// What a case may need beside a browser.
const NEEDS = {
  programs: { isThere: programsAreThere(), words: 'report, sketch and heights are not built in crates/*/out' },
  pdftotext: { isThere: paperToolsAreThere(), words: 'pdftotext, pdfinfo and pdftoppm are not there' },
};

const LONGEST_CASE = 150_000;
// Whoever stops this leaves no browser behind.
const SIGNALS = ['SIGINT', 'SIGTERM', 'SIGHUP'];

const { values: options } = parseArgs({
  options: {
    only: { type: 'string', default: '' },
    browser: { type: 'string' },
    page: { type: 'string', default: PAGE },
    pictures: { type: 'string' },
    lanes: { type: 'string', default: '2' },
  },
});

const file = path.resolve(options.page);

async function allCases() {
  const folder = path.join(TOP, 'page', 'tests', 'browser', 'cases');
  const files = fs.readdirSync(folder).filter(file => file.endsWith('.mjs')).sort();
  const parts = await Promise.all(files.map(file => import(path.join(folder, file))));
  return parts.flatMap(part => part.cases);
}

/** Fails if the case does, if it takes too long, or if the page had any error meanwhile. */
async function runCase(browser, { run, window }) {
  const desk = await openDesk(browser, { file, ...window });
  let late;
  const patience = new Promise((_, reject) => {
    late = setTimeout(() => reject(new Error(`not done after ${LONGEST_CASE / 1000} s`)), LONGEST_CASE);
  });
  try {
    const remark = await Promise.race([run(desk, { browser: browser.name }), patience]);
    if (desk.page.errors.length > 0) throw new Error(`page errors: ${desk.page.errors.join('; ')}`);
    return remark;
  } finally {
    clearTimeout(late);
    await desk.close();
  }
}

async function tell(browser, each) {
  const began = performance.now();
  const time = () => `${Math.round(performance.now() - began)} ms`;
  try {
    const remark = await runCase(browser, each);
    console.log(`ok    ${browser.name} ${each.name} ${time()}${remark ? ` (${remark})` : ''}`);
    return true;
  } catch (fault) {
    console.log(`FAIL  ${browser.name} ${each.name} ${time()}\n    ${fault.message}\n${placeOf(fault)}`);
    return false;
  }
}

/** The line of the case in which a check failed. */
function placeOf(fault) {
  const line = (fault.stack ?? '').split('\n').find(each => each.includes('/cases/'));
  return line ? `   ${line.trim().replace(TOP, '')}` : '';
}

/** The cases of a browser that can be run here; what cannot is named, loudly. */
function chosenCases(cases, name) {
  const isFor = each => (each.browsers ?? ['chromium']).includes(name);
  const wanted = cases.filter(each => isFor(each) && each.name.includes(options.only));
  const missing = each => (each.needs ?? []).find(need => !NEEDS[need].isThere);
  for (const need of Object.keys(NEEDS)) {
    const left = wanted.filter(each => missing(each) === need).map(each => each.name);
    if (left.length > 0) console.log(`NOT TESTED in ${name}, since ${NEEDS[need].words}: ${left.join(' ')}`);
  }
  return wanted.filter(each => !missing(each));
}

async function runBrowser(name, cases) {
  const chosen = chosenCases(cases, name);
  if (chosen.length === 0 && !options.pictures) return { done: 0, failed: 0 };
  const browser = await BROWSERS[name].launch();
  const stop = () => browser.close().finally(() => process.exit(1));
  SIGNALS.forEach(signal => process.once(signal, stop));
  try {
    const failed = await runLanes(browser, chosen, Math.min(Number(options.lanes), BROWSERS[name].mostLanes ?? Infinity));
    if (options.pictures && name === 'chromium') await takePictures(browser, file, options.pictures);
    return { done: chosen.length, failed };
  } finally {
    SIGNALS.forEach(signal => process.off(signal, stop));
    await browser.close();
  }
}

/** Cases that measure time run alone, before the others; those run in several lanes. Gives how many failed. */
async function runLanes(browser, cases, lanes) {
  let failed = 0;
  const lane = async queue => {
    for (let each = queue.shift(); each; each = queue.shift()) {
      if (!await tell(browser, each)) failed += 1;
    }
  };
  await lane(cases.filter(each => each.isAlone));
  const others = cases.filter(each => !each.isAlone);
  await Promise.all(Array.from({ length: lanes }, () => lane(others)));
  return failed;
}

async function main() {
  const cases = await allCases();
  const total = { done: 0, failed: 0 };
  for (const [name, { names }] of Object.entries(BROWSERS)) {
    if (options.browser && options.browser !== name) continue;
    if (findProgram(names) === null) {
      console.log(`NOT TESTED: there is no ${names[0]}, so that no case runs in it`);
      continue;
    }
    const { done, failed } = await runBrowser(name, cases);
    total.done += done;
    total.failed += failed;
  }
  console.log(`${total.done} cases, ${total.failed} failed`);
  process.exitCode = total.failed > 0 ? 1 : 0;
}

await main();
