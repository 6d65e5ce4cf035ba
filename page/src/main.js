// Begins: opens the core, joins the panels to the desk, and puts the worked network on it.
import { showBar, wireBar } from './bar.js';
import { bookOf } from './book.js';
import { showCorrection } from './correction.js';
import { openCore } from './core.js';
import { onStep, openBook, setCore } from './desk.js';
import { byId, fill, make } from './dom.js';
import { offerDrafts, wireDrafts } from './draft.js';
import { showEntry, wireEntry } from './entry.js';
import { wireFiles } from './files.js';
import { keepFocus, wireFocus } from './focus.js';
import { showGlance } from './glance.js';
import { showHeights, wireHeights } from './heights.js';
import { wireInsight } from './insight.js';
import { wireKeys } from './keys.js';
import { showLoops, wireLoops } from './loops.js';
import { showNetwork, wireNetwork } from './network.js';
import { strong } from './notice.js';
import { wirePaper } from './paper.js';
import { showSheet, wireSheet } from './sheet.js';
import { showSketch, wireSketch } from './sketch.js';
import { showTrouble } from './trouble.js';

const SHOWN = [
  showBar, showCorrection, showTrouble, showGlance, showEntry, showLoops, showNetwork, showSketch, showHeights, showSheet, keepFocus,
];
const WIRED = [
  wireFocus, wireBar, wireEntry, wireFiles, wireKeys, wireLoops, wireNetwork, wireSketch, wireHeights, wireSheet, wirePaper,
  wireDrafts, wireInsight,
];

/** Bytes that the page was built with. */
const inside = text => Uint8Array.from(atob(text), letter => letter.charCodeAt(0));

function cannotRun() {
  fill(byId('trouble'), make('div', { class: 'box refused' }, strong('This browser cannot run the page.'),
    ' It needs one of 2022 or later: Chrome or Edge 97, Firefox 102, Safari 16.'));
}

async function begin() {
  let core;
  try {
    core = await openCore(inside(CORE));
  } catch {
    return cannotRun();
  }
  setCore(core);
  SHOWN.forEach(onStep);
  // A core that stopped is made anew; the book is kept.
  onStep(({ results }) => results.stopped && core.start());
  for (const wire of WIRED) wire();
  openBook('worked', bookOf(core.read(inside(EXAMPLE)).numbers), true);
  offerDrafts();
  document.documentElement.dataset.ready = '';
}

begin();
