// The report as text: what the report program, the sketch program and the heights program print for this book. A version 1 file cannot
// tell them of withdrawn lines; the page shows those too.
import { groups } from './book.js';
import { count, lineCount } from './core.js';
import { present } from './desk.js';
import { byId } from './dom.js';
import { sketchOf } from './junctions.js';
import { metres, millimetres, rateText } from './text.js';

const COPIED_FOR = 1_500;

const right = (text, width) => String(text).padStart(width);

const STOPPED = 'THE CORE STOPPED\n';

/** What the report program prints. */
function reportText({ done, faults, stopped, refusal, numbers, pieces, loops, notChecked }) {
  if (stopped) return STOPPED;
  if (!done) return faults.length > 0 ? 'CANNOT BE READ\n' : `REFUSED ${refusal.number} AT ${refusal.place}\n`;
  return [
    `LEVEL BOOK ${numbers.version}`,
    `MARKS ${numbers.marks} LINES ${lineCount(numbers)} PIECES ${pieces} LOOPS ${loops.length}`,
    ...loops.map(({ length, misclosure, over, lines }, i) =>
      `LOOP ${i + 1} LENGTH ${length} MISCLOSURE ${misclosure} ${over ? 'OVER' : 'WITHIN'}: ${lines.join(' ')}`),
    `NOT CHECKED ${notChecked.length}:${notChecked.map(line => ` ${line}`).join('')}`,
    '',
  ].join('\n');
}

/** What the sketch program prints. */
function sketchText(results) {
  if (!results.done) return '';
  const sketch = sketchOf(results);
  if (!sketch) return STOPPED;
  const { numbers } = results;
  const { links, spurs, loops } = sketch;
  const rest = (word, { length, difference, lines }) => `LENGTH ${length} ${word} ${difference}: ${lines.join(' ')}`;
  return [
    'JUNCTION SKETCH',
    `MARKS ${numbers.marks} LINES ${lineCount(numbers)} LINKS ${links.length} SPURS ${spurs.length} LOOPS ${loops.length}`,
    ...links.map(link => `LINK ${link.first} ${link.last} ${rest('DIFFERENCE', link)}`),
    ...spurs.map(spur => `SPUR ${spur.first} ${rest('DIFFERENCE', spur)}`),
    ...loops.map(loop => `LOOP ${loop.first} ${rest('MISCLOSURE', loop)}`),
    '',
  ].join('\n');
}

const markText = (height, mark, held) => right(mark, 4) + right(metres(height, 6, '-'), 14) + (held.has(mark) ? '  HELD' : '');

const rateLine = ({ correction, rate, withdrawn }, line) =>
  right(line, 4) + (withdrawn ? '  withdrawn' : right(millimetres(correction, '-'), 14) + right(rateText(rate, '-'), 13));

/** What the heights program prints. */
function heightsText({ done, numbers, adjusted, rates }) {
  if (!done) return '';
  const { number, place, sweeps, heights } = adjusted;
  if (number !== 0) return `REFUSED ${number} AT ${place}\n`;
  const held = new Set(groups(numbers.held, 2).map(([mark]) => count(mark)));
  return [
    'ADJUSTED HEIGHTS',
    `MARKS ${numbers.marks} LINES ${lineCount(numbers)} HELD ${held.size} SWEEPS ${sweeps}`,
    'MARK      HEIGHT m',
    ...Array.from(heights, (height, i) => markText(height, i + 1, held)),
    'LINE CORRECTION mm   RATE mm/km',
    ...rates.map((rate, i) => rateLine(rate, i + 1)),
    '',
  ].join('\n');
}

const details = () => byId('text').querySelector('details');

export function showSheet({ results }) {
  if (!details().open) return;
  byId('textbox').textContent = [reportText(results), sketchText(results), heightsText(results)].filter(Boolean).join('\n');
}

async function copy() {
  const box = byId('textbox');
  try {
    await navigator.clipboard.writeText(box.textContent);
  } catch {
    // A page from disk may not be given the clipboard.
    getSelection().selectAllChildren(box);
    document.execCommand('copy');
  }
  byId('copy').textContent = 'Copied';
  setTimeout(() => { byId('copy').textContent = 'Copy'; }, COPIED_FOR);
}

export function wireSheet() {
  details().addEventListener('toggle', () => showSheet(present()));
  byId('copy').addEventListener('click', copy);
}
