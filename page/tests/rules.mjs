// Searches the page's source for what must not be there: node page/tests/rules.mjs
//
// Everything that is a result comes from the core, and so does every byte of a saved file. So outside of drawing no script rounds, makes
// a float of a text, adds whole numbers or compares with a number, but in the places that are listed here with their reason. And nowhere
// are numbers written as bytes, or does text become markup, or leave the page.
import { readFileSync, readdirSync } from 'node:fs';

const PAGE = new URL('../', import.meta.url);
const read = name => readFileSync(new URL(name, PAGE), 'utf8');
const DRAWING = /^(layout[a-z-]*|geometry|drawing[a-z-]*|network)\.js$/;

const EVERYWHERE = [
  [/\b(innerHTML|outerHTML|insertAdjacentHTML|document\.write|DOMParser|createContextualFragment)\b/, 'text becomes markup'],
  [/\b(eval|new Function)\b/, 'text becomes script'],
  [/\b(fetch|XMLHttpRequest|WebSocket|EventSource|sendBeacon|importScripts|Worker|RTCPeerConnection)\b/, 'it leaves the page'],
  [/https?:\/\/(?!www\.w3\.org\/2000\/svg)/, 'it leaves the page'],
  [/\bMath\.random\b|\bcrypto\b/, 'chance'],
  [/\.set(Big)?(Ui|I)nt\d+\(|\.setFloat\d+\(/, 'numbers become bytes'],
];
const IN_DRAWING = [[/\b(Date|performance)\b/, 'a clock in the picture']];
const OUTSIDE_DRAWING = [
  [/\bMath\./, 'arithmetic'],
  [/\b(parseFloat|parseInt|Number)\(|[(=,:?&|] ?\+[a-zA-Z(]/, 'a float of a text'],
  [/\dn\b *[-+*/%]|[-+*/%]=? *\d+n\b|\*\*|\b(toFixed|sum)\b/, 'arithmetic with whole numbers'],
  [/[<>]=? *-?(?![01]n?\b)\d/, 'a comparison with a number'],
  [/^(?:export )?const [A-Z_]+ = -?[\d_]+/, 'a number with a name'],
];

/** Places outside of drawing that may be as they are: file, what the line has, and why. */
const ALLOWED = [
  ['core.js', 'count = whole => Number(whole)', 'an index of what the core counted'],
  ['core.js', 'Math.ceil(missing / PAGE)', 'room in memory'],
  ['core.js', 'const NUMBER = 8', 'room in memory'],
  ['core.js', 'const PAGE = 65_536', 'room in memory'],
  ['core.js', 'const LINE = 6', 'the form of a lent book'],
  ['core.js', 'const NO_CLASS = -1n', 'the form of a lent book'],
  ['text.js', 'const MOST_DIGITS = 11', 'nothing wraps in 64 bits'],
  ['text.js', 'const SHOWN = 24', 'how much of a text a message shows'],
  ['text.js', 'const MANY = 14', 'how many lines a message names'],
  ['text.js', 'const FEW = 12', 'how many lines a message names'],
  ['text.js', 'Math.floor(Math.abs(rate) * 1000 + 0.5)', 'the display of a rate, as the sheet of heights has it'],
  ['file.js', 'const HEAD = 13', 'the form of a refused file'],
  ['file.js', 'const HELD = 10', 'the form of a refused file'],
  ['allowed.js', 'const KEPT = 20_000', 'how many answers are kept'],
  ['allowed.js', 'from + 1n', 'the marks of a ring that the core is asked about'],
  ['allowed.js', 'Math.floor(Math.sqrt(Number(10n * allows)))', 'a guess, which counts only if the core says so'],
  ['allowed.js', 'own * own * (length < 250n ? 250n : length)', 'a guess, which counts only if the core says so'],
  ['allowed.js', '(low + high) / 2n', 'halving, until the core has said which is the greatest'],
  ['allowed.js', 'first + 1n', 'the next micrometre, which the core is asked about'],
  ['allowed.js', 'high *= 2n', 'doubling, until the core says over'],
  ['allowed.js', 'high / 2n', 'doubling, until the core says over'],
  ['results.js', 'const KEPT = 40', 'how many lists are kept'],
  ['results.js', 'i % LINE < 2', 'which numbers of a line are marks'],
  ['cells.js', 'rowIndex = row => Number(row.dataset.row)', 'an index that the page wrote'],
  ['cells.js', 'const FEWEST_DECIMALS = 3', 'how a number is shown'],
  ['desk.js', 'const MOST_STEPS = 300', 'how many steps are kept'],
  ['draft.js', 'const AFTER = 400', 'milliseconds'],
  ['draft.js', 'const MOST = 8', 'how many drafts are kept'],
  ['entry.js', 'const LOOPS_NAMED = 4', 'how many loops a row names'],
  ['entry.js', 'Math.min(TABLES[table].most, book[table].length + 1)', 'how many rows there are'],
  ['files.js', 'const MOST_BYTES = 16_384', 'as much as the report program reads'],
  ['focus.js', 'const KEPT = 8', 'how many places are remembered'],
  ['keys.js', 'const MOST_PASTED = 400_000', 'how much is pasted'],
  ['loops.js', 'const MANY_OPEN = 14', 'how many lines a tile names'],
  ['loops.js', 'BAR.allowed * Number(size(loop.misclosure)) / Number(loop.allowed)', 'how long a bar is drawn'],
  ['loops.js', 'Math.min(reach, BAR.width - 6).toFixed(1)', 'how long a bar is drawn'],
  ['correction.js', 'const DECIMALS = 6', 'the decimals of a difference'],
  ['notice.js', 'const TOLD_FOR = 9_000', 'milliseconds'],
  ['paper.js', 'const EMPTY_ROWS = 20', 'an empty field sheet'],
  ['trouble.js', 'const SHOWN = 5', 'how many faults are named'],
  ['sheet.js', 'const COPIED_FOR = 1_500', 'milliseconds'],
];

const used = new Set();
const isAllowed = (file, line) => ALLOWED.some((entry, i) => {
  const is = entry[0] === file && line.includes(entry[1]);
  if (is) used.add(i);
  return is;
});

const withoutComments = text => text.replace(/\/\*[^]*?\*\//g, all => all.replace(/[^\n]/g, ''))
  .replace(/^\s*\/\/.*$|(?<=[;{,]) \/\/ .*$/gm, '');

function faultsOf(file) {
  const rules = [...EVERYWHERE, ...(DRAWING.test(file) ? IN_DRAWING : OUTSIDE_DRAWING)];
  return withoutComments(read(`src/${file}`)).split('\n').flatMap((line, i) =>
    rules.filter(([pattern]) => pattern.test(line) && !isAllowed(file, line))
      .map(([, why]) => `src/${file}:${i + 1}: ${why}: ${line.trim()}`));
}

/** In the markup: no handlers, no styles, nothing from elsewhere. */
const MARKUP = [
  [/\son[a-z]+=/, 'an inline handler'],
  [/\sstyle=/, 'an inline style'],
  [/\b(src|href)="(?!#|data:,)|https?:/, 'something from elsewhere'],
];
const markupFaults = read('page.html').split('\n').flatMap((line, i) =>
  MARKUP.filter(([pattern]) => pattern.test(line)).map(([, why]) => `page.html:${i + 1}: ${why}: ${line.trim()}`));
const styleFaults = readdirSync(new URL('style/', PAGE)).filter(name => /url\((?!#)|@import/.test(read(`style/${name}`)))
  .map(name => `style/${name}: something from elsewhere`);

const files = readdirSync(new URL('src/', PAGE));
const faults = [...files.flatMap(faultsOf), ...markupFaults, ...styleFaults];
const idle = ALLOWED.filter((_, i) => !used.has(i)).map(([file, text]) => `rules.mjs: nothing in ${file} needs to be allowed: ${text}`);
for (const fault of [...faults, ...idle]) console.error(fault);
console.log(`rules: ${files.length} scripts, ${faults.length + idle.length} faults`);
process.exitCode = faults.length + idle.length > 0 ? 1 : 0;
