// Opening and saving book files. A refused file never replaces the book that is open.
import { bookOf, groups } from './book.js';
import { CoreStopped, LINE, count, lineCount } from './core.js';
import { chooseNothing } from './choice.js';
import { isSaved, openBook, present, setSaved, theCore } from './desk.js';
import { button, byId, make } from './dom.js';
import { numbersIn } from './file.js';
import { hush, refuse, strong, tell, undoHere } from './notice.js';
import { FILE_WORDS, NOT_RIGHT, writingWords } from './refusals.js';
import { named, plural, short } from './text.js';

// As much as the report program reads.
const MOST_BYTES = 16_384;
const ENDING = '.book';
// What a file's name must not have on some system.
const NOT_IN_NAMES = /[\\/:*?"<>|\u0000-\u001f]/g;

export const cleanName = name => name.replace(NOT_IN_NAMES, ' ').trim();

const refusedWords = ({ number, place }) => `Refused ${number}${place > 0 ? ` at ${place}` : ''}.`;

/** What is wrong with a refused file. */
const fileWords = (number, place) => ({ 6: `Held entry ${place} is wrong.`, 7: `Line ${place} is wrong.`, ...FILE_WORDS })[number];

/** A line that neither stands nor is withdrawn is shown as withdrawn, and there is no cell for that: so it is said. */
function tellDoubtful({ lines }) {
  const doubtful = groups(lines, LINE).flatMap(([, , , , standing], i) => (standing === 0n || standing === 1n ? [] : [i + 1]));
  if (doubtful.length > 0) tell(`Standing mark neither 0 nor 1, so shown as withdrawn: ${named('line', doubtful)}.`);
}

/** The entries of a refused file can be shown, so that their cells can be mended. */
function showButton(name, bytes) {
  return button('Show it, to mend it', () => {
    const numbers = numbersIn(bytes);
    chooseNothing();
    openBook(`${name} mended`, bookOf(numbers), false);
    hush();
    tellDoubtful(numbers);
  }, { id: 'show-it' });
}

function refuseFile(name, bytes, { number, place }) {
  refuse(strong(`${short(name)} was not opened. ${refusedWords({ number, place })}`),
    ` ${fileWords(number, place)} The book shown is the one from before. `,
    ...(number === 6 || number === 7 ? [showButton(name, bytes)] : []));
}

function openBytes(name, bytes) {
  const answer = theCore().read(bytes);
  if (answer.number !== 0) return refuseFile(name, bytes, answer);
  const book = bookOf(answer.numbers);
  chooseNothing();
  openBook(name, book, true);
  const counts = `${plural(count(answer.numbers.marks), 'mark')}, ${plural(book.lines.length, 'line')}`;
  tell('Opened ', strong(short(name)), `: ${counts}. `, undoHere());
}

async function openFile(file) {
  const name = file.name.toLowerCase().endsWith(ENDING) ? file.name.slice(0, -ENDING.length) : file.name;
  try {
    openBytes(name, new Uint8Array(await file.slice(0, MOST_BYTES).arrayBuffer()));
  } catch (error) {
    if (!(error instanceof CoreStopped)) return refuse(strong(short(name)), ' cannot be read from this device.');
    theCore().start();
    refuse(strong(`${short(name)} was not opened. The core stopped.`), ' Please report this book.');
  }
}

function download(name, bytes) {
  const address = URL.createObjectURL(new Blob([bytes], { type: 'application/octet-stream' }));
  const link = make('a', { href: address, download: name });
  document.body.append(link);
  link.click();
  link.remove();
  setTimeout(() => URL.revokeObjectURL(address), 1_000);
}

/** Saves the bytes that the core wrote of a book. */
function saveBytes({ name, book, results }, bytes) {
  const fileName = (name || 'level') + ENDING;
  download(fileName, bytes);
  setSaved();
  const n = lineCount(results.numbers);
  const open = book.lines.length > n ? ` Line ${n + 1} is not complete and is not in the file.` : '';
  tell('Saved as ', strong(fileName), `, ${bytes.length} bytes.${open}`);
}

/** Says why the core did not write a book. */
function refuseBook({ lines }, answer) {
  const withdrawn = lines.flatMap(({ standing }, i) => (standing ? [] : [i + 1]));
  refuse(strong(`Not saved. ${refusedWords(answer)}`), ` ${writingWords(answer.number, withdrawn)}`);
}

/** The core's answer to a book that is to be saved; if the core stops null, once that is said. */
function written(numbers) {
  try {
    return theCore().write(numbers);
  } catch (error) {
    if (!(error instanceof CoreStopped)) throw error;
    theCore().start();
    refuse(strong('Not saved. The core stopped.'), ' Please report this book.');
    return null;
  }
}

export function saveFile() {
  const step = present();
  const { faults, stopped, numbers } = step.results;
  // Of a text that cannot be read, or a book on which the core stopped, there may be no numbers to lend it.
  if (stopped || faults.length > 0) return refuse(strong('Not saved.'), ` ${NOT_RIGHT}`);
  const answer = written(numbers);
  if (!answer) return;
  if (answer.number === 0) saveBytes(step, answer.bytes);
  else refuseBook(step.book, answer);
}

export const askForFile = () => byId('file').click();

export function wireFiles() {
  const input = byId('file');
  byId('open').addEventListener('click', askForFile);
  byId('save').addEventListener('click', saveFile);
  input.addEventListener('change', () => {
    const [file] = input.files;
    if (file) openFile(file);
    // The same file can then be opened once more.
    input.value = '';
  });
  document.addEventListener('dragover', event => {
    if (event.dataTransfer.types.includes('Files')) event.preventDefault();
  });
  document.addEventListener('drop', event => {
    const [file] = event.dataTransfer.files;
    if (!file) return;
    event.preventDefault();
    openFile(file);
  });
  addEventListener('beforeunload', event => {
    if (!isSaved()) event.preventDefault();
  });
}
