// The calls of the proved core, a WebAssembly module (include/level.h says what each does). Whole numbers go in and come
// out as they are: nothing is worked out here, and nothing is tested.

// How much of each the core is lent, in numbers: as much as the largest book needs.
const ROOM = {
  answer: 8, file: 16_384 / 8, held: 512, lines: 3_072, rows: 2_560, entries: 65_792, heights: 256,
  links: 2_560, spurs: 2_560, loops: 2_560, run: 512,
};
const NUMBER = 8;
const PAGE = 65_536;

/** How many numbers a line has: from, to, difference, length, standing, class. */
export const LINE = 6;
/** The class of each line in a book of version 1. */
export const NO_CLASS = -1n;

/** How many lines a book of numbers has. */
export const lineCount = ({ lines }) => lines.length / LINE;

/** A count, a place or a line number that the core gave, as an index. */
export const count = whole => Number(whole);

/** The core trapped. Its stack is lost: it has to be started again. */
export class CoreStopped extends Error {}

/** The room that is lent, laid out once behind the core's own memory: for each name its address and its numbers. */
function layOut(exports) {
  let end = exports.__heap_base.value;
  const at = {};
  for (const [name, numbers] of Object.entries(ROOM)) {
    at[name] = end + (NUMBER - end % NUMBER) % NUMBER;
    end = at[name] + numbers * NUMBER;
  }
  const missing = end - exports.memory.buffer.byteLength;
  // Growing would detach views that were made before.
  if (missing > 0) exports.memory.grow(Math.ceil(missing / PAGE));
  const room = {};
  for (const [name, numbers] of Object.entries(ROOM)) {
    room[name] = { at: at[name], numbers: new BigInt64Array(exports.memory.buffer, at[name], numbers) };
  }
  return room;
}

class Core {
  constructor(module) {
    this.module = module;
  }

  /** Makes an instance of the core: at first, and again after it stopped. */
  async start() {
    const instance = await WebAssembly.instantiate(this.module, {});
    this.exports = instance.exports;
    this.room = layOut(this.exports);
  }

  /** Makes a call. Of the answer it gives the first numbers, as many as are asked for. */
  call(name, words, width) {
    if (!this.exports) throw new CoreStopped(name);
    try {
      this.exports[name](this.room.answer.at, ...words);
    } catch (error) {
      this.exports = null;
      throw new CoreStopped(name, { cause: error });
    }
    return this.room.answer.numbers.slice(0, width);
  }

  /** Copies numbers into lent room; more than there is room for is an error of this page. */
  lend(name, numbers) {
    const { at, numbers: place } = this.room[name];
    place.set(numbers);
    return [at, BigInt(numbers.length)];
  }

  lendBook({ version, marks, tolerance, held, lines }) {
    return [version, marks, tolerance, ...this.lend('held', held), ...this.lend('lines', lines)];
  }

  /** Lends room for an answer, all of it. */
  out(name) {
    const { at, numbers } = this.room[name];
    return [at, BigInt(numbers.length)];
  }

  /** The first numbers of lent room, as they are now. */
  given(name, many) {
    return this.room[name].numbers.slice(0, many);
  }

  /** The bytes of the room for a file. */
  fileRoom() {
    const { at, numbers } = this.room.file;
    return new Uint8Array(numbers.buffer, at, numbers.byteLength);
  }

  read(file) {
    const room = this.fileRoom();
    room.set(file);
    const words = [room.byteOffset, BigInt(file.length), ...this.out('held'), ...this.out('lines')];
    const [number, place, version, marks, tolerance, h, n] = this.call('level_read', words, 7);
    const held = this.given('held', 2 * count(h));
    const lines = this.given('lines', LINE * count(n));
    return { number: count(number), place: count(place), numbers: { version, marks, tolerance, held, lines } };
  }

  /** Writes the file of a book. */
  write(book) {
    const room = this.fileRoom();
    const words = [...this.lendBook(book), room.byteOffset, BigInt(room.length)];
    const [number, place, bytes] = this.call('level_write', words, 3);
    return { number: count(number), place: count(place), bytes: room.slice(0, count(bytes)) };
  }

  survey(book) {
    return this.reported(this.call('level_survey', [...this.lendBook(book), ...this.out('rows')], 4));
  }

  rerun(book, report, line, difference) {
    const words = [...this.lendBook(book), ...this.lend('rows', report), BigInt(line), difference];
    return this.corrected(book, this.call('level_rerun', words, 4));
  }

  withdraw(book, report, line) {
    const words = [...this.lendBook(book), ...this.lend('rows', report), BigInt(line)];
    return this.corrected(book, this.call('level_withdraw', words, 4));
  }

  reported([number, place, rows, pieces]) {
    const report = this.given('rows', 5 * count(rows));
    return { number: count(number), place: count(place), pieces: count(pieces), report };
  }

  corrected(book, answer) {
    return { ...this.reported(answer), lines: this.given('lines', book.lines.length) };
  }

  listings(book) {
    return this.listed(this.call('level_listings', [...this.lendBook(book), ...this.out('entries')], 3));
  }

  notChecked(book) {
    return this.listed(this.call('level_not_checked', [...this.lendBook(book), ...this.out('entries')], 3));
  }

  listed([number, place, entries]) {
    const list = Array.from(this.given('entries', count(entries)), count);
    return { number: count(number), place: count(place), list };
  }

  /** The junction sketch: links, spurs and loops, each entry with its lines as they are run. */
  sketch(book) {
    const outs = ['links', 'spurs', 'loops', 'run'].flatMap(name => this.out(name));
    const [number, place, links, spurs, loops, run] = this.call('level_sketch', [...this.lendBook(book), ...outs], 6);
    // The run has the lines of all links, then of all spurs, then of all loops, and so they are taken from it.
    const left = Array.from(this.given('run', count(run)), count);
    return {
      number: count(number),
      place: count(place),
      links: this.sketched('links', links, left),
      spurs: this.sketched('spurs', spurs, left),
      loops: this.sketched('loops', loops, left),
    };
  }

  sketched(name, entries, left) {
    const numbers = this.given(name, 5 * count(entries));
    return Array.from({ length: count(entries) }, (_, i) => {
      const [first, last, lines, length, difference] = numbers.subarray(5 * i);
      return { first: count(first), last: count(last), count: count(lines), length, difference, lines: left.splice(0, count(lines)) };
    });
  }

  adjust(book) {
    const [number, place, sweeps] = this.call('level_adjust', [...this.lendBook(book), ...this.out('heights')], 3);
    const heights = this.given('heights', number === 0n ? count(book.marks) : 0);
    return { number: count(number), place: count(place), sweeps: count(sweeps), heights };
  }

  /** Corrections and rates of all lines. */
  rates(book, heights) {
    const words = [...this.lendBook(book), ...this.lend('heights', heights)];
    const rate = new Float64Array(this.room.answer.numbers.buffer, this.room.answer.at, 6);
    return Array.from({ length: lineCount(book) }, (_, row) => {
      const [, , , correction, withdrawn] = this.call('level_rate', [...words, BigInt(row + 1)], 5);
      return { correction, withdrawn: withdrawn === 1n, rate: rate[5] };
    });
  }
}

/** The core from the bytes of its module. */
export async function openCore(bytes) {
  const core = new Core(await WebAssembly.compile(bytes));
  await core.start();
  return core;
}
