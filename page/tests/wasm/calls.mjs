// The requests of reference/server/server.c and their answers, as bytes.
//
// A request is twelve numbers (the call, version, b, t, loop or line, difference, and the counts of six slices), then the
// slices: held, lines, and those that are left in the order of the call, one to four of them; the others have no
// elements. Of level_read and level_write the third is the file, in bytes; all else is 64-bit numbers, lowest byte
// first, as this processor and the module have them. An answer is twelve numbers (up to seven of the call's answer, 1 if
// the call touched nothing but its outputs, and four zeros), then the slices as they are after the call.

export const NUMBER_BYTES = 8;
export const SLICE_NAMES = ['held', 'lines', 'third', 'fourth', 'fifth', 'sixth'];
export const SLICES = SLICE_NAMES.length;
// Where the counts of the slices begin in a request, and how many numbers a request or an answer begins with.
const COUNTS = 6;
const HEAD_NUMBERS = COUNTS + SLICES;
export const HEAD_BYTES = HEAD_NUMBERS * NUMBER_BYTES;
export const MOST_SLICE_BYTES = 1 << 20;
export const MOST_REQUEST_BYTES = HEAD_BYTES + SLICES * MOST_SLICE_BYTES;

const [HELD, LINES, THIRD, FOURTH, FIFTH, SIXTH] = SLICE_NAMES.keys();

// The place in an answer's head of the 1 that says: nothing but the outputs was touched.
export const UNTOUCHED = 7;

// By their numbers in a request: how many numbers each call answers, which slices it may write, and its arguments in
// the order of include/level.h. There `book` is version, b, t, held and lines, `more` the slices after them, and a slice is its
// address and its count.
export const CALLS = [
  {
    name: 'level_read', numbers: 7, writes: [HELD, LINES],
    argumentsOf: ({ held, lines, more: [third] }) => [...third, ...held, ...lines],
  },
  {
    name: 'level_write', numbers: 3, writes: [THIRD],
    argumentsOf: ({ book, more: [third] }) => [...book, ...third],
  },
  {
    name: 'level_survey', numbers: 4, writes: [THIRD],
    argumentsOf: ({ book, more: [third] }) => [...book, ...third],
  },
  {
    name: 'level_listing', numbers: 3, writes: [THIRD],
    argumentsOf: ({ book, more: [third], number }) => [...book, number, ...third],
  },
  {
    name: 'level_listings', numbers: 3, writes: [THIRD],
    argumentsOf: ({ book, more: [third] }) => [...book, ...third],
  },
  {
    name: 'level_not_checked', numbers: 3, writes: [THIRD],
    argumentsOf: ({ book, more: [third] }) => [...book, ...third],
  },
  {
    name: 'level_sketch', numbers: 6, writes: [THIRD, FOURTH, FIFTH, SIXTH],
    argumentsOf: ({ book, more }) => [...book, ...more.flat()],
  },
  {
    name: 'level_rerun', numbers: 4, writes: [LINES, THIRD],
    argumentsOf: ({ book, more: [third], number, difference }) => [...book, ...third, number, difference],
  },
  {
    name: 'level_withdraw', numbers: 4, writes: [LINES, THIRD],
    argumentsOf: ({ book, more: [third], number }) => [...book, ...third, number],
  },
  {
    name: 'level_adjust', numbers: 3, writes: [THIRD],
    argumentsOf: ({ book, more: [third] }) => [...book, ...third],
  },
  {
    name: 'level_rate', numbers: 6, writes: [],
    argumentsOf: ({ book, more: [third], number }) => [...book, ...third, number],
  },
];

/** The number in a request of the call with this name. */
export function callNumber(name) {
  return CALLS.findIndex((call) => call.name === name);
}

const OF_FILES = ['level_read', 'level_write'].map(callNumber);

/** Whether the third slice of a call, by its number in a request, is a file. */
export function isOfFiles(call) {
  return OF_FILES.includes(Number(call));
}

/** The numbers at the start of a request or an answer. */
export function headOf(bytes) {
  return Array.from({ length: HEAD_NUMBERS }, (_, place) => bytes.readBigInt64LE(NUMBER_BYTES * place));
}

/** The counts of the slices, of a request's head. */
export function countsOf(head) {
  return head.slice(COUNTS);
}

/** Where the slices of a request lie, and its answer's too: [start, end] of each, in bytes. */
export function slicesOf(head) {
  let end = HEAD_BYTES;
  return countsOf(head).map((count, slice) => {
    const size = slice === THIRD && isOfFiles(head[0]) ? 1 : NUMBER_BYTES;
    if (count < 0n || count > BigInt(MOST_SLICE_BYTES / size)) throw new Error(`a slice of ${count} is asked for`);
    const start = end;
    end += Number(count) * size;
    return [start, end];
  });
}

/** The request that lends a book and the slices after it to a call; held, lines and those are typed arrays. */
export function requestOf(call, { version, b, t, held, lines }, more, number = 0n, difference = 0n) {
  const lent = [held, lines, ...more];
  const counts = Array.from({ length: SLICES }, (_, slice) => BigInt(lent[slice]?.length ?? 0));
  const head = BigInt64Array.of(BigInt(call), version, b, t, number, difference, ...counts);
  return Buffer.concat([head, ...lent].map(bytesOf));
}

function bytesOf(numbers) {
  return Buffer.from(numbers.buffer, numbers.byteOffset, numbers.byteLength);
}

/** The numbers of a slice of bytes, on their own. */
export function numbersOf(bytes) {
  return new BigInt64Array(new Uint8Array(bytes).buffer);
}
