// A call and its two answers in words, for people.

import { CALLS, NUMBER_BYTES, SLICE_NAMES, headOf, isOfFiles, numbersOf, slicesOf } from './calls.mjs';
import { HELD_NUMBERS, LINE_NUMBERS, ROW_NUMBERS } from './limits.mjs';

const MOST_PLACES = 8;

/** A whole call: its numbers and all that it is lent. */
export function callInWords(request) {
  const head = headOf(request);
  const [call, version, b, t, number, difference] = head;
  const [held, lines, ...more] = slicesOf(head).map(([start, end]) => request.subarray(start, end));
  return [
    `${CALLS[call].name}: version ${version}, b ${b}, t ${t}, loop or line ${number}, difference ${difference}`,
    ...numbersInWords('held', numbersOf(held), HELD_NUMBERS),
    ...numbersInWords('lines', numbersOf(lines), LINE_NUMBERS),
    ...(isOfFiles(call) ? bytesInWords(more[0]) : moreInWords(more)),
  ].join('\n');
}

/** The slices after held and lines; one without elements is not named. */
function moreInWords(more) {
  const names = SLICE_NAMES.slice(-more.length);
  return more.flatMap((slice, place) => (
    slice.length > 0 ? numbersInWords(names[place], numbersOf(slice), ROW_NUMBERS) : []));
}

/** The call on which core and archive differ, both answers, and the first places where they do. */
export function differenceInWords({ request, answer, native }) {
  return [
    `DIFFERENCE in ${callInWords(request)}`,
    `  wasm answers    ${headOf(answer).join(' ')}`,
    `  archive answers ${headOf(native).join(' ')}`,
    ...placesThatDiffer(answer, native, slicesOf(headOf(request))),
  ].join('\n');
}

/** A slice in rows of so many numbers; one that has the same number everywhere in one row. */
function numbersInWords(name, numbers, inRow) {
  const head = `  ${name}: ${numbers.length} numbers`;
  if (numbers.length > inRow && numbers.every((number) => number === numbers[0])) {
    return [`${head}, each ${numbers[0]}`];
  }
  const rows = [];
  for (let start = 0; start < numbers.length; start += inRow) {
    rows.push(`  ${name} ${start / inRow + 1}: ${numbers.subarray(start, start + inRow).join(' ')}`);
  }
  return [head, ...rows];
}

function bytesInWords(file) {
  const rows = file.toString('hex').match(/.{1,48}/g) ?? [];
  return [`  file of ${file.length} bytes`, ...rows.map((row) => `  ${row}`)];
}

/** The first bytes that are not the same, each with the slice and the number that it is in. */
function placesThatDiffer(answer, native, slices) {
  const rows = [];
  for (let byte = 0; byte < answer.length && rows.length < MOST_PLACES; byte++) {
    if (answer[byte] === native[byte]) continue;
    const slice = slices.findIndex(([start, end]) => byte >= start && byte < end);
    const [name, start] = slice < 0 ? ['answer', 0] : [SLICE_NAMES[slice], slices[slice][0]];
    const place = `${name}, byte ${byte - start} (number ${Math.floor((byte - start) / NUMBER_BYTES) + 1})`;
    rows.push(`  ${place}: wasm ${answer[byte]}, archive ${native[byte]}`);
  }
  return rows;
}
