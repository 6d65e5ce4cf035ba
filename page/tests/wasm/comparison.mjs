// Calls made on the core and, beside it, on the native archive, and how often each was answered how.

import { CALLS, callNumber, headOf, numbersOf, requestOf, slicesOf } from './calls.mjs';
import { callInWords } from './words.mjs';

const DONE = 0n;

export class Comparison {
  constructor(core, native) {
    this.core = core;
    this.native = native;
    this.made = 0;
    this.tallies = CALLS.map(() => new Map());
  }

  /** Makes a call on both. Gives the core's answer: its numbers, and lines and the third slice after the call. */
  async ask(name, book, more, number, difference) {
    const call = callNumber(name);
    const request = requestOf(call, book, more, number, difference);
    const answer = this.answer(request);
    await this.native.compare(request, answer);
    const numbers = headOf(answer);
    this.count(call, numbers[0]);
    const [, lines, third] = slicesOf(headOf(request));
    return {
      numbers,
      lines: () => numbersOf(answer.subarray(...lines)),
      third: () => numbersOf(answer.subarray(...third)),
    };
  }

  /** The core's answer, on its own; if the core stops, the call is told with it. */
  answer(request) {
    try {
      return Buffer.concat(this.core.answer(request));
    } catch (error) {
      throw new Error(`${error.message}\n${callInWords(request)}`);
    }
  }

  count(call, refusal) {
    const tally = this.tallies[call];
    tally.set(refusal, (tally.get(refusal) ?? 0) + 1);
    this.made += 1;
  }

  /** One row to a call: how many, how many of them done, and how many refused with each number. */
  tallyInWords() {
    return this.tallies.map((tally, call) => {
      const all = [...tally.values()].reduce((sum, count) => sum + count, 0);
      const refusals = [...tally.keys()].filter((number) => number !== DONE).sort((one, other) => Number(one - other));
      const refused = refusals.map((number) => `${number}: ${tally.get(number)}`).join(', ');
      const done = `${tally.get(DONE) ?? 0}`;
      return `${CALLS[call].name.padEnd(18)} ${`${all}`.padStart(7)}   done ${done.padStart(7)}   refused ${refused}`;
    }).join('\n');
  }
}
