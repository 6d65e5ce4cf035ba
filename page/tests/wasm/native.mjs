// The server of the native archive (reference/server), asked beside the core. Nobody waits for its answers: each is
// compared, when it comes, with what the core answered to the same request.

import { spawn } from 'node:child_process';
import { UNTOUCHED, headOf } from './calls.mjs';

export class Native {
  /** Starts the server that the words of the command start. */
  constructor(command) {
    const [program, ...words] = command.split(/\s+/);
    this.server = spawn(program, words, { stdio: ['pipe', 'pipe', 'inherit'] });
    this.ended = new Promise((resolve) => {
      this.server.on('error', (error) => resolve(error.message));
      this.server.on('close', (status, signal) => resolve(signal ?? status));
    });
    this.hasEnded = false;
    this.ended.then(() => { this.hasEnded = true; });
    // What cannot be sent is not answered, and that is told at the end.
    this.server.stdin.on('error', () => {});
    this.server.stdout.on('data', (bytes) => this.receive(bytes));
    this.waiting = [];
    this.parts = [];
    this.received = 0;
    this.compared = 0;
    this.different = null;
  }

  /** Whether there is something to be asked: no answer differed yet, and the server is there. */
  isAnswering() {
    return !this.different && !this.hasEnded;
  }

  /** Sends a request that the core has answered so, and waits only while the server is far behind. */
  async compare(request, answer) {
    this.waiting.push({ request, answer });
    if (this.server.stdin.write(request)) return;
    const drained = new Promise((resolve) => { this.server.stdin.once('drain', resolve); });
    await Promise.race([drained, this.ended]);
  }

  /** Takes bytes of answers in. The first answer that differs is kept, and none after it is looked at. */
  receive(bytes) {
    for (let start = 0; start < bytes.length && !this.different;) {
      if (this.waiting.length === 0) throw new Error('the native server answers what it was not asked');
      const [{ answer }] = this.waiting;
      const part = bytes.subarray(start, start + answer.length - this.received);
      this.parts.push(part);
      this.received += part.length;
      start += part.length;
      if (this.received === answer.length) this.compareFirst();
    }
  }

  compareFirst() {
    const { request, answer } = this.waiting.shift();
    const native = this.parts.length === 1 ? this.parts[0] : Buffer.concat(this.parts);
    this.parts = [];
    this.received = 0;
    this.compared += 1;
    const same = native.equals(answer) && headOf(answer)[UNTOUCHED] === 1n;
    if (!same) this.different = { request, answer, native };
  }

  /** Ends the server, which must have answered all that it was asked and not have ended before. */
  async end() {
    const tooSoon = this.hasEnded;
    this.server.stdin.end();
    const how = await this.ended;
    if (!this.different && (tooSoon || how !== 0 || this.waiting.length > 0)) {
      throw new Error(`the native server ended (${how}) after ${this.compared} calls`);
    }
  }
}
