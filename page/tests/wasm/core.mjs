// The wasm module, asked by the requests of reference/server/server.c. Every slice that is lent and the answer lie
// between guards, and slices that are lent to be read are compared afterwards.

import { readFileSync } from 'node:fs';
import {
  CALLS, HEAD_BYTES, MOST_SLICE_BYTES, NUMBER_BYTES, SLICES, UNTOUCHED, countsOf, headOf, slicesOf,
} from './calls.mjs';

const GUARD_BYTES = 64;
const GUARD_BYTE = 0xa5;
const GUARD = Buffer.alloc(GUARD_BYTES, GUARD_BYTE);
const MEMORY_PAGE_BYTES = 65536;

/** A stretch of the module's memory between guards; how long it is changes from call to call. */
class Room {
  constructor(memory, start) {
    this.memory = memory;
    this.start = start;
    this.end = start;
  }

  layOut(bytes) {
    this.end = this.start + bytes;
    this.memory.fill(GUARD_BYTE, this.start - GUARD_BYTES, this.start);
    this.memory.fill(GUARD_BYTE, this.end, this.end + GUARD_BYTES);
  }

  isGuarded() {
    return this.isGuard(this.start - GUARD_BYTES) && this.isGuard(this.end);
  }

  isGuard(start) {
    return this.memory.compare(GUARD, 0, GUARD_BYTES, start, start + GUARD_BYTES) === 0;
  }

  /** Takes in the bytes of a request from start to end. */
  take(request, start, end) {
    this.layOut(end - start);
    request.copy(this.memory, this.start, start, end);
  }

  isAsIn(request, start, end) {
    return this.memory.compare(request, start, end, this.start, this.end) === 0;
  }

  /** What it has now. The next call changes it. */
  bytes() {
    return this.memory.subarray(this.start, this.end);
  }
}

/** Rooms of these sizes, one after the other behind the module's own memory. */
function layOutRooms(exports, sizes) {
  let end = Math.ceil(exports.__heap_base.value / GUARD_BYTES) * GUARD_BYTES;
  const starts = sizes.map((size) => {
    const start = end + GUARD_BYTES;
    end = start + size + GUARD_BYTES;
    return start;
  });
  // Before any view is made: growing takes the bytes away from older ones.
  const missing = end - exports.memory.buffer.byteLength;
  if (missing > 0) exports.memory.grow(Math.ceil(missing / MEMORY_PAGE_BYTES));
  const memory = Buffer.from(exports.memory.buffer);
  return starts.map((start) => new Room(memory, start));
}

export class Core {
  constructor(exports) {
    this.exports = exports;
    const [answer, ...slices] = layOutRooms(exports, [HEAD_BYTES, ...Array(SLICES).fill(MOST_SLICE_BYTES)]);
    this.answerRoom = answer;
    this.sliceRooms = slices;
    this.head = Buffer.alloc(HEAD_BYTES);
  }

  /** Answers a request in parts: its head and the slices. They are the answer's until the next request. */
  answer(request) {
    const head = headOf(request);
    const call = CALLS[head[0]];
    if (!call) throw new Error(`call ${head[0]} is asked for`);
    const places = slicesOf(head);
    places.forEach(([start, end], slice) => this.sliceRooms[slice].take(request, start, end));
    this.answerRoom.layOut(call.numbers * NUMBER_BYTES);
    // What the call does not write of its answer is seen.
    this.answerRoom.bytes().fill(GUARD_BYTE);
    this.make(call, head);
    this.head.fill(0);
    this.answerRoom.bytes().copy(this.head);
    this.head.writeBigInt64LE(this.isUntouched(call, request, places) ? 1n : 0n, NUMBER_BYTES * UNTOUCHED);
    return [this.head, ...this.sliceRooms.map((room) => room.bytes())];
  }

  make(call, head) {
    const [, version, b, t, number, difference] = head;
    const [held, lines, ...more] = countsOf(head).map((count, slice) => [this.sliceRooms[slice].start, count]);
    const book = [version, b, t, ...held, ...lines];
    const lent = call.argumentsOf({ book, held, lines, more, number, difference });
    try {
      this.exports[call.name](this.answerRoom.start, ...lent);
    } catch (trap) {
      throw new Error(`the core stopped in ${call.name}: ${trap.message}`);
    }
  }

  /** Whether the call wrote nothing but its answer and its outputs. */
  isUntouched(call, request, places) {
    const isAsLent = (room, slice) => call.writes.includes(slice) || room.isAsIn(request, ...places[slice]);
    const rooms = [this.answerRoom, ...this.sliceRooms];
    return this.sliceRooms.every(isAsLent) && rooms.every((room) => room.isGuarded());
  }
}

/** The module of a file. */
export async function loadCore(path) {
  const { instance } = await WebAssembly.instantiate(readFileSync(path), {});
  return new Core(instance.exports);
}
