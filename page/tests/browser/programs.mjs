// The report, sketch and heights programs of this repository: what they print for the bytes of a book.
import { spawn } from 'node:child_process';
import fs from 'node:fs';
import os from 'node:os';
import path from 'node:path';
import { bytesOf } from './book-file.mjs';
import { findProgram, isProgram, TOP } from './tools.mjs';

const AT_ONCE = 3;

const PROGRAMS = ['report', 'sketch', 'heights'];

export const report = bytes => printed('report', bytes);
export const sketch = bytes => printed('sketch', bytes);
export const heights = bytes => printed('heights', bytes);

/** The texts by their programs, as the page shows them one under the other. */
export async function allTexts(bytes) {
  const texts = await Promise.all(PROGRAMS.map(program => printed(program, bytes)));
  return Object.fromEntries(PROGRAMS.map((program, place) => [program, texts[place]]));
}

const file = program => path.join(TOP, 'crates', program, 'out', program);

const isThere = program => isProgram(file(program)) && command(program) !== null;

export const programsAreThere = () => PROGRAMS.every(isThere);

/** The programs are for x86-64; elsewhere they run in an emulator with the kit's C library, as the script `report` does it. */
function command(program) {
  if (os.machine() === 'x86_64') return [file(program)];
  const emulator = findProgram(['qemu-x86_64']);
  const tool = findProgram(['rt']);
  if (!emulator || !tool) return null;
  const libraries = path.join(path.dirname(path.dirname(fs.realpathSync(tool))), 'toolchain', 'lib');
  return [emulator, path.join(libraries, 'ld-linux-x86-64.so.2'), '--library-path', libraries, file(program)];
}

const known = new Map();
const queue = [];
let running = 0;

/** What a program prints is kept, since cases ask for the same books again. */
function printed(program, bytes) {
  const key = program + Buffer.from(bytes).toString('latin1');
  if (!known.has(key)) known.set(key, new Promise((...settle) => queue.push({ program, bytes, settle })));
  startNext();
  return known.get(key);
}

function startNext() {
  while (running < AT_ONCE && queue.length > 0) {
    const { program, bytes, settle } = queue.shift();
    running += 1;
    run(program, bytes).then(...settle).finally(() => {
      running -= 1;
      startNext();
    });
  }
}

function run(program, bytes) {
  const [first, ...rest] = command(program);
  return new Promise((resolve, reject) => {
    const started = spawn(first, rest, { stdio: ['pipe', 'pipe', 'inherit'] });
    const pieces = [];
    started.stdout.on('data', piece => pieces.push(piece));
    started.on('error', reject);
    started.on('close', () => resolve(Buffer.concat(pieces).toString()));
    // A program that has read enough closes its input.
    started.stdin.on('error', () => {});
    started.stdin.end(bytes);
  });
}

/**
 * A file of version 1 cannot tell the programs of withdrawn lines, but loops, paths, sketch and heights go by marks and
 * by the order of the lines that stand, not by their numbers. So what is printed of a book with withdrawn lines is that
 * of the book without them, with the old numbers put back. table: as in book-file.mjs; standing: true or false for each
 * line
 */
async function withOldNumbers(program, table, standing) {
  if (table.version === 2) return program(bytesOf(table));
  const numbers = table.lines.map((_, row) => row + 1).filter(line => standing[line - 1]);
  const text = await program(bytesOf({ ...table, lines: numbers.map(line => table.lines[line - 1]) }));
  const old = line => line.replace(/\d+/, number => numbers[Number(number) - 1]);
  return text.split('\n').map(line => {
    const [head, list] = line.split(':');
    if (line.startsWith('MARKS')) return line.replace(/LINES \d+/, `LINES ${table.lines.length}`);
    return list === undefined ? line : `${head}:${list.split(' ').map(old).join(' ')}`;
  }).join('\n');
}

export const reportWithdrawn = (table, standing) => withOldNumbers(report, table, standing);
export const sketchWithdrawn = (table, standing) => withOldNumbers(sketch, table, standing);

/** And the sheet of heights likewise; a withdrawn line's row says so. */
export async function heightsWithdrawn(table, standing) {
  if (table.version === 2) return heights(bytesOf(table));
  const numbers = table.lines.map((_, row) => row + 1).filter(line => standing[line - 1]);
  const text = await heights(bytesOf({ ...table, lines: numbers.map(line => table.lines[line - 1]) }));
  const [top, rows] = text.split(/(?<=LINE CORRECTION mm {3}RATE mm\/km\n)/);
  if (rows === undefined) return text;
  const rest = rows.trimEnd().split('\n').filter(Boolean).map(row => row.slice(4));
  const all = table.lines.map((_, row) => {
    const number = String(row + 1).padStart(4);
    return `${number}${standing[row] ? rest.shift() : '  withdrawn'}\n`;
  });
  return top.replace(/LINES \d+/, `LINES ${table.lines.length}`) + all.join('');
}
