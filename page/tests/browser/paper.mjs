// What is on paper: the text of each sheet of a PDF, its size, and whether it has colours (by the poppler tools).
import fs from 'node:fs';
import os from 'node:os';
import path from 'node:path';
import { findProgram, output } from './tools.mjs';

const TOOLS = ['pdftotext', 'pdfinfo', 'pdftoppm'];

export const paperToolsAreThere = () => TOOLS.every(name => findProgram([name]) !== null);

/** The text of each sheet, in the order of the page; so the words of a cell stay together. */
export function textOfPaper(pdf) {
  const text = output('pdftotext', ['-raw', '-enc', 'UTF-8', '-', '-'], pdf).toString();
  return text.split('\f').slice(0, -1);
}

/** Width and height of each sheet, in millimetres. */
export function sizesOfPaper(pdf) {
  return withFile(pdf, file => {
    const said = output('pdfinfo', ['-f', '1', '-l', '9999', file]).toString();
    return [...said.matchAll(/Page\s+\d+ size:\s+([\d.]+) x ([\d.]+) pts/g)]
      .map(([, width, height]) => [width, height].map(points => Math.round((Number(points) / 72) * 25.4)));
  });
}

/** The greatest difference between red, green and blue of any dot of the paper: 0 is black and white. */
export function colourOfPaper(pdf) {
  const dots = withFile(pdf, file => output('pdftoppm', ['-r', '50', file]));
  let most = 0;
  for (const { start, end } of pictures(dots)) {
    for (let at = start; at < end; at += 3) {
      const [red, green, blue] = [dots[at], dots[at + 1], dots[at + 2]];
      most = Math.max(most, Math.max(red, green, blue) - Math.min(red, green, blue));
    }
  }
  return most;
}

/** Where the dots of each picture begin and end, in PPM pictures one behind the other. */
function pictures(bytes) {
  const found = [];
  for (let at = 0; at < bytes.length;) {
    const head = /^P6\s+(\d+)\s+(\d+)\s+255\s/.exec(bytes.subarray(at, at + 40).toString('latin1'));
    const start = at + head[0].length;
    const end = start + 3 * Number(head[1]) * Number(head[2]);
    found.push({ start, end });
    at = end;
  }
  return found;
}

/** The sheets as PNG pictures, named after `base`. */
export function drawPaper(pdf, base) {
  withFile(pdf, file => output('pdftoppm', ['-r', '70', '-png', file, base]));
}

function withFile(bytes, task) {
  const folder = fs.mkdtempSync(path.join(os.tmpdir(), 'page-paper-'));
  const file = path.join(folder, 'paper.pdf');
  try {
    fs.writeFileSync(file, bytes);
    return task(file);
  } finally {
    fs.rmSync(folder, { recursive: true });
  }
}
