// Rows copied from a spreadsheet, in the forms in which they come.
import { book } from '../books.mjs';
import { holds, includes, same } from '../check.mjs';
import { heldCell, lineCell } from '../desk.mjs';

export const cases = [
  { name: 'paste-forms', run: pasteForms },
  { name: 'paste-fills-to-the-right-and-down', run: pasteFills },
  { name: 'paste-leaves-withdrawn-lines', run: pasteLeavesWithdrawn },
  { name: '256-marks-512-lines-pasted', run: largestBookPasted },
];

const FORMS = {
  'tabs, with a heading': 'From\tTo\tDiff\tLength\n1\t2\t1.5\t100\n2\t1\t-1.5\t100',
  'tabs, with line numbers': '1\t1\t2\t1.5\t100\n2\t2\t1\t-1.5\t100\n',
  'semicolons and decimal commas': '1;2;1,5;100\r\n2;1;-1,5;100',
  'spaces': '1 2 1.5 100\n2 1 -1.5 100',
  'columns of spaces, with the other minus': ' 1   2  1.500000  100 \n 2 1 −1.5 100',
  'old line ends': '1\t2\t1.5\t100\r2\t1\t-1.5\t100\r',
  'empty rows at the end': '1\t2\t1.5\t100\n2\t1\t-1.5\t100\n\n\n',
};

async function pasteForms(desk) {
  for (const [form, text] of Object.entries(FORMS)) {
    await desk.newBook();
    await desk.paste(lineCell(1, 'from'), text);
    const wanted = ['MARKS 2 LINES 2 PIECES 1 LOOPS 1', 'LOOP 1 LENGTH 200 MISCLOSURE 0 WITHIN: 2 1'];
    same((await desk.report()).split('\n').slice(1, 3), wanted, form);
    includes(await desk.notice(), '2 rows pasted', form);
    await desk.undo();
    same((await desk.shownTable()).table.lines, [], `${form}, undone`);
  }
  await desk.newBook();
  await desk.paste(lineCell(1, 'from'), 'Dear Sir,\nthe loop\tis\tbad\t!\n<b>x</b>;y');
  includes(await desk.trouble(), 'Cannot be read', 'a letter');
  same(await desk.count('#lines b'), 0, 'markup stays text');
  same(await desk.value(lineCell(1, 'from')), 'the loop', 'cells keep what cannot be read');
}

async function pasteFills(desk) {
  await desk.paste(lineCell(2, 'difference'), '4.2\t2600\n3.1\t1100');
  const { table } = await desk.shownTable();
  same(table.lines.slice(0, 4), [
    [1, 3, 6_345_000, 1600], [2, 3, 4_200_000, 2600], [5, 2, 3_100_000, 1100], [5, 1, 920_000, 4000],
  ], 'from the cell to the right and down');
  await desk.paste(lineCell(4, 'length'), '4100\tremark\t7');
  same((await desk.shownTable()).table.lines[3], [5, 1, 920_000, 4100], 'cells beyond the last column');
  includes(await desk.notice(), 'left out', 'are left out, and the message says so');
  await desk.paste(heldCell(2, 'mark'), '2\t102.1\n3\t106.3');
  same((await desk.shownTable()).table.held, [[1, 100_000_000], [2, 102_100_000], [3, 106_300_000]], 'held marks');
  // One number is the field's own to paste: the page does not step in.
  const isLeft = await desk.evaluate(selector => {
    const clipboardData = new DataTransfer();
    clipboardData.setData('text/plain', '1.25');
    const event = new ClipboardEvent('paste', { clipboardData, bubbles: true, cancelable: true });
    document.querySelector(selector).dispatchEvent(event);
    return !event.defaultPrevented;
  }, lineCell(1, 'difference'));
  holds(isLeft, 'a single number is left to the field');
}

async function pasteLeavesWithdrawn(desk) {
  await desk.withdraw(2);
  await desk.paste(lineCell(1, 'difference'), '6.3\n4.2\n3.1');
  const { table } = await desk.shownTable();
  same(table.lines.slice(0, 3).map(line => line[2]), [6_300_000, 4_235_000, 3_100_000], 'differences');
  includes(await desk.notice(), '2 rows pasted; 1 left out', 'the message');
}

async function largestBookPasted(desk) {
  await desk.newBook();
  const rows = [];
  for (let mark = 1; mark <= 256; mark += 1) {
    rows.push(`${mark}\t${(mark % 256) + 1}\t0.5\t700`, `${mark}\t${((mark + 1) % 256) + 1}\t1.0\t900`);
  }
  await desk.paste(lineCell(1, 'from'), [...rows, '1\t2\t0\t10', '1\t3\t0\t10', ''].join('\r\n'));
  includes(await desk.notice(), '512 rows pasted; 2 left out', 'the message');
  same(await desk.count('#lines tr[data-row]'), 512, 'rows');
  includes(await desk.report(), 'MARKS 256 LINES 512 PIECES 1 LOOPS 257', 'the text');
  const { marks, lines } = await desk.picture();
  same([marks.length, lines.length], [256, 512], 'the picture');
  await desk.undo();
  await desk.undo();
  same(await desk.report(), await freshReport(desk), 'undone');
}

/** The worked network's text, as the page gives it when the book is opened anew. */
async function freshReport(desk) {
  await desk.openBook(book('worked'), 'worked.book');
  return desk.report();
}
