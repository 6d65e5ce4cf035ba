// The picture of the network: all of it is drawn, it stands still, it is always the same, and it can be used.
import { tableOf } from '../book-file.mjs';
import { book } from '../books.mjs';
import { holds, includes, same } from '../check.mjs';
import { lineCell } from '../desk.mjs';

const PHONE = { width: 390, height: 844, mobile: true };

export const cases = [
  { name: 'picture-stands-still-under-correction', run: standsStill },
  { name: 'picture-is-the-same-each-time', run: isTheSameEachTime },
  { name: 'mark-is-dragged', run: markIsDragged },
  { name: 'mark-is-dragged-on-a-phone', run: markIsDraggedOnAPhone, window: PHONE },
  { name: 'mark-is-moved-by-keys', run: markIsMovedByKeys },
  { name: 'dragged-marks-stay-under-corrections', run: draggedMarksStay },
  { name: 'pieces-parallel-lines-and-tails-are-drawn', run: allIsDrawn },
  { name: '256-marks-are-usable', run: manyMarksAreUsable },
  { name: 'labels-on-lines', run: labelsOnLines },
  { name: 'loop-chosen-by-key-shows-in-picture', run: loopChosenByKey },
  { name: 'loop-chosen-by-click-shows-in-picture', run: loopChosenByClick },
];

async function standsStill(desk) {
  for (const name of ['worked', 'town60']) {
    await desk.openBook(book(name), `${name}.book`);
    const before = await desk.places();
    await desk.rerun(6, '2.428');
    same(await desk.places(), before, `${name}: a re-run`);
    await desk.withdraw(3);
    same(await desk.places(), before, `${name}: a withdrawal`);
    await desk.write(lineCell(1, 'difference'), '6.4');
    same(await desk.places(), before, `${name}: an edit of a difference`);
    await desk.write('#tolerance', '5.0');
    same(await desk.places(), before, `${name}: an edit of the tolerance`);
    await desk.undo();
    await desk.undo();
    await desk.undo();
    same(await desk.places(), before, `${name}: Undo`);
  }
}

async function isTheSameEachTime(desk) {
  const seen = {};
  const names = ['worked', 'town40', 'grid6', 'two_pieces', 'random256'];
  for (const window of [desk, await desk.another()]) {
    await window.openBook(book('ring12'), 'ring.book');
    await window.places();
    for (const name of names) {
      await window.openBook(book(name), `${name}.book`);
      const places = await window.places();
      seen[name] ??= places;
      same(places, seen[name], name);
    }
    same(window.page.errors, [], 'page errors');
  }
}

/** The middle of a mark on the screen, once the picture is in sight. */
const middleOf = (desk, mark) => desk.evaluate(number => {
  document.querySelector('#svgbox').scrollIntoView({ block: 'center' });
  const shape = document.querySelector(`#svgbox g.mark[data-mark="${number}"] :is(circle, path)`);
  const box = shape.getBoundingClientRect();
  return [box.x + box.width / 2, box.y + box.height / 2];
}, mark - 1);

const isNear = (got, wanted, most = 3) => Math.hypot(got[0] - wanted[0], got[1] - wanted[1]) <= most;

async function dragTo(desk, mark, by, drag) {
  await desk.picture();
  const from = await middleOf(desk, mark);
  const to = [from[0] + by[0], from[1] + by[1]];
  await drag(from, to);
  return { from, to, now: await middleOf(desk, mark) };
}

async function markIsDragged(desk) {
  const others = await middleOf(desk, 3);
  const { to, now } = await dragTo(desk, 4, [40, 20], (...ends) => desk.page.drag(...ends));
  holds(isNear(now, to), `mark 4 is where it was dropped: ${now}, wanted ${to}`);
  holds(isNear(await middleOf(desk, 3), others, 1), 'other marks stay');
  const { lines, marks } = await desk.picture();
  holds(endsMeetMarks(lines, marks, tableOf(book('worked'))), 'its lines follow');
  await desk.press('#tidy');
  const tidied = await desk.places();
  await desk.press('#tidy');
  same(await desk.places(), tidied, 'Tidy places all anew, always the same');
  same(await desk.isUnsaved(), false, 'the book is not changed by it');
}

async function markIsDraggedOnAPhone(desk) {
  const scrolled = () => desk.evaluate(() => scrollY);
  await middleOf(desk, 4);
  const before = await scrolled();
  const { to, now } = await dragTo(desk, 4, [30, -40], (...ends) => desk.page.dragByTouch(...ends));
  holds(isNear(now, to, 5), `mark 4 is where it was dropped: ${now}, wanted ${to}`);
  same(await scrolled(), before, 'the page does not scroll meanwhile');
}

async function markIsMovedByKeys(desk) {
  await desk.picture();
  await desk.focus('#svgbox');
  const readOut = async () => Number(/^Mark (\d+)$/.exec(await desk.text('#live'))?.[1]);
  const told = [];
  // Mark 4 is in the middle of the network: nothing else moves to make room for it.
  for (let tries = 0; tries < 6 && told.at(-1) !== 4; tries += 1) {
    await desk.page.press('ArrowRight');
    told.push(await readOut());
  }
  same(told, [1, 2, 3, 4], 'arrows choose a mark, and it is read out');
  const before = await middleOf(desk, 4);
  for (let step = 0; step < 3; step += 1) await desk.page.press('ArrowDown', { shift: true });
  const after = await middleOf(desk, 4);
  holds(after[1] > before[1] + 5 && Math.abs(after[0] - before[0]) < 2, `mark 4 moved down: ${before} to ${after}`);
  await desk.page.press('ArrowLeft');
  same(await readOut(), 3, 'arrows alone choose another');
}

async function draggedMarksStay(desk) {
  await desk.openBook(book('town25'), 'town.book');
  const { now } = await dragTo(desk, 7, [35, 25], (...ends) => desk.page.drag(...ends));
  const places = await desk.places();
  await desk.rerun(3, '0.5');
  same(await desk.places(), places, 'after a re-run');
  await desk.withdraw(5);
  same(await desk.places(), places, 'after a withdrawal');
  await desk.write(lineCell(2, 'difference'), '1.5');
  same(await desk.places(), places, 'after an edit');
  holds(isNear(await middleOf(desk, 7), now), 'on the screen too');
  const mark = Number(await desk.value('#marks'));
  await desk.write('#marks', String(mark + 1));
  await desk.writeLine((await desk.shownTable()).table.lines.length + 1, [1, mark + 1, '0.5', 500]);
  const { marks } = await desk.picture();
  same(marks.length, mark + 1, 'a new mark is drawn');
}

const is = kind => line => line.kinds.includes(kind);
const isNot = kind => line => !line.kinds.includes(kind);

/** Every stroke goes from the one mark of its line to the other. */
function endsMeetMarks(lines, marks, table) {
  const placeOf = mark => marks.find(each => each.mark === mark - 1).place;
  return lines.every(({ line, ends: [one, other] }) => {
    const [from, to] = table.lines[line].slice(0, 2).map(placeOf);
    const meet = (p, q) => isNear(p, from, 2) && isNear(q, to, 2);
    return meet(one, other) || meet(other, one);
  });
}

const DRAWN = [
  'two_pieces', 'parallel_lines', 'free_tails', 'past_the_last_junction', 'chain20', 'star15', 'town60', 'grid6',
];

async function allIsDrawn(desk) {
  for (const name of DRAWN) {
    await desk.openBook(book(name), `${name}.book`);
    const picture = await desk.picture();
    const table = tableOf(book(name));
    holdMarks(picture, table, name);
    holdLines(picture, table, name);
    const notChecked = /NOT CHECKED \d+:(.*)/.exec(await desk.report())[1].trim().split(' ').filter(Boolean);
    same(picture.lines.filter(is('unchecked-over')).length, notChecked.length, `${name}: dashes`);
    const isLabelled = line => picture.labels.some(label => label.startsWith(`${line} `));
    same(notChecked.filter(line => !isLabelled(line)), [], `${name}: lines not checked without a label`);
  }
}

/** All marks with their numbers, held ones as such, apart from each other and inside the frame. */
function holdMarks({ marks, frame }, table, name) {
  const numbers = Array.from({ length: table.marks }, (_, mark) => String(mark + 1));
  same(marks.map(each => each.text), numbers, `${name}: marks`);
  const held = marks.filter(each => each.isHeld).map(each => each.mark + 1);
  same(held, table.held.map(([mark]) => mark), `${name}: held marks`);
  const [left, top, width, height] = frame;
  const isInside = ([x, y]) => x >= left && y >= top && x <= left + width && y <= top + height;
  holds(marks.every(each => isInside(each.place)), `${name}: all marks are inside the frame`);
  marks.forEach((one, row) => marks.slice(row + 1).forEach(other => {
    holds(!isNear(one.place, other.place, 16), `${name}: marks ${one.text} and ${other.text} lie on each other`);
  }));
}

/** All lines, each by itself, from mark to mark. */
function holdLines({ marks, lines }, table, name) {
  const drawn = lines.filter(isNot('unchecked-over')).map(line => line.line).sort((p, q) => p - q);
  same(drawn, table.lines.map((_, row) => row), `${name}: lines`);
  holds(endsMeetMarks(lines, marks, table), `${name}: lines end at their marks`);
  const shapes = lines.filter(isNot('unchecked-under')).map(line => line.shape);
  same(new Set(shapes).size, shapes.length, `${name}: no line lies on another`);
}

const ZOOMS = 4;

async function manyMarksAreUsable(desk) {
  for (const name of ['random256', 'city256']) {
    await desk.openBook(book(name), `${name}.book`);
    const { marks, lines } = await desk.picture();
    const drawn = new Set(lines.map(each => each.line));
    same([marks.length, drawn.size], [256, tableOf(book(name)).lines.length], `${name}: marks and lines`);
  }
  let last = await closest(desk);
  for (let step = 0; step < ZOOMS; step += 1) {
    await desk.press('#larger');
    const now = await closest(desk);
    holds(now.least > last.least, `+ takes marks apart: ${last.least} to ${now.least}`);
    same(now.missing, 0, 'lines not checked that are not seen');
    last = now;
  }
  holds(last.isScrolled, 'the picture scrolls in its box');
  holds(last.radius >= 6 && last.letters >= 7, `marks stay readable: radius ${last.radius}, letters ${last.letters}`);
  const scrolls = await desk.evaluate(() => document.documentElement.scrollWidth > innerWidth);
  same(scrolls, false, 'the page scrolls sideways');
  for (let step = 0; step < ZOOMS; step += 1) await desk.press('#smaller');
  holds((await closest(desk)).least < last.least, '− brings them together');
}

async function closest(desk) {
  await desk.picture();
  return desk.evaluate(onTheScreen);
}

/** Inside the page: the least way between two marks, their size, and lines not checked that cannot be made out. */
function onTheScreen() {
  const all = selector => [...document.querySelectorAll(`#svgbox ${selector}`)];
  const boxes = all('g.mark :is(circle, path)').map(shape => shape.getBoundingClientRect());
  const places = boxes.map(box => [box.x + box.width / 2, box.y + box.height / 2]);
  const wayBetween = ([x, y], other) => Math.hypot(x - other[0], y - other[1]);
  const ways = places.flatMap((one, row) => places.slice(row + 1).map(other => wayBetween(one, other)));
  const labels = all('text.label').map(label => label.textContent);
  const isMissing = line => {
    const isThin = parseFloat(getComputedStyle(line).strokeWidth) < 3;
    return isThin || !labels.some(label => label.startsWith(`${Number(line.dataset.line) + 1} `));
  };
  const box = document.querySelector('#svgbox');
  return {
    least: ways.reduce((least, way) => Math.min(least, way)),
    missing: all('path.unchecked-under').filter(isMissing).length,
    isScrolled: box.scrollWidth > box.clientWidth && box.scrollHeight > box.clientHeight,
    radius: Math.min(...boxes.map(each => each.width)) / 2,
    letters: parseFloat(getComputedStyle(all('g.mark text')[0]).fontSize),
  };
}

async function labelsOnLines(desk) {
  const choose = async value => {
    await desk.evaluate(what => {
      const select = document.querySelector('#labels');
      select.value = [...select.options].find(option => option.textContent.includes(what)).value;
      select.dispatchEvent(new Event('change', { bubbles: true }));
    }, value);
    return (await desk.picture()).labels;
  };
  same((await choose('numbers')).map(Number).sort(), [1, 2, 3, 4, 5, 6, 7], 'numbers');
  const differences = await choose('differences');
  holds(differences.every(label => /^[−-]?\d+\.\d{3,6}( m)?$/.test(label)), `differences: ${differences}`);
  includes(differences.join(' '), '6.345', 'differences');
  includes((await choose('lengths')).join(' '), '1600', 'lengths');
  await choose('numbers');
  await desk.openBook(book('parallel512'), 'parallel.book');
  const { labels, lines } = await desk.picture();
  same(lines.length, 512, 'parallel lines are drawn each by itself');
  same(labels, ['512 lines'], 'over ten of them carry one label');
}

const hotLines = async desk => {
  const { lines } = await desk.picture();
  return [...new Set(lines.filter(is('hot')).map(line => line.line + 1))].sort();
};

async function loopChosenByKey(desk) {
  await desk.focus('#loops-box tr[tabindex="0"]');
  await desk.page.press('Enter');
  same(await hotLines(desk), [1, 5, 6], 'loop 1');
  await desk.keys('ArrowDown', 'ArrowDown');
  same(await hotLines(desk), [2, 3, 6, 7], 'loop 3');
  same(await desk.evaluate(() => document.activeElement.dataset.loop), '2', 'the focus goes along');
  await desk.page.press('ArrowUp');
  same(await hotLines(desk), [4, 5, 7], 'loop 2');
  await desk.page.press('Enter');
  same(await hotLines(desk), [], 'none');
  same(await desk.evaluate(() => document.activeElement.dataset.loop), '1', 'and the focus stays');
  await desk.keys('Enter', 'ArrowDown');
  await desk.withdraw(3);
  same(await desk.count('#loops-box tr.gone:is(.chosen, [tabindex])'), 0, 'a loop that is gone is not chosen');
}

async function loopChosenByClick(desk) {
  await desk.click('#loops-box tr[data-loop="1"] td.verdict');
  same(await hotLines(desk), [4, 5, 7], 'by its row');
  await desk.evaluate(() => document.querySelector('#svgbox rect.badge[data-loop="2"]')
    .dispatchEvent(new MouseEvent('click', { bubbles: true })));
  same(await hotLines(desk), [2, 3, 6, 7], 'by its badge');
  await desk.focus(lineCell(1, 'difference'));
  holds((await hotLines(desk)).includes(1), 'a cell chooses its line');
}
