// The lines in the picture, with arrows and labels. A line that is not checked is loudest, and its label is never left out.
import { cellOf, groups } from './book.js';
import { shownText } from './cells.js';
import { LINE, count } from './core.js';
import { draw } from './dom.js';
import { RADIUS, at, fixed } from './drawing-pen.js';
import { along, bowBetween, centreOf, distance, meet } from './geometry.js';
import { rowOf, wrongCells } from './results.js';

/** Most lines between two marks that get a label each. */
const MANY_BESIDE = 10;
/** Most lines not checked that are named in words. */
const MANY_OPEN = 12;

const curve = ([p, pull, q]) => `M${at(p)}Q${at(pull)} ${at(q)}`;

/**
 * What can be drawn: how many marks, and the lines whose ends are among them and not the same. Of a book without results only
 * marks that its lines name are, so that a slip in the number of marks changes nothing.
 */
export function drawable({ done, numbers }, most) {
  const marks = Math.max(0, Math.min(count(numbers.marks), most));
  const lines = groups(numbers.lines, LINE).map((line, row) => {
    const [from, to, , length] = Array.from(line, count);
    return { row, from: from - 1, to: to - 1, length: Math.max(10, Math.min(100_000, length)) };
  }).filter(({ from, to }) => from >= 0 && to >= 0 && from < marks && to < marks && from !== to);
  return { marks: done ? marks : lines.reduce((named, { from, to }) => Math.max(named, from + 1, to + 1), 0), lines };
}

/** The bows of all lines, by their rows: lines between the same two marks lie beside each other. */
export function bowsOf({ lines, places, unit }) {
  const beside = new Map();
  for (const line of lines) {
    const key = [Math.min(line.from, line.to), Math.max(line.from, line.to)].join();
    beside.set(key, [...(beside.get(key) || []), line]);
  }
  const bows = new Map();
  for (const [key, group] of beside) {
    const [p, q] = key.split(',').map(mark => places[mark]);
    const gap = Math.min(46 * unit, Math.max(distance(p, q) * 1.3, 150) / group.length);
    group.forEach(({ row, from }, i) => {
      const bow = bowBetween(p, q, (i - (group.length - 1) / 2) * gap);
      const forward = places[from] === p ? bow : [bow[2], bow[1], bow[0]];
      bows.set(row, { row, bow: forward, length: distance(p, q), group: group.length > MANY_BESIDE ? group : null });
    });
  }
  return bows;
}

/** What is known of each line: whether it is withdrawn, not checked, wrong or chosen, and in which sense a chosen run has it. */
export function lineLooks({ book, results, chosen, run }) {
  const open = new Set(results.done ? results.notChecked : []);
  const wrong = new Set(wrongCells(results).filter(cell => cell.table === 'lines').map(cell => cell.row));
  const sense = new Map(run.map(line => [rowOf(line), line]));
  return row => ({
    isWithdrawn: !book.lines[row].standing,
    isOpen: open.has(row + 1),
    isWrong: wrong.has(row),
    isHot: sense.has(row) || chosen.line === row,
    isBack: sense.get(row) < 0,
    many: open.size,
  });
}

function drawBow({ row, bow }, { isWithdrawn, isOpen, isWrong, isHot }) {
  const line = kind => draw('path', { 'class': `line${kind}`, 'data-line': row, 'd': curve(bow) });
  if (isOpen) return [line(' unchecked-under'), line(' unchecked-over'), isHot && line(' hot')].filter(Boolean);
  return [line((isWithdrawn ? ' withdrawn' : isWrong ? ' wrong' : '') + (isHot ? ' hot' : ''))];
}

/** The sense of levelling; in what is chosen, the sense in which it is run. */
function drawArrow({ unit }, { bow, length, group }, { isWithdrawn, isOpen, isHot, isBack }) {
  if (length < 3.2 * RADIUS * unit || group) return [];
  const u = isBack ? 0.28 : 0.72;
  const [tail, head] = [along(bow, u), along(bow, isBack ? u - 0.02 : u + 0.02)];
  const turn = Math.atan2(head[1] - tail[1], head[0] - tail[0]) * 180 / Math.PI;
  return [draw('path', {
    class: `arrow${isHot ? ' hot' : isWithdrawn ? ' withdrawn' : isOpen ? ' unchecked' : ''}`,
    d: 'M9 0L-6 -6L-6 6Z',
    transform: `translate(${at(tail)}) rotate(${fixed(turn)}) scale(${unit.toFixed(2)})`,
  })];
}

/** A line with its arrow. */
export const drawLine = (scene, bow, look) => [...drawBow(bow, look), ...drawArrow(scene, bow, look)];

/** The words of a line's label. */
function labelWords({ book, labels, unit }, { row, length }, { isOpen, isWithdrawn, many }) {
  const words = {
    numbers: () => String(row + 1),
    differences: () => shownText(book, cellOf('lines', row, 'difference')),
    lengths: () => `${book.lines[row].length} m`,
  }[labels]();
  const fits = (more, width) => length > 2.4 * RADIUS * unit + (words.length + more.length) * width * unit;
  if (isOpen) return many <= MANY_OPEN && fits(' NOT CHECKED', 9.7) ? `${words} NOT CHECKED` : `${words} !`;
  return isWithdrawn && fits(' withdrawn', 8.4) ? `${words} withdrawn` : words;
}

export function drawLabel({ unit }, { words, place: [x, y], kind, row }) {
  const [width, height] = labelSize(unit, words, kind);
  return [
    draw('rect', {
      'class': `label-box${kind}`, 'data-line': row, 'x': fixed(x - width / 2), 'y': fixed(y - height / 2),
      'width': fixed(width), 'height': fixed(height), 'rx': fixed(4 * unit),
    }),
    draw('text', { class: `label${kind}`, x: fixed(x), y: fixed(y) }, words),
  ];
}

const labelSize = (unit, words, kind) => [(words.length * (kind === ' unchecked' ? 9.7 : 8.4) + 9) * unit, 20 * unit];

/**
 * Where the labels are, each a box with its words. Those of lines not checked, chosen or wrong come first and are never left out,
 * others only where there is room. What they take is added to the boxes that are taken.
 */
export function placeLabels(scene, look, taken) {
  const all = [...scene.bows.values()];
  const isLoud = ({ row }) => look(row).isOpen || look(row).isHot || look(row).isWrong;
  const found = [];
  for (const bow of [...all.filter(isLoud), ...all.filter(each => !isLoud(each) && !each.group)]) {
    const { isOpen, isWithdrawn } = look(bow.row);
    const kind = isOpen ? ' unchecked' : isWithdrawn ? ' withdrawn' : '';
    const words = labelWords(scene, bow, look(bow.row));
    const boxes = [0.5, 0.42, 0.58].map(u => [...along(bow.bow, u), ...labelSize(scene.unit, words, kind)]);
    const box = boxes.find(each => !taken.some(other => meet(each, other))) || (isLoud(bow) ? boxes[0] : null);
    if (!box) continue;
    taken.push(box);
    found.push({ row: bow.row, words, kind, isOpen, place: [box[0], box[1]] });
  }
  return found;
}

/** One label for very many lines between two marks. */
export function drawBundles(scene) {
  const groups = new Set([...scene.bows.values()].map(bow => bow.group).filter(Boolean));
  return [...groups].flatMap(group => {
    const ends = [group[0], group[group.length - 1]].map(line => along(scene.bows.get(line.row).bow, 0.5));
    return drawLabel(scene, { words: `${group.length} lines`, place: centreOf(ends), kind: '', row: group[0].row });
  });
}
