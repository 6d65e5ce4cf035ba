// The panel of the picture: where marks stand, how large it is, dragging, and when it is drawn. Numbers come first: the picture
// of a large book waits until nothing has changed for a while.
import { goTo } from './cells.js';
import { cellOf } from './book.js';
import { NOTHING, choose, chosen, onChoice, toggle } from './choice.js';
import { present, sinceStart } from './desk.js';
import { byId, draw, fill, make, refill } from './dom.js';
import { MARGIN, pictureOf } from './drawing.js';
import { drawable } from './drawing-lines.js';
import { boxAround } from './geometry.js';
import { entriesOf, sketchOf } from './junctions.js';
import { placeMarks } from './layout.js';
import { marksOf } from './results.js';

const MOST_MARKS = 256;
const PAPER = { width: 680, height: 430 };
/** Up to so many marks the picture is drawn at once; with more lines than this it waits. */
const SMALL = 20;
const LARGE = 150;
const SOON = 30;
const LATER = 300;
const STEP = 12;
/** How far places are stretched, at most and at least. */
const LARGEST = 1.5;
const SMALLEST = 0.05;

const newView = () => ({ shape: '', places: null, pinned: new Set(), zoom: 1, fit: null, fitted: '' });
/** By their documents, so that a book which comes back by Undo looks as it did. */
const views = new Map();
let view = newView();
let labels = 'numbers';
let dragged = -1;
let timer = 0;

function viewOf({ document: book }) {
  if (!views.has(book)) views.set(book, newView());
  return views.get(book);
}

/** Places the marks: anew for another book, else moving as little as can be, and not at all under corrections. */
function place({ results }, { marks, lines }) {
  const shape = JSON.stringify([marks, lines]);
  if (view.shape === shape) return;
  const open = new Set(results.done ? results.notChecked : []);
  view.places = placeMarks({
    marks,
    lines: lines.map(({ row, from, to, length }) => ({ from, to, length, unchecked: open.has(row + 1) })),
    before: view.places && view.places.slice(0, marks),
    pinned: view.pinned,
    loops: results.done ? results.loops.map(loop => marksOf(results.numbers, loop.lines).slice(1).map(mark => mark - 1)) : [],
  });
  view.shape = shape;
}

/**
 * How places become points of the picture: stretched to the panel, and further by zoom. It stays as it is while marks are dragged, so
 * that a mark is where it was dropped.
 */
function fitTo({ width, height }) {
  const wanted = [view.shape, view.zoom, width, height].join();
  if (view.fitted === wanted) return;
  view.fitted = wanted;
  const [low, high] = boxAround(view.places);
  const scale = Math.min((width - 2 * MARGIN) / (high[0] - low[0] || 1), (height - 2 * MARGIN) / (high[1] - low[1] || 1), LARGEST);
  view.fit = { low, scale: Math.max(scale, SMALLEST) * view.zoom };
}

const toPoint = ([x, y]) => {
  const { low, scale } = view.fit;
  return [(x - low[0]) * scale + MARGIN, (y - low[1]) * scale + MARGIN];
};
const toPlace = ([x, y]) => {
  const { low, scale } = view.fit;
  return [(x - MARGIN) / scale + low[0], (y - MARGIN) / scale + low[1]];
};

const panel = () => ({
  width: (byId('svgbox').clientWidth || 700) - 4,
  height: Math.max(380, Math.min(620, innerHeight * 0.58)),
});

/** The lines of the loop or of the entry of the sketch that is chosen, as it runs them. */
function chosenRun({ results }, { loop, entry }) {
  if (!results.done) return [];
  const run = entry < 0 ? results.loops[loop] : entriesOf(sketchOf(results))[entry];
  return run ? run.lines : [];
}

function drawInto(size, seen) {
  clearTimeout(timer);
  timer = 0;
  const step = present();
  const { book, results } = step;
  const { marks, lines } = drawable(results, MOST_MARKS);
  view = viewOf(step);
  place(step, { marks, lines });
  if (marks === 0) return fill(byId('svgbox'));
  fitTo(size);
  // Marks and labels keep a readable size, however far apart they stand.
  const unit = Math.max(0.5, Math.min(1.1, view.fit.scale ** 0.55));
  const places = view.places.map(toPoint);
  const run = chosenRun(step, seen);
  fill(byId('svgbox'), pictureOf({ book, results, comparison: sinceStart(), lines, places, chosen: seen, run, labels, unit }));
}

export const drawPicture = () => drawInto(panel(), chosen);

/** At the width of a sheet. What is chosen is not seen there: it would lie over the dashes of a line that is not checked. */
export const drawForPaper = () => drawInto(PAPER, NOTHING);

function drawSoon() {
  const { marks, lines } = drawable(present().results, MOST_MARKS);
  if (marks <= SMALL && lines.length <= LARGE) return drawPicture();
  clearTimeout(timer);
  timer = setTimeout(drawPicture, lines.length > LARGE && view === viewOf(present()) ? LATER : SOON);
}

const sample = (width, ...parts) => draw('svg', { 'width': width, 'height': 16, 'aria-hidden': 'true' }, parts);
const LOOP_SAMPLES = [
  ['loop within', () => sample(26, draw('rect', { class: 'field within', width: 26, height: 16 }))],
  ['loop OVER', () => sample(26, draw('rect', { class: 'field over', width: 26, height: 16 }))],
  ['line NOT CHECKED', () => sample(34, ...['under', 'over'].map(kind => draw('path', { class: `line unchecked-${kind}`, d: 'M2 8H32' })))],
];
const SAMPLES = [
  ['withdrawn', () => sample(30, draw('path', { class: 'line withdrawn', d: 'M2 8H28' }))],
  ['held mark', () => sample(20, draw('path', { class: 'sign held', d: 'M10 1L18 15H2Z' }))],
  ['sense of levelling', () => sample(18, draw('path', { class: 'arrow', d: 'M16 8L2 2V14Z' }))],
];
const changedSample = () => sample(30, draw('rect', { class: 'badge within changed', x: 2, y: 2, width: 26, height: 12, rx: 6 }));

function showLegend({ results }) {
  const entry = ([words, made]) => make('span', {}, made(), words);
  const isCompared = sinceStart() !== null;
  refill(byId('legend'), [results.done, isCompared], () => [
    results.done && LOOP_SAMPLES.map(entry), SAMPLES.map(entry), isCompared && entry(['not as at the start', changedSample]),
    make('span', {}, 'Not to scale: a book has no coordinates.'), make('span', { class: 'screen-only' }, 'Marks can be dragged.'),
  ]);
}

export function showNetwork(step) {
  drawSoon();
  showLegend(step);
}

/** Where a pointer is in the picture, as a place. */
function pointed(event) {
  const matrix = byId('svgbox').querySelector('svg').getScreenCTM();
  const { x, y } = new DOMPoint(event.clientX, event.clientY).matrixTransform(matrix.inverse());
  return toPlace([x, y]);
}

function movePlace(mark, to) {
  view.places = view.places.map((each, i) => (i === mark ? to : each));
  view.pinned.add(mark);
  drawPicture();
}

function wireDragging(box) {
  // A finger on a mark moves the mark and not the page.
  box.addEventListener('touchstart', event => {
    if (event.target.closest('.mark')) event.preventDefault();
  }, { passive: false });
  box.addEventListener('pointerdown', event => {
    const mark = event.target.closest('.mark');
    if (!mark) return;
    event.preventDefault();
    dragged = Number(mark.dataset.mark);
    box.setPointerCapture(event.pointerId);
  });
  box.addEventListener('pointermove', event => {
    if (dragged >= 0) movePlace(dragged, pointed(event));
  });
  for (const end of ['pointerup', 'pointercancel']) {
    box.addEventListener(end, () => {
      if (dragged < 0) return;
      dragged = -1;
      drawPicture();
    });
  }
}

const ARROWS = { ArrowLeft: [-1, 0], ArrowRight: [1, 0], ArrowUp: [0, -1], ArrowDown: [0, 1] };

/** Arrows choose a mark, with Shift they move it. */
function onKey(event) {
  const arrow = ARROWS[event.key];
  const many = view.places.length;
  if (!arrow || many === 0) return;
  event.preventDefault();
  const [x, y] = arrow;
  if (event.shiftKey && chosen.mark >= 0) {
    const [px, py] = view.places[chosen.mark];
    movePlace(chosen.mark, [px + STEP * x, py + STEP * y]);
  } else {
    choose({ mark: (chosen.mark + x + y + many) % many });
  }
  byId('live').textContent = `Mark ${chosen.mark + 1}`;
}

/** A click on a label goes to its line, one on a field or badge chooses its loop. */
function onClick({ target }) {
  const { line, loop } = target.dataset;
  if (line !== undefined) goTo(cellOf('lines', Number(line), 'difference'));
  else if (loop !== undefined) toggle('loop', Number(loop));
}

function zoom(by) {
  view.zoom = Math.min(6, Math.max(0.5, view.zoom * by));
  drawPicture();
}

export function wireNetwork() {
  const box = byId('svgbox');
  wireDragging(box);
  box.addEventListener('keydown', onKey);
  box.addEventListener('click', onClick);
  byId('labels').addEventListener('change', () => {
    labels = byId('labels').value;
    drawPicture();
  });
  byId('larger').addEventListener('click', () => zoom(1.3));
  byId('smaller').addEventListener('click', () => zoom(1 / 1.3));
  byId('tidy').addEventListener('click', () => {
    views.delete(present().document);
    drawPicture();
  });
  addEventListener('resize', drawSoon);
  onChoice(drawSoon);
}
