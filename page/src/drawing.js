// The picture of a network as an svg element, from places that are already on paper: fields of loops, lines, labels, badges, marks.
// Nothing in it is said by colour alone.
import { groups } from './book.js';
import { count } from './core.js';
import { draw } from './dom.js';
import { bowsOf, drawBundles, drawLabel, drawLine, lineLooks, placeLabels } from './drawing-lines.js';
import { drawBadges, drawField, fieldsOf } from './drawing-loops.js';
import { RADIUS, at, fixed } from './drawing-pen.js';
import { along, boxAround } from './geometry.js';
import { metres, plural } from './text.js';

/** The margin around the marks. */
export const MARGIN = 46;

function drawMark({ unit, chosen, results }, held, [x, y], mark) {
  const radius = RADIUS * unit;
  const isHeld = held.has(mark);
  const height = results.done && results.adjusted.number === 0 ? `, ${metres(results.adjusted.heights[mark])} m` : '';
  const [top, side] = [fixed(-1.55 * radius), fixed(1.45 * radius)];
  const sign = isHeld ? draw('path', { class: 'sign held', d: `M0 ${top}L${side} ${fixed(radius)}H-${side}Z` })
    : draw('circle', { class: 'sign', r: fixed(radius) });
  return draw('g', { 'class': `mark${chosen.mark === mark ? ' chosen' : ''}`, 'data-mark': mark, 'transform': `translate(${at([x, y])})` },
    draw('title', {}, `Mark ${mark + 1}${isHeld ? ', held' : ''}${height}`),
    sign, draw('text', { class: `mark-number${isHeld ? ' held' : ''}`, y: isHeld ? fixed(3 * unit) : 1 }, String(mark + 1)));
}

/** What the picture shows, in words. */
function summary({ results, places, lines }) {
  const counts = `Network of ${plural(places.length, 'mark')} and ${plural(lines.length, 'line')}`;
  if (!results.done) return `${counts}.`;
  const over = results.loops.filter(loop => loop.over).length;
  return `${counts}; ${plural(results.loops.length, 'loop')}, ${over} over; ${results.notChecked.length} not checked.`;
}

const hatch = () => draw('defs', {}, draw('pattern', {
  id: 'hatch', width: 9, height: 9, patternUnits: 'userSpaceOnUse', patternTransform: 'rotate(45)',
}, draw('rect', { width: 9, height: 9 }), draw('path', { d: 'M0 0V9' })));

const group = parts => draw('g', {}, parts);

/**
 * The picture of a scene: book and results, the comparison with the start; lines [{ row, from, to }] and the places of their marks,
 * both from 0; what is chosen, and the lines that it runs; what the labels say; and the unit, how large signs and words are.
 */
export function pictureOf(given) {
  const scene = { ...given, bows: bowsOf(given) };
  scene.fields = fieldsOf(scene);
  const look = lineLooks(scene);
  const bows = [...scene.bows.values()];
  const taken = scene.places.map(place => [...place, 2 * RADIUS * scene.unit, 2 * RADIUS * scene.unit]);
  const labels = placeLabels(scene, look, taken);
  const held = new Set(groups(scene.results.numbers.held, 2).map(([mark]) => count(mark) - 1));
  const linesThat = is => bows.filter(bow => look(bow.row).isOpen === is).flatMap(bow => drawLine(scene, bow, look(bow.row)));
  const labelsThat = is => labels.filter(label => label.isOpen === is).flatMap(label => drawLabel(scene, label));
  // What is not checked lies over all else.
  return framed(scene, bows, [
    hatch(),
    group(scene.fields.map(drawField(scene))),
    group(linesThat(false)),
    group([labelsThat(false), drawBundles(scene)]),
    group(drawBadges(scene, taken)),
    group(linesThat(true)),
    group(scene.places.map((place, mark) => drawMark(scene, held, place, mark))),
    group(labelsThat(true)),
  ]);
}

/** The picture with a margin around all of it. */
function framed(scene, bows, parts) {
  const [low, high] = boxAround([...scene.places, ...bows.map(({ bow }) => along(bow, 0.5))]);
  const frame = [low[0] - MARGIN, low[1] - MARGIN, high[0] - low[0] + 2 * MARGIN, high[1] - low[1] + 2 * MARGIN].map(fixed);
  const [, , width, height] = frame;
  const svg = draw('svg', { 'viewBox': frame.join(' '), width, height, 'role': 'img', 'aria-label': summary(scene) }, parts);
  svg.style.fontSize = `${fixed(16 * scene.unit)}px`;
  svg.style.setProperty('--unit', scene.unit.toFixed(2));
  return svg;
}
