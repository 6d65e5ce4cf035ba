// The loops in the picture: each a field with a badge in it. Over is hatched and says so in words.
import { draw } from './dom.js';
import { at, fixed } from './drawing-pen.js';
import { areaOf, centreOf, meet, outline, roomiest } from './geometry.js';
import { rowOf } from './results.js';
import { millimetres } from './text.js';

/** Most loops that get their badge in the roomiest place. */
const MANY_LOOPS = 90;
const KEPT_SPOTS = 3_000;
const spots = new Map();

/** The fields of the loops that can be drawn, large ones first, so that each shows. */
export function fieldsOf({ results, bows }) {
  if (!results.done) return [];
  const fields = results.loops.map((loop, i) => {
    const sides = loop.lines.map(line => {
      const { bow } = bows.get(rowOf(line));
      return line > 0 ? bow : [bow[2], bow[1], bow[0]];
    });
    const points = outline(sides);
    const isCrowded = loop.lines.some(line => bows.get(rowOf(line)).group);
    return { i, loop, sides, points, isCrowded, area: areaOf(points) };
  });
  return fields.sort((p, q) => q.area - p.area || p.i - q.i);
}

export const drawField = ({ chosen }) => ({ i, loop, sides }) => draw('path', {
  'class': `field ${loop.over ? 'over' : 'within'}${chosen.loop === i ? ' hot' : ''}`,
  'data-loop': i,
  'd': `M${at(sides[0][0])}${sides.map(([, pull, q]) => `Q${at(pull)} ${at(q)}`).join('')}Z`,
}, draw('title', {}, `Loop ${i + 1}: ${millimetres(loop.misclosure)} mm, ${loop.over ? 'OVER' : 'within'}`));

/** The place of a loop's badge. Found once for as long as nothing moves. */
function spotOf({ places, unit, fields }, field, taken) {
  const key = `${field.loop.lines.join()}|${unit}|${places.map(at).join()}`;
  if (!spots.has(key)) {
    if (spots.size >= KEPT_SPOTS) spots.clear();
    const isMany = fields.length > MANY_LOOPS;
    spots.set(key, isMany ? { place: centreOf(field.points), room: 0 } : roomiest(field.points, taken));
  }
  return spots.get(key);
}

function badgeWords({ i, loop, area }, room, unit) {
  const isRoomy = room > 36 * unit;
  if (loop.over) return `${i + 1}${isRoomy ? ' OVER' : ' ✗'}`;
  return `${i + 1}${isRoomy ? ' within' : Math.sqrt(area) > 62 * unit ? ' ✓' : ''}`;
}

function drawBadge({ comparison }, { i, loop }, words, [x, y, width, height]) {
  const kind = loop.over ? 'over' : 'within';
  const isChanged = comparison && comparison.loops[i].word !== 'stands';
  return [
    draw('rect', {
      'class': `badge ${kind}${isChanged ? ' changed' : ''}`, 'data-loop': i, 'x': fixed(x - width / 2), 'y': fixed(y - height / 2),
      'width': fixed(width), 'height': fixed(height), 'rx': fixed(height / 2),
    }),
    draw('text', { class: `badge-words ${kind}`, x: fixed(x), y: fixed(y) }, words),
  ];
}

/** A loop's number and verdict in its field, thick-framed if it is not as at the start; of very many loops where there is room. */
export function drawBadges(scene, taken) {
  const { unit, fields, chosen } = scene;
  return fields.slice().reverse().flatMap(field => {
    const isChosen = chosen.loop === field.i;
    const isSmall = Math.sqrt(field.area) < 22 * unit && !field.loop.over;
    if (!isChosen && (field.isCrowded || isSmall)) return [];
    const { place, room } = spotOf(scene, field, taken);
    const words = badgeWords(field, room, unit);
    const box = [...place, (words.length * 9.2 + 13) * unit, 23 * unit];
    if (!isChosen && fields.length > MANY_LOOPS && taken.some(other => meet(box, other))) return [];
    taken.push(box);
    return drawBadge(scene, field, words, box);
  });
}
