// What still stands: the loops of now beside those of a start. Answers of the core are compared for equality, no more.
import { millimetres, signedLine } from './text.js';

const same = (p, q) => p.length === q.length && p.every((each, i) => each === q[i]);
// The same lines in another order or sense.
const lineSet = loop => loop.lines.map(line => String(line).replace('-', '')).sort().join();

const stands = (was, is) =>
  same(was.lines, is.lines) && was.misclosure === is.misclosure && was.length === is.length && was.over === is.over;

/** How each loop stands beside those of the start, which it meets by its closing line. */
function standings(start, loops) {
  const byClosing = new Map(start.loops.map((loop, i) => [loop.closing, i]));
  const byLines = new Map(start.loops.map((loop, i) => [lineSet(loop), i]));
  return loops.map(loop => {
    const was = byClosing.get(loop.closing);
    if (was === undefined) return { word: 'new', like: byLines.get(lineSet(loop)) };
    return { word: stands(start.loops[was], loop) ? 'stands' : 'changed', was };
  });
}

/** All loops of now, those of the start that are gone, lines that lost their check, and how many heights moved. */
export function compared(start, now) {
  const loops = standings(start, now.loops);
  const met = new Set(loops.map(each => each.was));
  const heights = [start.adjusted, now.adjusted];
  return {
    loops,
    gone: start.loops.map((_, i) => i).filter(i => !met.has(i)),
    lost: now.notChecked.filter(line => !start.notChecked.includes(line)),
    moved: heights.some(each => each.number !== 0) ? null
      : now.adjusted.heights.filter((height, i) => height !== start.adjusted.heights[i]).length,
  };
}

/** How many stand, are changed, gone and new: [word, how many, in words], those that there are. */
export function tally({ loops, gone }) {
  const many = word => loops.filter(each => each.word === word).length;
  const words = [['stands', many('stands')], ['changed', many('changed')], ['gone', gone.length], ['new', many('new')]];
  return words.filter(([, number]) => number > 0)
    .map(([word, number]) => [word, `${number} ${word === 'stands' && number > 1 ? 'stand' : word}`]);
}

export const tallyText = (comparison, between) => tally(comparison).map(([, text]) => text).join(between) || 'no loops';

/** In what a changed loop was otherwise. */
export function changes(was, is) {
  const words = [];
  if (was.over !== is.over) words.push(was.over ? 'was OVER' : 'was within');
  if (was.misclosure !== is.misclosure) words.push(`misclosure was ${millimetres(was.misclosure)}`);
  if (!same(was.lines, is.lines)) words.push(`lines were ${was.lines.map(signedLine).join(' ')}`);
  else if (was.length !== is.length) words.push(`length was ${was.length}`);
  return words.join('; ');
}
