// What a mark can meet when it moves a little. Its charge is worked out many times over, and to look around once saves
// most of that.

/** Marks and lines further off than this are not too near. */
export const SIGHT = 0.6;

const emptyBox = () => ({ left: Infinity, right: -Infinity, top: Infinity, bottom: -Infinity });

function widenBox(box, px, py, by) {
  if (px - by < box.left) box.left = px - by;
  if (px + by > box.right) box.right = px + by;
  if (py - by < box.top) box.top = py - by;
  if (py + by > box.bottom) box.bottom = py + by;
}

const boxHolds = (box, px, py) => px >= box.left && px <= box.right && py >= box.top && py <= box.bottom;

/** The lines, other marks and fields of loops that can count for a mark while it moves by no more than `reach`. */
export function lookAround(network, mark, reach) {
  const { count, x, y, ones, joined } = network;
  network.effort -= count + ones.length;
  const box = emptyBox();
  widenBox(box, x[mark], y[mark], reach + SIGHT);
  for (const far of joined[mark]) widenBox(box, x[far], y[far], SIGHT);
  const lines = linesIn(network, mark, box), marks = marksIn(network, mark, box);
  const { fields, ownFields } = fieldsAround(network, mark, reach);
  return { lines, marks, fields, ownFields, effort: effortFor(network, mark, lines.length + marks.length, ownFields) };
}

/** About how many steps it takes to work out the charge at a mark once. */
function effortFor({ count, joined }, mark, met, ownFields) {
  const effort = count + (joined[mark].length + 1) * met;
  return ownFields.reduce((sum, { loop, marks }) => sum + loop.length * marks.length, effort);
}

function linesIn({ x, y, ones, others }, mark, { left, right, top, bottom }) {
  const found = [];
  for (let line = 0; line < ones.length; line++) {
    const one = ones[line], other = others[line];
    if (one === mark || other === mark) continue;
    if ((x[one] < left && x[other] < left) || (x[one] > right && x[other] > right)) continue;
    if ((y[one] < top && y[other] < top) || (y[one] > bottom && y[other] > bottom)) continue;
    found.push(line);
  }
  return found;
}

function marksIn({ count, x, y }, mark, box) {
  const found = [];
  for (let other = 0; other < count; other++) {
    if (other !== mark && boxHolds(box, x[other], y[other])) found.push(other);
  }
  return found;
}

/** Loops in whose field the mark may come to stand; its own loops, with the marks that may come to stand in them. */
function fieldsAround(network, mark, reach) {
  const { x, y, loops, isOnLoop } = network;
  const fields = [], ownFields = [];
  for (let number = 0; number < loops.length; number++) {
    const loop = loops[number], isOn = isOnLoop[number];
    const box = emptyBox();
    for (const each of loop) widenBox(box, x[each], y[each], reach);
    if (isOn[mark]) ownFields.push({ loop, marks: marksIn(network, mark, box).filter(each => !isOn[each]) });
    else if (boxHolds(box, x[mark], y[mark])) fields.push(loop);
  }
  return { fields, ownFields };
}
