// Where marks stand in the picture. A book has no coordinates: this is drawing, and no number of a report comes of it.
// Every line counts, withdrawn or not, and no difference does: so a correction moves nothing.
//
// A piece without places is settled from a fixed start, so that distances are near the ways along its lines
// (layout-settle); then it climbs to a picture with few crossings (layout-climb, layout-charge), and what is still
// crossed is turned (layout-uncross). Marks that have places stay, and what is new is placed among them (layout-warm).
// There is no chance and no clock in it.
import { placeAnew } from './layout-cold.js';
import { isScattered } from './layout-join.js';
import { joinsOf, networkOf, piecesOf } from './layout-network.js';
import { PIECE_GAP, intoRows } from './layout-rows.js';
import { placeAgain } from './layout-warm.js';

/** The usual length of a line in the picture. */
export const UNIT = 125;
/** Places are rounded to such parts of 1. */
const PLACE_PARTS = 64;
const FURTHEST_PLACE = 1e6;

const isWithinReach = number => Math.abs(number) < FURTHEST_PLACE;
const isPlace = place => Array.isArray(place) && place.length === 2 && place.every(isWithinReach);
const roundedPlace = (x, y) => [x, y].map(each => Math.floor(each * UNIT * PLACE_PARTS + 0.5) / PLACE_PARTS);

/**
 * A place [x, y] for each mark. With places from before, marks move as little as can be, and those that are pinned not
 * at all; without, all are placed from nothing. The same input gives the same places, byte for byte.
 */
export function placeMarks({ marks, lines, before, pinned, loops }) {
  const joins = joinsOf(lines);
  const kept = keptPlaces(marks, before ?? []);
  const isPinned = mark => Boolean(kept[mark] && pinned?.has(mark));
  const isDrawn = piece => piece.some(mark => kept[mark]) && !isScattered(piece, joins, kept);
  const isKnown = piece => piece.some(isPinned) || isDrawn(piece);
  const pieces = piecesOf(marks, joins);
  const known = networkOf(pieces.filter(isKnown).flat().sort((p, q) => p - q), joins, loops ?? []);
  const found = pieces.filter(piece => !isKnown(piece)).map(piece => networkOf(piece, joins, loops ?? []));
  placeKnown(known, kept, isPinned);
  for (const piece of found) placeAnew(piece, marks);
  putBelow(known, found);
  const places = collectedPlaces(marks, [known, ...found]);
  return places.map((place, mark) => (isPinned(mark) ? before[mark].slice() : place));
}

/** The places from before, with a usual line as the unit; null for a mark that has none. */
function keptPlaces(marks, before) {
  const keptPlace = place => (isPlace(place) ? place.map(each => each / UNIT) : null);
  return Array.from({ length: marks }, (_, mark) => keptPlace(before[mark]));
}

function placeKnown(network, kept, isPinned) {
  const { members, marks, isFixed } = network;
  for (const mark of marks) isFixed[mark] = isPinned(members[mark]) ? 1 : 0;
  placeAgain(network, members.map(mark => kept[mark]));
}

/** New pieces go below what stands already. */
function putBelow(known, found) {
  if (known.count === 0) return intoRows(found, 0, 0);
  intoRows(found, Math.min(...known.x), Math.max(...known.y) + PIECE_GAP);
}

function collectedPlaces(count, networks) {
  const places = new Array(count);
  for (const { members, marks, x, y } of networks) {
    for (const mark of marks) places[members[mark]] = roundedPlace(x[mark], y[mark]);
  }
  return places;
}
