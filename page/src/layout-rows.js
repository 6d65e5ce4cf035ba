// Pieces in rows, so that none lies over another.

/** Room between two pieces, in usual lines. */
export const PIECE_GAP = 0.9;
/** How much wider than high the rows are together. */
const ROWS_SHAPE = 1.7;
const LIKE_HEIGHTS = 0.25;

function pieceBox(piece) {
  const left = Math.min(...piece.x), top = Math.min(...piece.y);
  return { piece, left, top, width: Math.max(...piece.x) - left, height: Math.max(...piece.y) - top };
}

function shiftPiece({ piece: { marks, x, y }, left, top }, toX, toY) {
  for (const mark of marks) {
    x[mark] += toX - left;
    y[mark] += toY - top;
  }
}

/** The highest pieces first, since rows of like heights waste least; of like heights the one with the lowest mark. */
function byHeight(boxes) {
  const rank = ({ height }) => Math.floor(height / LIKE_HEIGHTS + 0.5);
  return boxes.slice().sort((p, q) => rank(q) - rank(p));
}

/** Moves pieces into rows, from (left, top) to the right and down. */
export function intoRows(pieces, left, top) {
  const boxes = byHeight(pieces.map(pieceBox));
  const area = boxes.reduce((sum, { width, height }) => sum + (width + 1) * (height + 1), 0);
  const widest = Math.max(Math.sqrt(area * ROWS_SHAPE), ...boxes.map(({ width }) => width));
  let x = 0, y = 0, rowHeight = 0;
  for (const box of boxes) {
    if (x > 0 && x + box.width > widest) {
      x = 0;
      y += rowHeight + PIECE_GAP;
      rowHeight = 0;
    }
    shiftPiece(box, left + x, top + y);
    x += box.width + PIECE_GAP;
    rowHeight = Math.max(rowHeight, box.height);
  }
}
