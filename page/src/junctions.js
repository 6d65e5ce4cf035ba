// The junction sketch of a book, asked of the core when it is wanted: an edit of a large book does not wait for it.
import { CoreStopped } from './core.js';
import { theCore } from './desk.js';

const kept = new WeakMap();

/** The sketch of results: its links, spurs and loops; or null if the core stopped. */
export function sketchOf(results) {
  try {
    if (!kept.has(results)) kept.set(results, theCore().sketch(results.numbers));
    return kept.get(results);
  } catch (error) {
    if (!(error instanceof CoreStopped)) throw error;
    // It is made anew, and the book is kept.
    theCore().start();
    return null;
  }
}

/** All entries of a sketch in the order in which they are shown. */
export const entriesOf = sketch => (sketch ? [...sketch.links, ...sketch.spurs, ...sketch.loops] : []);

/** The marks at which links end. A mark with fewer than three link ends would have come off or been merged. */
export const junctionsOf = ({ links }) => [...new Set(links.flatMap(({ first, last }) => [first, last]))];
