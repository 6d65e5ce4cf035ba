// What is chosen: a loop, an entry of the sketch, a line or a mark, from 0, or -1. It is seen in tables and picture alike.

const listeners = [];
export const NOTHING = { loop: -1, entry: -1, line: -1, mark: -1 };
export const chosen = { ...NOTHING };

export const onChoice = listener => listeners.push(listener);

export function choose(what) {
  const before = { ...chosen };
  Object.assign(chosen, what);
  // The line that is being worked on is not shown among those of an entry.
  if (what.line >= 0) chosen.entry = -1;
  if (Object.keys(chosen).some(each => chosen[each] !== before[each])) listeners.forEach(listener => listener(before));
}

/** Chooses a loop or an entry, and no other nor a line with it. */
export const chooseOnly = (kind, i) => choose({ ...NOTHING, mark: chosen.mark, [kind]: i });

/** The same; once more, nothing. */
export const toggle = (kind, i) => chooseOnly(kind, i === chosen[kind] ? -1 : i);

export const chooseNothing = () => choose(NOTHING);
