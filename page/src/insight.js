// Panels that are written when they come into sight: the numbers of a large book come sooner without them.
import { present } from './desk.js';
import { byId } from './dom.js';

const NEAR = '300px';
const writers = [];

/** A panel by its id, and what writes it of a step: `show` is told of each step, and `wire` watches whether it is seen. */
export function whenSeen(id, write) {
  let isSeen = false;
  let isStale = true;

  function update() {
    if (!isStale) return;
    isStale = false;
    write(present());
  }

  function show() {
    isStale = true;
    if (isSeen) update();
  }

  function wire() {
    const watcher = new IntersectionObserver(entries => {
      isSeen = entries[entries.length - 1].isIntersecting;
      if (isSeen) update();
    }, { rootMargin: NEAR });
    watcher.observe(byId(id));
  }

  writers.push(update);
  return { show, wire };
}

/** Writes all of them, those out of sight too. */
export const writeUnseen = () => writers.forEach(update => update());

/** A link to a part would miss it if a panel above were written on the way there. */
export function wireInsight() {
  byId('parts').addEventListener('click', writeUnseen);
}
