// The focus is never lost: where what had it goes away, it goes back to where it was before, or to the first line.
import { byId } from './dom.js';

const KEPT = 8;
let places = [];

// Asked without laying the page out.
const canHave = place => place.isConnected && !place.disabled && !place.closest('[hidden], dialog:not([open])');

/** Gives the focus to the last place that can have it, if what had it is gone. */
export function giveFocusBack() {
  const { activeElement } = document;
  if (places.length === 0 || canHave(places[0]) || (activeElement && activeElement !== document.body)) return;
  const place = places.find(canHave) || byId('lines').querySelector('input:enabled');
  if (place) place.focus({ preventScroll: true });
}

/** The same once all has been done: when a cell is left, the focus is on its way to the next. */
export const keepFocus = () => setTimeout(giveFocusBack);

export function wireFocus() {
  document.addEventListener('focusin', ({ target }) => {
    places = [target, ...places.filter(place => place !== target && place.isConnected)].slice(0, KEPT);
  });
}
