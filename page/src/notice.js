// Messages at the lower edge. What is only told goes after a while and can carry Undo; a refusal stays until it is closed.
import { button, byId, fill, make } from './dom.js';
import { go } from './desk.js';
import { giveFocusBack } from './focus.js';

const TOLD_FOR = 9_000;
let timer = 0;

export function hush() {
  clearTimeout(timer);
  fill(byId('notice'));
  giveFocusBack();
}

function show(kind, parts) {
  clearTimeout(timer);
  const shut = button('✕', hush, { 'id': 'shut', 'aria-label': 'Close this message' });
  fill(byId('notice'), make('div', { class: `box ${kind}` }, make('span', {}, parts), shut));
}

/** Says something that may be overlooked. */
export function tell(...parts) {
  show('told', parts);
  timer = setTimeout(() => {
    // Not while someone is about to press its button.
    if (!byId('notice').contains(document.activeElement)) hush();
  }, TOLD_FOR);
}

/** Asks something, or says what must not be overlooked. */
export const ask = (...parts) => show('told', parts);

/** Says that something was refused. */
export const refuse = (...parts) => show('refused', parts);

export const strong = words => make('b', {}, words);

export const undoHere = (words = 'Undo') => button(words, () => {
  go(-1);
  hush();
}, { id: 'undo-here' });
