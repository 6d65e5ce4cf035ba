// Rows of tables that can be chosen: by a click, by Enter, by the space key and by arrows. They are one stop of the tab key.
import { chooseOnly, chosen, onChoice, toggle } from './choice.js';
import { byId } from './dom.js';

const ARROWS = { ArrowDown: 1, ArrowUp: -1 };

/**
 * The rows of a box that have a number of this kind, `loop` or `entry`, from 0 and in their order. `mark` marks the one that is
 * chosen and the one that the tab key reaches; it is called once rows were written.
 */
export function choosableRows(id, kind) {
  const selector = `tr[data-${kind}]`;
  const allRows = () => [...byId(id).querySelectorAll(selector)];

  function mark() {
    const rows = allRows();
    const reached = rows[chosen[kind]] || rows[0];
    for (const row of rows) {
      const wanted = row === reached ? 0 : -1;
      if (row.getAttribute('tabindex') !== String(wanted)) row.tabIndex = wanted;
      row.classList.toggle('chosen', row === rows[chosen[kind]]);
    }
  }

  function onKey(event) {
    const row = event.target.closest(selector);
    if (!row) return;
    const rows = allRows();
    const i = rows.indexOf(row);
    const next = i + (ARROWS[event.key] || 0);
    if (event.key === 'Enter' || event.key === ' ') toggle(kind, i);
    else if (next !== i && rows[next]) chooseOnly(kind, next);
    else return;
    event.preventDefault();
    rows[next].focus();
  }

  function wire() {
    byId(id).addEventListener('keydown', onKey);
    byId(id).addEventListener('click', event => {
      const row = event.target.closest(selector);
      if (row) toggle(kind, allRows().indexOf(row));
    });
    onChoice(mark);
  }

  return { mark, wire };
}
