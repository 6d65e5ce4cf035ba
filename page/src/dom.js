// Elements of the page. All text goes in as text: nothing that was typed or read from a file can become markup.

const SVG = 'http://www.w3.org/2000/svg';

export const byId = id => document.getElementById(id);

const isThere = child => child !== null && child !== undefined && child !== false && child !== '';

/** Gives an element its attributes (false and null: none) and children. */
function dressed(element, attributes, children) {
  for (const [name, value] of Object.entries(attributes)) {
    if (value !== false && value !== null && value !== undefined) element.setAttribute(name, value === true ? '' : value);
  }
  element.append(...children.flat(Infinity).filter(isThere));
  return element;
}

// Said once more, since some browsers forget that a table is one when its rows are laid out in another way.
const ROLES = { table: 'table', thead: 'rowgroup', tbody: 'rowgroup', tr: 'row', th: 'columnheader', td: 'cell' };

export const make = (name, attributes = {}, ...children) =>
  dressed(document.createElement(name), { role: ROLES[name], ...attributes }, children);

export const draw = (name, attributes = {}, ...children) => dressed(document.createElementNS(SVG, name), attributes, children);

export function button(words, press, attributes = {}) {
  const made = make('button', { type: 'button', ...attributes }, words);
  made.addEventListener('click', press);
  return made;
}

/** A word in a frame, with a class for its meaning. */
export const chip = (meaning, words) => make('span', { class: `chip ${meaning}` }, words);

export const dim = words => make('span', { class: 'dim' }, words);

/** Words where there is nothing to show. */
export const none = words => make('p', { class: 'none' }, words);

/** A number with its last three decimals paler. */
export const paler = text => [text.slice(0, -3), make('span', { class: 'fine' }, text.slice(-3))];

export const fill = (parent, ...children) => parent.replaceChildren(...children.flat(Infinity).filter(isThere));

/** Whether an element does not show this yet, told by a text that says all it shows. From now on it does. */
function isNew(element, shown) {
  const signature = JSON.stringify(shown, (_, each) => (typeof each === 'bigint' ? String(each) : each));
  if (element.signature === signature) return false;
  element.signature = signature;
  return true;
}

/** Fills an element with what is made, unless it already shows the same: that would be laid out and painted again for nothing. */
export function refill(parent, shown, made) {
  if (!isNew(parent, shown)) return false;
  fill(parent, made());
  return true;
}

/** A table's head: of each column its title, or [title, unit]. One without a title is no heading. */
export function tableHead(...titles) {
  const cells = titles.map(title => {
    const [words, unit] = Array.isArray(title) ? title : [title];
    return words ? make('th', { scope: 'col' }, words, unit && [' ', make('span', { class: 'unit' }, unit)]) : make('td');
  });
  return make('thead', {}, make('tr', {}, cells));
}

/** Gives an element another text, if it has not the same. */
export function setText(element, text) {
  if (element.textContent !== text) element.textContent = text;
}

/**
 * Writes rows into a table's body, of all that each shows, and only those that differ from what was written there before. Rows are
 * copies of a blank one, which is quicker than making each anew.
 */
export function writeRows(body, shown, blank, write) {
  while (body.rows.length > shown.length) body.lastElementChild.remove();
  shown.forEach((each, i) => {
    const row = body.rows[i] || body.appendChild(blank.cloneNode(true));
    if (isNew(row, each)) write(row, i);
  });
}

/** Puts the focus on an element that may be taken, and has its text chosen. */
export function focusOn(element) {
  if (!element || element.disabled) return false;
  element.focus();
  if (element.select) element.select();
  return true;
}
