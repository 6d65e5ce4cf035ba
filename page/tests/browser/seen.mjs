// What runs inside the page for the cases: each function is sent there as text, so that it may use nothing but its
// arguments and the page's own document.

export const isReady = () => document.documentElement.hasAttribute('data-ready');

export function press(selector) {
  const button = document.querySelector(selector);
  if (!button) throw new Error(`there is no ${selector}`);
  // As by hand, the focus goes to the button.
  button.focus();
  button.click();
}

export function pressTimes(selector, times) {
  const button = document.querySelector(selector);
  button.focus();
  for (let pressed = 0; pressed < times; pressed += 1) button.click();
}

export function pressIfThere(selector) {
  document.querySelector(selector)?.click();
}

/** The middle of an element once it is in sight, and what lies over it there, if anything does. */
export async function placeOf(selector) {
  const element = document.querySelector(selector);
  if (!element) throw new Error(`there is no ${selector}`);
  const bringIntoSight = () => element.scrollIntoView({ block: 'center', inline: 'nearest' });
  bringIntoSight();
  // Rows are laid out when they come into sight, and move what is below them.
  const frame = () => new Promise(resolve => requestAnimationFrame(resolve));
  await Promise.race([frame().then(frame), new Promise(resolve => setTimeout(resolve, 300))]);
  bringIntoSight();
  const box = element.getBoundingClientRect();
  const place = [box.x + box.width / 2, box.y + box.height / 2];
  const top = document.elementFromPoint(...place);
  const isFree = top && (element.contains(top) || top.contains(element) || top.closest('label')?.control === element);
  return { place, cover: isFree ? null : top ? top.outerHTML.slice(0, 80) : 'nothing, as it is out of sight,' };
}

export function focus(selector) {
  document.querySelector(selector).focus();
}

/** What has the focus, by its id or else by its name, once the page has done what it left for its next turn, as giving it back. */
export async function focused() {
  await new Promise(done => setTimeout(done));
  const element = document.activeElement;
  return element.id || element.getAttribute('aria-label') || element.tagName.toLowerCase();
}

export function write(selector, text) {
  const field = document.querySelector(selector);
  if (!field) throw new Error(`there is no ${selector}`);
  if (field.disabled) throw new Error(`${selector} is locked`);
  field.focus();
  field.value = text;
  field.dispatchEvent(new Event('input', { bubbles: true }));
  field.dispatchEvent(new Event('change', { bubbles: true }));
}

export function paste(selector, text) {
  const field = document.querySelector(selector);
  field.focus();
  const clipboardData = new DataTransfer();
  clipboardData.setData('text/plain', text);
  field.dispatchEvent(new ClipboardEvent('paste', { clipboardData, bubbles: true, cancelable: true }));
}

/**
 * Gives the page a file with these bytes (base64), by its file field as the dialogue does, or dropped on it. Closes
 * the message that is there, and waits until another comes.
 */
export async function giveFile(way, name, text) {
  document.querySelector('#shut')?.click();
  const bytes = Uint8Array.from(atob(text), letter => letter.charCodeAt(0));
  const dataTransfer = new DataTransfer();
  dataTransfer.items.add(new File([bytes], name));
  if (way === 'chosen') {
    const field = document.querySelector('#file');
    field.files = dataTransfer.files;
    field.dispatchEvent(new Event('change', { bubbles: true }));
  } else {
    const over = new DragEvent('dragover', { dataTransfer, bubbles: true, cancelable: true });
    document.body.dispatchEvent(over);
    if (!over.defaultPrevented) throw new Error('the page takes no files that are dropped on it');
    document.body.dispatchEvent(new DragEvent('drop', { dataTransfer, bubbles: true, cancelable: true }));
  }
  for (let tries = 0; tries < 2000 && document.querySelector('#notice').textContent === ''; tries += 1) {
    await new Promise(resolve => setTimeout(resolve, 2));
  }
}

/** Corrects a line: withdraws it, or re-runs it with this difference. */
export function correct(line, difference) {
  const press = selector => {
    const button = document.querySelector(selector);
    if (!button) throw new Error(`there is no ${selector}`);
    button.focus();
    button.click();
  };
  press(`#lines tr[data-row="${line - 1}"] .correct`);
  if (difference === null) return press('#withdraw');
  const field = document.querySelector('#new-difference');
  field.value = difference;
  field.dispatchEvent(new Event('input', { bubbles: true }));
  field.dispatchEvent(new Event('change', { bubbles: true }));
  return press('#rerun');
}

export const textOf = selector => document.querySelector(selector)?.textContent.trim() ?? '';
export const valueOf = selector => document.querySelector(selector).value;
export const countOf = selector => document.querySelectorAll(selector).length;
export const isVisible = selector => document.querySelector(selector).checkVisibility();

/** The text of a part of the page as it is read, without its buttons; '' if the part is hidden. */
export function visibleText(selector) {
  const part = document.querySelector(selector);
  if (!part || !part.checkVisibility()) return '';
  const copy = part.cloneNode(true);
  copy.querySelectorAll('button').forEach(button => button.remove());
  const words = document.createTreeWalker(copy, NodeFilter.SHOW_TEXT);
  const texts = [];
  while (words.nextNode()) texts.push(words.currentNode.textContent.trim());
  return texts.filter(Boolean).join(' ');
}

export function tiles() {
  return [...document.querySelectorAll('#glance .tile')].map(tile => {
    return [...tile.children].map(part => part.textContent.trim()).join(' / ');
  });
}

export async function reportText() {
  document.querySelector('#text details').open = true;
  const box = document.querySelector('#textbox');
  for (let tries = 0; tries < 400; tries += 1) {
    if (box.textContent.trim() !== '') return box.textContent;
    await new Promise(resolve => setTimeout(resolve, 5));
  }
  return '';
}

export function loops() {
  return [...document.querySelectorAll('#loops-box tbody tr[data-loop]')].map(row => {
    const cell = kind => row.querySelector(`td.${kind}`)?.textContent.trim() ?? '';
    const [lines, marks] = cell('lines').split(/\s*marks\s+/);
    const [verdict, since, misclosure, allowed, length] =
      ['verdict', 'since', 'misclosure', 'allowed', 'length'].map(cell);
    return { verdict, since, misclosure, allowed, length, lines, marks };
  });
}

export function goneLoops() {
  return [...document.querySelectorAll('#loops-box tbody tr.gone')].map(row => row.textContent.trim());
}

/** The lists of the sketch, each row with its numbers as they are written, its lines and the marks that it passes. */
export function sketchRows() {
  const row = ({ cells }) => {
    const texts = Array.from(cells, cell => cell.textContent.trim());
    const [lines, marks] = [...cells].at(-1).children;
    return { numbers: texts.slice(0, -1), lines: lines.textContent, marks: marks.textContent };
  };
  const rows = list => [...document.querySelectorAll(`#sketch-box .of-${list} tbody tr`)].map(row);
  return { links: rows('links'), spurs: rows('spurs'), loops: rows('loops') };
}

/** Brings a part into sight, and waits until the page knows: its watchers were there first, and are told first. */
export async function scrollTo(selector) {
  const part = document.querySelector(selector);
  part.scrollIntoView();
  let watcher;
  const told = new Promise(resolve => {
    watcher = new IntersectionObserver(entries => entries.at(-1).isIntersecting && resolve());
    watcher.observe(part);
  });
  const late = new Promise(resolve => setTimeout(resolve, 1000));
  await Promise.race([told, late]);
  watcher.disconnect();
}

export function wrongCells() {
  const cells = document.querySelectorAll('[aria-invalid="true"]');
  return Array.from(cells, cell => cell.getAttribute('aria-label') ?? cell.id);
}

export function shownBook() {
  const rows = table => [...document.querySelectorAll(`#${table} tr[data-row]`)].map(row => ({
    cells: [...row.querySelectorAll('input')].map(input => input.value),
    standing: !row.classList.contains('withdrawn'),
  }));
  const marks = document.querySelector('#marks');
  return {
    version: document.querySelector('#version').value,
    marks: marks.value || marks.placeholder,
    tolerance: document.querySelector('#tolerance').value,
    held: rows('held'),
    lines: rows('lines'),
  };
}

/** Waits until all marks are drawn, and the picture has not changed for longer than the page puts off drawing it. */
export async function pictureIsStill() {
  const box = document.querySelector('#svgbox');
  const field = document.querySelector('#marks');
  const stillFor = document.querySelectorAll('#lines tr[data-row]').length > 150 ? 380 : 90;
  const isWhole = () => box.querySelectorAll('g.mark').length === Number(field.value || field.placeholder);
  let changed = performance.now();
  const end = changed + 8000;
  const watch = new MutationObserver(() => { changed = performance.now(); });
  watch.observe(box, { childList: true, subtree: true, attributes: true });
  const isStill = () => performance.now() - changed > (isWhole() ? stillFor : 2000);
  while (!isStill() && performance.now() < end) await new Promise(resolve => setTimeout(resolve, 15));
  watch.disconnect();
}

/** Marks with their places, lines with the ends of their strokes, loop fields, labels, badges, and the frame. */
export function picture() {
  const all = (selector, read) => [...document.querySelectorAll(`#svgbox svg ${selector}`)].map(read);
  const placeOf = mark => mark.getAttribute('transform').match(/-?[\d.]+/g).slice(0, 2).map(Number);
  const point = ({ x, y }) => [x, y];
  const ends = path => [0, path.getTotalLength()].map(along => point(path.getPointAtLength(along)));
  const loopOf = part => Number(part.dataset.loop);
  const svg = document.querySelector('#svgbox svg');
  const frame = svg?.viewBox.baseVal;
  return {
    name: svg?.getAttribute('aria-label') ?? '',
    frame: frame && [frame.x, frame.y, frame.width, frame.height],
    marks: all('g.mark', mark => ({
      mark: Number(mark.dataset.mark), place: placeOf(mark), isHeld: mark.querySelector('circle') === null,
      text: mark.querySelector('text')?.textContent ?? '',
    })),
    lines: all('path.line', line => ({
      line: line.dataset.line === undefined ? null : Number(line.dataset.line), kinds: [...line.classList],
      ends: ends(line), shape: line.getAttribute('d'),
    })),
    fields: all('path.field', field => ({ loop: loopOf(field), isOver: field.classList.contains('over') })),
    labels: all('text.label', label => label.textContent),
    badges: all('rect.badge', badge => ({ loop: loopOf(badge), isChanged: badge.classList.contains('changed') })),
  };
}
