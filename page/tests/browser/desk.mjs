// The page in a surveyor's hands: books are opened, cells typed, lines corrected, and what is shown is read off it.
import path from 'node:path';
import { pathToFileURL } from 'node:url';
import { whole } from './book-file.mjs';
import * as seen from './seen.mjs';
import { TOP, until } from './tools.mjs';

export const PAGE = path.join(TOP, 'target', 'page', 'yorrabesk.html');

/** The selector of a line's cell; lines count from 1. */
export const lineCell = (line, column) => `#lines tr[data-row="${line - 1}"] input[data-column="${column}"]`;
/** The selector of a held entry's cell; entries count from 1. */
export const heldCell = (entry, column) => `#held tr[data-row="${entry - 1}"] input[data-column="${column}"]`;

const LINE_COLUMNS = ['from', 'to', 'difference', 'length', 'class'];

/** Opens the page in a storage of its own. options: width, height, mobile; before, a script to run before its own. */
export async function openDesk(browser, { file = PAGE, ...options } = {}) {
  const profile = await browser.openProfile();
  const desk = new Desk(profile, pathToFileURL(file).href, options);
  await desk.open();
  return desk;
}

export class Desk {
  constructor(profile, address, options) {
    Object.assign(this, { profile, address, options });
  }

  async open() {
    this.page = await this.profile.openPage(this.options);
    await this.goto();
  }

  /** Opens the page anew in the same window: what was not saved is only in its storage. */
  async goto() {
    await this.page.goto(this.address);
    const { errors } = this.page;
    const before = errors.length;
    const isDone = async () => errors.length > before || await this.page.evaluate(seen.isReady);
    await until(isDone, { pause: 5, milliseconds: 10_000 });
    if (!await this.page.evaluate(seen.isReady)) throw new Error(`the page did not get ready: ${errors.join('; ')}`);
  }

  /** Another window on the same storage. */
  async another() {
    const desk = new Desk(this.profile, this.address, this.options);
    await desk.open();
    return desk;
  }

  async closeWindow() {
    await this.page.close();
  }

  async close() {
    await this.page.close();
    await this.profile.close().catch(() => {});
  }

  // ---- hands

  evaluate(task, ...values) {
    return this.page.evaluate(task, ...values);
  }

  /** Presses a button of the page, if it can be pressed. */
  async press(selector) {
    await this.evaluate(seen.press, selector);
  }

  /** Clicks with the mouse, where a person would: in the middle of what is in sight, and it must not be covered. */
  async click(selector) {
    const { place, cover } = await this.evaluate(seen.placeOf, selector);
    if (cover) throw new Error(`${selector} cannot be clicked: ${cover} lies over it`);
    await this.page.clickAt(place);
  }

  async tap(selector) {
    const { place, cover } = await this.evaluate(seen.placeOf, selector);
    if (cover) throw new Error(`${selector} cannot be tapped: ${cover} lies over it`);
    await this.page.tapAt(place);
  }

  async keys(...keys) {
    for (const key of keys) await this.page.press(key);
  }

  focus(selector) {
    return this.evaluate(seen.focus, selector);
  }

  focused() {
    return this.evaluate(seen.focused);
  }

  /** Puts a text into a field and leaves the field. */
  async write(selector, text) {
    await this.evaluate(seen.write, selector, text);
  }

  async writeLine(line, values) {
    for (const [place, value] of values.entries()) await this.write(lineCell(line, LINE_COLUMNS[place]), String(value));
  }

  /** Makes the shown book one of this version, '1' or '2'. */
  async chooseVersion(version) {
    await this.write('#version', version);
  }

  async paste(selector, text) {
    await this.evaluate(seen.paste, selector, text);
  }

  // ---- books

  newBook() {
    return this.press('#new');
  }

  /** Opens a file with these bytes; gives the message that comes. */
  async openBook(bytes, name = 'x.book') {
    await this.evaluate(seen.giveFile, 'chosen', name, Buffer.from(bytes).toString('base64'));
    return this.notice();
  }

  /** Drops a file on the page. */
  async dropBook(bytes, name = 'x.book') {
    await this.evaluate(seen.giveFile, 'dropped', name, Buffer.from(bytes).toString('base64'));
    return this.notice();
  }

  /** Saves, by the button or as told; gives the saved file, or null if none came. */
  save(act = () => this.press('#save')) {
    return this.profile.saved(act);
  }

  /** Saves, by the button or as told, where no file may come. */
  saveInVain(act = () => this.press('#save')) {
    return this.profile.saved(act, 700);
  }

  async shutNotice() {
    await this.evaluate(seen.pressIfThere, '#shut');
  }

  async openCorrection(line) {
    await this.press(`#lines tr[data-row="${line - 1}"] .correct`);
  }

  async rerun(line, difference) {
    await this.evaluate(seen.correct, line, difference);
  }

  async withdraw(line) {
    await this.evaluate(seen.correct, line, null);
  }

  undo(times = 1) {
    return this.evaluate(seen.pressTimes, '#undo', times);
  }

  redo() {
    return this.press('#redo');
  }

  // ---- what is shown

  text(selector) {
    return this.evaluate(seen.textOf, selector);
  }

  value(selector) {
    return this.evaluate(seen.valueOf, selector);
  }

  count(selector) {
    return this.evaluate(seen.countOf, selector);
  }

  notice() {
    return this.evaluate(seen.visibleText, '#notice');
  }

  trouble() {
    return this.evaluate(seen.visibleText, '#trouble');
  }

  glance() {
    return this.evaluate(seen.visibleText, '#glance');
  }

  tiles() {
    return this.evaluate(seen.tiles);
  }

  /** The report as text: what the report program, the sketch program and the heights program print. */
  async texts() {
    const text = await this.evaluate(seen.reportText);
    const [report, sketch = '', heights = ''] = text.split(/(?<=\n)\n/);
    return { report, sketch, heights };
  }

  async report() {
    return (await this.texts()).report;
  }

  loops() {
    return this.evaluate(seen.loops);
  }

  goneLoops() {
    return this.evaluate(seen.goneLoops);
  }

  /** The heights panel is written when it comes into sight. */
  heightsPanel() {
    return this.panelInSight('#heights');
  }

  /** And the panel of the sketch. */
  sketchPanel() {
    return this.panelInSight('#sketch');
  }

  /** Brings a panel into sight; the text in its box. */
  async panelInSight(panel) {
    await this.evaluate(seen.scrollTo, panel);
    return until(() => this.text(`${panel}-box`), { good: text => text !== '' });
  }

  /** The rows of the sketch's panel, once it is in sight: { links, spurs, loops }. */
  async sketchRows() {
    await this.sketchPanel();
    return this.evaluate(seen.sketchRows);
  }

  wrongCells() {
    return this.evaluate(seen.wrongCells);
  }

  checkedBy(line) {
    return this.text(`#lines tr[data-row="${line - 1}"] .checked-by`);
  }

  /** The book as its cells show it, all texts but standing. */
  shownBook() {
    return this.evaluate(seen.shownBook);
  }

  /** The shown book, as in book-file.mjs, and the standing of each line; only for a book that is right. */
  async shownTable() {
    return tableShown(await this.shownBook());
  }

  isUnsaved() {
    return this.evaluate(seen.isVisible, '#unsaved');
  }

  /** Everything that Undo must bring back. */
  async state() {
    const asked = [this.shownBook(), this.texts(), this.tiles(), this.loops(), this.goneLoops(), this.value('#name')];
    const [book, texts, tiles, loops, gone, name] = await Promise.all(asked);
    return { book, texts, tiles, loops, gone, name };
  }

  /** What the picture shows, once it stands still: large pictures come some time after the numbers. */
  async picture() {
    await this.evaluate(seen.pictureIsStill);
    return this.evaluate(seen.picture);
  }

  /** Where each mark is drawn, as text. */
  async places() {
    const { marks } = await this.picture();
    return marks.map(({ place }) => place.join(' ')).join(', ');
  }

  /** Runs something that must make the page complain to the browser, and takes those complaints away. */
  async forgivingErrors(task) {
    const before = this.page.errors.length;
    const answer = await task();
    this.page.errors.length = before;
    return answer;
  }
}

/** A book that is right, of its cells: without the rows at the end that are not complete. */
function tableShown(book) {
  const isEmpty = row => row.cells.every(cell => cell === '');
  const complete = rows => {
    const typed = rows.filter(row => !isEmpty(row));
    return typed.at(-1)?.cells.includes('') ? typed.slice(0, -1) : typed;
  };
  const lines = complete(book.lines);
  const version = Number(book.version);
  const standing = row => (version === 2 ? [row.standing ? 1 : 0] : []);
  const table = {
    version,
    tolerance: whole(book.tolerance, 1),
    marks: Number(book.marks),
    held: complete(book.held).map(({ cells: [mark, height] }) => [Number(mark), whole(height, 6)]),
    lines: lines.map(row => {
      const [from, to, difference, length, ...more] = row.cells;
      return [+from, +to, whole(difference, 6), +length, ...more.map(Number), ...standing(row)];
    }),
  };
  return { table, standing: lines.map(row => row.standing) };
}
