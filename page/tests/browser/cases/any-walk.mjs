// A student walks a circuit of his own: what the loops say of it stands below them.
import { book } from '../books.mjs';
import { includes, lacks, same } from '../check.mjs';
import { lineCell } from '../desk.mjs';

export const cases = [
  { name: 'any-walk-is-a-sum-of-loops', run: anyWalk, browsers: ['chromium', 'firefox'] },
  { name: 'no-words-of-walks-without-loops', run: noLoops },
];

const SUM = 'a sum of whole multiples of these loops, in one way only, and its misclosure is the same sum of theirs';

/** Inside the page: what is said of closed walks, as far as it is seen. */
function shownOfWalks() {
  const words = document.querySelector('#any-walk');
  return words.hidden ? '' : words.innerText;
}

async function anyWalk(desk) {
  const said = () => desk.evaluate(shownOfWalks);
  includes(await said(), `Every closed walk along standing lines is ${SUM}.`, 'below the loops');
  lacks(await said(), 'NOT CHECKED', 'every line is checked');
  await desk.withdraw(3);
  includes(await said(), 'A line NOT CHECKED is in none of them', 'line 2 is not checked');
  await desk.openBook(book('memorandum_network'), 'memorandum.book');
  includes(await said(), `${SUM}: here 0. A line NOT CHECKED`, 'all loops close, and spurs are not checked');
}

async function noLoops(desk) {
  await desk.write(lineCell(1, 'length'), '9');
  same(await desk.evaluate(shownOfWalks), '', 'a line is wrong');
  await desk.undo();
  for (const closing of [6, 4, 3]) await desk.withdraw(closing);
  same(await desk.evaluate(shownOfWalks), '', 'nothing closes');
}
