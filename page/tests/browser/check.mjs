// What a case holds against the page. A fault says what was got and what was wanted.

const LONG = 600;

function fail(what, got, wanted) {
  throw new Error(`${what}\n    got    ${got}\n    wanted ${wanted}`);
}

export function same(got, want, what = '') {
  const [one, other] = [got, want].map(value => JSON.stringify(value, null, 1));
  if (one !== other) fail(what, shortened(one, other), shortened(other, one));
}

export function holds(condition, what) {
  if (!condition) throw new Error(what);
}

export function includes(text, part, what = '') {
  if (!text.includes(part)) fail(what, text.slice(0, LONG), `“${part}” in it`);
}

export function lacks(text, part, what = '') {
  if (text.includes(part)) fail(what, text.slice(0, LONG), `no “${part}” in it`);
}

export function under(number, most, what) {
  if (!(number < most)) throw new Error(`${what}: ${number} is not under ${most}`);
}

/** Where two long texts begin to differ. */
function shortened(text, other = '') {
  if (text === undefined) return 'nothing';
  let at = 0;
  while (at < text.length && text[at] === other[at]) at += 1;
  const begin = text.length > 400 ? Math.max(0, at - 120) : 0;
  return (begin > 0 ? '… ' : '') + text.slice(begin, begin + 400).replace(/\n\s*/g, ' ');
}
