// Scripts, styles and markup without what only their reader needs: comments, indentation, and spaces beside signs. Of a script all names,
// lines and texts stay, so that an error of the page can still be found.

const SPACE = /[ \t]+/y;
const COMMENT = /\/\/[^\n]*|\/\*[^]*?\*\//y;
const TEXT = /'(?:[^'\\\n]|\\.)*'|"(?:[^"\\\n]|\\.)*"/y;
const PATTERN = /\/(?:[^/\\[\n]|\\.|\[(?:[^\]\\\n]|\\.)*\])+\/[a-z]*/y;
const WORD = /[\p{L}\p{N}_$#]+/uy;
// After these a slash begins a pattern; after anything else it divides.
const BEFORE_PATTERN = /(?:^|[(,=:[!&|?{};>\n]|\breturn)$/;

function take(pattern, source, at) {
  pattern.lastIndex = at;
  const found = pattern.exec(source);
  return found ? found[0] : '';
}

/** The end of a template: behind its second backtick, of those that are not in a part of it. */
function templateEnd(source, start) {
  let at = start + 1;
  while (source[at] !== '`') {
    if (source.startsWith('${', at)) at = partEnd(source, at + 2);
    else at += source[at] === '\\' ? 2 : 1;
  }
  return at + 1;
}

/** The end of a part of a template, behind its closing brace. */
function partEnd(source, start) {
  let at = start;
  for (let depth = 1; depth > 0;) {
    const text = take(TEXT, source, at);
    if (source[at] === '`') at = templateEnd(source, at);
    else if (text) at += text.length;
    else {
      depth += { '{': 1, '}': -1 }[source[at]] || 0;
      at += 1;
    }
  }
  return at;
}

/** The next piece of a script, and whether it is needed. */
function nextPiece(source, at, before) {
  const space = take(SPACE, source, at) || take(COMMENT, source, at);
  if (space) return [space, false];
  if (source[at] === '`') return [source.slice(at, templateEnd(source, at)), true];
  const pattern = BEFORE_PATTERN.test(before) ? take(PATTERN, source, at) : '';
  return [take(TEXT, source, at) || pattern || take(WORD, source, at) || source[at], true];
}

const isWord = text => /^[\p{L}\p{N}_$#]/u.test(text);

/** Whether two pieces would run together. */
const wouldJoin = (before, piece) => (isWord(piece) && /[\p{L}\p{N}_$#]$/u.test(before))
  || (/[-+/]$/.test(before) && before.at(-1) === piece[0]);

export function squeezed(source) {
  let out = '';
  let isApart = false;
  for (let at = 0; at < source.length;) {
    const [piece, isNeeded] = nextPiece(source, at, out);
    at += piece.length;
    if (!isNeeded) {
      isApart = true;
      continue;
    }
    // A line's end stays, but no empty line.
    if (piece !== '\n' || (out !== '' && !out.endsWith('\n'))) out += (isApart && wouldJoin(out, piece) ? ' ' : '') + piece;
    isApart = false;
  }
  return out;
}

/** Styles, in one line. Before a colon a space means something, and texts stay. */
export const squeezedStyle = source => source.replace(/\/\*[^]*?\*\//g, '').replace(/\s+/g, ' ')
  .replace(/"[^"]*"| ?([{};,]) ?|(:) /g, (all, sign, colon) => sign ?? colon ?? all).replace(/;}/g, '}').trim();

/** Markup without indentation. */
export const squeezedMarkup = source => source.replace(/^\s+/gm, '');
