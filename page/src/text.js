// Text to whole numbers and back, exactly: digits are moved, nothing is multiplied or rounded.

export const MINUS = '\u2212';
const SIGN = /^[-+\u2212\u2012\u2013]/;
const PLAIN = /^([0-9]*)(?:([.,])([0-9]*))?$/;
// With six decimals 17 digits: far inside 64 bits, so that nothing wraps.
const MOST_DIGITS = 11;
const SHOWN = 24;
// Of more than many numbers a few are named.
const MANY = 14;
const FEW = 12;

/** The whole number that a text means, in units of its last decimal: { whole }, or { fault } if it means none. */
export function wholeFrom(text, decimals) {
  const signed = text.trim();
  if (signed === '') return { fault: 'empty' };
  const sign = SIGN.test(signed) && signed[0] !== '+' ? '-' : '';
  const [match, before, point, after = ''] = PLAIN.exec(signed.replace(SIGN, '')) || [];
  if (match === undefined || before + after === '') return { fault: 'not a number' };
  if (point && decimals === 0) return { fault: 'not whole' };
  if (after.length > decimals) return { fault: 'too fine' };
  const digits = before.replace(/^0+(?=[0-9])/, '') || '0';
  if (digits.length > MOST_DIGITS) return { fault: 'too long' };
  return { whole: BigInt(sign + digits + after.padEnd(decimals, '0')) };
}

const FAULTS = {
  'empty': () => 'is empty',
  'not a number': text => `is not a number: ${quoted(text)}`,
  'not whole': text => `must be a whole number, without point or comma: ${quoted(text)}`,
  'too fine': (text, decimals) => `has more than ${decimals === 1 ? '1 decimal' : `${decimals} decimals`}: ${quoted(text)}`,
  'too long': text => `is too long a number: ${quoted(text)}`,
};

/** What is wrong with a text that cannot be read, in words. */
export const faultText = (fault, text, decimals) => FAULTS[fault](text.trim(), decimals);

/** A text cut to a length that fits into a message. */
export const short = text => (text.length > SHOWN ? `${text.slice(0, SHOWN - 1)}…` : text);

const quoted = text => `“${short(text)}”`;

/** The size of a whole number: its digits without the sign. */
export const size = whole => (whole < 0n ? -whole : whole);

/** A whole number in units of the last of so many decimals; zeros at the end go, down to the least decimals. */
export function decimalText(whole, decimals, least, minus) {
  const digits = String(size(whole)).padStart(decimals + 1, '0');
  const split = digits.length - decimals;
  const kept = digits.slice(split, split + least);
  const rest = digits.slice(split + least).replace(/0+$/, '');
  return (whole < 0n ? minus : '') + digits.slice(0, split) + (kept + rest && `.${kept}${rest}`);
}

/** Micrometres as metres. */
export const metres = (micrometres, least = 6, minus = MINUS) => decimalText(micrometres, 6, least, minus);

/** Micrometres as millimetres. */
export const millimetres = (micrometres, minus = MINUS) => decimalText(micrometres, 3, 3, minus);

/** A line number with the sense in which a loop runs it. */
export const signedLine = line => String(line).replace('-', MINUS);

/** A rate to three decimals, halves away from zero, as the sheet of heights has it. */
export function rateText(rate, minus = MINUS) {
  const thousandths = BigInt(Math.floor(Math.abs(rate) * 1000 + 0.5));
  return (rate < 0 ? minus : '') + decimalText(thousandths, 3, 3, '');
}

/** So many of a thing, in words. */
export const plural = (many, one, more = `${one}s`) => `${many} ${many === 1 ? one : more}`;

/** "line 4", "lines 4 5": numbers with their word. */
export const named = (word, numbers) => `${numbers.length === 1 ? word : `${word}s`} ${numbers.join(' ')}`;

/** The same, cut to a length that fits into a message: "lines 1 2 3 4 5 6 7 8 9 10 11 12 and 8 more". */
export const namedFew = (word, numbers) => (numbers.length <= MANY ? named(word, numbers)
  : `${named(word, numbers.slice(0, FEW))} and ${numbers.length - FEW} more`);

/** A sentence's first letter, large. */
export const sentence = words => words.charAt(0).toUpperCase() + words.slice(1);
