// Books as tables of whole numbers, and the bytes of their files. A table has version (1 where it is not there), tolerance,
// marks, held [[mark, height], ..] and lines [[from, to, difference, length], ..], in the units of the file; a line of
// version 2 has class and standing behind.

const HEAD = 13;
const HELD_ENTRY = 10;
const LINE = { 1: 12, 2: 14 };

export function bytesOf({ version = 1, tolerance, marks, held, lines }) {
  const bytes = Buffer.alloc(HEAD + HELD_ENTRY * held.length + LINE[version] * lines.length);
  bytes.writeUInt32BE(bytes.length, 0);
  bytes.writeUInt8(version, 4);
  [tolerance, marks, held.length, lines.length].forEach((count, place) => bytes.writeUInt16BE(count, 5 + 2 * place));
  let at = HEAD;
  for (const [mark, height] of held) {
    bytes.writeUInt16BE(mark, at);
    bytes.writeBigInt64BE(BigInt(height), at + 2);
    at += HELD_ENTRY;
  }
  for (const [from, to, difference, length, ...more] of lines) {
    bytes.writeUInt16BE(from, at);
    bytes.writeUInt16BE(to, at + 2);
    bytes.writeInt32BE(difference, at + 4);
    bytes.writeUInt32BE(length, at + 8);
    bytes.set(more, at + 12);
    at += LINE[version];
  }
  return bytes;
}

export function tableOf(bytes) {
  const version = bytes[4];
  const [tolerance, marks, heldCount, lineCount] = [5, 7, 9, 11].map(at => bytes.readUInt16BE(at));
  const linesAt = HEAD + HELD_ENTRY * heldCount;
  const held = Array.from({ length: heldCount }, (_, row) => {
    const at = HEAD + HELD_ENTRY * row;
    return [bytes.readUInt16BE(at), Number(bytes.readBigInt64BE(at + 2))];
  });
  const lines = Array.from({ length: lineCount }, (_, row) => {
    const at = linesAt + LINE[version] * row;
    const more = bytes.subarray(at + 12, at + LINE[version]);
    return [
      bytes.readUInt16BE(at), bytes.readUInt16BE(at + 2), bytes.readInt32BE(at + 4), bytes.readUInt32BE(at + 8), ...more,
    ];
  });
  return { version, tolerance, marks, held, lines };
}

/**
 * A number as cells have it, "-0.310500", in units of its last decimal: -310500. Exact, since digits are only moved.
 */
export function whole(text, decimals) {
  const match = /^(-?)(\d+)(?:\.(\d*))?$/.exec(text.replace('\u2212', '-'));
  if (!match || (match[3] ?? '').length > decimals) throw new Error(`“${text}” has not ${decimals} decimals`);
  return Number(BigInt(match[1] + match[2] + (match[3] ?? '').padEnd(decimals, '0')));
}

/** And back: -310500 with 6 decimals is "-0.310500". */
export function decimal(number, decimals) {
  const digits = String(Math.abs(number)).padStart(decimals + 1, '0');
  const point = digits.length - decimals;
  return `${number < 0 ? '-' : ''}${digits.slice(0, point)}.${digits.slice(point)}`;
}
