// The entries of a book file of either version that the core refused, so that they can be mended.

const HEAD = 13;
const HELD = 10;
const LINE_BYTES = { 1: 12, 2: 14 };

/** What stands in a file whose counts fit its length (the core refused it with 6 or 7), as whole numbers. */
export function numbersIn(file) {
  const bytes = new DataView(file.buffer, file.byteOffset, file.byteLength);
  const version = bytes.getUint8(4);
  const [tolerance, marks, entries, n] = [5, 7, 9, 11].map(at => bytes.getUint16(at));
  const held = [];
  const lines = [];
  for (let i = 0; i < entries; i++) held.push(...heldAt(bytes, HEAD + HELD * i));
  for (let i = 0; i < n; i++) lines.push(...lineAt(bytes, HEAD + HELD * entries + LINE_BYTES[version] * i, version));
  return { version: BigInt(version), marks: BigInt(marks), tolerance: BigInt(tolerance), held, lines };
}

const heldAt = (bytes, at) => [BigInt(bytes.getUint16(at)), bytes.getBigInt64(at + 2)];

function lineAt(bytes, at, version) {
  const numbers = [bytes.getUint16(at), bytes.getUint16(at + 2), bytes.getInt32(at + 4), bytes.getUint32(at + 8)];
  // In the file the class comes before the standing mark.
  const more = version === 1 ? [1, -1] : [bytes.getUint8(at + 13), bytes.getUint8(at + 12)];
  return [...numbers, ...more].map(number => BigInt(number));
}
