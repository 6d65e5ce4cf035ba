// What the parts of the picture share: how large its signs are, and points and curves as svg writes them.

/** The radius of a mark, in units. */
export const RADIUS = 16;

export const fixed = number => number.toFixed(1);
export const at = ([x, y]) => `${fixed(x)} ${fixed(y)}`;
