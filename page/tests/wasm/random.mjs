// A small seeded source of random numbers: the same seed gives the same numbers everywhere.

/** Xorshift of 32 bits. */
export class Random {
  constructor(seed) {
    this.state = Math.imul(seed + 1, 0x9e3779b1) || 1;
  }

  /** 0 to 2^32 - 1. */
  bits() {
    this.state ^= this.state << 13;
    this.state ^= this.state >>> 17;
    this.state ^= this.state << 5;
    return this.state >>> 0;
  }

  /** 0 to count - 1, of a count up to 2^32; 0 if there is no such number. */
  below(count) {
    return this.bits() % Math.max(count, 1);
  }

  /** A whole number from low to high, both ends included; they may be further apart than 32 bits tell. */
  within(low, high) {
    const fraction = (this.bits() * 2 ** 21 + (this.bits() >>> 11)) / 2 ** 53;
    return low + Math.floor(fraction * (high - low + 1));
  }

  /** True once in so many times. */
  onceIn(times) {
    return this.below(times) === 0;
  }

  pick(list) {
    return list[this.below(list.length)];
  }

  /** Replaces one of the numbers. They lie in entries, and there is a list of others for each place of an entry. */
  replaceOne(numbers, others) {
    if (numbers.length === 0) return;
    const place = this.below(numbers.length);
    numbers[place] = this.pick(others[place % others.length]);
  }
}
