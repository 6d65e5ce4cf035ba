// Numbers that look like chance but are the same in every run.

export class Chance {
  constructor(seed) {
    this.state = seed;
  }

  /** A whole number from 0 to below `end`. */
  below(end) {
    this.state = (Math.imul(this.state, 1103515245) + 12345) & 0x7fffffff;
    return (this.state >> 8) % end;
  }

  from(least, most) {
    return least + this.below(most - least + 1);
  }

  pick(list) {
    return list[this.below(list.length)];
  }
}
