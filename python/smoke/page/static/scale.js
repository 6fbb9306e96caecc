// Where bars begin and end, as shares of their room.
export class Scale {
  // From the least to the greatest number of the whole, and of the bars that are shown; nought is always there. It is even, or by logarithms.
  constructor(domain, bars, isLog = false) {
    this.sizeOf = text => isLog ? Math.sign(text) * Math.log1p(Math.abs(text)) : Number(text);
    const all = [0, ...(domain ?? []), ...bars.flatMap(([, , whole, now]) => [whole ?? 0, now ?? 0])].map(this.sizeOf);
    this.low = Math.min(...all);
    this.size = Math.max(...all) - this.low || 1;
    this.zero = -this.low / this.size;
  }

  // The begin and the length of a bar, in percent.
  bar(text) {
    if (text === null) return [100 * this.zero, 0];
    const end = (this.sizeOf(text) - this.low) / this.size;
    return [100 * Math.min(this.zero, end), 100 * Math.abs(end - this.zero)];
  }
}
