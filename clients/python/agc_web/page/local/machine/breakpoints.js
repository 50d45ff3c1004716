// The breakpoints of a session, which are the console's own, by the texts that the user gave them.

export const MOST_BREAKPOINTS = 8;
export const MOST_IGNORED = 1000000; // hits of a breakpoint

export class Breakpoints {
  #console;
  #numbers = new Map();
  #ignored = new Map(); // how many hits of a breakpoint are passed over from now on, if any

  constructor(console) {
    this.#console = console;
  }

  // In the words of the console's `break`.
  get texts() {
    return [...this.#numbers.keys()];
  }

  get isEmpty() {
    return this.#numbers.size === 0;
  }

  get isFull() {
    return this.#numbers.size >= MOST_BREAKPOINTS;
  }

  // How many hits are passed over from now on, by the texts of those breakpoints.
  get ignored() {
    return Object.fromEntries(this.#ignored);
  }

  // Sets a breakpoint; `Refused` if it is none.
  async add(text) {
    const { lines } = await this.#console.say(`break ${text}`);
    this.#numbers.set(text, Number(lines[0].split(' ')[1]));
  }

  // Deletes a breakpoint, if it is there.
  async remove(text) {
    if (!this.#numbers.has(text)) return;
    await this.#console.say(`delete ${this.#numbers.get(text)}`);
    this.#numbers.delete(text);
    this.#ignored.delete(text);
  }

  // Passes over the next hits of a breakpoint that is there, this number of them; going back keeps what is left of it.
  ignore(text, count) {
    this.#ignored.delete(text);
    if (count) this.#ignored.set(text, count);
  }

  // Goes on to a cycle, or to the first hit before it that is not passed over, and returns its breakpoint.
  async goTo(cycle) {
    if (!this.#numbers.size) {
      await this.#console.goTo(cycle);
      return null;
    }
    for (;;) {
      const { lines } = await this.#console.say(`continue within ${cycle - this.#console.cycle}`);
      const number = Number(lines.find((line) => line.startsWith('hit ')).split(' ')[1]);
      const text = this.texts.find((each) => this.#numbers.get(each) === number) ?? null;
      if (text === null || !this.#passesOver(text)) return text;
      if (this.#console.cycle >= cycle) return null;
    }
  }

  // Counts a hit of a breakpoint, and returns whether it is passed over.
  #passesOver(text) {
    const left = this.#ignored.get(text) ?? 0;
    this.ignore(text, Math.max(0, left - 1));
    return left > 0;
  }
}
