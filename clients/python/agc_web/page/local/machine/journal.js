// The journal of a session: the events that were injected, and where the machine stands. The session's script is made of it.

const cycleOf = (line) => Number(line.slice(0, line.indexOf(' ')));

const lineOf = (event) => `${event.cycle} ${event.command}`;

// The limit of a run that stands where the session stands. An order that stopped the machine needs one cycle more; a machine
// that stopped at its limit needs none.
const limitAt = ({ cycle, stop }) => Math.max(1, cycle + (stop !== null && stop !== 'Limit' ? 1 : 0));

export class Journal {
  events = []; // {cycle, command, byUser}, those that the console has at the moment
  #base;
  #point = { cycle: 0, stop: null, known: 0, events: this.events };
  #replays = 0;
  #kept = 0; // events at the front that have not changed since `changes` was called last

  // `base` has the lines of the script that the session begins with.
  constructor(base) {
    this.#base = base;
  }

  add(event) {
    this.events.push(event);
  }

  // Keeps only the first events.
  keepFirst(count) {
    this.events = this.events.slice(0, count);
    this.#kept = Math.min(this.#kept, count);
  }

  // Keeps the events before a cycle.
  keepBefore(cycle) {
    this.keepFirst(this.countBefore(cycle));
  }

  // How many events there are before a cycle.
  countBefore(cycle) {
    let low = 0;
    let high = this.events.length;
    while (low < high) {
      const middle = (low + high) >> 1;
      if (this.events[middle].cycle < cycle) low = middle + 1; else high = middle;
    }
    return low;
  }

  // Whether the machine is being taken to another cycle.
  get isReplaying() {
    return this.#replays > 0;
  }

  // Notes where the machine stands after an answer, unless that is only on the way to another cycle.
  note(cycle, stop) {
    if (this.isReplaying) return;
    const point = this.#point; // changed in place: there is a note for each answer
    point.cycle = cycle;
    point.stop = stop;
    point.known = this.events.length;
    point.events = this.events;
  }

  // Takes what happens within a task for a replay.
  async replay(task) {
    this.#replays += 1;
    try {
      return await task();
    } finally {
      this.#replays -= 1;
    }
  }

  script() {
    const { events, known } = this.#point;
    const base = this.#base.map((line) => [cycleOf(line), line]);
    const lines = [];
    let next = 0;
    for (const event of events.slice(0, known)) {
      while (next < base.length && base[next][0] <= event.cycle) lines.push(base[next++][1]);
      lines.push(lineOf(event));
    }
    lines.push(...base.slice(next).map(([, line]) => line));
    return lines.map((line) => `${line}\n`).join('');
  }

  limit() {
    return limitAt(this.#point);
  }

  // The events that have changed since this was called last: from which one on, and their lines with whether the user gave them.
  changes() {
    const from = this.#kept;
    this.#kept = this.events.length;
    return { from, lines: this.events.slice(from).map((event) => [lineOf(event), event.byUser]) };
  }
}
