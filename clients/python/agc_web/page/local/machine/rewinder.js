// Going back in time and on again, by the console's own going back, and the boundaries around the present one.
export const HISTORY = 100; // boundaries that are shown
export const WARM_UP = 400; // cycles before the present one from which a hundred boundaries are found
const AHEAD = 12; // coming boundaries that are shown
const LONGEST_BOUNDARY = 8; // cycles; an order takes six at most

// What it runs again is a replay: the journal shows what stood before, until the machine stands where it is to stand.
export class Rewinder {
  history = []; // the last boundaries, if time stands
  #console;
  #journal;
  #replayEvents;

  // `replayEvents` gives events to the console once more, each at its cycle, which adds them to the journal.
  constructor(console, journal, replayEvents) {
    this.#console = console;
    this.#journal = journal;
    this.#replayEvents = replayEvents;
  }

  keep(lines) {
    this.history = [...this.history, ...lines].slice(-HISTORY);
  }

  // Goes to a cycle of the past or the present, with these events before it, and keeps the boundaries that lead there.
  async goTo(cycle, events) {
    const start = Math.max(0, cycle - WARM_UP);
    await this.#journal.replay(async () => {
      await this.#back(start);
      this.history = [];
      for (const event of events.filter((each) => each.cycle >= start)) {
        await this.stepTo(event.cycle);
        await this.#replayEvents([event]);
        this.keep([`${event.cycle} - ${event.command}`]);
      }
      await this.stepTo(cycle);
    });
    this.#note();
  }

  // Restores the events from a cycle on, and goes on to the cycle at which the machine stood.
  async restore(start, events, end) {
    await this.#journal.replay(async () => {
      await this.#back(start);
      await this.#replayEvents(events);
      await this.#console.goTo(Math.max(this.#console.cycle, end - WARM_UP));
      this.history = [];
      await this.stepTo(end);
    });
    this.#note();
  }

  // Goes on to a cycle boundary by boundary, and keeps their lines.
  async stepTo(cycle) {
    while (this.#console.cycle < cycle && this.#console.stop === null) {
      const count = Math.max(1, Math.floor((cycle - this.#console.cycle) / LONGEST_BOUNDARY));
      this.keep(await this.#console.step(count));
    }
  }

  // Returns the coming boundaries.
  async ahead() {
    return (await this.#console.say(`ahead ${AHEAD}`)).lines;
  }

  // Returns the cycle before the last change of the panel, null if there was none. The machine is where it was.
  async lastChange() {
    const here = this.#console.cycle;
    const { events } = this.#journal;
    const found = await this.#journal.replay(async () => {
      try {
        await this.#console.say('back until panel');
      } catch (error) {
        if (error.fault === 'NotHit') return null;
        throw error;
      }
      const { cycle } = this.#console;
      this.#journal.keepBefore(cycle + 1);
      await this.#replayEvents(events.filter((event) => event.cycle > cycle));
      await this.#console.goTo(here);
      return cycle;
    });
    this.#note();
    return found;
  }

  // Goes back, and keeps the events before that cycle.
  async #back(cycle) {
    await this.#console.back(cycle);
    this.#journal.keepBefore(cycle);
  }

  #note() {
    this.#journal.note(this.#console.cycle, this.#console.stop);
  }
}
