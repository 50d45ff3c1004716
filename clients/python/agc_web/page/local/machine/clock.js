// How far a machine should have come by now, and how fast it goes.

export const CYCLES_A_SECOND = 1024000 / 12;
export const SPEEDS = [1, 10, 100, 1000];
const LONGEST_PIECE = 0.02; // seconds that a piece may take, so that keys get in
const LOST = 1; // seconds behind the clock from which time is dropped

export const seconds = () => performance.now() / 1000;

// The machine's time beside ours. It goes at one of the speeds, and drops time that the machine cannot keep up with.
export class Clock {
  speed = 1;
  pace = 0; // how many times the hardware's pace the machine went lately
  isBehind = false;
  #rate = 200000; // cycles a second that the machine can go
  #anchor;
  #measured;

  constructor() {
    this.start(0);
  }

  // Begins anew at this cycle.
  start(cycle) {
    this.#anchor = { at: seconds(), cycle };
    this.#measured = this.#anchor;
  }

  // Returns the cycle to which a machine that is here should go now, in a piece that is soon over.
  due(here) {
    const now = seconds();
    let due = this.#anchor.cycle + Math.floor((now - this.#anchor.at) * CYCLES_A_SECOND * this.speed);
    if (due - here > LOST * CYCLES_A_SECOND * this.speed) {
      this.#anchor = { at: now, cycle: here };
      due = here;
    }
    const most = here + Math.max(1000, Math.floor(this.#rate * LONGEST_PIECE));
    this.isBehind = due > most;
    return Math.min(due, most);
  }

  // Notes how many cycles a piece had, and how fast the machine went in the last half second.
  measure(spent, cycles, here) {
    if (cycles > 500) this.#rate = Math.max(20000, 0.8 * this.#rate + 0.2 * (cycles / Math.max(spent, 1e-4)));
    const now = seconds();
    if (now - this.#measured.at >= 0.5) {
      this.pace = (here - this.#measured.cycle) / CYCLES_A_SECOND / (now - this.#measured.at);
      this.#measured = { at: now, cycle: here };
    }
  }
}
