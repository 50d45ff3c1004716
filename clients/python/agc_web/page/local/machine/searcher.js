// Searches by a second console with the session's script: the session's own keeps its place and its events.
const MOST_BOUNDARIES = 1000; // of one cycle

export class Searcher {
  #start;
  #script;
  #other = null;

  // `start` starts a console with a script.
  constructor(start) {
    this.#start = start;
  }

  // Says lines to the second console at a cycle and, if `comes` is not null, before that boundary of the cycle. Returns what `answersTo`
  // does. Breakpoints that the lines set are deleted.
  async answers(script, cycle, comes, lines) {
    if (this.#script !== script) {
      this.#other?.close();
      this.#other = await this.#start(script);
      this.#script = script;
    }
    const other = this.#other;
    await this.#standAt(cycle, comes);
    const answers = await answersTo(other, lines);
    const breaks = (await other.say('breaks')).lines;
    await other.sayAll(breaks.map((line) => `delete ${line.split(' ')[1]}`));
    return answers;
  }

  // Takes the second console to a cycle, and to the one of its boundaries that comes.
  async #standAt(cycle, comes) {
    const other = this.#other;
    if (other.cycle >= cycle) await other.back(cycle);
    await other.goTo(cycle);
    if (comes === null) return;
    const { lines } = await other.say(`ahead ${MOST_BOUNDARIES}`);
    await other.step(Math.max(0, lines.findIndex((line) => line.startsWith(`${cycle} ${comes}`))));
  }
}

// Says lines, and returns for each one the `cycle` after it with the `lines` of its answer, or with the name of its `fault` and the
// sentence, `error`.
export async function answersTo(console, lines) {
  const answers = await console.answersTo(lines);
  return answers.map(({ cycle, lines: found, refused }) => (refused ? { cycle, fault: refused.fault, error: refused.message } : { cycle, lines: found }));
}
