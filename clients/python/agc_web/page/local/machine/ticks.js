// The instruments of a session: their ticks, and their states at past ticks, to which they can go back.
//
// An instrument is an object as agc_web/ticks.py says, in JavaScript: tick(machine, cycle) each 10 ms of machine time, view(),
// save(old) and load(state), control(name, down). `old` is a state that is no longer needed, if there is one: an instrument may fill it
// and return it, so that a hundred states a second leave no garbage. `reads` lists the channels that it reads. In a tick machine.channel(number) is
// the word of one of these; machine.key(name), pro(down), pulse(counter, kind), input(channel, word), raise(number) and
// poke(bank, offset, word) give events. control returns whether there is such a
// button, and 'once' if a session that is run again does not need it. Controls and machine alone decide what an instrument does, so that running them again
// gives the same events.

const MOST_BYTES = 65536; // of a view: the page gets up to fifty a second
const KEPT = [[1, 1000], [10, 2000], [100, Infinity]]; // the ticks from one state to the next, and how many are kept
const FILMED = 10; // ticks between two views of a film
const MOST_FILMED = 3000; // views of a film
const FILM_PARTS = ['title', 'outcome', 'drawing', 'dial', 'rows']; // of a view

// The cycle of a tick: each is a hundredth of a second after the one before.
const cycleOfTick = (number) => Math.ceil((number * 2560) / 3);

const octal = (number, digits = 1) => number.toString(8).padStart(digits, '0');

// Returns the command of a pulse: one text for all alike, because the journal keeps the events.
const pulses = {};
const pulseText = (counter, kind) => (pulses[kind] ??= [])[counter] ??= `pulse ${octal(counter)} ${kind}`;

// What an instrument sees of the machine in its tick. The events wait in `commands`.
class View {
  commands = [];
  #words;

  constructor(words) {
    this.#words = words;
  }

  channel(number) {
    return this.#words.get(number);
  }

  key(name) {
    this.commands.push(`key ${name}`);
  }

  pro(down) {
    this.commands.push(`pro ${down ? 'down' : 'up'}`);
  }

  pulse(counter, kind) {
    this.commands.push(pulseText(counter, kind));
  }

  input(channel, word) {
    this.commands.push(`input ${octal(channel)} ${octal(word, 5)}`);
  }

  raise(number) {
    this.commands.push(`raise ${number}`);
  }

  poke(bank, offset, word) {
    this.commands.push(`poke ${octal(bank)} ${octal(offset)} ${octal(word, 5)}`);
  }
}

export class Ticker {
  controls = []; // buttons that went down or came up: {tick, cycle, instrument, name, down}
  #ticks = 0;
  #marks = new Marks();
  #instruments;
  #channels;
  #words = new Map(); // of these channels
  #areKnown = false; // whether they are the machine's

  constructor(instruments) {
    this.#instruments = instruments;
    this.#channels = [...new Set(instruments.flatMap((each) => each.reads ?? []))];
  }

  get isEmpty() {
    return this.#instruments.length === 0;
  }

  // The cycle of the next tick; infinite if there are no instruments.
  get nextCycle() {
    return this.isEmpty ? Infinity : cycleOfTick(this.#ticks);
  }

  // The same as a list, which is empty if there are no instruments.
  nextCycles() {
    return this.isEmpty ? [] : [this.nextCycle];
  }

  // Ticks the instruments, if their time has come, and returns the commands of their events.
  async tickDue(console) {
    if (console.cycle < this.nextCycle) return [];
    await this.#read(console);
    return this.tickNow(console.cycle);
  }

  // The same without a promise; null if the channels have to be read first.
  tickNow(cycle) {
    if (cycle < this.nextCycle) return [];
    if (!this.#areKnown) return null;
    this.#marks.add(this.#ticks, cycle, (old) => this.#states(old));
    this.#ticks += 1;
    const view = new View(this.#words);
    for (const instrument of this.#instruments) instrument.tick(view, cycle);
    return view.commands;
  }

  // Follows the channels by their writes, which a run reports.
  write(channel, word) {
    this.#words.set(channel, word);
  }

  // After a command that may change channels without saying so they are read anew.
  follow(word) {
    if (word === 'step' || word === 'back' || word === 'input') this.#areKnown = false;
  }

  // Calls an instrument for a button of its panel that goes down or comes up.
  control(instrument, name, down, cycle) {
    const found = this.#instruments[instrument];
    if (!found?.control) throw new RangeError(`no instrument with controls: ${instrument}`);
    const done = found.control(name, down);
    if (!done) throw new RangeError(`no control: '${name.slice(0, 20)}'`);
    if (done !== 'once') this.controls.push({ tick: this.#ticks, cycle, instrument, name, down });
  }

  // Does the controls once more that came before the next tick, of those that were kept.
  controlAgain(controls) {
    for (const { tick, cycle, instrument, name, down } of controls) {
      if (tick === this.#ticks) this.control(instrument, name, down, cycle);
    }
  }

  // How many buttons went down from a cycle on.
  pressedSince(cycle) {
    return this.controls.filter((each) => each.down && each.cycle >= cycle).length;
  }

  // The tick to which the instruments go back for a cycle; the cycle itself if there are none.
  markBefore(cycle) {
    return this.isEmpty ? { tick: 0, cycle, states: [] } : this.#marks.before(cycle);
  }

  // Takes the instruments back to a tick, and returns what that drops.
  goBack({ tick, cycle, states }) {
    const past = {
      states: this.#states(), ticks: this.#ticks, marks: this.#marks.takeFrom(tick),
      controls: this.controls.filter((each) => each.cycle >= cycle),
    };
    this.controls = this.controls.filter((each) => each.cycle < cycle);
    this.#load(states);
    this.#ticks = tick;
    return past;
  }

  // Restores what going back to a cycle has dropped.
  restore(past, cycle) {
    this.#load(past.states);
    this.#marks.takeFrom(Math.ceil((cycle * 3) / 2560));
    this.#marks.addAgain(past.marks);
    this.controls = [...this.controls.filter((each) => each.cycle < cycle), ...past.controls];
    this.#ticks = past.ticks;
  }

  // What the instruments show.
  views() {
    return this.#instruments.map(viewOf);
  }

  // What the instruments showed from the beginning up to the present cycle: [cycle, views from there on].
  pastViews(cycle) {
    const now = this.#states();
    const marks = this.#marks.every(FILMED);
    const step = Math.ceil(marks.length / MOST_FILMED);
    const found = [];
    const add = (at) => {
      const views = this.views().map((view) => Object.fromEntries(FILM_PARTS.filter((part) => part in view).map((part) => [part, view[part]])));
      const line = JSON.stringify(views);
      if (found.at(-1)?.[1] !== line) found.push([at, line]);
    };
    try {
      for (const { cycle: at, states } of marks.filter((_, i) => i % step === 0)) {
        this.#load(states);
        add(at);
      }
    } finally {
      this.#load(now);
    }
    add(cycle);
    return found;
  }

  // What their example needs to build them once more.
  options() {
    return this.#instruments.map((each) => each.options?.() ?? {});
  }

  async #read(console) {
    if (this.#areKnown) return;
    const answers = await console.sayAll(this.#channels.map((each) => `channel ${octal(each)}`));
    answers.forEach(({ lines }, i) => this.#words.set(this.#channels[i], parseInt(lines[0].split(' ')[2], 8)));
    this.#areKnown = true;
  }

  #states(old = []) {
    return this.#instruments.map((each, i) => each.save?.(old[i]));
  }

  #load(states) {
    this.#instruments.forEach((each, i) => each.load?.(states[i]));
  }
}

// What an instrument shows; if it fails or shows too much, what went wrong.
function viewOf(instrument) {
  try {
    const view = instrument.view();
    const { length } = JSON.stringify(view);
    if (length > MOST_BYTES) throw new RangeError(`a view of ${length} bytes: ${MOST_BYTES} at most`);
    return view;
  } catch (error) {
    return { title: instrument.constructor.name, rows: [['failed', String(error)]] };
  }
}

// The states of instruments at past ticks: each of the last ten seconds, one a tenth of a second of the last two hundred, and one a
// second before.
class Marks {
  #levels = KEPT.map(() => []);
  #free = []; // marks that no level has any longer

  // Keeps the states before a tick, which `save` returns; it may fill the states that it gets.
  add(tick, cycle, save) {
    const mark = this.#free.pop() ?? { tick: 0, cycle: 0, states: undefined };
    mark.states = save(mark.states);
    mark.tick = tick;
    mark.cycle = cycle;
    this.#keep(mark);
  }

  // Keeps marks that were taken away, in their order.
  addAgain(marks) {
    marks.forEach((mark) => this.#keep(mark));
  }

  #keep(mark) {
    for (let i = 0; i < KEPT.length && mark.tick % KEPT[i][0] === 0; i += 1) {
      const level = this.#levels[i];
      level.push(mark);
      if (level.length > 2 * KEPT[i][1]) this.#drop(i, level.length - KEPT[i][1]);
    }
  }

  // Drops the oldest marks of a level. Those that the next level does not keep are free: the levels before have newer ones alone.
  #drop(level, count) {
    for (const mark of this.#levels[level].splice(0, count)) if (mark.tick % KEPT[level + 1][0]) this.#free.push(mark);
  }

  // Returns the last mark at a cycle or earlier.
  before(cycle) {
    const found = this.#levels.map((level) => level.findLast((mark) => mark.cycle <= cycle)).filter(Boolean);
    return found.sort((one, other) => other.tick - one.tick)[0] ?? { tick: 0, cycle: 0, states: [] };
  }

  // Returns the marks whose ticks are divisible by a number, in their order.
  every(ticks) {
    const found = new Map(this.#levels.flat().filter((mark) => mark.tick % ticks === 0).map((mark) => [mark.tick, mark]));
    return [...found.values()].sort((one, other) => one.tick - other.tick);
  }

  // Takes the marks from a tick on away, and returns them in their order.
  takeFrom(tick) {
    const taken = this.every(1).filter((mark) => mark.tick >= tick);
    this.#levels = this.#levels.map((level) => level.filter((mark) => mark.tick < tick));
    return taken;
  }
}
