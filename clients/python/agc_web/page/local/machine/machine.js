// The one machine behind the page: a console, its clock, what the user does to it, and news for the page.
//
// It is the session that agc-web has in Python (agc_web/session.py), with the same commands. Its tasks run one after another,
// between pieces of the clock's work.
import { Breakpoints, MOST_BREAKPOINTS, MOST_IGNORED } from './breakpoints.js';
import { Clock, SPEEDS, seconds } from './clock.js';
import { EVENTS } from './console.js';
import { Ended, Fault, Refused, Sure, Unable } from './faults.js';
import { Journal } from './journal.js';
import { KEYS, Keyboard, MOST_WAITING } from './keyboard.js';
import { HISTORY, Rewinder, WARM_UP } from './rewinder.js';
import { answersTo } from './searcher.js';
import { Ticker } from './ticks.js';

const WAKE = 8; // milliseconds between two pieces
const NEWS = 0.02; // seconds between two looks at least,
const NEWS_FAST = 0.04; // and if time goes this many times as fast as the hardware:
const FAST = 100;
const ECHO = 0.1; // seconds after a key in which each piece of the clock's work is shown, so that the lamp lights soon
const AT_ONCE = 500; // events that the console gets in one text
const LONGEST_STEP = 1000000; // cycles that `over` and `finish` may take
const PIECE = 0.1; // seconds that a piece of a session that is run once more should take
const [LEAST_PIECE, MOST_PIECE] = [1000, 1e7]; // its cycles: more than from tick to tick, and few enough for a slow processor
const FULL = 'Time stops: the script is full, with 65,536 events. Going back makes room.';

// Whether the user gave an event. That PRO came up is none: if its going down stays, going back lets it come up.
const isPress = (event) => event.byUser && event.command !== 'pro up';

export class Machine {
  playing = false;
  ended = null; // why the console has ended, if it has
  trouble = ''; // what went wrong last, for the user
  hit = ''; // the breakpoint at which the machine stands, if any
  furthest = 0;
  #console;
  #watch;
  #searcher;
  #news;
  #journal;
  #clock = new Clock();
  #keyboard = new Keyboard();
  #breakpoints;
  #ticker;
  #rewinder;
  #undo = [];
  #isTicking = false; // whether an instrument gives events at the moment
  #replayed = []; // events that are given once more, in their order
  #lastChange = null; // the last panel change that was looked for
  #looked = 0;
  #pressed = -ECHO; // when a key was given to the machine last
  #turn = Promise.resolve();
  #channel = new MessageChannel();

  // Takes over a console at its beginning, with the lines of the script that it began with, and the tables' SPEC or null. `news` is called
  // with a part's name and its value; `searcher` has a second console.
  constructor(console, { base, watch, instruments, news, searcher }) {
    this.#console = console;
    this.#watch = watch;
    this.#searcher = searcher;
    this.#news = news;
    this.#journal = new Journal(base);
    this.#breakpoints = new Breakpoints(console);
    this.#ticker = new Ticker(instruments);
    this.#rewinder = new Rewinder(console, this.#journal, (events) => this.#replayEvents(events));
    this.#channel.port1.onmessage = () => this.#wake();
    console.onAnswer = (command, answer) => this.#answered(command, answer);
    console.onWrite = (channel, word) => this.#ticker.write(channel, word);
    instruments.forEach((each) => each.attach?.(this));
    if (!this.#ticker.isEmpty) this.call(() => console.say('quiet off')); // whose answers say what was written
  }

  // Runs a task when those before it are done, and returns what it returns.
  call(task) {
    const done = this.#turn.then(task);
    this.#turn = done.catch(() => {});
    return done;
  }

  inject(task) {
    return this.call(() => {
      this.#wantConsole();
      return task(this.#console);
    });
  }

  script() {
    return this.#journal.script();
  }

  limit() {
    return this.#journal.limit();
  }

  // What is to be kept of the session, beside its files: where it stands, changed events, and what the instruments need.
  kept() {
    return {
      cycle: this.#console.cycle, changes: this.#journal.changes(), controls: this.#ticker.controls, options: this.#ticker.options(),
      speed: this.#clock.speed, breakpoints: this.#breakpoints.texts,
    };
  }

  // the page's requests

  press = (name) => this.call(() => this.#press(name));
  play = () => this.call(() => this.#play());
  pause = () => this.call(() => this.#pause());
  setSpeed = (times) => this.call(() => this.#setSpeed(times));
  step = () => this.call(() => this.#stepOnce());
  stepByCall = (way) => this.call(() => this.#stepByCall(way));
  goThere = (cycle, sure) => this.call(() => this.#goThere(cycle, sure));
  goBackToChange = (sure) => this.call(() => this.#goBackToChange(sure));
  undo = (sure) => this.call(() => this.#takeBack(sure));
  addBreakpoint = (text) => this.call(() => this.#addBreakpoint(text));
  removeBreakpoint = (text) => this.call(() => this.#removeBreakpoint(text));
  ignoreHits = (text, count) => this.call(() => this.#ignoreHits(text, count));
  control = (instrument, name, down) => this.call(() => this.#control(instrument, name, down));
  look = () => this.call(() => this.#look());
  pastViews = () => this.call(() => (this.#ticker.isEmpty ? [] : this.#ticker.pastViews(this.#console.cycle)));

  // Runs a session once more that was kept: its events, and the controls of instruments, up to a cycle. Throws if they do not
  // fit this rope. `goesOn` is called with the cycle between pieces of the run, and gives a promise whether it goes on; if not, the session
  // stands there, without the events that come later. Returns whether the session came to its end.
  resume({ cycle, events, controls, speed, breakpoints }, goesOn) {
    return this.call(async () => {
      const given = await this.#journal.replay(() => this.#runAgain(events, controls, cycle, goesOn));
      if (events.slice(0, given).some((event, i) => event.cycle !== this.#journal.events[i].cycle)) throw new Unable('its events do not fit this rope');
      this.furthest = this.#console.cycle;
      await this.#rewinder.goTo(this.#console.cycle, this.#journal.events);
      this.#keyboard.find(this.#journal.events);
      for (const text of breakpoints) await this.#breakpoints.add(text);
      if (SPEEDS.includes(speed)) this.#clock.speed = speed;
      return given === events.length && (this.#console.cycle >= cycle || this.#console.stop !== null);
    });
  }

  // Returns how many of the events were given: all, unless the run was broken off.
  async #runAgain(events, controls, cycle, goesOn) {
    const [console, ticker] = [this.#console, this.#ticker];
    const end = events.reduce((last, event) => Math.max(last, event.cycle), cycle);
    let [next, piece, began] = [0, LEAST_PIECE, seconds()];
    const giveUpTo = async (before) => {
      const first = next;
      while (next < events.length && events[next].cycle < before) next += 1;
      await this.#replayEvents(events.slice(first, next));
    };
    while (console.cycle < end && console.stop === null) {
      const tick = ticker.nextCycle < cycle ? ticker.nextCycle : Infinity;
      const target = Math.min(tick, end, console.cycle + piece);
      await giveUpTo(target);
      await console.goTo(target);
      if (console.stop !== null) break;
      if (seconds() - began < PIECE) {
        piece = Math.min(MOST_PIECE, 2 * piece);
      } else if (console.cycle < end) {
        if (!await goesOn(console.cycle)) return next;
        piece = Math.max(LEAST_PIECE, piece >> 2);
        began = seconds();
      }
      if (console.cycle >= tick) {
        ticker.controlAgain(controls);
        await ticker.tickDue(console); // the machine has the events
      }
    }
    ticker.controlAgain(controls);
    await giveUpTo(Infinity);
    return next;
  }

  // the clock's work

  // Lets time run, and shows what is new.
  #wake() {
    this.call(async () => {
      await this.#guarded(() => this.#goOn());
      await this.#guarded(() => this.#lookIfDue());
    }).then(() => { if (this.playing) this.#wakeAgain(); });
  }

  // If time is behind, the next piece comes after the page's messages that wait; a timer would lose four milliseconds.
  #wakeAgain() {
    if (this.#clock.isBehind) this.#channel.port2.postMessage(0);
    else setTimeout(() => this.#wake(), WAKE);
  }

  // Runs a part of the clock's work. What goes wrong stops time and is shown.
  async #guarded(task) {
    try {
      await task();
    } catch (error) {
      if (error instanceof Ended) {
        this.#noteEnd(error);
        return;
      }
      this.trouble = error.fault === 'TooMany' ? FULL : error.message; // of an instrument, or of a full script
      try {
        this.#stand();
        await this.#look();
      } catch (more) {
        if (more instanceof Ended) this.#noteEnd(more); else this.#publishTime();
      }
    }
  }

  #noteEnd(error) {
    this.playing = false;
    this.ended ??= `The machine has ended: ${error.message}`;
    this.#publishTime();
  }

  // Keeps the journal, whoever gave the command.
  #answered(command, answer) {
    const word = command.slice(0, command.indexOf(' '));
    if (EVENTS.has(word)) {
      const byUser = this.#replayed.length ? this.#replayed.shift().byUser : !this.#isTicking;
      this.#journal.add({ cycle: answer.cycle - (word === 'pulse' ? 1 : 0), command, byUser });
    }
    this.#journal.note(answer.cycle, answer.stop);
    this.#ticker.follow(word);
  }

  // Whether events are said apart from what comes after them. A pulse costs a cycle: a key that waits is pressed by where the machine
  // stands then.
  get #isApart() {
    return this.#keyboard.waiting.length > 0 || !this.#breakpoints.isEmpty;
  }

  // Ticks the instruments if they are due, and says these commands after their events.
  async #tickAndSay(commandsOf) {
    const events = await this.#ticker.tickDue(this.#console);
    const isApart = this.#isApart;
    this.#isTicking = true;
    try {
      if (isApart) await this.#console.sayAll(events);
      else await this.#console.sayAll([...events, ...commandsOf()]);
    } finally {
      this.#isTicking = false;
    }
    return !isApart;
  }

  // Gives events to the console once more, each at its cycle, for whoever gave them.
  async #replayEvents(events) {
    for (let first = 0; first < events.length; first += AT_ONCE) {
      const part = events.slice(first, first + AT_ONCE);
      this.#replayed = [...part];
      try {
        await this.#console.sayAll(part.flatMap((event) => [`go to ${event.cycle}`, event.command]));
      } finally {
        this.#replayed = [];
      }
    }
  }

  // time

  // Goes on as far as the clock says, in a piece that is soon over.
  async #goOn() {
    if (!this.playing) return;
    const [began, here] = [seconds(), this.#console.cycle];
    await this.#advance(this.#clock.due(here));
    this.#clock.measure(seconds() - began, this.#console.cycle - here, this.#console.cycle);
    if (this.#console.stop !== null) await this.#standAtStop();
  }

  // Goes on to a cycle, with the keys that wait, the ticks of instruments and the breakpoints on the way.
  async #advance(target) {
    while (this.playing && this.#console.stop === null && this.#console.cycle < target) {
      if (!this.#isApart) {
        await this.#tickOn(target);
        continue;
      }
      await this.#pressDue();
      const next = () => Math.min(target, ...this.#nextCycles());
      if (await this.#tickAndSay(() => [`go to ${next()}`])) continue;
      const hit = await this.#breakpoints.goTo(next());
      if (hit !== null) {
        this.#stand();
        await this.#showAnew();
        this.hit = hit;
        await this.#look();
      }
    }
    this.furthest = Math.max(this.furthest, this.#console.cycle);
  }

  // Goes on to a cycle, tick by tick, while no key waits and there are no breakpoints. The console answers at once, so that nothing is
  // waited for: ten thousand ticks a second are a hundred times the hardware's pace.
  async #tickOn(target) {
    const [console, ticker] = [this.#console, this.#ticker];
    while (console.stop === null && console.cycle < target) {
      const commands = ticker.tickNow(console.cycle) ?? await ticker.tickDue(console);
      commands.push(`go to ${Math.min(target, ticker.nextCycle)}`);
      this.#isTicking = true;
      try {
        const answers = console.sayNow(commands);
        if (answers instanceof Promise) await answers;
      } finally {
        this.#isTicking = false;
      }
    }
  }

  // The cycles at which a key or a tick is due next.
  #nextCycles() {
    return [...this.#keyboard.nextCycles(this.#console.cycle), ...this.#ticker.nextCycles()];
  }

  #play() {
    this.#wantMachine();
    if (this.playing) return;
    this.playing = true;
    this.hit = '';
    this.trouble = '';
    this.#clock.start(this.#console.cycle);
    this.#publishTime();
    this.#wake();
  }

  // Stops time. The boundaries that are shown are a hundred more, which take some milliseconds of machine time; with breakpoints,
  // which they might run past, and with instruments, whose ticks would come late, they are found by running anew.
  async #pause() {
    if (!this.playing) return;
    this.#stand();
    if (this.#breakpoints.texts.length || !this.#ticker.isEmpty) {
      await this.#showAnew();
    } else {
      this.#rewinder.history = await this.#console.step(HISTORY);
      this.furthest = Math.max(this.furthest, this.#console.cycle);
    }
    await this.#look();
  }

  // Stops the clock.
  #stand() {
    this.playing = false;
    this.#clock.pace = 0;
  }

  // Finds the last boundaries by running them once more.
  async #showAnew() {
    await this.#rewinder.goTo(this.#console.cycle, this.#journal.events);
    this.#keyboard.find(this.#journal.events);
  }

  // Shows the way to a stop of the machine: its last boundaries are run once more.
  async #standAtStop() {
    this.#stand();
    this.#keyboard.waiting = [];
    await this.#rewinder.goTo(this.#console.cycle, this.#journal.events);
    while (!this.#rewinder.history.at(-1)?.includes(' - stop ')) this.#rewinder.keep(await this.#console.step());
    this.#keyboard.find(this.#journal.events);
    await this.#look();
  }

  #setSpeed(times) {
    if (!SPEEDS.includes(times)) throw new RangeError(`speed ${times}: 1, 10, 100 or 1000`);
    this.#clock.speed = times;
    this.#clock.start(this.#console.cycle);
    this.#publishTime();
  }

  // Stops time, and does what is due at this cycle.
  async #beginStep() {
    this.#wantMachine();
    if (this.playing) await this.#pause();
    this.hit = '';
    this.trouble = '';
    await this.#pressDue();
    await this.#tickAndSay(() => []);
  }

  async #stepOnce() {
    await this.#beginStep();
    this.#rewinder.keep(await this.#console.step());
    this.furthest = Math.max(this.furthest, this.#console.cycle);
    await this.#look();
  }

  // Goes on by `over` or `finish`, as the console has them; time stops. Keys that wait go on waiting. If instruments tick on the way, it
  // goes on farther and farther until the script shows the end, and back to there.
  async #stepByCall(way) {
    await this.#beginStep();
    const [{ cycle }, comes, { waiting }] = [this.#console, await this.#console.next(), this.#keyboard];
    this.#keyboard.waiting = [];
    let length = Math.min(LONGEST_STEP, ...this.#ticker.nextCycles().map((tick) => tick - cycle));
    const endNow = async () => (await this.#searcher.answers(this.script(), cycle, comes, [`${way} within ${length}`]))[0];
    let end = await endNow();
    const came = () => end.lines?.includes('came yes');
    while (!end.error && !came() && length < LONGEST_STEP && this.#console.stop === null) {
      length = Math.min(LONGEST_STEP, 4 * length);
      await this.#goAhead(cycle + length);
      end = await endNow();
    }
    await this.#comeTo(end.cycle);
    this.#keyboard.waiting = waiting;
    if (end.error) throw new Fault(end.error);
    if (!came()) this.trouble = `${way.split(' ')[0]} did not come to its end in ${LONGEST_STEP.toLocaleString('en')} cycles`;
    await this.#look();
  }

  // Goes on to a cycle, or back to it, which no undo brings back.
  async #comeTo(cycle) {
    if (cycle < this.#console.cycle) {
      await this.#goBack(cycle, true);
      this.#undo.pop();
    }
    if (this.#console.cycle < cycle) await this.#goAhead(cycle);
    this.furthest = Math.max(this.furthest, this.#console.cycle);
  }

  #wantConsole() {
    if (this.ended !== null) throw new Unable(this.ended);
  }

  #wantMachine() {
    this.#wantConsole();
    if (this.#console.stop !== null) throw new Unable(`the machine has stopped (${this.#console.stop}): go back first`);
  }

  // keys and buttons

  async #press(name) {
    if (![...KEYS, 'PRO', 'PRO up'].includes(name)) throw new RangeError(`no key: '${name}'`);
    this.#wantMachine();
    if (name === 'PRO up' && !this.#keyboard.proComesDown) return;
    if (this.#keyboard.isFull) throw new Unable(`${MOST_WAITING} keys wait already`);
    this.#keyboard.waiting.push(name);
    await this.#pressDue();
    if (!this.playing) await this.#look();
  }

  // Presses the key that waits first, if the key before it was long enough ago.
  async #pressDue() {
    if (!this.#keyboard.isDue(this.#console.cycle)) return;
    const name = this.#keyboard.waiting[0];
    try {
      await this.#keyboard.pressNext(this.#console);
      this.#pressed = seconds();
    } catch (error) {
      if (!(error instanceof Refused)) throw error;
      this.#keyboard.waiting = [];
      this.trouble = `${name} was not taken: ${error.message}`;
      this.#publishTime();
      return;
    }
    if (this.playing) return;
    const last = this.#journal.events.at(-1);
    this.#rewinder.keep([`${last.cycle} - ${last.command}`]);
  }

  async #control(instrument, name, down) {
    this.#ticker.control(instrument, name, down, this.#console.cycle);
    await this.#look();
  }

  // back, on, and undo

  async #goThere(cycle, sure) {
    this.#wantConsole();
    if (cycle < this.#console.cycle) await this.#goBack(Math.max(0, cycle), sure);
    else if (this.#console.cycle < this.furthest) await this.#goAhead(Math.min(cycle, this.furthest));
    else await this.#pause();
  }

  async #goBackToChange(sure) {
    this.#wantConsole();
    const now = [this.#console.cycle, this.#journal.events.length, this.#undo.length].join();
    if (this.#lastChange?.now !== now) this.#lastChange = { now, cycle: await this.#rewinder.lastChange() };
    const { cycle } = this.#lastChange;
    if (cycle === null) throw new Unable('the panel has not changed before now');
    await this.#goBack(cycle, sure);
  }

  // Goes on to a cycle as fast as it can, with keys and ticks on the way, and keeps the last boundaries.
  async #goAhead(cycle) {
    this.#wantMachine();
    this.#stand();
    this.hit = '';
    this.trouble = '';
    if (cycle - this.#console.cycle > WARM_UP) this.#rewinder.history = [];
    while (this.#console.cycle < cycle && this.#console.stop === null) {
      await this.#pressDue();
      const stageNow = () => Math.min(cycle, ...this.#nextCycles());
      const soon = () => [`go to ${Math.max(this.#console.cycle, Math.min(stageNow(), cycle - WARM_UP))}`];
      if (!await this.#tickAndSay(soon)) await this.#console.sayAll(soon());
      const stage = stageNow();
      if (this.#console.cycle >= cycle - WARM_UP) await this.#rewinder.stepTo(stage);
    }
    await this.#look();
  }

  // Goes back to a cycle, and drops what was injected since.
  async #goBack(to, sure) {
    const mark = this.#ticker.markBefore(to);
    const { cycle } = mark;
    const end = this.#console.cycle;
    const first = this.#journal.countBefore(cycle);
    const dropped = this.#journal.events.slice(first);
    const waiting = this.#keyboard.waiting.filter((name) => name !== 'PRO up');
    const count = dropped.filter(isPress).length + waiting.length + this.#ticker.pressedSince(cycle);
    if (count && !sure) throw new Sure(count);
    this.#stand();
    this.#keyboard.waiting = [];
    this.hit = '';
    this.trouble = '';
    await this.#rewinder.goTo(cycle, this.#journal.events.slice(0, first));
    this.#undo.push({ start: cycle, end, events: dropped, past: this.#ticker.goBack(mark) });
    this.#keyboard.find(this.#journal.events);
    if (this.#keyboard.proDown) await this.#keyboard.releasePro(this.#console);
    await this.#look();
  }

  // Restores what the last going back dropped.
  async #takeBack(sure) {
    this.#wantConsole();
    const undo = this.#undo.at(-1);
    if (!undo) throw new Unable('there is nothing to undo');
    const since = this.#journal.events.slice(this.#journal.countBefore(undo.start));
    const count = since.filter(isPress).length + this.#ticker.pressedSince(undo.start);
    if (count && !sure) throw new Sure(count);
    this.#undo.pop();
    this.#stand();
    this.#keyboard.waiting = [];
    await this.#rewinder.restore(undo.start, undo.events, undo.end);
    this.#keyboard.find(this.#journal.events);
    this.#ticker.restore(undo.past, undo.start);
    await this.#look();
  }

  // breakpoints

  async #addBreakpoint(given) {
    const text = given.split(/\s+/).filter(Boolean).join(' ');
    if (!text || text.length > 80 || !/^[ -~]+$/.test(text)) throw new RangeError('a breakpoint is a place, `write CCC` or `cell PLACE`');
    if (this.#breakpoints.texts.includes(text)) return;
    this.#wantConsole();
    if (this.#breakpoints.isFull) throw new Unable(`there are ${MOST_BREAKPOINTS} breakpoints already`);
    await this.#breakpoints.add(text);
    this.#publishTime();
  }

  async #removeBreakpoint(text) {
    this.#wantConsole();
    await this.#breakpoints.remove(text);
    this.#publishTime();
  }

  #ignoreHits(text, count) {
    if (!this.#breakpoints.texts.includes(text)) throw new RangeError(`no breakpoint: '${text.slice(0, 80)}'`);
    if (!Number.isInteger(count) || count < 0 || count > MOST_IGNORED) throw new RangeError('hits to ignore are 0 to 1,000,000');
    this.#breakpoints.ignore(text, count);
    this.#publishTime();
  }

  // what the page is shown

  // Says lines that change nothing to the console. Returns the cycle, and the `answers` as `answersTo` does.
  say(lines) {
    return this.inject(async (console) => ({ cycle: console.cycle, answers: await answersTo(console, lines) }));
  }

  // Says lines to a second console with the session's script: before a cycle of the past or, if there is none, where the machine
  // stands, which stays there. Returns the cycle at which it stands, and the `answers`.
  search(lines, before) {
    return this.inject(async (console) => {
      const place = before === undefined ? [console.cycle, await console.next()] : [Math.max(0, Math.min(before, console.cycle)), null];
      return { cycle: console.cycle, answers: await this.#searcher.answers(this.script(), ...place, lines) };
    });
  }

  async #lookIfDue() {
    if (this.playing && seconds() - this.#looked >= this.#newsAfter()) await this.#look();
  }

  #newsAfter() {
    if (this.#clock.speed >= FAST) return NEWS_FAST;
    return seconds() - this.#pressed < ECHO ? 0 : NEWS;
  }

  // Looks at the machine, and publishes what it shows.
  async #look() {
    this.#looked = seconds();
    if (this.ended === null) await this.#lookInside();
    this.#publishTime();
  }

  async #lookInside() {
    const commands = ['panel', 'next', 'registers', ...(this.#watch === null ? [] : [`watch ${this.#watch}`])];
    const [panel, next, registers, tables] = await this.#console.sayAll(commands);
    this.#news('panel', Object.fromEntries(panel.lines.map((line) => [line.split(' ', 1)[0], line.slice(line.indexOf(' ') + 1)])));
    const words = registers.lines[0].split(' ');
    const numbers = words.flatMap((word, i) => (i % 2 ? [] : [[word.toLowerCase(), parseInt(words[i + 1], 8)]]));
    this.#news('machine', { next: next.lines[0].slice('next '.length), registers: Object.fromEntries(numbers) });
    if (tables) this.#news('tables', tables.lines);
    if (!this.#ticker.isEmpty) this.#news('instruments', this.#ticker.views());
    const stands = !this.playing;
    this.#news('history', stands ? this.#rewinder.history : []);
    this.#news('ahead', stands && this.#console.stop === null ? await this.#rewinder.ahead() : []);
  }

  // Publishes where time stands.
  #publishTime() {
    this.#news('breakpoints', this.#breakpoints.texts);
    this.#news('ignored', this.#breakpoints.ignored);
    this.#news('time', {
      cycle: this.#console.cycle, furthest: Math.max(this.furthest, this.#console.cycle), playing: this.playing,
      speed: this.#clock.speed, pace: Math.round(100 * this.#clock.pace) / 100, stop: this.#console.stop, ended: this.ended,
      trouble: this.trouble, hit: this.hit, waiting: this.#keyboard.waiting.length, pro: this.#keyboard.proComesDown,
      events: this.#journal.events.length, limit: this.#journal.limit(), undo: this.#undo.at(-1)?.end ?? null,
    });
  }
}
