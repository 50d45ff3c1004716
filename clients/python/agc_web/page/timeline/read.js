'use strict';
const CYCLES_A_SECOND = 1024000 / 12;
const LINE = String.fromCharCode(10);
const BACKSLASH = String.fromCharCode(92);
const GAP = 40; // changes of core sets at most this many cycles apart are one step of the Executive,
const LONGEST_STEP = 400; // unless the step is longer than this
const TASKS = 9; // of LST2
const find = (id) => document.getElementById(id);

// Returns a name, in which a backslash with three octal digits stands for a byte.
function readName(text) {
  const bytes = [];
  for (let i = 0; i < text.length; i += 1) {
    const coded = text[i] === BACKSLASH;
    bytes.push(coded ? parseInt(text.slice(i + 1, i + 4), 8) : text.charCodeAt(i));
    if (coded) i += 3;
  }
  return new TextDecoder().decode(Uint8Array.from(bytes));
}

// Returns the contents of a core set, from the words behind its number.
function readSet([state, priority, , loc, , bankset, ...name]) {
  if (state === 'FREE') return null;
  return { state, priority, loc, bankset, name: readName(name.join(' ')) || `${loc} ${bankset}` };
}

const isSame = (one, other) => one === other || (one !== null && other !== null
  && one.state === other.state && one.priority === other.priority && one.loc === other.loc && one.bankset === other.bankset);

// The Executive: what each core set holds, and which job that is. A step of it takes several orders; the sets are looked at
// when it is over.
class Executive {
  constructor() {
    this.now = []; // what the sets hold, as the lines say
    this.settled = []; // the same after the last step
    this.jobs = []; // the job in each set
    this.open = []; // the bar of each set that has not ended
    this.rows = []; // the bars of each set
    this.idle = []; // the stretches in which set 0 holds no ready job
    this.idleFrom = null;
    this.used = { cycles: [], counts: [] };
    this.alive = new Map(); // how many jobs of a name there are
    this.names = new Map(); // of a name how many jobs began, and the most at a time
    this.changed = new Set();
    this.first = this.last = null;
  }

  change(cycle, set, words) {
    if (this.last !== null && (cycle - this.last > GAP || cycle - this.first > LONGEST_STEP)) this.settle();
    if (this.last === null) this.first = cycle;
    this.last = cycle;
    this.now[set] = readSet(words);
    this.changed.add(set);
  }

  // Ends a step: follows the jobs from set to set.
  settle() {
    if (this.last === null) return;
    const before = this.now.map((_, set) => this.settled[set] ?? null);
    const jobs = this.now.map((_, set) => this.jobs[set] ?? null);
    const after = this.follow(before, jobs);
    this.now.forEach((held, set) => { this.jobs[set] = held && (after[set] ?? this.begin(held)); });
    for (const job of jobs) if (job && !this.jobs.includes(job)) this.alive.set(job.name, this.alive.get(job.name) - 1);
    for (const job of this.jobs) if (job && !jobs.includes(job)) this.count(job);
    this.now.forEach((held, set) => this.draw(set, held, jobs[set]));
    this.drawIdle();
    this.used.cycles.push(this.last);
    this.used.counts.push(this.now.filter(Boolean).length);
    this.settled = [...this.now];
    this.changed.clear();
    this.first = this.last = null;
  }

  // Returns the job of each set after a step, or null for one that began in it. Set 0 may have changed places with another.
  follow(before, jobs) {
    const after = this.now.map((held, set) => (before[set] && held ? jobs[set] : null));
    if (!this.changed.has(0)) return after;
    const others = [...this.changed].filter((set) => set > 0);
    const moved = others.find((set) => before[set] && isSame(this.now[0], before[set]));
    if (moved !== undefined) {
      after[0] = jobs[moved];
      after[moved] = this.now[moved] && jobs[0];
      return after;
    }
    const [running, next] = [before[0], this.now[0]];
    const gone = others.find((set) => before[set] === null && this.now[set] && running && next && next.priority !== running.priority
      && this.now[set].priority === running.priority);
    if (gone !== undefined) [after[0], after[gone]] = [null, jobs[0]];
    return after;
  }

  // Begins a job, which has the name of its first place.
  begin(held) {
    const known = this.names.get(held.name) ?? { started: 0, most: 0, cycles: 0 };
    known.started += 1;
    this.names.set(held.name, known);
    return { name: held.name, number: known.started };
  }

  count(job) {
    const alive = (this.alive.get(job.name) ?? 0) + 1;
    this.alive.set(job.name, alive);
    const known = this.names.get(job.name);
    known.most = Math.max(known.most, alive);
  }

  // Ends the bar of a set, and begins another, if its job, its state or its priority changed.
  draw(set, held, job) {
    const open = this.open[set];
    this.rows[set] ??= [];
    if (open && held && job === this.jobs[set] && open.state === held.state && open.priority === held.priority) {
      open.then = held;
      return;
    }
    if (open) open.to = this.last;
    this.open[set] = held && { from: this.last, to: null, job: this.jobs[set], state: held.state, priority: held.priority, place: held, then: held };
    if (held) this.rows[set].push(this.open[set]);
  }

  drawIdle() {
    const isIdle = this.now[0]?.state !== 'READY';
    if (isIdle && this.idleFrom === null) this.idleFrom = this.last;
    if (!isIdle && this.idleFrom !== null) {
      this.idle.push({ from: this.idleFrom, to: this.last });
      this.idleFrom = null;
    }
  }

  end(cycle) {
    this.settle();
    for (const row of this.rows) for (const bar of row.slice(-1)) bar.to ??= cycle;
    if (this.idleFrom !== null) this.idle.push({ from: this.idleFrom, to: cycle });
  }
}

// The Waitlist: T3RUPT takes the first task off LST2, and all behind it move up.
class Waitlist {
  constructor() {
    this.now = Array(TASKS).fill('');
    this.before = null; // LST2 before what T3RUPT does next; null while it is not served
    this.calls = [];
  }

  change(cycle, number, text) {
    this.now[number] = text;
    if (this.before === null) return;
    if (this.before.slice(1).every((task, i) => task === this.now[i])) {
      const [address, banks, ...name] = this.before[0].split(' ');
      this.calls.push({ cycle, name: readName(name.join(' ')) || `${address} ${banks}` });
      this.before = [...this.now];
    } else if (this.hasNewTask()) {
      this.before = [...this.now];
    }
  }

  // Returns whether LST2 is what it was, with a task put in.
  hasNewTask() {
    const at = this.now.findIndex((task, i) => task !== this.before[i]);
    return at >= 0 && this.before.slice(at, TASKS - 1).every((task, i) => task === this.now[at + 1 + i]);
  }

  serve(name) {
    this.before = name === 'T3RUPT' ? [...this.now] : null;
  }
}

// Reads the lines of the run.
class Reader {
  constructor() {
    this.run = { rope: '', script: '', limit: '', from: 0, end: null, reason: '', slice: 1, marks: [], hits: [], alarms: [], services: [], stolen: new Map() };
    this.executive = new Executive();
    this.waitlist = new Waitlist();
  }

  read(text) {
    for (const line of text.split(LINE)) {
      const words = line.split(' ');
      if (words[0] >= '0' && words[0] <= '9~') this.readChange(Number(words[0]), words);
      else this.readAbout(words[0], line.slice(words[0].length + 1));
    }
    return this.run.end !== null;
  }

  readChange(cycle, words) {
    const { services } = this.run;
    const kind = words[1];
    if (kind === 'SET') {
      this.executive.change(cycle, Number(words[2]), words.slice(3));
    } else if (kind === 'LST2') {
      this.waitlist.change(cycle, Number(words[2]), words.slice(3).join(' '));
    } else if (kind === 'RUPT') {
      services.push({ from: cycle, to: null, name: words[2] });
      this.waitlist.serve(words[2]);
    } else if (kind === 'RESUME') {
      if (services.length) services.at(-1).to = cycle;
      this.waitlist.serve('');
    } else if (kind === 'MARK') {
      this.run.hits.push({ cycle, name: this.run.marks[Number(words[2])] });
    } else if (kind === 'ALARM') {
      this.run.alarms.push({ cycle, name: 'PROG' });
    } else if (kind === 'STOLEN') {
      this.run.stolen.set(cycle / this.run.slice, Number(words[2]));
    }
  }

  readAbout(word, rest) {
    const { run } = this;
    if (word === 'stop' || word === 'to') {
      run.end = Number(rest.split(' ')[0]);
      run.reason = rest.split(' ')[1] ?? '';
      for (const service of run.services.slice(-1)) service.to ??= run.end;
      this.executive.end(run.end);
    } else if (word === 'from' || word === 'slice') {
      run[word] = Number(rest);
    } else if (word === 'mark') {
      run.marks.push(readName(rest));
    } else if (word === 'rope' || word === 'script' || word === 'limit') {
      run[word] = readName(rest);
    }
  }
}
