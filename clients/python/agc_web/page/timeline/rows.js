// Returns the number of rising values up to this one.
function countUpTo(values, value) {
  let low = 0;
  let high = values.length;
  while (low < high) {
    const middle = (low + high) >> 1;
    if (values[middle] <= value) low = middle + 1; else high = middle;
  }
  return low;
}

// A row of bars that do not overlap.
class Row {
  constructor(name, bars) {
    this.name = name;
    this.bars = bars;
    this.starts = Float64Array.from(bars, (bar) => bar.from);
    this.ends = Float64Array.from(bars, (bar) => bar.to);
    this.sums = new Float64Array(bars.length + 1); // the cycles of the bars before each
    bars.forEach((bar, i) => { this.sums[i + 1] = this.sums[i] + bar.to - bar.from; });
  }

  // Returns the bar at a cycle, if there is one.
  at(cycle) {
    const bar = this.bars[countUpTo(this.starts, cycle) - 1];
    return bar && cycle < bar.to ? bar : null;
  }

  // Returns how many cycles of the bars lie before a cycle.
  before(cycle) {
    const last = countUpTo(this.starts, cycle) - 1;
    return last < 0 ? 0 : this.sums[last] + Math.min(cycle, this.ends[last]) - this.starts[last];
  }

  // Returns how many cycles of the bars lie in a part of the run.
  within(from, to) {
    return this.before(to) - this.before(from);
  }
}

// A row of points in time.
class Ticks {
  constructor(name, ticks) {
    this.name = name;
    this.ticks = ticks;
    this.cycles = Float64Array.from(ticks, (tick) => tick.cycle);
  }

  // Returns the tick next to a cycle, if it is near.
  near(cycle, distance) {
    const after = countUpTo(this.cycles, cycle);
    const found = [this.ticks[after - 1], this.ticks[after]].filter((tick) => tick && Math.abs(tick.cycle - cycle) <= distance);
    return found.sort((one, other) => Math.abs(one.cycle - cycle) - Math.abs(other.cycle - cycle))[0] ?? null;
  }
}

// The cycles that counters took, by slices of time.
class Stolen {
  constructor(slice, counts, end) {
    this.slice = slice;
    this.sums = new Float64Array(Math.floor(end / slice) + 2);
    for (let i = 0; i + 1 < this.sums.length; i += 1) this.sums[i + 1] = this.sums[i] + (counts.get(i) ?? 0);
    this.most = 0;
    counts.forEach((count) => { this.most = Math.max(this.most, count / slice); });
  }

  // Returns the share of stolen cycles in the slices of a part of the run.
  share(from, to) {
    const first = Math.min(Math.floor(from / this.slice), this.sums.length - 2);
    const last = Math.min(Math.max(first + 1, Math.ceil(to / this.slice)), this.sums.length - 1);
    return (this.sums[last] - this.sums[first]) / ((last - first) * this.slice);
  }
}

const reader = new Reader();
const isRead = reader.read(find('jobs').textContent);
const { run, executive } = reader;
run.end ??= run.from;
const sets = executive.rows.map((bars, set) => new Row(`SET ${set}`, bars));
const idle = new Row('idle', executive.idle);
const services = new Row('interrupts', run.services.filter((service) => service.to !== null));
const tasks = new Ticks('tasks', reader.waitlist.calls);
const alarms = new Ticks('alarms', run.alarms);
const marks = new Ticks('marks', run.hits);
const stolen = new Stolen(run.slice, run.stolen, run.end);
const view = { from: run.from, to: Math.max(run.end, run.from + 1) };
