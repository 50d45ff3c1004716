const SHORTEST = 40; // cycles in view
const AROUND_ALARM = 85333; // cycles that the button of an alarm shows: a second
const MOST_LISTED = 50; // alarms that have a button
const STILL = 4; // points that the pointer may move in a click

let isAwaited = false; // whether a drawing is due with the next frame of the browser
let dragged = null;

// Shows a part of the run, as near as it can be.
function show(from, length) {
  const most = Math.max(1, run.end - run.from);
  const size = Math.min(Math.max(length, Math.min(SHORTEST, most)), most);
  view.from = Math.min(Math.max(from, run.from), run.from + most - size);
  view.to = view.from + size;
  if (isAwaited) return;
  isAwaited = true;
  requestAnimationFrame(() => {
    isAwaited = false;
    draw();
  });
}

// Zooms by a factor, and keeps the cycle at a place of the chart where it is.
function zoom(factor, x) {
  const length = (view.to - view.from) * factor;
  const share = Math.min(Math.max((x - GUTTER) / (width - GUTTER), 0), 1);
  show(cycleAt(GUTTER + share * (width - GUTTER)) - share * length, length);
}

const middle = () => GUTTER + (width - GUTTER) / 2;
const move = (share) => show(view.from + share * (view.to - view.from), view.to - view.from);

const ACTIONS = {
  left: () => move(-0.25),
  right: () => move(0.25),
  in: () => zoom(0.5, middle()),
  out: () => zoom(2, middle()),
  all: () => show(run.from, run.end - run.from),
};
const SHORTCUTS = { ArrowLeft: 'left', ArrowRight: 'right', '+': 'in', '=': 'in', '-': 'out', Home: 'all' };

function onKey(event) {
  const name = SHORTCUTS[event.key];
  if (!name || event.ctrlKey || event.altKey || event.metaKey) return;
  event.preventDefault();
  ACTIONS[name]();
}

function onWheel(event) {
  event.preventDefault();
  if (Math.abs(event.deltaX) > Math.abs(event.deltaY)) move(event.deltaX / (width - GUTTER));
  else zoom(1.0015 ** event.deltaY, event.offsetX);
}

// Returns how long something takes, in words.
function spanOf(from, to) {
  return `cycles ${from} to ${to}: ${to - from} cycles, ${((to - from) * 1000 / CYCLES_A_SECOND).toFixed(3)} ms`;
}

// Returns what a bar is, a line for each fact.
function aboutBar(row, bar) {
  const lines = [];
  if (row === services) {
    lines.push(`${bar.name}: an interrupt`);
  } else if (row === idle) {
    lines.push('idle: set 0 holds no job that may run');
  } else {
    lines.push(`${row.name}: ${bar.job.name} (number ${bar.job.number} of this name), priority ${bar.priority}, ${bar.state.toLowerCase()}`);
    const ends = isSame(bar.place, bar.then) ? '' : `, at the end ${placeOf(bar.then)}`;
    lines.push(`LOC ${placeOf(bar.place)}${ends}`);
  }
  lines.push(`from ${spanOf(bar.from, bar.to)}`);
  if (row === sets[0] || row === idle) lines.push(`of these ${services.within(bar.from, bar.to)} cycles in interrupts`);
  return lines.join(LINE);
}

const placeOf = ({ loc, bankset, name }) => (name.startsWith(loc) ? name : `${loc} ${bankset} ${name}`);

// What a tick of a row is.
const TICKS = new Map([[tasks, 'a task that T3RUPT calls'], [alarms, 'an alarm: the PROG lamp goes on'], [marks, 'a marked order']]);

// Returns the tick at a place of the chart, or nothing.
function tickAt(x, y) {
  const lane = lanes[Math.floor((y - top0) / ROW)];
  return lane?.row instanceof Ticks ? lane.row.near(cycleAt(x), 5 / scale()) : null;
}

// Returns what is at a place of the chart, or nothing.
function aboutPlace(x, y) {
  const cycle = cycleAt(x);
  if (x < GUTTER) return '';
  if (y < top0) {
    const { cycles, counts } = executive.used;
    return `cycle ${Math.floor(cycle)}: ${counts[countUpTo(cycles, cycle) - 1] ?? 0} of ${sets.length} core sets in use`;
  }
  const lane = lanes[Math.floor((y - top0) / ROW)];
  if (!lane) {
    const share = stolen.share(cycle, Math.min(cycle + 1, run.end));
    return y < bandTop ? '' : `cycle ${Math.floor(cycle)}: counters take ${(100 * share).toFixed(1)} of 100 cycles, in a slice of ${run.slice} cycles`;
  }
  if (lane.row instanceof Ticks) {
    const tick = tickAt(x, y);
    return tick ? `${tick.name}: ${TICKS.get(lane.row)}${LINE}at cycle ${tick.cycle}, ${(tick.cycle / CYCLES_A_SECOND).toFixed(6)} s` : '';
  }
  const bar = lane.row.at(cycle) ?? lane.row.at(cycleAt(x + 1));
  return bar ? aboutBar(lane.row, bar) : '';
}

function onMove(event) {
  if (dragged) show(dragged.from - (event.offsetX - dragged.x) / dragged.scale, view.to - view.from);
  else find('about').textContent = aboutPlace(event.offsetX, event.offsetY) || 'Point at a bar.';
}

function onDown(event) {
  dragged = { x: event.offsetX, y: event.offsetY, from: view.from, scale: scale() };
  chart.setPointerCapture(event.pointerId);
  chart.classList.add('dragged');
}

function onUp(event) {
  if (dragged && event.type === 'pointerup' && Math.hypot(event.offsetX - dragged.x, event.offsetY - dragged.y) < STILL) choose(event.offsetX, event.offsetY);
  dragged = null;
  chart.classList.remove('dragged');
}

// Names the cycle that is clicked to the page that shows the timeline inside, if one does.
function choose(x, y) {
  if (window.parent === window || x < GUTTER) return;
  const cycle = tickAt(x, y)?.cycle ?? Math.round(Math.min(Math.max(cycleAt(x), run.from), run.end));
  window.parent.postMessage({ timeline: 'cycle', cycle }, '*');
}

// Fills the table of the jobs by name, those first that had the processor most.
function fillTable() {
  for (const bar of executive.rows[0] ?? []) executive.names.get(bar.job.name).cycles += bar.to - bar.from - services.within(bar.from, bar.to);
  const length = Math.max(1, run.end - run.from);
  const all = [...executive.names].sort(([, one], [, other]) => other.cycles - one.cycles);
  for (const [name, { started, most, cycles }] of all.slice(0, 200)) {
    const line = document.createElement('tr');
    for (const text of [name, started, most, cycles, `${(100 * cycles / length).toFixed(1)} %`]) {
      line.append(Object.assign(document.createElement('td'), { textContent: text }));
    }
    find('jobs-table').append(line);
  }
}

// Lists the alarms, each with a button that shows the run around it.
function listAlarms() {
  if (!run.alarms.length) return;
  const { alarms: all } = run;
  const rest = all.length > MOST_LISTED ? `, and ${all.length - MOST_LISTED} more` : '';
  find('alarms').append('Alarms, at which the PROG lamp goes on: ', ...all.slice(0, MOST_LISTED).map(({ cycle }) => {
    const text = `${(cycle / CYCLES_A_SECOND).toFixed(3)} s, cycle ${cycle}`;
    const button = Object.assign(document.createElement('button'), { textContent: text });
    button.addEventListener('click', () => show(cycle - AROUND_ALARM / 2, AROUND_ALARM));
    return button;
  }), rest);
}

// '#from=5100000&to=5330000' shows these cycles; another text is ignored.
function followHash() {
  const asked = new URLSearchParams(location.hash.slice(1));
  const [from, to] = ['from', 'to'].map((name) => (/^[0-9]+$/.test(asked.get(name) ?? '') ? Number(asked.get(name)) : NaN));
  if (from < to) show(from, to - from);
}

function start() {
  find('title').textContent = `Executive timeline, limit ${run.limit}`;
  document.title = `${run.rope}, ${run.script}; limit ${run.limit}`;
  for (const [name, action] of Object.entries(ACTIONS)) find(name).addEventListener('click', action);
  document.addEventListener('keydown', onKey);
  chart.addEventListener('wheel', onWheel, { passive: false });
  chart.addEventListener('pointerdown', onDown);
  chart.addEventListener('pointermove', onMove);
  for (const kind of ['pointerup', 'pointercancel']) chart.addEventListener(kind, onUp);
  window.addEventListener('resize', draw);
  window.addEventListener('hashchange', followHash);
  document.body.classList.toggle('framed', window.parent !== window);
  fillTable();
  listAlarms();
  draw();
  followHash();
}

if (isRead) {
  start();
} else {
  find('trouble').textContent = 'This timeline cannot be read: the file is cut off, or the browser cannot hold it. A timeline of a part, by --from and --to, is shorter.';
  find('page').hidden = true;
}
