'use strict';
// The tab Plot: up to six quantities over machine time. Samples are looks at the session, taken as the page follows it; the cursor is
// where time stands, and dragging it takes time there. Going back cuts the curves, and undoing that restores them. Lines across them
// are alarms: cycles at which the PROG lamp went on.

const MOST_SAMPLES = 4096;
const BUCKET = 32; // samples of which thinning keeps the first and each curve's least and greatest
const SAMPLE_EVERY = 200; // milliseconds between two samples at the hardware's pace
const SAMPLE_SOON = 50; // the same, if time goes faster
const JUMP = 8533; // cycles that time may go on while it stands without a gap in the curves
const LEGS = 60; // samples on the way ahead to a cursor
const MOST_CUTS = 20; // cuts that can be undone
const SECONDS = { p: 3n, b: 256000n }; // a cycle's
const noCurves = () => ({ chosen: [], samples: [], alarms: [], cuts: [], isGap: false, isLit: false, cycle: 0, undo: null, wasPlaying: false });

// `chosen` has the columns of quantities; a sample is {cycle, isGap, numbers by column}; an alarm is {since, cycle, isSought}: the PROG lamp
// was dark at one cycle and lit at the other. `epoch` counts how often time went back.
const plot = { ...noCurves(), epoch: 0, turn: Promise.resolve(), timer: null, isStale: false, isBusy: false, dragged: null, going: 0, isDrawing: false };

// samples

// Begins anew with the columns of a session.
function beginPlot() {
  Object.assign(plot, noCurves(), { chosen: quantities.rows.slice(0, MOST_CURVES), epoch: plot.epoch + 1, isLit: isProgLit(), cycle: now.cycle, undo: now.undo });
  buildChoice();
  samplePlot();
}

// Takes a sample when those before it are taken.
function samplePlot() {
  if (!plot.chosen.length) return plot.turn;
  plot.turn = plot.turn.then(takeSample);
  return plot.turn;
}

async function takeSample() {
  const { epoch, chosen } = plot;
  try {
    const { cycle, cells } = await session.look({ cells: [...new Set(chosen.map((column) => column.cells))] });
    if (cells && epoch === plot.epoch && chosen === plot.chosen) addSample(cycle, cells);
  } catch { /* the stream says that the session is gone */ }
}

function addSample(cycle, cells) {
  cutFrom(cycle);
  const numbers = {};
  for (const column of plot.chosen) {
    const words = [cells[column.cells]].flat();
    if (typeof words[0] === 'number') numbers[column.name] = numberOf(words, column);
  }
  plot.samples.push({ cycle, isGap: plot.isGap, numbers });
  plot.isGap = false;
  if (plot.samples.length >= MOST_SAMPLES) plot.samples = thinned(plot.samples);
  drawSoon();
}

// Takes the samples from a cycle on away, and returns them.
function cutFrom(cycle) {
  let count = plot.samples.length;
  while (count && plot.samples[count - 1].cycle >= cycle) count -= 1;
  const cut = plot.samples.splice(count);
  if (cut.length) plot.isGap = cut[0].isGap;
  return cut;
}

// Keeps fewer samples of the older half: of each bucket the first one, and the least and the greatest of each curve.
function thinned(samples) {
  const half = samples.length >> 1;
  const kept = [];
  let isGap = false;
  for (let at = 0; at < half; at += BUCKET) {
    const bucket = samples.slice(at, Math.min(at + BUCKET, half));
    const extremes = extremesOf(bucket);
    for (const sample of bucket) {
      isGap ||= sample.isGap;
      if (extremes.has(sample)) {
        kept.push({ ...sample, isGap });
        isGap = false;
      }
    }
  }
  const [next, ...rest] = samples.slice(half);
  return [...kept, { ...next, isGap: isGap || next.isGap }, ...rest];
}

function extremesOf(bucket) {
  const found = new Set([bucket[0]]);
  for (const name of new Set(bucket.flatMap(({ numbers }) => Object.keys(numbers)))) {
    const those = bucket.filter(({ numbers }) => name in numbers);
    const best = (isBetter) => those.reduce((one, other) => (isBetter(other.numbers[name], one.numbers[name]) ? other : one));
    found.add(best((one, other) => one < other)).add(best((one, other) => one > other));
  }
  return found;
}

// time

// Follows the machine: called with each news of time.
function followPlot(time) {
  if (!plot.chosen.length) return;
  const before = { cycle: plot.cycle, undo: plot.undo, wasPlaying: plot.wasPlaying };
  Object.assign(plot, { cycle: time.cycle, undo: time.undo, wasPlaying: time.playing });
  const wasLit = plot.isLit;
  plot.isLit = isProgLit();
  if (time.cycle < before.cycle) cutFuture(time, before);
  else if (time.undo !== before.undo) restoreFuture(time);
  else {
    if (!time.playing && !before.wasPlaying && time.cycle - before.cycle > JUMP && !plot.isBusy) plot.isGap = true;
    if (plot.isLit && !wasLit) plot.alarms.push({ since: before.cycle, cycle: time.cycle, isSought: false });
  }
  if (time.cycle !== before.cycle) sampleSoon();
  if (!time.playing) drawSoon(); // else with each sample
}

function sampleSoon() {
  plot.isStale = true;
  if (plot.timer !== null) return;
  plot.isStale = false;
  samplePlot();
  plot.timer = setTimeout(() => {
    plot.timer = null;
    if (plot.isStale) sampleSoon();
  }, now.speed > 1 ? SAMPLE_SOON : SAMPLE_EVERY);
}

// Time went back: what came later is cut, and kept for undoing that.
function cutFuture(time, before) {
  plot.epoch += 1;
  const { isGap } = plot;
  const samples = cutFrom(time.cycle + 1);
  const alarms = cutAlarms(time.cycle);
  if (time.undo !== before.undo) plot.cuts = [...plot.cuts.slice(1 - MOST_CUTS), { end: time.undo, before: before.undo, at: time.cycle, samples, alarms, isGap }];
}

// Takes the alarms after a cycle away, and returns them.
function cutAlarms(cycle) {
  const cut = plot.alarms.filter((alarm) => alarm.cycle > cycle);
  plot.alarms = plot.alarms.filter((alarm) => alarm.cycle <= cycle);
  return cut;
}

// Going back was undone: time is where it was before, and so are the curves.
function restoreFuture(time) {
  const cut = plot.cuts.findLast(({ end, before }) => end === time.cycle && before === time.undo);
  if (!cut) return;
  plot.epoch += 1;
  plot.cuts.length = plot.cuts.indexOf(cut);
  if (cut.samples.length) cutFrom(cut.samples[0].cycle);
  plot.samples.push(...cut.samples);
  cutAlarms(cut.at);
  plot.alarms.push(...cut.alarms);
  plot.isGap = cut.isGap;
}

// alarms

const isProgLit = () => (shown.panel?.LAMPS ?? '').split(', ').includes('PROG');

// Finds the cycles of the alarms, by a second console once time stands: two looks at the panel may be far apart.
async function seekAlarms() {
  for (const alarm of plot.alarms.filter(({ isSought }) => !isSought)) {
    alarm.isSought = true;
    const { line } = await session.light({ lamp: 'PROG', since: alarm.since, end: now.cycle }).catch(() => ({}));
    if (line) alarm.cycle = boundary(line).cycle;
    drawSoon();
  }
}

// Draws a line for each alarm, and says when it was.
function drawAlarms(pen, height, view) {
  pen.fillStyle = ALARM_COLOUR;
  for (const { cycle } of plot.alarms) if (cycle >= view.from && cycle <= view.to) pen.fillRect(xOf(cycle, view) - 0.75, 0, 1.5, height - BOTTOM);
  const times = plot.alarms.map(({ cycle }) => `${(cycle / CYCLES_A_SECOND).toFixed(3)} s`).join(', ');
  setText(find('plot-alarms'), times && `Pink: the PROG lamp goes on at ${times}.`);
  if (!now.playing) seekAlarms();
}

// Goes to a cycle. The way ahead is gone in legs, so that the curves have it, until somebody has time go back or run.
async function goByCursor(cycle) {
  plot.going += 1;
  const { going, epoch } = plot;
  if (cycle <= now.cycle || now.playing) {
    await goExactly(cycle);
    return;
  }
  const start = now.cycle;
  const legs = Math.min(LEGS, Math.ceil((cycle - start) / JUMP));
  plot.isBusy = true;
  for (let leg = 1; leg <= legs && plot.going === going && plot.epoch === epoch && !now.playing; leg += 1) {
    if (!await ask('go', { cycle: start + Math.round(((cycle - start) * leg) / legs) })) break;
    await samplePlot();
  }
  plot.isBusy = false;
}

// the cursor

const lastCycle = () => Math.max(now.furthest, now.cycle, 1);
const plotWidth = () => Math.max(1, find('plot-area').clientWidth - LEFT - 8);
const cursorNow = () => plot.dragged ?? now.cycle;

// Returns the cycles that are seen: all, or so many seconds that have the present one.
function viewNow() {
  const span = Number(find('plot-span').value) * CYCLES_A_SECOND;
  if (!span || span >= lastCycle()) return { from: 0, to: lastCycle() };
  const from = Math.max(0, Math.min(now.cycle - span / 2, lastCycle() - span));
  return { from, to: from + span };
}

function xOf(cycle, { from, to }) {
  return LEFT + (plotWidth() * (cycle - from)) / (to - from);
}

function cycleAt(event) {
  const { from, to } = viewNow();
  const x = event.clientX - find('plot-area').getBoundingClientRect().left - LEFT;
  return Math.round(from + Math.min(1, Math.max(0, x / plotWidth())) * (to - from));
}

function dragPlot(event) {
  if (event.type === 'pointerdown') {
    if (event.button !== 0) return;
    find('plot-area').setPointerCapture(event.pointerId);
  } else if (plot.dragged === null) {
    return;
  }
  plot.dragged = cycleAt(event);
  drawSoon();
}

function dropPlot(event) {
  const cycle = plot.dragged;
  plot.dragged = null;
  drawSoon();
  if (cycle !== null && event.type === 'pointerup') goByCursor(cycle);
}

function moveByKey(event) {
  const { from, to } = viewNow();
  const small = Math.max(1, Math.round((to - from) / 100));
  const by = { ArrowLeft: -small, ArrowDown: -small, ArrowRight: small, ArrowUp: small, PageDown: -10 * small, PageUp: 10 * small, Home: -Infinity, End: Infinity }[event.key];
  if (!by) return;
  event.preventDefault();
  if (!pending) goByCursor(Math.min(lastCycle(), Math.max(0, now.cycle + by)));
}

// Returns the sample that holds at a cycle; none within a gap.
function sampleAt(cycle) {
  const after = plot.samples.findIndex((sample) => sample.cycle > cycle);
  const sample = plot.samples.at(after < 0 ? -1 : after - 1);
  return after === 0 || (after > 0 && plot.samples[after].isGap && sample.cycle < cycle) ? undefined : sample;
}

function valueAt(sample, column) {
  const number = sample?.numbers[column.name];
  return `${number === undefined ? '–' : textOf(number, column)} ${column.unit}`.trim();
}

// what is shown

const colourOf = (index) => CURVE_COLOURS[index % MOST_CURVES];

// Makes the buttons that choose quantities.
function buildChoice() {
  find('plot-choice').replaceChildren(...quantities.rows.map((column) => {
    const chooser = make('button', { type: 'button' }, column.name);
    chooser.addEventListener('click', () => choose(column));
    return chooser;
  }));
  showChoice();
}

function showChoice() {
  quantities.rows.forEach((column, i) => find('plot-choice').children[i].setAttribute('aria-pressed', plot.chosen.includes(column)));
  find('plot-area').style.minHeight = `${plot.chosen.length * LEAST_HEIGHT + BOTTOM}px`;
  find('plot-labels').replaceChildren(...plot.chosen.map((column, i) => {
    const label = make('p', {}, make('b', {}, column.name), ' ', make('span'));
    label.style.color = colourOf(i);
    return label;
  }));
  drawSoon();
}

function choose(column) {
  const isChosen = plot.chosen.includes(column);
  setText(find('plot-said'), '');
  if (!isChosen && plot.chosen.length >= MOST_CURVES) {
    setText(find('plot-said'), `At most ${MOST_CURVES} at a time.`);
    return;
  }
  plot.chosen = quantities.rows.filter((each) => (each === column ? !isChosen : plot.chosen.includes(each)));
  showChoice();
  samplePlot();
}

function drawSoon() {
  if (plot.isDrawing || inspector.tab !== 'plot') return;
  plot.isDrawing = true;
  requestAnimationFrame(() => {
    plot.isDrawing = false;
    drawPlot();
  });
}

function drawPlot() {
  const area = find('plot-area');
  const canvas = find('plot-canvas');
  const [width, height, scale] = [area.clientWidth, area.clientHeight, window.devicePixelRatio || 1];
  if (!width || !height) return;
  if (canvas.width !== Math.round(width * scale) || canvas.height !== Math.round(height * scale)) Object.assign(canvas, { width: Math.round(width * scale), height: Math.round(height * scale) });
  const pen = canvas.getContext('2d');
  pen.setTransform(scale, 0, 0, scale, 0, 0);
  pen.clearRect(0, 0, width, height);
  pen.font = '11px system-ui, sans-serif';
  const view = viewNow();
  drawTimes(pen, height, view);
  const each = (height - BOTTOM) / Math.max(1, plot.chosen.length);
  const sample = sampleAt(cursorNow());
  const seen = samplesSeen(view);
  plot.chosen.forEach((column, i) => {
    const label = find('plot-labels').children[i];
    label.style.top = `${i * each}px`;
    setText(label.lastChild, valueAt(sample, column));
    drawCurve(pen, column, colourOf(i), { top: i * each + HEAD, bottom: (i + 1) * each - 4, view, seen });
  });
  drawAlarms(pen, height, view);
  const x = xOf(cursorNow(), view);
  pen.fillStyle = '#fff';
  pen.fillRect(x - 0.75, 0, 1.5, height - BOTTOM);
  sayCursor(sample);
}

function drawTimes(pen, height, view) {
  const [start, end] = [view.from / CYCLES_A_SECOND, view.to / CYCLES_A_SECOND];
  const step = stepOf(end - start, Math.max(2, plotWidth() / 80));
  pen.textAlign = 'center';
  for (const seconds of multiples(start, end, step)) {
    const x = xOf(seconds * CYCLES_A_SECOND, view);
    pen.fillStyle = GRID_COLOUR;
    pen.fillRect(x, 0, 1, height - BOTTOM);
    pen.fillStyle = TEXT_COLOUR;
    pen.fillText(`${axisText(seconds, step)} s`, Math.min(x, LEFT + plotWidth() - 8), height - 4);
  }
}

// Returns the samples that are seen, with one before and one behind them.
function samplesSeen({ from, to }) {
  const all = plot.samples;
  const first = all.findIndex(({ cycle }) => cycle >= from);
  const behind = all.findIndex(({ cycle }) => cycle > to);
  return all.slice(Math.max(0, (first < 0 ? all.length : first) - 1), behind < 0 ? undefined : behind + 1);
}

function drawCurve(pen, column, colour, { top, bottom, view, seen }) {
  const worth = Number(column.p) / Number(column.b);
  const points = seen.filter(({ numbers }) => column.name in numbers).map(({ cycle, isGap, numbers }) => ({ cycle, isGap, amount: numbers[column.name] * worth }));
  const yOf = drawAxis(pen, boundsOf(points.map(({ amount }) => amount)), { top, bottom, width: plotWidth() });
  pen.save();
  pen.beginPath();
  pen.rect(LEFT - 1, top - 2, plotWidth() + 2, bottom - top + 4);
  pen.clip();
  drawLine(pen, points.map(({ cycle, isGap, amount }) => ({ x: xOf(cycle, view), y: yOf(amount), isGap })), colour);
  pen.restore();
}

// Draws a line through points; to one behind a gap there is none.
function drawLine(pen, points, colour) {
  pen.strokeStyle = colour;
  pen.lineWidth = 1.5;
  pen.lineJoin = 'round';
  pen.beginPath();
  points.forEach(({ x, y, isGap }, i) => {
    if (!i || isGap) pen.moveTo(x - 0.5, y);
    pen.lineTo(x, y);
  });
  pen.stroke();
}

// Says where the cursor is, also to a screen reader: of values only if time stands.
function sayCursor(sample) {
  const area = find('plot-area');
  const seconds = `${(cursorNow() / CYCLES_A_SECOND).toFixed(3)} s`;
  const values = plot.chosen.map((column) => `${column.name} ${valueAt(sample, column)}`).join(', ');
  setText(find('plot-time'), plot.dragged === null ? '' : `Go to ${seconds}`);
  area.setAttribute('aria-valuemax', lastCycle());
  if (now.playing) return;
  area.setAttribute('aria-valuenow', cursorNow());
  area.setAttribute('aria-valuetext', `${seconds}: ${values}`);
}

// The samples as CSV, in the form of agc-study sample; of a quantity that was not chosen then the field is empty.
function plotAsCsv() {
  const head = ['cycle', 'seconds', ...plot.chosen.map(({ name }) => name)];
  const rows = plot.samples.map(({ cycle, numbers }) => [cycle, decimalOf(cycle, SECONDS),
    ...plot.chosen.map((column) => (column.name in numbers ? textOf(numbers[column.name], column) : ''))]);
  return [head, ...rows].map((fields) => `${fields.join(',')}${LINE}`).join('');
}

function savePlot() {
  download('quantities.csv', plotAsCsv());
  setText(find('plot-said'), `Saved as quantities.csv: ${grouped(plot.samples.length)} samples.`);
}

function buildPlot() {
  const area = find('plot-area');
  for (const kind of ['pointerdown', 'pointermove']) area.addEventListener(kind, dragPlot);
  for (const kind of ['pointerup', 'pointercancel', 'lostpointercapture']) area.addEventListener(kind, dropPlot);
  area.addEventListener('keydown', moveByKey);
  find('plot-save').addEventListener('click', savePlot);
  find('plot-span').addEventListener('change', drawSoon);
  new ResizeObserver(drawSoon).observe(area);
}
