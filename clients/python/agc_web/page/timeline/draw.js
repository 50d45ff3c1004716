const GUTTER = 84; // the width of the rows' names
const ROW = 20;
const GRAPH = 64;
const BAND = 40;
const AXIS = 24;
const LABEL_FROM = 26; // the width from which a bar has a label
const COLOURS = { grid: '#2b2f30', text: '#b9bab2', used: '#4f9d69', full: '#ff5f52', idle: '#6f7a80', service: '#c7a544', task: '#8ab4f8', alarm: '#ff4fa3', mark: '#ff8f5a', stolen: '#c06bd0' };

const chart = find('chart');
const pen = chart.getContext('2d');
const top0 = 8 + GRAPH + 8;
const lanes = [...sets, idle, services, tasks, alarms, marks].map((row, i) => ({ row, y: top0 + i * ROW }));
const bandTop = top0 + lanes.length * ROW + 8;
const height = bandTop + BAND + AXIS;
let width = 0;

const scale = () => (width - GUTTER) / (view.to - view.from);
const xOf = (cycle) => GUTTER + (cycle - view.from) * scale();
const cycleAt = (x) => view.from + (x - GUTTER) / scale();

const colours = new Map();

// Returns a colour for a name; names that begin alike differ, too.
function colourOf(name, light) {
  const key = `${light} ${name}`;
  if (!colours.has(key)) {
    let sum = 7;
    for (const sign of name) sum = (sum * 31 + sign.codePointAt(0)) % 360;
    colours.set(key, `hsl(${(sum * 47) % 360} 55% ${light}%)`);
  }
  return colours.get(key);
}

// Returns the colour of a bar of a row.
function barColour(row, bar) {
  if (row === idle) return COLOURS.idle;
  if (row === services) return COLOURS.service;
  const light = row === sets[0] ? 62 : 44;
  return colourOf(bar.job.name, bar.state === 'ASLEEP' ? 24 : light);
}

const labelOf = (bar) => (bar.job ? `${bar.job.name} ${bar.priority}` : bar.name ?? '');

// Draws the bars of a row: those of one pixel and more each, the others by pixels.
function drawBars({ row, y }) {
  let i = countUpTo(row.ends, view.from);
  let rectangles = 0;
  while (i < row.bars.length && row.starts[i] < view.to) {
    const left = Math.max(GUTTER, xOf(row.starts[i]));
    const right = Math.min(width, xOf(row.ends[i]));
    pen.fillStyle = barColour(row, row.bars[i]);
    rectangles += 1;
    if (right - left >= 1) {
      pen.fillRect(left, y + 2, right - left, ROW - 4);
      drawLabel(labelOf(row.bars[i]), left, right, y);
      i += 1;
    } else {
      const column = Math.floor(left);
      const [from, to] = [cycleAt(column), cycleAt(column + 1)];
      pen.globalAlpha = 0.2 + 0.8 * Math.min(1, row.within(from, to) / (to - from));
      pen.fillRect(column, y + 2, 1, ROW - 4);
      pen.globalAlpha = 1;
      i = Math.max(i + 1, countUpTo(row.ends, to));
    }
  }
  return rectangles;
}

function drawLabel(text, left, right, y) {
  if (right - left < LABEL_FROM || !text) return;
  pen.save();
  pen.beginPath();
  pen.rect(left, y, right - left - 2, ROW);
  pen.clip();
  pen.fillStyle = '#0b0e0b';
  pen.fillText(text, left + 3, y + ROW / 2);
  pen.restore();
}

// Draws the ticks of a row from a height on, of those in one pixel the first, and the names that have room.
function drawTicks({ row, y }, colour, from) {
  pen.fillStyle = colour;
  for (let i = countUpTo(row.cycles, view.from - 1); i < row.ticks.length && row.cycles[i] <= view.to;) {
    const x = xOf(row.cycles[i]);
    const next = Math.max(i + 1, countUpTo(row.cycles, cycleAt(Math.floor(x) + 1) - 1e-6));
    const room = (next < row.ticks.length ? xOf(row.cycles[next]) : width) - x - 6;
    pen.fillRect(x, from, 1, y + ROW - 2 - from);
    if (next === i + 1 && room > LABEL_FROM && pen.measureText(row.ticks[i].name).width < room) pen.fillText(row.ticks[i].name, x + 3, y + ROW / 2);
    i = next;
  }
}

// Draws how many core sets are in use: in each pixel the most; and where all are.
function drawUsed() {
  const { cycles, counts } = executive.used;
  const full = [];
  pen.fillStyle = COLOURS.used;
  const unit = GRAPH / Math.max(1, sets.length);
  for (let x = GUTTER; x < width; x += 1) {
    let i = countUpTo(cycles, cycleAt(x)) - 1;
    let most = i < 0 ? 0 : counts[i];
    const to = cycleAt(x + 1);
    for (i += 1; i < cycles.length && cycles[i] < to; i += 1) most = Math.max(most, counts[i]);
    if (most === sets.length && most > 0) full.push(x);
    pen.fillRect(x, 8 + GRAPH - most * unit, 1, most * unit);
  }
  pen.fillStyle = COLOURS.full;
  for (const x of full) pen.fillRect(x - 1, 8, 3, GRAPH);
}

// Draws the share of stolen cycles, in the height of the band.
function drawStolen() {
  pen.fillStyle = COLOURS.stolen;
  const most = Math.max(stolen.most, 0.001);
  for (let x = GUTTER; x < width; x += 1) {
    const from = cycleAt(x);
    if (from >= run.end || from < run.from) continue;
    const high = (stolen.share(from, Math.min(cycleAt(x + 1), run.end)) / most) * BAND;
    pen.fillRect(x, bandTop + BAND - high, 1, high);
  }
}

// Draws the seconds below the rows.
function drawAxis() {
  const seconds = (view.to - view.from) / CYCLES_A_SECOND;
  const rough = seconds / Math.max(2, (width - GUTTER) / 110);
  const ten = 10 ** Math.floor(Math.log10(rough));
  const step = [1, 2, 5, 10].map((each) => each * ten).find((each) => each >= rough);
  const digits = Math.max(0, -Math.floor(Math.log10(step) + 1e-9));
  for (let k = Math.ceil(view.from / CYCLES_A_SECOND / step); k * step * CYCLES_A_SECOND <= view.to; k += 1) {
    const x = xOf(k * step * CYCLES_A_SECOND);
    pen.fillStyle = COLOURS.grid;
    pen.fillRect(x, 8, 1, bandTop + BAND - 8);
    pen.fillStyle = COLOURS.text;
    pen.fillText(`${(k * step).toFixed(digits)} s`, x + 3, bandTop + BAND + AXIS / 2);
  }
}

// Draws the names of the rows over what lies left of them.
function drawNames() {
  pen.clearRect(0, 0, GUTTER - 1, height);
  pen.fillStyle = COLOURS.text;
  pen.fillText(`${sets.length} in use`, 6, 8 + 7);
  pen.fillText('core sets 0', 6, 8 + GRAPH - 6);
  for (const { row, y } of lanes) pen.fillText(row === sets[0] ? 'SET 0, runs' : row.name, 6, y + ROW / 2);
  pen.fillText(`${(100 * stolen.most).toFixed(1)} %`, 6, bandTop + 7);
  pen.fillText('stolen', 6, bandTop + BAND - 6);
}

// Draws what is in view.
function draw() {
  const began = performance.now();
  const ratio = window.devicePixelRatio || 1;
  width = chart.clientWidth;
  chart.style.height = `${height}px`;
  chart.width = width * ratio;
  chart.height = height * ratio;
  pen.scale(ratio, ratio);
  pen.font = '11px ui-monospace, monospace';
  pen.textBaseline = 'middle';
  drawAxis();
  let rectangles = 0;
  for (const lane of lanes) {
    if (lane.row === tasks) drawTicks(lane, COLOURS.task, lane.y + 2);
    else if (lane.row === alarms) drawTicks(lane, COLOURS.alarm, 8);
    else if (lane.row === marks) drawTicks(lane, COLOURS.mark, 8);
    else rectangles += drawBars(lane);
  }
  drawUsed();
  drawStolen();
  drawNames();
  const at = (cycle) => `${(cycle / CYCLES_A_SECOND).toFixed(3)} s`;
  find('clock').textContent = `${at(view.from)} to ${at(view.to)} of ${at(run.end)}, cycles ${Math.floor(view.from)} to ${Math.floor(view.to)}`;
  Object.assign(document.body.dataset, { from: view.from, to: view.to, rectangles, drawn: performance.now() - began });
}
