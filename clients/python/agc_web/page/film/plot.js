// The plot beside or below the DSKY: columns of the table in the block `samples` over the time of the film, with a cursor at the film's cycle.
const STRIP = 84; // pixels of a curve
const PROG_ROW = 12;
const PROG_BIT = 9;

const source = find('samples').textContent.slice(LINE.length);
const table = readSamples(source.includes(BACKSLASH) ? readName(source) : source);
const plot = { chosen: [], isDragged: false };

// Returns the cycles at which the PROG lamp goes on. If a part of a run begins with the lamp on, it went on before.
function alarmsOf(run) {
  const found = [];
  let isLit = false;
  run.words.forEach((word, i) => {
    if (Math.floor(word / WORD_SIZE) !== PROG_ROW) return;
    const wasLit = isLit || (run.from > 0 && run.cycles[i] === run.from);
    isLit = (word >> (PROG_BIT - 1)) % 2 === 1;
    if (isLit && !wasLit) found.push(run.cycles[i]);
  });
  return found;
}

const alarms = alarmsOf(runs[0]);

function element(tag, attributes, ...children) {
  const made = document.createElement(tag);
  for (const [name, value] of Object.entries(attributes)) made.setAttribute(name, value);
  made.append(...children);
  return made;
}

// the time

const plotWidth = () => Math.max(1, find('plot-area').clientWidth - LEFT - 8);
const plotHeight = () => plot.chosen.length * STRIP + BOTTOM;
const xOf = (cycle) => LEFT + (plotWidth() * (cycle - begin)) / Math.max(1, end - begin);

function cycleAt(event) {
  const x = event.clientX - find('plot-area').getBoundingClientRect().left - LEFT;
  return Math.round(begin + Math.min(1, Math.max(0, x / plotWidth())) * (end - begin));
}

function drag(event) {
  if (event.type === 'pointerdown' && event.button === 0) {
    find('plot-area').setPointerCapture(event.pointerId);
    plot.isDragged = true;
  }
  if (plot.isDragged) go(cycleAt(event));
}

function drop() {
  plot.isDragged = false;
}

// The keys of a slider; those of the film that are others stay the film's.
function moveByKey(event) {
  const small = Math.max(1, Math.round((end - begin) / 100));
  const by = { ArrowLeft: -small, ArrowDown: -small, ArrowRight: small, ArrowUp: small, PageDown: -10 * small, PageUp: 10 * small }[event.key];
  if (!by) return;
  event.preventDefault();
  event.stopPropagation();
  go(Math.floor(now) + by);
}

// what is drawn

function drawTimes(pen, height) {
  const [first, last] = [begin / CYCLES_A_SECOND, Math.max(end, begin + 1) / CYCLES_A_SECOND];
  const step = stepOf(last - first, Math.max(2, plotWidth() / 80));
  pen.textAlign = 'center';
  for (const seconds of multiples(first, last, step)) {
    const x = xOf(seconds * CYCLES_A_SECOND);
    pen.fillStyle = GRID_COLOUR;
    pen.fillRect(x, 0, 1, height - BOTTOM);
    pen.fillStyle = TEXT_COLOUR;
    pen.fillText(`${axisText(seconds, step)} s`, Math.min(x, LEFT + plotWidth() - 8), height - 4);
  }
}

// Draws a curve: of the rows in one point of the width the first, the least, the greatest and the last. At an empty field it breaks.
function drawCurve(pen, amounts, rows, yOf) {
  let isBroken = true;
  const line = (x, amount) => {
    if (isBroken) pen.moveTo(x - 0.5, yOf(amount));
    pen.lineTo(x, yOf(amount));
    isBroken = false;
  };
  pen.beginPath();
  for (let i = rows.first; i < rows.behind;) {
    const x = xOf(table.cycles[i]);
    let [least, greatest, last] = [amounts[i], amounts[i], i];
    while (last + 1 < rows.behind && xOf(table.cycles[last + 1]) - x < 0.5 && !Number.isNaN(amounts[last + 1])) {
      last += 1;
      least = Math.min(least, amounts[last]);
      greatest = Math.max(greatest, amounts[last]);
    }
    if (Number.isNaN(amounts[i])) isBroken = true;
    else for (const amount of new Set([amounts[i], least, greatest, amounts[last]])) line(x, amount);
    i = last + 1;
  }
  pen.stroke();
}

function drawStrip(pen, column, i, rows) {
  const [top, bottom] = [i * STRIP + HEAD, (i + 1) * STRIP - 4];
  const amounts = amountsOf(column);
  const yOf = drawAxis(pen, boundsOf(amounts.subarray(rows.first, rows.behind).filter((amount) => !Number.isNaN(amount))), { top, bottom, width: plotWidth() });
  pen.save();
  pen.beginPath();
  pen.rect(LEFT - 1, top - 2, plotWidth() + 2, bottom - top + 4);
  pen.clip();
  Object.assign(pen, { strokeStyle: CURVE_COLOURS[i], lineWidth: 1.5, lineJoin: 'round' });
  drawCurve(pen, amounts, rows, yOf);
  pen.restore();
}

function draw() {
  const canvas = find('plot-canvas');
  const scale = window.devicePixelRatio || 1;
  const height = plotHeight();
  find('plot-area').style.height = `${height}px`;
  Object.assign(canvas, { width: Math.round(find('plot-area').clientWidth * scale), height: Math.round(height * scale) });
  const pen = canvas.getContext('2d');
  pen.scale(scale, scale);
  pen.font = '11px system-ui, sans-serif';
  drawTimes(pen, height);
  // the rows of the film's time, with one before and one behind it
  const rows = { first: Math.max(0, lastUpTo(table.cycles, begin)), behind: Math.min(table.cycles.length, lastUpTo(table.cycles, end) + 2) };
  plot.chosen.forEach((column, i) => drawStrip(pen, column, i, rows));
  pen.fillStyle = ALARM_COLOUR;
  for (const cycle of alarms) pen.fillRect(xOf(cycle) - 0.75, 0, 1.5, height - BOTTOM);
  follow();
}

// Sets the cursor to the film's cycle, with the values of the last row up to it. A screen reader gets them while the film stands.
function follow() {
  const row = lastUpTo(table.cycles, now);
  const area = find('plot-area');
  find('plot-cursor').style.left = `${xOf(now)}px`;
  const values = plot.chosen.map((column, i) => {
    const value = column.fields[row] || '–';
    find('plot-labels').children[i].lastChild.textContent = value;
    return `${column.name} ${value}`;
  });
  if (document.body.classList.contains('playing')) return;
  area.setAttribute('aria-valuenow', Math.floor(now));
  area.setAttribute('aria-valuetext', [`${(now / CYCLES_A_SECOND).toFixed(3)} s`, ...values].join(', '));
}

// what is chosen

function choose(columns) {
  plot.chosen = columns;
  const isFull = columns.length >= MOST_CURVES;
  table.columns.forEach((column, i) => {
    const box = find('plot-choice').children[i].firstChild;
    box.checked = columns.includes(column);
    box.disabled = isFull && !box.checked;
  });
  find('plot-labels').replaceChildren(...columns.map(({ name }, i) => {
    const label = element('p', {}, element('b', {}, name), ' ', element('span', {}));
    label.style.top = `${i * STRIP}px`;
    label.style.color = CURVE_COLOURS[i];
    return label;
  }));
  draw();
}

// Makes the boxes that choose columns. Space is theirs, not the film's.
function buildChoice() {
  const boxes = table.columns.map((column) => {
    const box = element('input', { type: 'checkbox' });
    box.addEventListener('change', () => choose(table.columns.filter((each) => (each === column ? box.checked : plot.chosen.includes(each)))));
    return element('label', {}, box, ` ${column.name}`);
  });
  const choice = element('div', { id: 'plot-choice', role: 'group', 'aria-label': `Columns to draw, up to ${MOST_CURVES}` }, ...boxes);
  choice.addEventListener('keydown', (event) => { if (event.key === ' ') event.stopPropagation(); });
  return choice;
}

function buildPlot() {
  const area = element('div', { id: 'plot-area', role: 'slider', tabindex: '0', 'aria-label': 'Machine time: the cursor of the plot', 'aria-valuemin': begin, 'aria-valuemax': end },
    element('canvas', { id: 'plot-canvas' }), element('div', { id: 'plot-labels' }), element('div', { id: 'plot-cursor' }));
  const times = alarms.map((cycle) => `${(cycle / CYCLES_A_SECOND).toFixed(3)} s`).join(', ');
  const about = alarms.length ? [element('p', { id: 'plot-alarms' }, `Alarms, pink: the PROG lamp goes on at ${times}.`)] : [];
  const most = table.columns.length > MOST_CURVES ? `, up to ${MOST_CURVES} at a time` : '';
  const heading = element('h2', {}, `Samples${runs.length > 1 ? ' of the left run' : ''}${most}`);
  find('runs').append(element('section', { id: 'plot', 'aria-label': 'Samples over time' }, heading, buildChoice(), area, ...about));
  for (const kind of ['pointerdown', 'pointermove']) area.addEventListener(kind, drag);
  for (const kind of ['pointerup', 'pointercancel', 'lostpointercapture']) area.addEventListener(kind, drop);
  area.addEventListener('keydown', moveByKey);
  choose(table.columns.filter(hasNumbers).slice(0, MOST_CURVES));
  new ResizeObserver(draw).observe(area);
  new MutationObserver(follow).observe(document.body, { attributes: true, attributeFilter: ['data-cycle', 'class'] });
}

if (table.fault) find('trouble').textContent += ` The file of samples, ${table.fault}.${table.more ? ` ${table.more} more.` : ''}`;
else if (!table.cycles.length) find('trouble').textContent += ' The file of samples has no row.';
if (table.cycles.length && runs[0]?.section) buildPlot();
