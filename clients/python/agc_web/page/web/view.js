'use strict';
// The view of an instrument, which is JSON: an outcome, a drawing, a dial and rows of text. The page shows it, and so does a film.

// Makes what each view has: a drawing and a dial come with the first view that has one.
const buildView = () => [make('p', { class: 'outcome', role: 'status' }), make('dl', { class: 'rows' })];

// A round dial: a craft that turns in it, and a mark for where it is to stand.
function buildDial() {
  const ticks = [...Array(36).keys()].map((i) => drawn('line', { x1: 0, y1: i % 3 ? -86 : -82, x2: 0, y2: -92, transform: `rotate(${10 * i})` }));
  const jet = (name, x) => drawn('polygon', { class: `jet ${name}`, points: `${x - 5},34 ${x + 5},34 ${x},58` });
  const body = drawn('path', { d: 'M0,-48 L20,-6 L20,30 L-20,30 L-20,-6 Z' });
  const craft = drawn('g', { class: 'craft' }, jet('left', -14), jet('right', 14), body);
  const wanted = drawn('polygon', { class: 'wanted', points: '0,-80 -6,-67 6,-67' });
  return drawn('svg', { viewBox: '-100 -100 200 200', class: 'dial', role: 'img', 'aria-label': 'The craft' },
    drawn('circle', { r: 94 }), ...ticks, wanted, craft);
}

function showView(panel, view) {
  const rows = panel.querySelector('.rows');
  showOutcome(panel.querySelector('.outcome'), view.outcome);
  if (view.drawing && !panel.querySelector('.drawing')) rows.before(buildDrawing());
  const drawing = panel.querySelector('.drawing');
  if (drawing) showDrawing(drawing, view.drawing);
  if (view.dial && !panel.querySelector('.dial')) rows.before(buildDial());
  const dial = panel.querySelector('.dial');
  if (dial && view.dial) {
    dial.querySelector('.craft').setAttribute('transform', `rotate(${view.dial.angle})`);
    dial.querySelector('.wanted').setAttribute('transform', `rotate(${view.dial.wanted})`);
    for (const side of ['left', 'right']) dial.querySelector(`.jet.${side}`).classList.toggle('burns', view.dial.jets.includes(side));
  }
  const names = (view.rows || []).map(([name]) => name);
  for (const row of [...rows.children]) if (!names.includes(row.dataset.name)) row.remove();
  for (const [name, value] of view.rows || []) showRow(rows, name, value);
}

// Shows how it ended, in large letters: a text, and whether that is good.
function showOutcome(place, outcome) {
  const { text = '', good = false } = outcome || {};
  setText(place, String(text));
  place.classList.toggle('good', Boolean(good));
}

function showRow(rows, name, value) {
  let row = [...rows.children].find((each) => each.dataset.name === name);
  if (!row) {
    row = make('div', { 'data-name': name }, make('dt', {}, name), make('dd'));
    rows.append(row);
  }
  setText(row.querySelector('dd'), String(value));
}
