'use strict';
// The axes of curves over time, of the tab Plot and of a film: each curve has a strip of its own, with its values at the left.

const MOST_CURVES = 6;
const CURVE_COLOURS = ['#5dff9b', '#ffcf70', '#9fd0ff', '#ff9d8a', '#d7b3ff', '#f4f4ee'];
const GRID_COLOUR = '#3d423f';
const TEXT_COLOUR = '#c9cac2';
const ALARM_COLOUR = '#ff4fa3';
const LEFT = 58; // pixels of the labels of values
const BOTTOM = 18; // pixels of those of time
const HEAD = 20; // pixels of a curve's own label
const LEAST_HEIGHT = 52; // pixels of a curve with its label
const LABEL_HEIGHT = 14; // pixels of a label of a value
const AXIS_PARTS = 5;

// Returns a step of 1, 2 or 5 times a power of ten that divides a span into that many parts at most.
function stepOf(span, parts) {
  const power = 10 ** Math.floor(Math.log10(span / parts));
  return [1, 2, 5, 10].map((each) => each * power).find((step) => span / step <= parts);
}

// Returns the multiples of a step within bounds.
function multiples(least, greatest, step) {
  const first = Math.ceil(least / step - 1e-9);
  const count = Math.max(0, Math.floor(greatest / step + 1e-9) - first + 1);
  return Array.from({ length: Math.min(count, 50) }, (_, i) => (first + i) * step);
}

// Writes a number of an axis: as many digits as its step needs.
const axisText = (value, step) => (Math.abs(value) >= 1e7 || (value && step < 1e-5) ? value.toExponential(1) : value.toFixed(Math.max(0, -Math.floor(Math.log10(step) + 1e-9))));

// Returns the bounds of a curve's amounts, which are apart.
function boundsOf(amounts) {
  const least = amounts.reduce((one, amount) => Math.min(one, amount), Infinity);
  const greatest = amounts.reduce((one, amount) => Math.max(one, amount), -Infinity);
  if (least < greatest) return [least, greatest];
  const middle = amounts.length ? least : 0;
  return [middle - Math.max(1, Math.abs(middle) / 10), middle + Math.max(1, Math.abs(middle) / 10)];
}

// Draws the axis of a curve with these bounds in a strip. Returns what gives the height of an amount.
function drawAxis(pen, bounds, { top, bottom, width }) {
  const step = stepOf(bounds[1] - bounds[0], AXIS_PARTS);
  const [least, greatest] = [Math.floor(bounds[0] / step) * step, Math.ceil(bounds[1] / step) * step];
  const yOf = (amount) => bottom - ((amount - least) / (greatest - least)) * (bottom - top);
  const all = multiples(least, greatest, step);
  pen.textAlign = 'right';
  for (const amount of (bottom - top) / all.length < LABEL_HEIGHT ? [least, greatest] : all) {
    pen.fillStyle = GRID_COLOUR;
    pen.fillRect(LEFT, yOf(amount), width, 1);
    pen.fillStyle = TEXT_COLOUR;
    pen.fillText(axisText(amount, step), LEFT - 5, yOf(amount) + 4);
  }
  return yOf;
}
