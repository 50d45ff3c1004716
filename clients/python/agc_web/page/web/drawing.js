'use strict';
// What an instrument draws: shapes in metres, x to the right and y up, within a frame. The page has their colours by a style's
// name, and sizes of lines and texts in points, so that both can be read at any scale. A shape that is not as agc_web/ticks.py
// says is left out.

const MOST_SHAPES = 400;
const MOST_POINTS = 1000; // of a shape
const LONGEST_TEXT = 80;
const LARGEST = 1e9; // metres that a number may be
const THINNEST = 1e-3; // metres that a frame has at least
const FARTHEST = 20000; // points from the drawing's corner: what is farther is drawn there
const STYLES = new Set(['ground', 'site', 'craft', 'flame', 'jet', 'behind', 'ahead', 'scale', 'mark']);
const ALIGNMENTS = new Set(['start', 'middle', 'end']);

const isNumber = (value) => Number.isFinite(value) && Math.abs(value) <= LARGEST;
const isPoint = (point) => areAll(point, 2, 2, isNumber);
const isText = (text) => typeof text === 'string' && text.length > 0 && text.length <= LONGEST_TEXT;
const hasLength = (list, least, most) => Array.isArray(list) && list.length >= least && list.length <= most;
const areAll = (list, least, most, isOne) => hasLength(list, least, most) && list.every(isOne);
const isFrame = (frame) => areAll(frame, 4, 4, isNumber) && frame[2] - frame[0] >= THINNEST && frame[3] - frame[1] >= THINNEST;

// Each returns what a shape's element has, or nothing for a shape that it does not understand: elements of the same name have the same
// attributes. `map` has the points of the page.
const SHAPES = {
  line: ({ points }, map) => areAll(points, 2, 2, isPoint) && { name: 'polyline', attributes: { points: map.all(points) } },
  path: ({ points }, map) => areAll(points, 2, MOST_POINTS, isPoint) && { name: 'polyline', attributes: { points: map.all(points) } },
  polygon: ({ points }, map) => areAll(points, 3, MOST_POINTS, isPoint) && { name: 'polygon', attributes: { points: map.all(points) } },
  circle: ({ at, radius }, map) => {
    if (!isPoint(at) || !isNumber(radius) || radius < 0) return null;
    const [cx, cy] = map.one(at);
    return { name: 'circle', attributes: { cx, cy, r: map.length(radius) } };
  },
  text: ({ at, text, align }, map) => {
    if (!isPoint(at) || !isText(text)) return null;
    const [x, y] = map.one(at);
    return { name: 'text', attributes: { x, y, 'text-anchor': ALIGNMENTS.has(align) ? align : 'start' }, text };
  },
};

// Returns what takes metres to points of a box: as large as the frame has room, in the middle, at the bottom.
function mapTo(frame, width, height) {
  const [left, bottom, right, top] = frame;
  const scale = Math.min(width / (right - left), height / (top - bottom));
  const margin = (width - scale * (right - left)) / 2;
  const bounded = (value) => Math.round(10 * Math.max(-FARTHEST, Math.min(FARTHEST, value))) / 10;
  const one = ([x, y]) => [bounded(margin + (x - left) * scale), bounded(height - (y - bottom) * scale)];
  return { one, all: (points) => points.map((point) => one(point).join(',')).join(' '), length: (metres) => bounded(metres * scale) };
}

function outlineOf(shape, map) {
  if (shape === null || typeof shape !== 'object' || !Object.hasOwn(SHAPES, shape.shape)) return null;
  const outline = SHAPES[shape.shape](shape, map) || null;
  if (outline) outline.attributes.class = STYLES.has(shape.style) ? shape.style : '';
  return outline;
}

// Shows outlines by the elements that are there, and changes what differs alone: new elements for each frame are some 50 MB of garbage
// in twenty seconds.
function showOutlines(svg, outlines) {
  outlines.forEach(({ name, attributes, text }, i) => {
    const old = svg.children[i];
    const element = old?.localName === name ? old : drawn(name, {});
    for (const [attribute, value] of Object.entries(attributes)) setAttribute(element, attribute, value);
    if (text !== undefined) setText(element, text);
    if (!old) svg.append(element);
    else if (old !== element) old.replaceWith(element);
  });
  while (svg.children.length > outlines.length) svg.lastChild.remove();
}

// Makes the place of a drawing, which draws its shapes anew whenever its size changes, so also when its tab is chosen.
function buildDrawing() {
  const svg = drawn('svg', { class: 'drawing', role: 'img' });
  new ResizeObserver(() => draw(svg)).observe(svg);
  return svg;
}

// Shows a drawing with the browser's next frame: more of them come than it draws.
function showDrawing(svg, drawing) {
  svg.toggleAttribute('hidden', !drawing);
  if (svg.drawing === undefined) requestAnimationFrame(() => draw(svg));
  svg.drawing = drawing || null;
}

function draw(svg) {
  const { frame, shapes, label } = svg.drawing || svg.drawn || {};
  svg.drawn = { frame, shapes, label };
  svg.drawing = undefined;
  const { width, height } = svg.getBoundingClientRect();
  if (!width || !height) return;
  svg.setAttribute('aria-label', isText(label) ? label : 'A drawing');
  if (!isFrame(frame) || !Array.isArray(shapes)) {
    svg.replaceChildren();
    return;
  }
  const map = mapTo(frame, width, height);
  showOutlines(svg, shapes.slice(0, MOST_SHAPES).map((shape) => outlineOf(shape, map)).filter(Boolean));
}
