// The side view of a flight: side_view.py once more, for agc.html.

const SIZES = [500, 1000, 2000, 5000, 10000, 20000]; // m from edge to edge
const HIGHEST = 50000; // the same of a craft that is too high for these
const CLOSE_SIZES = [[100, 250], [45, 100], [18, 50]]; // a height in m, and the size below it
const SHAPE = 0.55; // of a frame: its height by its width
const AHEAD = 10; // seconds that the path is predicted, a piece each
const MOST_BEHIND = 120; // points of the path behind that are drawn
const BODY = [
  [-1.6, 2.6], [-2.1, 3.6], [-1.4, 6.2], [1.4, 6.2], [2.1, 3.6], [1.6, 2.6], [2.2, 2.4], [2.2, 1.2], [-2.2, 1.2], [-2.2, 2.4],
]; // m, from the middle of the feet; so is all that follows
const LEGS = [[[-2.2, 2.2], [-4.3, 0]], [[2.2, 2.2], [4.3, 0]], [[-4.9, 0], [-3.7, 0]], [[4.9, 0], [3.7, 0]]];
const NOZZLE = [[-0.5, 1.2], [-0.9, 0.5], [0.9, 0.5], [0.5, 1.2]];
const JETS = [[[-2.4, 4.6], [-3, 2.6], [-1.9, 2.6]], [[2.4, 4.6], [1.9, 2.6], [3, 2.6]]];

const rounded = (value, digits = 2) => Number(value.toFixed(digits));
const shape = (kind, style, points) => ({ shape: kind, style, points: points.map(([x, y]) => [rounded(x), rounded(y)]) });
const text = (style, [x, y], words, align = 'start') => ({ shape: 'text', style, at: [rounded(x), rounded(y)], text: words, align });

// The drawing of a flight, with the places where the craft was.
export function drawing(flight, behind) {
  const { frame, large } = frameOf(flight);
  const shapes = [
    ...ground(frame), ...paths(flight, behind), ...heightScale(flight, frame), ...speedScale(flight, frame), ...craft(flight, large),
  ];
  const tilt = (flight.tilt * 180) / Math.PI;
  const label = `Side view: ${flight.height.toFixed(0)} m high, ${away(flight.x)}, ${tilt < 0 ? '' : '+'}${tilt.toFixed(0)} degrees of tilt`;
  return { label, frame, shapes };
}

// In words how far from the site a place is.
function away(x) {
  return Math.abs(x) < 0.5 ? 'over the site' : `${Math.abs(x).toFixed(0)} m ${x < 0 ? 'before' : 'behind'} the site`;
}

// The frame, left, bottom, right, top, and how many times too large the craft is drawn in it.
function frameOf({ x, height }) {
  const largest = height <= 0.45 * SIZES.at(-1) ? SIZES.at(-1) : HIGHEST;
  let size = SIZES.find((each) => Math.abs(x) <= 0.6 * each && height <= 0.45 * each) ?? largest;
  for (const [below, close] of CLOSE_SIZES) if (height < below) size = close;
  const middle = x + Math.max(-0.3 * size, Math.min(0.3 * size, -x));
  const frame = [rounded(middle - size / 2, 1), -0.06 * size, rounded(middle + size / 2, 1), (SHAPE - 0.06) * size];
  return { frame, large: Math.max(1, size / 130) };
}

// The ground, wider than the frame, and the site on it.
function ground([left, bottom, right]) {
  const size = right - left;
  const [west, east, deep] = [left - size, right + size, 9 * bottom];
  const flag = 0.045 * size;
  return [
    shape('polygon', 'ground', [[west, 0], [east, 0], [east, deep], [west, deep]]),
    shape('line', 'site', [[0, 0], [0, flag]]),
    shape('polygon', 'site', [[0, flag], [0.5 * flag, 0.8 * flag], [0, 0.6 * flag]]),
    text('site', [0, 0.75 * bottom], 'Site', 'middle'),
  ];
}

// The path behind, and ahead as it is if throttle and tilt stay.
function paths(flight, behind) {
  const here = [flight.x, flight.height];
  const step = 1 + Math.floor(behind.length / MOST_BEHIND);
  const found = behind.length ? [shape('path', 'behind', [...behind.filter((_, i) => i % step === 0), here])] : [];
  return flight.isOver ? found : [...found, shape('path', 'ahead', [here, ...predicted(flight)])];
}

// The places to which the craft comes if throttle and tilt stay, as far as the ground.
function predicted({ x, height, forward, up, pulls }) {
  const found = [];
  for (let t = 1; t <= AHEAD; t += 1) {
    const high = height + up * t + (pulls[1] * t * t) / 2;
    found.push([x + forward * t + (pulls[0] * t * t) / 2, high]);
    if (high < 0) break;
  }
  return found;
}

// The largest of 1, 2, 5, 10, 20 .. that is no larger than a span.
function roundStep(span) {
  const power = 10 ** Math.floor(Math.log10(span));
  return Math.max(...[1, 2, 5].map((digit) => power * digit).filter((step) => step <= span));
}

// A scale of heights at the left edge, and a mark at the craft's.
function heightScale(flight, [left, , right, top]) {
  const size = right - left;
  const [at, step, tick] = [left + 0.02 * size, roundStep(top / 3), 0.012 * size];
  const found = [shape('line', 'scale', [[at, 0], [at, 0.95 * top]])];
  for (let high = 0; high <= 0.9 * top; high += step) {
    found.push(shape('line', 'scale', [[at, high], [at + tick, high]]), text('scale', [at + 1.5 * tick, high + 0.4 * tick], `${high} m`));
  }
  const now = flight.height;
  return [...found, shape('polygon', 'mark', [[at, now], [at - tick, now + tick], [at - tick, now - tick]])];
}

// A scale of speeds up and down at the right edge, with 0 in its middle, and a mark at the craft's.
function speedScale(flight, [left, , right, top]) {
  const size = right - left;
  const most = [5, 20, 50].find((each) => Math.abs(flight.up) <= each) ?? 100;
  const [at, tick, middle] = [right - 0.02 * size, 0.012 * size, 0.5 * top];
  const place = (speed) => middle + 0.42 * top * Math.max(-1, Math.min(1, speed / most));
  const found = [shape('line', 'scale', [[at, place(-most)], [at, place(most)]])];
  for (const speed of [-most, 0, most]) {
    const words = speed ? `${speed < 0 ? '' : '+'}${speed} m/s` : '0';
    found.push(shape('line', 'scale', [[at - tick, place(speed)], [at, place(speed)]]), text('scale', [at - 1.5 * tick, place(speed) - 0.8 * tick], words, 'end'));
  }
  const now = place(flight.up);
  return [...found, shape('polygon', 'mark', [[at, now], [at + tick, now + tick], [at + tick, now - tick]])];
}

// The craft, its flame by the throttle, and the jets that burn, as many times too large as `large` says.
function craft(flight, large) {
  const [sine, cosine] = [Math.sin(flight.tilt), Math.cos(flight.tilt)];
  const turned = (points) => points.map(([x, y]) => [
    flight.x + large * (x * cosine + y * sine), flight.height + large * (y * cosine - x * sine),
  ]);
  const found = [shape('polygon', 'craft', turned(BODY)), shape('polygon', 'craft', turned(NOZZLE))];
  found.push(...LEGS.map((leg) => shape('line', 'craft', turned(leg))));
  if (flight.throttle > 0.005) found.push(shape('polygon', 'flame', turned([[-0.8, 0.5], [0.8, 0.5], [0, 0.5 - 9 * flight.throttle]])));
  found.push(...JETS.filter((_, i) => flight.jets[i]).map((jet) => shape('polygon', 'jet', turned(jet))));
  return found;
}
