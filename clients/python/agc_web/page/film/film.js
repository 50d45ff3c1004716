// A key stays down for a quarter of a second at the speed that is set, or until the next one; PRO until it comes up.
function showKeys(run) {
  const last = lastUpTo(run.keyCycles, now);
  const key = run.keys[last];
  const hold = (CYCLES_A_SECOND / 4) * Number(find('speed').value);
  const down = new Set();
  if (key && now - key.cycle < hold) down.add(key.name);
  if (key && key.held) down.add('PRO');
  for (const shown of run.section.querySelectorAll('[data-key]')) shown.classList.toggle('down', down.has(shown.dataset.key));
  const past = run.keys.slice(Math.max(0, last - 11), last + 1);
  const stop = run.reason && now >= run.stop ? `${LINE}Stopped: ${run.reason}` : '';
  find(`${run.id}-keys`).textContent = `Keys: ${past.map((one) => one.name).join(' ') || 'none yet'}${stop}`;
}

function showDifference() {
  const [left, right] = runs.map((run) => run.text.split(LINE));
  const names = left.map((line, i) => (line === right[i] ? '' : line.split(' ')[0])).filter(Boolean);
  const first = parting === Math.floor(now) ? ' This is the first difference.' : '';
  find('apart').textContent = names.length ? `≠ The panels differ: ${names.join(', ')}.${first}` : '= The panels show the same.';
}

function show(cycle) {
  now = Math.min(Math.max(cycle, begin), end);
  for (const run of runs) {
    showPanel(run, panelOf(run, lastUpTo(run.cycles, now)));
    showKeys(run);
  }
  if (runs.length === 2) showDifference();
  find('time').value = now;
  const seconds = (at) => (at / CYCLES_A_SECOND).toFixed(3);
  find('clock').textContent = `cycle ${Math.floor(now)} of ${end}, ${seconds(now)} s of ${seconds(end)} s`;
  document.body.dataset.cycle = Math.floor(now);
}

// the strip: for each run its changes below a line, its keys above it, and the first difference
function drawStrip() {
  const strip = find('strip');
  const scale = window.devicePixelRatio || 1;
  const width = strip.clientWidth;
  const lane = 40 / runs.length;
  strip.width = width * scale;
  strip.height = 40 * scale;
  const pen = strip.getContext('2d');
  pen.scale(scale, scale);
  const length = Math.max(1, end - begin);
  const place = (cycle) => 8 + (width - 16) * ((cycle - begin) / length);
  const stroke = (cycle, top, height, wide) => pen.fillRect(place(cycle) - wide / 2, top, wide, height);
  // of cycles that lie closer than a quarter of a point the first one
  const strokes = (cycles, top) => {
    for (let i = lastUpTo(cycles, begin - 1) + 1; i < cycles.length; i = lastUpTo(cycles, cycles[i] + length / width / 4) + 1) stroke(cycles[i], top, lane / 2 - 3, 1);
  };
  runs.forEach((run, i) => {
    const line = lane * (i + 0.5);
    pen.fillStyle = '#6a6d68';
    pen.fillRect(8, line, Math.max(0, place(run.stop) - 8), 1);
    pen.fillStyle = '#5dff9b';
    strokes(run.cycles, line + 1);
    pen.fillStyle = '#f4f4ee';
    strokes(run.keyCycles, line - lane / 2 + 3);
  });
  if (parting >= 0) {
    pen.fillStyle = '#ffb938';
    stroke(parting, 0, 40, 3);
    pen.font = 'bold 15px sans-serif';
    pen.fillText('≠', Math.min(place(parting) + 4, width - 14), 13);
  }
}

function setPlaying(on) {
  playing = on && end > begin;
  if (playing && now >= end) show(begin);
  document.body.classList.toggle('playing', playing);
  find('play').textContent = playing ? '❚❚ Pause' : '▶ Play';
  for (const run of runs) find(`${run.id}-panel`).setAttribute('aria-live', playing ? 'off' : 'polite');
  if (playing) requestAnimationFrame((from) => requestAnimationFrame((at) => play(from, at)));
}

function play(from, at) {
  if (!playing) return;
  show(now + ((at - from) / 1000) * CYCLES_A_SECOND * Number(find('speed').value));
  if (now >= end) setPlaying(false); else requestAnimationFrame((next) => play(at, next));
}

function go(cycle) {
  setPlaying(false);
  show(cycle);
}

const ACTIONS = {
  start: () => go(begin),
  previous: () => go(changeBefore(now)),
  play: () => setPlaying(!playing),
  next: () => go(changeAfter(now)),
  end: () => go(end),
  difference: () => { if (parting >= 0) go(parting); },
};
const SPEED_KEYS = ['', '', '1', '2', '3', '4']; // those of the speeds, the slowest first
const SPEED_STEPS = { '<': -1, '>': 1 };
const SHORTCUTS = { ' ': 'play', ArrowLeft: 'previous', ArrowRight: 'next', Home: 'start', End: 'end', d: 'difference', D: 'difference' };

// the place among the speeds that a key sets, or -1
function speedOf(key) {
  const step = SPEED_STEPS[key];
  return step ? Math.min(Math.max(find('speed').selectedIndex + step, 0), SPEED_KEYS.length - 1) : SPEED_KEYS.indexOf(key);
}

function onKey(event) {
  const place = speedOf(event.key);
  const name = SHORTCUTS[event.key];
  const onButton = event.target.tagName === 'BUTTON' && event.key === ' ';
  if (onButton || event.target.tagName === 'SELECT' || event.ctrlKey || event.altKey || event.metaKey) return;
  if (name) {
    event.preventDefault();
    ACTIONS[name]();
  } else if (place >= 0) {
    find('speed').selectedIndex = place;
    show(now);
  }
}

// '#cycle=1234' goes to a cycle (another text is ignored), and '#press=ArrowRight,Space' presses keys of the browser
function followHash() {
  const asked = new URLSearchParams(location.hash.slice(1));
  if (/^[0-9]+$/.test(asked.get('cycle') ?? '')) go(Number(asked.get('cycle')));
  for (const name of (asked.get('press') || '').split(',').filter(Boolean)) {
    document.body.dispatchEvent(new KeyboardEvent('keydown', { key: name === 'Space' ? ' ' : name, bubbles: true, cancelable: true }));
  }
}

function start() {
  runs.forEach(build);
  showTitle();
  find('time').min = begin;
  find('time').max = end;
  find('time').addEventListener('input', () => go(Number(find('time').value)));
  for (const [name, action] of Object.entries(ACTIONS)) find(name).addEventListener('click', action);
  find('difference').hidden = !(parting >= 0);
  find('speed').addEventListener('change', () => show(now));
  document.addEventListener('keydown', onKey);
  window.addEventListener('resize', drawStrip);
  window.addEventListener('hashchange', followHash);
  show(begin);
  drawStrip();
  followHash();
}

// A run without its end was not read whole.
const unread = ['left', 'right'].filter((id) => (id === 'left' || find(id)) && !runs.some((run) => run.id === id && run.ended));
if (unread.length) {
  find('trouble').textContent = `This film cannot be read: the browser finds no end of the run ${unread.join(' and ')}. The file is cut off, or the browser cannot hold it; a film of a part, by --from and --to, is shorter.`;
  find('controls').hidden = true;
} else {
  start();
}
