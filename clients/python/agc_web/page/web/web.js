'use strict';
// The page as a whole: the news of the session, and time.

const CYCLES_A_SECOND = 1024000 / 12;
const SPEED_STEPS = [1, 10, 100, 1000];
const HOLD_KEYS = new Set(['ArrowLeft', 'ArrowRight', 'ArrowUp', 'ArrowDown']);

let now = { cycle: 0, furthest: 0, playing: false, speed: 1, stop: null, ended: null, trouble: '', undo: null };
let reached = true; // whether the session answers
let sliding = false;
let byPointer = false; // whether a pointer was used last

// what the session has said

const MOST_NAMES = 5000; // that the page offers

// Returns the names in a file of names, and their places; channels, whose numbers begin with C, are left out.
function namedPlaces(text) {
  const words = (text ?? '').split(LINE).map((line) => line.trim().split(/\s+/));
  const found = words.filter(([place, name]) => name && !/^[#C]/.test(place)).slice(0, MOST_NAMES);
  return { names: found.map(([, name]) => name), places: found.map(([place]) => place) };
}

function showAbout(given) {
  const about = { ...given, ...namedPlaces(given.names) };
  const name = about.rope.split('/').slice(-2).join('/');
  setText(find('rope'), name);
  document.title = `DSKY: ${name}`;
  document.body.classList.toggle('named', about.names.length > 0);
  find('names').replaceChildren(...about.names.map((each) => make('option', { value: each })));
  find('phones-button').hidden = !about.phones;
  find('timeline').hidden = !about.watch || !session.timelineAddress; // agc.html has no agc-study that makes one
  setText(find('phones-address'), about.phones || '');
  setText(find('script-rope'), session.ropeOfScript?.() ?? 'ROPE');
  keepNames(about);
  keepOperands(given.names);
  keepListing(about);
  keepQuantities(about);
  keepTimeline(about);
  keepNouns(about);
  loadGuides(about.guide);
  showTabs(about);
  showListing(); // a stream that was lost begins anew, with the tab that is shown
}

// Makes the tabs, those of instruments first. Instruments may come after what the session is about.
function showTabs(about) {
  const isOffered = { tables: () => about.watch, plot: () => about.quantities, timeline: () => session.timelineAddress, why: () => known(ALARMS).length, source: listing.isOffered };
  const all = Object.keys(TABS).filter((tab) => find(`${tab}-panel`) && (!isOffered[tab] || isOffered[tab]()));
  const names = [...all.filter((tab) => tab.startsWith('instrument')), ...all.filter((tab) => !tab.startsWith('instrument'))];
  const shownNow = [...find('tabs').children].map((tab) => tab.id.replace(/-tab$/, ''));
  if (names.join() !== shownNow.join()) buildTabs(names);
}

function showTime(time) {
  now = time;
  document.body.classList.toggle('playing', time.playing);
  setAttribute(find('live-panel'), 'aria-live', time.playing ? 'off' : 'polite');
  setText(find('play'), time.playing ? '❚❚ Pause' : '▶ Play');
  find('speed').value = String(time.speed);
  find('undo').hidden = time.undo === null;
  setText(find('seconds'), `${(time.cycle / CYCLES_A_SECOND).toFixed(3)} s`);
  setText(find('cycle'), `cycle ${grouped(time.cycle)}`);
  setText(find('pace'), isBehind(time) ? `runs at ${time.pace.toPrecision(2)}×` : '');
  if (!sliding) {
    find('slider').max = Math.max(time.furthest, time.cycle);
    find('slider').value = time.cycle;
  }
  setAttribute(find('slider'), 'aria-valuetext', `${(time.cycle / CYCLES_A_SECOND).toFixed(1)} seconds`);
  showState();
  showPro(time.pro);
  showTrouble();
  follow(time);
  followPlot(time);
}

function showState() {
  setText(find('state'), stateOf(now));
}

const isBehind = (time) => time.playing && time.pace > 0 && time.pace < 0.9 * time.speed;

function stateOf(time) {
  if (time.ended) return 'ended';
  if (time.stop) return `stopped: ${time.stop}`;
  const waiting = time.waiting ? `, ${time.waiting} ${time.waiting === 1 ? 'key waits' : 'keys wait'}` : '';
  if (time.playing) return `running${waiting}`;
  return (time.hit ? `at breakpoint: ${breakText(time.hit)}` : 'paused') + waiting;
}

function showTrouble() {
  const lost = reached ? '' : session.lost;
  setText(find('trouble'), [lost, now.ended, now.trouble, fault].filter(Boolean).join(LINE));
}

const SHOWS = {
  instruments: showInstruments,
  about: showAbout,
  panel: (panel) => {
    showFace(panel);
    sayPanel(panel);
  },
  machine: showMachine,
  tables: (lines) => setText(find('tables'), lines.join(LINE)),
  history: showHistory,
  ahead: showAhead,
  breakpoints: showBreaks,
  ignored: showIgnored,
  time: showTime,
};

function showNews(parts) {
  Object.assign(shown, parts);
  for (const [part, show] of Object.entries(SHOWS)) if (part in parts) show(parts[part]);
  if ('history' in parts) look(); // a step may have changed words at the same cycle
  followGuide();
  followWhy();
  followListing();
  followCause();
}

function showReached(is) {
  reached = is;
  showTrouble();
}

// what the user wants of time

const playOrPause = () => ask(now.playing ? 'pause' : 'play');
const step = () => ask('step');
const undo = () => { if (now.undo !== null) ask('undo'); };
const back = (seconds) => ask('go', { cycle: Math.max(0, Math.round(now.cycle - seconds * CYCLES_A_SECOND)) });
const backToChange = () => ask('back');

function changeSpeed(by) {
  const times = SPEED_STEPS[SPEED_STEPS.indexOf(now.speed) + by];
  if (times) ask('speed', { times });
}

async function slide() {
  await ask('go', { cycle: Number(find('slider').value) });
  sliding = false;
  showTime(now);
}

// Fills the screen with the DSKY and the view of an instrument, in large letters; a browser that refuses fills its window.
function setProjector(on) {
  document.body.classList.toggle('projector', on);
  find('projector-button').setAttribute('aria-pressed', on);
  if (on) document.documentElement.requestFullscreen?.().catch(() => {});
  else if (document.fullscreenElement) document.exitFullscreen();
}

const SHORTCUTS = {
  ' ': playOrPause,
  '.': step,
  Backspace: () => back(now.playing ? 1 : 0.1),
  '<': () => changeSpeed(-1),
  '>': () => changeSpeed(1),
  D: backToChange,
  u: undo,
  f: () => setProjector(!document.body.classList.contains('projector')),
  '?': () => find('help').showModal(),
};

// Whether an element wants a key for itself.
function wantsKey(element, key) {
  if (document.querySelector('dialog[open]')) return true;
  if (element.closest('textarea, select, input:not([type=range])')) return true;
  if (element.closest('input[type=range], [role=tablist], [role=slider]') && /^(Arrow|Home|End|Page)/.test(key)) return true;
  return Boolean(element.closest('button, a')) && (key === ' ' || key === 'Enter');
}

function onKeyDown(event) {
  byPointer = false;
  if (event.key === 'Escape' && event.target.closest('input, select, button')) event.target.blur(); // Enter is ENTR again
  if (event.ctrlKey || event.altKey || event.metaKey || wantsKey(event.target, event.key)) return;
  const name = keyTyped(event.key);
  const shortcut = SHORTCUTS[event.key];
  const isPro = event.key.toLowerCase() === 'p';
  const isHold = HOLD_KEYS.has(event.key) && document.querySelector(`[data-hold='${event.key}']`);
  if (!name && !shortcut && !isPro && !isHold) return;
  event.preventDefault();
  if (event.repeat && (pending || !['.', 'Backspace'].includes(event.key))) return;
  if (isPro) setPro('keyboard', true);
  else if (isHold) holdByKey(event.key, true);
  else if (name) press(name);
  else shortcut();
}

function onKeyUp(event) {
  if (event.key.toLowerCase() === 'p') setPro('keyboard', false);
  if (HOLD_KEYS.has(event.key)) holdByKey(event.key, false);
}

// Lets all come up that is held: another window gets the keyboard, so that we do not see what comes up.
function letGo() {
  setPro(proHeldBy, false);
  for (const button of document.querySelectorAll('[data-hold]')) button.hold(false);
}

function start() {
  buildFace();
  buildCauses();
  buildInspector();
  buildWhy();
  buildListing();
  buildPlot();
  buildTimeline();
  find('play').addEventListener('click', playOrPause);
  find('step').addEventListener('click', step);
  find('undo').addEventListener('click', undo);
  find('phones-button').addEventListener('click', () => find('phones').showModal());
  find('projector-button').addEventListener('click', SHORTCUTS.f);
  document.addEventListener('fullscreenchange', () => { if (!document.fullscreenElement) setProjector(false); });
  find('help-button').addEventListener('click', () => find('help').showModal());
  find('speed').addEventListener('change', () => ask('speed', { times: Number(find('speed').value) }));
  for (const button of document.querySelectorAll('[data-back]')) button.addEventListener('click', () => back(Number(button.dataset.back)));
  find('back-to-change').addEventListener('click', backToChange);
  find('slider').addEventListener('input', () => {
    sliding = true;
    setText(find('seconds'), `${(find('slider').value / CYCLES_A_SECOND).toFixed(3)} s`);
  });
  find('slider').addEventListener('change', slide);
  document.addEventListener('keydown', onKeyDown);
  document.addEventListener('keyup', onKeyUp);
  window.addEventListener('blur', letGo);
  // What was clicked or chosen by a pointer does not keep the focus, so that the keys stay the DSKY's.
  document.addEventListener('pointerdown', () => { byPointer = true; }, true);
  document.addEventListener('mousedown', (event) => { if (event.target.closest('button')) event.preventDefault(); });
  document.addEventListener('change', (event) => { if (byPointer && event.target.closest('select')) event.target.blur(); });
  session.listen(showNews, showReached);
}

start();
