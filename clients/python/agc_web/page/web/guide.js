'use strict';
// Guided steps: a strip that says what to do now and why. What the machine shows moves it on; a click does the step, or skips
// it. The steps are those of a text file, whose language is in docs/WEB.md.

const KEY_NAMES = new Set([...KEYS.flatMap(([, names]) => names.split(' '))]);
const FIELDS = { PROG: 2, VERB: 2, NOUN: 2, R1: 6, R2: 6, R3: 6 }; // of the panel, with their lengths
const ALL_LAMPS = new Set([...LAMPS.filter(Boolean), 'COMP ACTY']);
const COMPARISONS = { '=': (found, wanted) => found === wanted, '<': (found, wanted) => amount(found) < amount(wanted), '>': (found, wanted) => amount(found) > amount(wanted) };

const shown = {}; // the last news of each part
const guiding = { guides: [], faults: [], guide: null, at: 0, since: 0, isDone: false, hidden: false, more: () => [] }; // `more` makes further buttons

const amount = (text) => parseFloat(text.replace(/[−,]/g, (sign) => (sign === ',' ? '' : '-')));

// what the file says

// Returns the guides of a file, and its faults, each with its line.
function parseGuides(text) {
  const guides = [];
  const faults = [];
  text.split(/\r?\n/).forEach((line, i) => {
    const [, word, rest] = line.match(/^\s*(\S*)\s*(.*?)\s*$/);
    if (word === '' || word.startsWith('#')) return;
    const fault = Object.hasOwn(LINES, word) ? LINES[word](guides, rest) : `unknown word ${word}: guide, need, step, why, label, click or until`;
    if (fault) faults.push(`line ${i + 1}: ${fault}`);
  });
  for (const { title } of guides.filter((guide) => !countSteps(guide))) faults.push(`guide ${title} has no step`);
  return { guides: guides.filter((guide) => countSteps(guide)), faults };
}

// Counts the steps of a guide up to one of them; what it needs is no step.
const countSteps = ({ steps }, end = Infinity) => steps.slice(0, end).filter(({ isNeed }) => !isNeed).length;

const lastGuide = (guides) => guides[guides.length - 1];
const lastStep = (guides) => lastGuide(guides)?.steps[lastGuide(guides).steps.length - 1];

// What each line adds to the guides; returns a fault, or nothing.
const LINES = {
  guide(guides, rest) {
    if (!rest) return 'a guide has a title';
    guides.push({ title: rest, steps: [] });
    return '';
  },
  need: (guides, rest) => addStep(guides, rest, true),
  step: (guides, rest) => addStep(guides, rest, false),
  why: (guides, rest) => withStep(guides, (step) => { step.why = `${step.why} ${rest}`.trim(); }),
  label: (guides, rest) => withStep(guides, (step) => {
    step.label = rest;
    return rest ? '' : 'a label is what the button says';
  }),
  click: (guides, rest) => withStep(guides, (step) => addParsed(step.clicks, CLICKS, rest, 'click')),
  until: (guides, rest) => withStep(guides, (step) => rest.split(/,\s+/).map((each) => addConditions(step.until, each)).find(Boolean)),
};

function addStep(guides, what, isNeed) {
  const kind = isNeed ? 'need' : 'step';
  if (!guides.length) return `a ${kind} comes after its guide`;
  if (!what) return `a ${kind} says what to do`;
  lastGuide(guides).steps.push({ what, why: '', label: '', clicks: [], until: [], isNeed });
  return '';
}

function withStep(guides, task) {
  const step = lastStep(guides);
  return step ? task(step) || '' : 'this comes after its step';
}

// Adds a condition, or some of which one is enough, to a list; returns a fault, or nothing.
function addConditions(list, text) {
  const some = [];
  const fault = text.split(/\s+or\s+/).map((each) => addParsed(some, CONDITIONS, each, 'until')).find(Boolean);
  list.push(() => some.some((holds) => holds()));
  return fault;
}

// Adds what a table makes of a text to a list; returns a fault, or nothing.
function addParsed(list, table, text, word) {
  const [name, ...rest] = text.split(/\s+/);
  if (!Object.hasOwn(table, name)) return `${word} ${name || '(nothing)'} is unknown: ${Object.keys(table).join(', ')}`;
  const parsed = table[name](rest.join(' '));
  if (typeof parsed === 'string') return `${word} ${name}: ${parsed}`;
  list.push(parsed);
  return '';
}

// What a click does: each returns a task, or a fault as a text.
const CLICKS = {
  keys(text) {
    const names = text.split(' ');
    const wrong = names.find((name) => !KEY_NAMES.has(name));
    return wrong === undefined ? { keys: names, run: () => names.forEach(pressForGuide) } : `no key ${wrong || 'is named'}`;
  },
  play: () => ({ run: () => ask('play') }),
  pause: () => ({ run: () => ask('pause') }),
  step: () => ({ run: () => ask('step') }),
  undo: () => ({ run: undo }),
  return: () => ({ run: () => why.isExplained && undo() }),
  start: () => ({ run: () => ask('go', { cycle: 0, sure: true }) }), // the step says so; undo brings back what it drops
  why: () => ({ run: explainLamp }),
  speed: (text) => (SPEED_STEPS.includes(Number(text)) ? { run: () => ask('speed', { times: Number(text) }) } : 'a speed is 1, 10, 100 or 1000'),
  press: (text) => (text ? { run: () => pressControl(text) } : 'name a button of an instrument'),
  tab: (text) => (text ? { run: () => chooseTab(text) } : 'name a tab'),
  break: (text) => (text ? { run: () => ask('break', { place: text }) } : 'name a place'),
  clear: () => ({ run: () => (shown.breakpoints || []).forEach((place) => ask('unbreak', { place })) }),
  back: (text) => (text ? { run: () => backTo(text) } : 'name a place'),
  watch: (text) => (text ? { run: () => addWatch(text) } : 'name a place'),
};

// What moves a step on: each returns a function of what is shown, or a fault as a text.
const CONDITIONS = {
  ...Object.fromEntries(Object.entries(FIELDS).map(([name, length]) => [name, (text) => (
    text.length === length ? () => shown.panel?.[name] === text : `${length} characters, with _ for a blank`)])),
  FLASH: (text) => (['on', 'off'].includes(text) ? () => shown.panel?.FLASH === text : 'on or off'),
  lit: (text) => (ALL_LAMPS.has(text) ? () => isLit(text) : `no lamp ${text}`),
  dark: (text) => (ALL_LAMPS.has(text) ? () => !isLit(text) : `no lamp ${text}`),
  running: () => () => now.playing && now.cycle > 0, // a key at cycle 0 comes before the first order, and the next step may type one at once
  paused: () => () => !now.playing,
  speed: (text) => (SPEED_STEPS.includes(Number(text)) ? () => now.speed === Number(text) : 'a speed is 1, 10, 100 or 1000'),
  seconds: (text) => (Number(text) > 0 ? () => now.cycle >= guiding.since + Number(text) * CYCLES_A_SECOND : 'a number of seconds'),
  row(text) {
    const [, name, sign, value] = text.match(/^(.+?) ([=<>]) (.+)$/) || [];
    return name ? () => rowsShown().some(([each, found]) => each === name && COMPARISONS[sign](String(found), value)) : 'NAME = VALUE, NAME < NUMBER or NAME > NUMBER';
  },
  instrument: () => () => (shown.instruments || []).length > 0,
  explained: () => () => why.isExplained,
  start: () => () => now.cycle === 0,
  outcome: () => () => (shown.instruments || []).some((view) => view.outcome?.text),
  next: (text) => (text ? () => (shown.machine?.next || '').split(/\s+/).includes(text) : 'a name or an order'),
};

const isLit = (lamp) => (shown.panel?.LAMPS || '').split(', ').includes(lamp);
const rowsShown = () => (shown.instruments || []).flatMap((view) => (Array.isArray(view.rows) ? view.rows : []));

// what a click does

function pressForGuide(name) {
  if (name !== 'PRO') {
    press(name);
    return;
  }
  ask('pro', { down: true });
  ask('pro', { down: false });
}

// Presses a button of an instrument, and lets it up.
function pressControl(name) {
  const button = document.querySelector(`[data-control="${CSS.escape(name)}"]`);
  if (!button) {
    showFault(`The guide names a button that is not here: ${name}.`);
    return;
  }
  button.hold(true);
  button.hold(false);
}

function chooseTab(name) {
  const tab = [...find('tabs').children].find((each) => each.textContent.toLowerCase() === name.toLowerCase());
  if (tab) tab.click(); else showFault(`The guide names a tab that is not here: ${name}.`);
}

// the strip

function loadGuides(text) {
  if (guiding.text === text) return;
  Object.assign(guiding, { text, guide: null, at: 0, says: null, ...parseGuides(text || '') }); // other buttons may have the same names
  showStrip();
}

function beginGuide(guide) {
  Object.assign(guiding, { guide, at: 0, since: now.cycle, isDone: false });
  followGuide();
}

// Begins a guide by its title, if there is such a guide.
function beginGuideNamed(title) {
  const guide = guiding.guides.find((each) => each.title === title);
  if (guide) beginGuide(guide);
}

function nextStep() {
  Object.assign(guiding, { at: guiding.at + 1, since: now.cycle, isDone: false });
}

const stepNow = () => guiding.guide?.steps[guiding.at];

// Goes on as far as what is shown says. A step without a condition waits for a click.
function followGuide() {
  guiding.since = Math.min(guiding.since, now.cycle); // after going back, and from a new start, a step's seconds count from there
  while (stepNow()?.until.length && stepNow().until.every((holds) => holds())) nextStep();
  showStrip();
}

function doStep() {
  const { clicks, until } = stepNow();
  guiding.isDone = true;
  for (const { run } of clicks) run();
  if (!until.length) nextStep();
  followGuide();
}

function skipStep() {
  nextStep();
  followGuide();
}

// Returns the label of a button, and what makes it: the strip is looked at with all news, and its buttons are seldom others.
function stripButton(label, name, task, kind = '') {
  const build = () => {
    const button = make('button', { type: 'button', class: kind, 'aria-label': name }, label);
    button.addEventListener('click', task);
    return button;
  };
  return { label, build };
}

const choices = () => guiding.guides.map((guide) => stripButton(guide.title, `Guide: ${guide.title}`, () => beginGuide(guide)));

// Returns what the strip says: a title, what to do, why, and its buttons.
function stripOf({ guide, at, faults, guides }) {
  const hide = stripButton('✕', 'Hide the guided steps', () => { guiding.hidden = true; showStrip(); });
  const all = () => [...choices(), ...guiding.more(), hide];
  if (!guide && faults.length) return ['', `The guide has a fault: ${faults[0]}.`, faults.length > 1 ? `${faults.length - 1} more.` : '', all()];
  if (!guide) return ['', guides.length ? 'Guided steps:' : '', '', all()];
  const end = stripButton('✕', 'End the guided steps', () => { guiding.guide = null; showStrip(); });
  const step = stepNow();
  if (!step) return [guide.title, 'That is all.', 'Choose another one:', all()];
  const buttons = step.clicks.length ? [mainButton(step)] : [];
  const skip = step.until.length || step.clicks.length ? 'Skip' : 'Next';
  const number = step.isNeed ? '' : ` ${countSteps(guide, at + 1)}/${countSteps(guide)}`;
  return [`${guide.title}${number}`, step.what, step.why, [...buttons, stripButton(skip, `${skip} this step`, skipStep), end]];
}

// Returns the button that does a step. Once it has done so, it stays for another try, and no longer looks like what to do next.
function mainButton(step) {
  const keys = step.clicks.flatMap((click) => click.keys || []);
  const label = step.label || (keys.join() === 'PRO' && 'Press it') || (keys.length ? 'Type it' : 'Do it');
  const says = guiding.isDone ? `${label} again` : label;
  return stripButton(says, `${says}: ${step.what}`, doStep, guiding.isDone ? '' : 'main');
}

// Shows the strip; its buttons are made anew only if it says something else.
function showStrip() {
  const [title, what, why, buttons] = stripOf(guiding);
  find('strip').hidden = guiding.hidden || !what;
  const says = JSON.stringify([title, what, why, buttons.map(({ label }) => label)]);
  if (guiding.says === says) return;
  guiding.says = says;
  find('strip').classList.toggle('followed', Boolean(stepNow()));
  setText(find('strip-title'), title);
  setText(find('strip-what'), what);
  setText(find('strip-why'), why);
  find('strip-buttons').replaceChildren(...buttons.map(({ build }) => build()));
}
