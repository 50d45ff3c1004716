'use strict';
// The tab Source: the lines of the listing, the one of the order that comes next lit. A click at a line sets or removes a
// breakpoint; pointing at a name shows its place, and what the cell has.

const LINE_HEIGHT = 18; // pixels, as in listing.css
const MARGIN = 3; // lines that are shown before and behind the lit one
const SPARE = 20; // lines that are made beyond those that are seen
const LONGEST_SHOWN = 400; // characters of a line
const NAMED = /^(.+?)([+-]\d+)?$/;

const EMPTY_LISTING = { offered: false, loading: null, read: null, code: '', places: new Map(), here: null, breaks: new Map(), breaksText: '', pointed: null, valuesAt: '', scrolledAt: -1 };

// `here` is the line of the order that comes next; `breaks` has the breakpoints of lines as they were given. `also` is called after
// each change, `begins` with each session.
const listing = { ...EMPTY_LISTING, also: () => {}, begins: () => {}, isOffered: () => listing.offered };

// what is loaded

// Begins anew with each session.
function keepListing(about) {
  Object.assign(listing, EMPTY_LISTING, { offered: Boolean(about.listing), places: placesByName(about), breaks: new Map() });
  setText(find('listing-fault'), '');
  for (const id of ['listing-where', 'listing-names']) setText(find(id), '');
  for (const id of ['listing', 'listing-cause', 'listing-now']) find(id).hidden = true;
  find('alarm-line').hidden = !listing.offered;
  listing.begins();
}

// Of a name that is there twice the first place counts.
const placesByName = ({ names, places }) => new Map(names.map((name, i) => [name, places[i]]).reverse());

// Loads the listing once it is wanted, and compares its words with the rope's. Returns whether it is there.
function loadListing() {
  if (listing.offered) listing.loading ??= readAndCompare();
  return listing.loading ?? Promise.resolve(false);
}

async function readAndCompare() {
  const { places } = listing;
  setText(find('listing-fault'), 'Reading the source …');
  let read = null;
  let refused = '';
  try {
    const { listing: text, rope, form } = await session.source();
    read = readListing(text);
    compareWords(read, rope, form);
  } catch (error) {
    refused = `The listing is refused: ${error.message}.`;
  }
  if (places !== listing.places) return false; // of another session
  setText(find('listing-fault'), refused);
  if (refused) return false;
  Object.assign(listing, { read, code: read.lines.map((line) => line.text).join(LINE) });
  listing.places = new Map([...read.names, ...places]);
  const files = new Set(read.lines.map(({ file }) => file));
  listing.label = files.size > 1 ? ({ file, number }) => `${file} ${number}` : ({ number }) => number;
  const longest = read.lines.reduce((most, line) => Math.max(most, listing.label(line).length), 0);
  find('listing').style.setProperty('--label', `${Math.min(longest, 24) + 1}ch`);
  find('listing-lines').style.height = `${read.lines.length * LINE_HEIGHT}px`;
  find('listing').hidden = false;
  followListing();
  return true;
}

// Called if the tab is shown.
async function showListing() {
  if (inspector.tab !== 'source' || !await loadListing()) return;
  showLine(listing.here);
  buildLines();
}

// where the program is

// Returns the place of the order that comes next; of other boundaries before it the coming ones say where it is.
function placeNow() {
  const next = [shown.machine?.next ?? '-', ...(shown.ahead || []).map((line) => boundary(line).what)];
  return next.find((what) => !what.startsWith('-'))?.split(' ')[0] ?? null;
}

// Follows the machine: called with all news.
function followListing() {
  if (!listing.read) return;
  const place = placeNow();
  if (place !== null || !now.playing) showHere(place);
  if (now.playing) find('listing-cause').hidden = true;
  followBreaks();
  if (!now.playing && listing.valuesAt !== momentNow()) showNames(listing.pointed);
  listing.also();
}

function showHere(place) {
  const here = listing.read.at.get(keyOf(place)) ?? null;
  const line = listing.read.lines[here];
  const missing = place === null ? 'No order comes next.' : `${place} is not in the listing.`;
  setText(find('listing-where'), line ? `${line.file} ${line.number}, ${place}` : missing);
  find('listing-now').hidden = !line;
  if (here !== listing.here) {
    listing.here = here;
    for (const row of find('listing-lines').children) row.classList.toggle('here', Number(row.dataset.line) === here);
  }
  if (now.playing || listing.scrolledAt === now.cycle) return;
  listing.scrolledAt = now.cycle;
  showLine(here);
}

// Scrolls so that a line is seen, with some before and behind it.
function showLine(index) {
  const area = find('listing');
  if (index === null || !area.clientHeight) return;
  const [top, height] = [index * LINE_HEIGHT, area.clientHeight];
  const margin = Math.min(MARGIN * LINE_HEIGHT, height / 3);
  if (top < area.scrollTop + margin || top + LINE_HEIGHT > area.scrollTop + height - margin) area.scrollTop = top - height * 0.4;
  buildLines();
}

// the lines that are seen

// Makes the lines that are seen, and some around them: a listing may have many.
function buildLines() {
  const area = find('listing');
  if (!listing.read || !area.clientHeight) return;
  const { lines } = listing.read;
  const first = Math.max(0, Math.floor(area.scrollTop / LINE_HEIGHT) - SPARE);
  const end = Math.min(lines.length, first + Math.ceil(area.clientHeight / LINE_HEIGHT) + 2 * SPARE);
  const focused = area.contains(document.activeElement) ? document.activeElement.closest('[data-line]')?.dataset.line : undefined;
  const list = find('listing-lines');
  list.style.paddingTop = `${first * LINE_HEIGHT}px`;
  list.replaceChildren(...lines.slice(first, end).map((line, i) => buildLine(line, first + i)));
  if (focused !== undefined) focusLine(Number(focused));
}

function buildLine(line, index) {
  const number = make('span', { class: 'number' }, listing.label(line));
  const text = make('span', { class: 'code' }, ...withNames(line.text.slice(0, LONGEST_SHOWN)));
  const classes = `listed${index === listing.here ? ' here' : ''}${listing.breaks.has(index) ? ' stops' : ''}`;
  if (!line.words.length) return make('div', { class: classes, 'data-line': index }, number, text);
  const { place, word } = line.words[0];
  const isBreak = listing.breaks.has(index);
  const row = make('button', { type: 'button', tabindex: index === (listing.here ?? firstPlace()) ? '0' : '-1', 'aria-pressed': isBreak, title: `${line.file} ${line.number}: ${place} ${octal(word)}. Click: breakpoint` }, number, text);
  row.addEventListener('click', () => toggleBreak(index));
  if (!isBreak) return make('div', { class: classes, 'data-line': index }, row);
  const back = make('button', { type: 'button', class: 'back', tabindex: '-1', 'aria-label': `Back to the last order at ${place}`, title: 'Back to the last time' }, '◀');
  back.addEventListener('click', () => backTo(listing.breaks.get(index)));
  return make('div', { class: classes, 'data-line': index }, row, back);
}

const firstPlace = () => listing.read.at.values().next().value;

// A line's text, its names apart, so that one can point at them.
function withNames(text) {
  const end = text.indexOf('#') < 0 ? text.length : text.indexOf('#');
  const words = text.slice(0, end).split(/(\s+)/).map((word) => (nameIn(word) === null ? word : make('span', { class: 'symbol', 'data-name': nameIn(word) }, word)));
  return [...words, make('span', { class: 'comment' }, text.slice(end))];
}

// Returns the name in a word of a line, which may have an offset; null if it has none.
function nameIn(word) {
  if (listing.places.has(word)) return word;
  const [, name] = word.match(NAMED) || [];
  return name !== undefined && listing.places.has(name) ? name : null;
}

function focusLine(index) {
  find('listing-lines').querySelector(`[data-line="${index}"] button`)?.focus({ preventScroll: true });
}

// The arrow keys go to the next line with a place.
function moveLine(event) {
  const by = { ArrowUp: -1, ArrowDown: 1 }[event.key];
  const from = event.target.closest('[data-line]');
  if (!by || !from) return;
  event.preventDefault();
  event.stopPropagation();
  const { lines } = listing.read;
  let index = Number(from.dataset.line) + by;
  while (lines[index] && !lines[index].words.length) index += by;
  if (!lines[index]) return;
  showLine(index);
  focusLine(index);
  showNames(namesOf(index));
}

// breakpoints

// Returns the line of a breakpoint at an order, which may be a name with an offset.
function lineOfBreak(text) {
  const [, name, offset = '0'] = text.match(NAMED) || [];
  const key = keyOf(listing.places.get(text) ?? text) ?? keyOf(listing.places.get(name));
  const by = keyOf(listing.places.get(text) ?? text) === null ? Number(offset) : 0;
  return key === null ? undefined : listing.read.at.get(key + by);
}

function followBreaks() {
  const texts = shown.breakpoints || [];
  if (listing.breaksText === JSON.stringify(texts)) return;
  listing.breaksText = JSON.stringify(texts);
  listing.breaks = new Map(texts.map((text) => [lineOfBreak(text), text]).filter(([index]) => index !== undefined));
  buildLines();
}

// Sets or removes the breakpoint of a line.
function toggleBreak(index) {
  const text = listing.breaks.get(index);
  if (text !== undefined) ask('unbreak', { place: text });
  else ask('break', { place: listing.read.lines[index].words[0].place });
}

// names

const namesOf = (index) => [...new Set(listing.read.lines[index].text.split('#')[0].split(/\s+/).map(nameIn).filter((name) => name !== null))];

const momentNow = () => `${now.cycle} ${now.events}`;

const isCell = (place) => /^E[0-7],|^[01][0-7]{3}$/.test(place);

// Shows names: their places, and what their cells have now.
async function showNames(names) {
  Object.assign(listing, { pointed: names, valuesAt: momentNow() });
  if (!names) return;
  const cells = names.map((name) => listing.places.get(name)).filter(isCell).slice(0, MOST_CELLS);
  let words = {};
  try {
    if (cells.length) words = (await session.look({ cells })).cells ?? {};
  } catch { /* the stream says that the session is gone */ }
  if (listing.pointed === names) setText(find('listing-names'), names.map((name) => sayName(name, words)).join('; '));
}

function sayName(name, words) {
  const place = listing.places.get(name);
  if (place.startsWith('C')) return `${name} is channel ${place.slice(1)}`;
  if (!isCell(place)) return `${name} is ${place}`;
  const word = words[place];
  return `${name} is ${place}: ${typeof word === 'number' ? `${octal(word)}, ${decimal(word)}` : 'unknown'}`;
}

function pointAt(event) {
  const { name } = event.target.closest?.('.symbol')?.dataset ?? {};
  if (name !== undefined && listing.pointed?.join() !== name) showNames([name]);
}

// the cause of an alarm

// Goes to the routine of the alarm for which PROG is lit, and offers the call that found no room.
async function showAlarmLine() {
  if (now.playing) await ask('pause');
  const code = await alarmCode(CODE_OF_LAMP);
  const alarm = await seekFirst(known(ALARMS));
  if (!alarm || !await goExactly(alarm.cycle)) return;
  const call = code in CODES ? await seek(known(Object.keys(CALLS)), alarm.cycle) : null;
  const reason = CODES[code] ? `: ${CODES[code]}` : '';
  const again = make('button', { type: 'button', class: 'main' }, CODES[code] ? 'The call that found none' : 'Who called');
  again.addEventListener('click', () => goExactly((call ?? alarm).order));
  find('listing-cause').replaceChildren(`${code === null ? 'An alarm' : `Alarm ${octal(code, 4)}`}${reason}. `, again);
  find('listing-cause').hidden = false;
  showTab('source');
  bringIntoView(find('listing-cause'));
}

// Goes back to a cycle. A session with instruments may first go back to their tick before it; it then goes on to the cycle, unless
// another one was wanted meanwhile. Returns whether it is there.
let timesGone = 0;
async function goExactly(cycle) {
  timesGone += 1;
  const turn = timesGone;
  if (!await ask('go', { cycle })) return false;
  return now.cycle >= cycle || (turn === timesGone && ask('go', { cycle }));
}

// Goes back by a boundary, over a call, or to the call of the routine: two quick clicks are two steps. What waits behind a step that
// is not done is dropped.
let stepsBack = [];
async function stepBack(way) {
  stepsBack.push(way);
  if (stepsBack.length > 1) return;
  while (stepsBack.length && await goStepBack(stepsBack[0])) stepsBack.shift();
  stepsBack = [];
}

// Returns whether it was done.
async function goStepBack(way) {
  if (now.playing && !await ask('pause')) return false;
  const found = await request(() => session.findStep(way));
  if (!found) return false;
  showFault(found.error || '');
  return found.status === 200 && goExactly(found.cycle);
}

function buildListing() {
  for (const button of find('listing-steps').children) {
    const { by, from } = button.dataset;
    button.addEventListener('click', () => (from ? stepBack(from) : ask(by, by === 'step' ? {} : jobNow())));
  }
  find('listing').addEventListener('scroll', buildLines);
  find('listing').addEventListener('keydown', moveLine);
  find('listing').addEventListener('pointerover', pointAt);
  find('listing').addEventListener('focusin', (event) => {
    const line = event.target.closest('[data-line]');
    if (line && !byPointer) showNames(namesOf(Number(line.dataset.line)));
  });
  find('listing-now').addEventListener('click', () => showLine(listing.here));
  find('alarm-line').addEventListener('click', showAlarmLine);
  window.addEventListener('resize', buildLines);
}
