'use strict';
// The inside of the machine: boundaries, registers, memory, cells, channels, tables, breakpoints and the script.

const LOOK_EVERY = 200; // milliseconds between two looks while time goes on
const MOST_CELLS = 64; // that the server takes in a request
const MOST_IGNORED = 1000000; // hits of a breakpoint
const BITS = { a: 16, q: 16 };
const BANKED = { z: 4, eb: 1, fb: 2, bb: 5 }; // digits of the registers that are no numbers
const CHANNELS = [
  [0o5, 'RCS jets: pitch and yaw'], [0o6, 'RCS jets: roll'], [0o7, 'superbank'], [0o10, 'DSKY relays'], [0o11, 'lamps and engine'],
  [0o12, 'optics, IMU, gimbals'], [0o13, 'radar, uplink, tests'], [0o14, 'drives of CDUs and gyros'], [0o15, 'key of the main DSKY'],
  [0o16, 'key of the navigation DSKY, marks'], [0o30, 'inputs: stage, engine, IMU'], [0o31, 'inputs: hand controllers, modes'],
  [0o32, 'inputs: thrusters, PRO'], [0o33, 'inputs: radar, optics, PIPA'], [0o34, 'downlink, first word'], [0o35, 'downlink, second word'],
];
const TABS = { orders: 'Orders', memory: 'Memory', watch: 'Watch', plot: 'Plot', timeline: 'Timeline', channels: 'Channels', tables: 'Tables', why: 'Alarm', breaks: 'Breaks', script: 'Script', source: 'Source' };

const inspector = { tab: 'orders', bank: 0, words: null, watched: [], looking: false, stale: false, lookedAt: 0, cycle: -1, events: -1 };

// tabs

function buildTabs(names) {
  find('tabs').replaceChildren(...names.map((name) => {
    const tab = make('button', { type: 'button', role: 'tab', id: `${name}-tab`, 'aria-controls': `${name}-panel` }, TABS[name] || name);
    tab.addEventListener('click', () => showTab(name));
    find(`${name}-panel`).setAttribute('aria-labelledby', `${name}-tab`);
    return tab;
  }));
  for (const panel of document.querySelectorAll('.panel')) panel.hidden = true;
  showTab(names[0]);
}

function showTab(name) {
  inspector.tab = name;
  for (const tab of find('tabs').children) {
    const chosen = tab.id === `${name}-tab`;
    tab.setAttribute('aria-selected', chosen);
    tab.tabIndex = chosen ? 0 : -1;
    find(tab.getAttribute('aria-controls')).hidden = !chosen;
  }
  look();
  showScript();
  scrollHistory();
  showListing();
  drawSoon();
}

// The arrow keys go from tab to tab.
function moveTab(event) {
  const tabs = [...find('tabs').children];
  const by = { ArrowRight: 1, ArrowLeft: -1 }[event.key];
  if (!by) return;
  event.preventDefault();
  const next = tabs[(tabs.indexOf(document.activeElement) + by + tabs.length) % tabs.length];
  next.focus();
  next.click();
}

// registers and boundaries

function showMachine({ next, registers }) {
  setText(find('next'), comingByName(next, registers));
  for (const [name, word] of Object.entries(registers)) {
    const bits = BITS[name] || 15;
    setText(find(`register-${name}`), octal(word, BANKED[name] || Math.ceil(bits / 3)));
    if (!BANKED[name]) setText(find(`decimal-${name}`), decimal(word, bits));
  }
}

function buildRegisters() {
  for (const name of ['a', 'l', 'q', 'z', 'eb', 'fb', 'bb']) {
    const values = [make('b', { id: `register-${name}` })];
    if (!BANKED[name]) values.push(make('i', { id: `decimal-${name}` }));
    find('registers').append(make('div', {}, make('dt', {}, name.toUpperCase()), make('dd', {}, ...values)));
  }
}

// Takes a line of a trace apart: its cycle, what happened, an operand by its name, and the registers after it.
function boundary(line) {
  const [what, after = ''] = line.split(' | ');
  const space = what.indexOf(' ');
  return { cycle: Number(what.slice(0, space)), what: happenedByName(what.slice(space + 1), after), after };
}

// Shows the last boundaries. The Tab key comes to the last one alone; the arrow keys go on from there.
function showHistory(lines) {
  const hadFocus = find('history').contains(document.activeElement);
  find('history').replaceChildren(...lines.map((line, i) => {
    const { cycle, what, after } = boundary(line);
    const button = make('button', { type: 'button', tabindex: i === lines.length - 1 ? '0' : '-1', title: `Go back to cycle ${cycle}; after it ${after}` },
      make('span', { class: 'at' }, grouped(cycle)), make('span', { class: 'what' }, what), make('span', { class: 'after' }, after));
    button.addEventListener('click', () => ask('go', { cycle }));
    return make('li', {}, button);
  }));
  find('here').hidden = lines.length === 0;
  showNote();
  if (hadFocus && lines.length) find('history').lastChild.firstChild.focus();
  scrollHistory();
}

function moveBoundary(event) {
  const item = event.target.closest('li');
  const next = { ArrowUp: item?.previousSibling, ArrowDown: item?.nextSibling }[event.key];
  if (!next) return;
  event.preventDefault();
  event.stopPropagation();
  next.firstChild.focus();
}

function scrollHistory() {
  const here = find('here');
  const panel = find('orders-panel');
  panel.scrollTop = here.offsetTop - panel.clientHeight * 0.6;
}

function showAhead(lines) {
  find('ahead').replaceChildren(...lines.map((line) => {
    const { cycle, what } = boundary(line);
    return make('li', {}, make('span', { class: 'at' }, grouped(cycle)), make('span', { class: 'what' }, what));
  }));
  showNote();
  scrollHistory();
}

// Says how to see the boundaries if none is shown; at cycle 0 only the coming ones are.
function showNote() {
  find('orders-note').hidden = find('history').children.length + find('ahead').children.length > 0;
}

// memory, cells and channels: what the tab that is shown needs is asked for, at most every fifth of a second

// Returns the bodies of the requests: more than one if many cells are watched.
function wanted() {
  const { tab, bank, watched } = inspector;
  if (tab === 'memory') return [{ bank }];
  const all = [...watched, ...quantityCells()];
  if (tab === 'watch') return all.flatMap((_, i) => (i % MOST_CELLS ? [] : [{ cells: all.slice(i, i + MOST_CELLS) }]));
  if (tab === 'channels') return [{ channels: CHANNELS.map(([number]) => number) }];
  return [];
}

async function look() {
  const bodies = wanted();
  if (!bodies.length) return;
  if (inspector.looking) {
    inspector.stale = true;
    return;
  }
  inspector.looking = true;
  inspector.stale = false;
  try {
    for (const body of bodies) {
      const seen = await session.look(body);
      if (seen.status === 200 && JSON.stringify(bodies) === JSON.stringify(wanted())) showWords(seen);
    }
  } catch { /* the stream says that the session is gone */ }
  setTimeout(() => {
    inspector.looking = false;
    if (inspector.stale) look();
  }, LOOK_EVERY);
}

function showWords({ bank, cells, channels }) {
  if (bank) showBank(bank);
  showValues(cells);
  for (const [place, word] of Object.entries(cells)) {
    const row = find('watched').querySelector(`tr[data-place="${CSS.escape(place)}"]`);
    if (row) showCell(row, word);
  }
  for (const [channel, word] of Object.entries(channels)) showChanged(find(`channel-${channel}`), octal(word));
}

// Shows a text, bright if it has changed.
function showChanged(element, text) {
  element.classList.toggle('changed', element.textContent !== '' && element.textContent !== text);
  setText(element, text);
}

function showCell(row, word) {
  const [, inOctal, inDecimal] = row.children;
  const isWord = typeof word === 'number';
  showChanged(inOctal, isWord ? octal(word) : '–');
  setText(inDecimal, isWord ? decimal(word) : word.replace(/^\w+: /, ''));
}

function buildMemory() {
  for (let bank = 0; bank < 8; bank += 1) find('bank').append(make('option', { value: bank }, `E${bank}`));
  const digits = [...Array(8).keys()].map((low) => make('th', { scope: 'col' }, `+${low}`));
  find('memory').append(make('thead', {}, make('tr', {}, make('td'), ...digits)));
  const body = make('tbody');
  for (let row = 0; row < 32; row += 1) {
    const cells = [...Array(8).keys()].map((low) => make('td', {}, cellButton(8 * row + low)));
    body.append(make('tr', {}, make('th', { scope: 'row' }), ...cells));
  }
  find('memory').append(body);
  find('bank').addEventListener('change', () => {
    inspector.bank = Number(find('bank').value);
    nameRows();
    for (const cell of find('memory').querySelectorAll('tbody button')) cell.textContent = '';
    look();
  });
  moveAmong(find('memory'), 'button', { ArrowLeft: -1, ArrowUp: -8, ArrowRight: 1, ArrowDown: 8 });
  nameRows();
}

function cellButton(number) {
  const button = make('button', { type: 'button' });
  button.addEventListener('click', () => explain(cellPlace(number), [`cell ${cellPlace(number)}`]));
  return button;
}

// The rows of a bank by their addresses: banks E0 to E2 are 0000 to 1377, the others are seen through 1400 to 1777.
function nameRows() {
  [...find('memory').querySelectorAll('tbody th')].forEach((head, row) => { head.textContent = cellPlace(8 * row); });
}

// The place of a cell of the bank that is shown.
function cellPlace(number) {
  const { bank } = inspector;
  return bank < 3 ? octal(256 * bank + number, 4) : `E${bank},${octal(0o1400 + number, 4)}`;
}

function showBank(words) {
  const cells = find('memory').querySelectorAll('tbody td');
  words.forEach((word, i) => {
    if (cells[i].textContent === octal(word)) {
      cells[i].classList.remove('changed');
      return;
    }
    cells[i].classList.toggle('changed', cells[i].textContent !== '');
    const button = cells[i].firstChild;
    button.textContent = octal(word);
    button.title = `${decimal(word)}. Click: what changed ${cellPlace(i)} last?`;
    button.setAttribute('aria-label', `${cellPlace(i)}: ${octal(word)}. What changed it last?`);
  });
}

function buildChannels() {
  find('channels').append(...CHANNELS.map(([number, what]) => make('tr', {},
    make('th', { scope: 'row' }, octal(number, 2)), make('td', { id: `channel-${number}`, class: 'word' }), make('td', {}, what),
    make('td', {}, causeButton(`channel ${octal(number, 2)}`, [`write ${octal(number, 1)}`])))));
}

// the watch list

function addWatch(place) {
  if (!place || inspector.watched.includes(place)) return;
  inspector.watched.push(place);
  keepWatched();
  const remove = make('button', { type: 'button', 'aria-label': `Remove ${place}` }, '✕');
  const row = make('tr', { 'data-place': place }, make('th', { scope: 'row' }, place), make('td', { class: 'word' }), make('td'), make('td', {}, causeButton(place, [`cell ${place}`]), ' ', remove));
  remove.addEventListener('click', () => {
    inspector.watched = inspector.watched.filter((each) => each !== place);
    keepWatched();
    row.remove();
  });
  find('watched').append(row);
  look();
}

function keepWatched() {
  sessionStorage.setItem('watched', JSON.stringify(inspector.watched));
}

// breakpoints

function showBreaks(texts) {
  find('breaks').replaceChildren(...texts.map((text) => {
    const remove = make('button', { type: 'button', 'aria-label': `Remove the breakpoint ${text}` }, '✕');
    remove.addEventListener('click', () => ask('unbreak', { place: text }));
    const last = make('button', { type: 'button', 'aria-label': `Back to the last ${breakText(text)}` }, '◀');
    last.addEventListener('click', () => backTo(text));
    return make('li', {}, last, ' ', make('code', {}, breakText(text)), ' ', make('span', {}, nameOfBreak(text) ?? ''), ' ', ignoreField(text), ' ', remove);
  }));
  showIgnored(shown.ignored || {});
}

// Makes the field for the hits of a breakpoint that are passed over.
function ignoreField(text) {
  const field = make('input', { type: 'number', min: 0, max: MOST_IGNORED, step: 1, value: 0, 'data-break': text, 'aria-label': `Hits of the ${breakText(text)} to ignore` });
  field.addEventListener('change', () => { if (field.reportValidity()) ask('ignore', { place: text, hits: Number(field.value) }); });
  return make('label', {}, 'ignore ', field);
}

// Shows how many hits are still passed over, but leaves alone what is being typed.
function showIgnored(counts) {
  for (const field of find('breaks').querySelectorAll('input')) {
    if (field !== document.activeElement) field.value = counts[field.dataset.break] ?? 0;
  }
}

function breakText(text) {
  if (text.startsWith('write ')) return `write to channel ${text.slice(6)}`;
  if (text.startsWith('cell ')) return `change of ${text.slice(5)}`;
  return `order at ${text}`;
}

// Adds the breakpoint of the form; a place that is refused stands there again, unless another is being typed.
async function addBreak(event) {
  event.preventDefault();
  const field = find('break-place');
  const typed = field.value.trim();
  field.value = '';
  const done = await ask('break', { place: placeOfForm(typed) });
  if (!done && field.value === '') field.value = typed;
}

const placeOfForm = (typed) => `${find('break-kind').value} ${typed}`.trim();

// the script

async function showScript() {
  if (inspector.tab !== 'script') return;
  try {
    setText(find('script'), (await session.script()) || '(nothing was pressed yet)');
  } catch { /* the stream says that the session is gone */ }
}

async function copyScript() {
  const text = await session.script();
  try {
    await navigator.clipboard.writeText(text);
    setText(find('copy'), 'Copied');
  } catch {
    getSelection().selectAllChildren(find('script'));
    setText(find('copy'), 'Selected');
  }
  setTimeout(() => setText(find('copy'), 'Copy'), 1500);
}

// Follows the machine: called with each news of time.
function follow(time) {
  if (time.cycle !== inspector.cycle || time.events !== inspector.events) look();
  if (time.events !== inspector.events) showScript();
  inspector.cycle = time.cycle;
  inspector.events = time.events;
  setText(find('limit'), String(time.limit));
}

function buildInspector() {
  buildRegisters();
  buildMemory();
  buildChannels();
  find('tabs').addEventListener('keydown', moveTab);
  find('history').addEventListener('keydown', moveBoundary);
  find('watch-form').addEventListener('submit', (event) => {
    event.preventDefault();
    addWatch(find('watch-place').value.trim());
    find('watch-place').value = '';
  });
  find('break-form').addEventListener('submit', addBreak);
  find('break-back').addEventListener('click', () => { if (find('break-form').reportValidity()) backTo(placeOfForm(find('break-place').value.trim())); });
  find('copy').addEventListener('click', copyScript);
  find('download').href = session.scriptAddress;
  find('film').href = session.filmAddress;
  if (session.timelineAddress) find('timeline').href = session.timelineAddress;
  JSON.parse(sessionStorage.getItem('watched') || '[]').forEach(addWatch);
}
