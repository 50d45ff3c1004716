'use strict';
// What caused this: a click at a lamp, a digit, a channel or a cell goes back to the order that changed it last, and shows it.

// `cycle`: where time stands as long as the answer holds; `isThere`: whether time was seen there.
const causes = { cycle: null, isThere: false };

const WRITES = 'write '; // begins the place of a channel

// Makes a button that explains something by its name. `places` are those of the session's `cause`.
function causeButton(name, places, text = 'Why?', run = () => explain(name, places)) {
  const label = `What ${places[0].startsWith(WRITES) ? 'wrote' : 'changed'} ${name} last?`;
  const button = make('button', { type: 'button', class: 'cause', 'aria-label': text ? `${text} ${label}` : label, title: `${label} Goes back to it` }, text);
  button.addEventListener('click', run);
  return button;
}

// The lamp PROG has the cause of its alarm, if that is known.
function explainLampOf(name) {
  if (name !== 'PROG' || find('alarm').hidden) return explain(`the lamp ${name}`, [`lamp ${name}`]);
  return listing.offered ? showAlarmLine() : explainLamp();
}

// Goes back to the order that changed something last. What no order has changed is only named.
async function explain(name, places) {
  sayCause(null);
  if (now.playing && !await ask('pause')) return;
  const answer = await request(() => session.cause({ places }));
  if (!answer) return;
  showFault(answer.error || '');
  if (answer.status !== 200) return;
  const done = places[0].startsWith(WRITES) ? 'written' : 'changed';
  if (answer.line === null) {
    sayCause(answer.cycle, `${name} has not been ${done} since the start.`);
    return;
  }
  const { cycle, what } = boundary(answer.line);
  const by = `${name} was last ${done} at ${(cycle / CYCLES_A_SECOND).toFixed(3)} s, cycle ${grouped(cycle)}, by ${doer(what)}.`;
  if (what.startsWith('- event ')) {
    sayCause(answer.cycle, `${by} No order did it. `, buttonTo('Go there', () => goExactly(cycle)));
    return;
  }
  if (!await goExactly(cycle)) return;
  showTab(await loadListing() ? 'source' : 'orders');
  sayCause(cycle, `${by} Time stands before it. `, buttonTo('↶ Undo going back', undo));
}

// Names an order, or what else a boundary was, by its line of a trace.
function doer(what) {
  const [, kind, rest] = what.match(/^- (\w+) (.*)$/) || [];
  if (kind === 'timer') return `a step of ${rest}`;
  if (kind) return `the ${kind} ${rest}`;
  const [, place, name, order] = what.match(/^(\S+) (.*?) *[0-7]{5} (.*)$/) || [];
  return order === undefined ? what : `${order} at ${name || place}`;
}

function buttonTo(text, task) {
  const button = make('button', { type: 'button' }, text);
  button.addEventListener('click', task);
  return button;
}

// Says what was found, as long as time stands at a cycle; null takes it away.
function sayCause(cycle, ...parts) {
  Object.assign(causes, { cycle, isThere: now.cycle === cycle && !now.playing });
  find('cause').replaceChildren(...parts);
  if (parts.length) bringIntoView(find('cause'));
}

// Follows the machine: called with all news.
function followCause() {
  if (causes.cycle === null) return;
  const isThere = now.cycle === causes.cycle && !now.playing;
  if (causes.isThere && !isThere) sayCause(null); else causes.isThere = isThere;
}

// The arrow keys go from one of a group's buttons to others; the Tab key comes to one alone.
function moveAmong(group, selector, steps) {
  const all = () => [...group.querySelectorAll(selector)];
  all().forEach((button, i) => { button.tabIndex = i ? -1 : 0; });
  group.addEventListener('keydown', (event) => {
    const [from, by] = [all().indexOf(event.target), steps[event.key]];
    const next = all()[from + by];
    if (from < 0 || !by) return;
    event.preventDefault();
    event.stopPropagation();
    if (!next) return;
    event.target.tabIndex = -1;
    next.tabIndex = 0;
    next.focus();
  });
}

// Lays a button over each lamp and each field of the DSKY.
function buildCauses() {
  const face = find('face');
  for (const lamp of face.querySelectorAll('[data-lamp]')) {
    const name = lamp.dataset.lamp;
    if (name) lamp.append(causeButton(`the lamp ${name}`, [`lamp ${name}`], '', () => explainLampOf(name)));
  }
  for (const digits of face.querySelectorAll('.digits')) digits.parentElement.append(causeButton(digits.dataset.name, [`panel ${digits.dataset.name}`], ''));
  for (const glyph of face.querySelectorAll('svg')) glyph.setAttribute('aria-hidden', 'true');
  moveAmong(face, '.cause', { ArrowLeft: -1, ArrowUp: -1, ArrowRight: 1, ArrowDown: 1 });
}
