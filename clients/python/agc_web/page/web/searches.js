'use strict';
// Words of the machine, and searches backwards, by the console's own commands (docs/CONSOLE.md): what gave a cell, a channel, a field or a lamp
// what it has now, and where a step back goes. The searches are made by a second console, so that the machine stays where it is.

const LAST_CYCLE = 1e12; // of all: before it means before now
const BANK_WORDS = 256;
const CELL = /^([!-~]+)(?: ([2-6]))?$/; // a place, and how many cells from there on if it is not one
const MOST_PLACES = 8; // of one search
const MOST_BOUNDARIES = 1000; // of one cycle, or from a boundary to the order that is looked for: between there are events, timers, interrupts
const LONGEST_BOUNDARY = 8; // cycles
const STEPS = 64; // of one request
const PRIORITY = 11; // the word of a core set that tells jobs apart
const INPUTS = { key: 0o15, pro: 0o32 }; // the channels that events set, beside `input`

// Why there is no answer, with its status.
class Unanswered extends Error {
  constructor(text, status = 400) {
    super(text);
    this.status = status;
  }
}

const cycleOf = (line) => Number(line.split(' ', 1)[0]);
const isWrite = (line) => line.split(' | ')[0].includes(' > ');
const wordIn = (line) => parseInt(line.slice(-5), 8);
const times = (count, ...lines) => Array(count).fill(lines).flat();

// Has lines said: returns the `cycle` at which the machine stands, and the `answers`, as the session's `search` has them.
async function search(lines, more = {}) {
  const answer = await session.search({ lines, ...more });
  if (answer.status !== 200) throw new Unanswered(answer.error, answer.status);
  return answer;
}

// Whether a way back led anywhere.
function isHit({ fault, error }) {
  if (fault && fault !== 'NotHit') throw new Unanswered(error);
  return !fault;
}

// Returns places as the console reads them.
function checked(places) {
  const areTexts = Array.isArray(places) && places.every((text) => typeof text === 'string');
  if (!areTexts || places.length < 1 || places.length > MOST_PLACES) throw new Unanswered(`places are 1 to ${MOST_PLACES} texts`);
  const texts = places.map((text) => text.trim().replace(/\s+/g, ' '));
  if (!texts.every((text) => /^[ -~]{1,80}$/.test(text))) throw new Unanswered('a place is a PLACE, `write CCC` or `cell PLACE`');
  return texts;
}

// where something was last

async function findBack({ places, before = LAST_CYCLE }) {
  const texts = checked(places);
  const cycles = [];
  let now;
  for (const text of texts) {
    const { cycle, answers: [hit] } = await search([`back until ${text}`], { before });
    if (isHit(hit)) cycles.push(hit.cycle);
    now = Math.min(cycle, before);
  }
  if (!cycles.length) throw new Unanswered(`${texts.join(' or ')} was not hit before cycle ${now}`, 409);
  const cycle = Math.max(...cycles);
  return { cycle, order: await orderBefore(cycle) };
}

// Returns the cycle of the last order before a cycle that is the first boundary of its own.
async function orderBefore(cycle) {
  for (const length of [100, MOST_BOUNDARIES]) {
    const { answers: [{ lines }] } = await search([`ahead ${MOST_BOUNDARIES}`], { before: Math.max(0, cycle - length) });
    const isFirst = (line, i) => cycleOf(line) < cycle && cycleOf(line) !== cycleOf(lines[i - 1] ?? '-1');
    const order = lines.findLast((line, i) => isFirst(line, i) && !boundary(line).what.startsWith('- '));
    if (order) return cycleOf(order);
  }
  return cycle;
}

// Returns {job: the cell whose word tells the Executive's jobs apart}, which `over` and `finish` want; {} if its tables are not known.
function jobNow() {
  if (!shown.about.watch) return {};
  const [bank, offset] = shown.about.watch.split(',').map((number) => parseInt(number, 8));
  const cell = BANK_WORDS * bank + offset + PRIORITY;
  return { job: `E${Math.floor(cell / BANK_WORDS)},${octal(0o1400 + (cell % BANK_WORDS), 4)}` };
}

async function findStep(way) {
  const { job } = way === 'step' ? {} : jobNow();
  const { answers: [hit] } = await search([job ? `back ${way} job ${job}` : `back ${way}`]);
  if (!isHit(hit)) throw new Unanswered(way === 'step' ? 'nothing comes before this' : 'there is no call to go back to', 409);
  return { cycle: hit.cycle };
}

// what changed something last

async function cause({ places }) {
  const texts = checked(places);
  const { cycle } = await search([]);
  let last = null;
  for (const text of texts) {
    const line = await causeOf(text);
    if (line !== null && (last === null || cycleOf(line) > cycleOf(last))) last = line;
  }
  return { cycle, line: last };
}

function causeOf(text) {
  const [kind, ...words] = text.split(' ');
  const rest = words.join(' ');
  if (kind === 'cell') return changeOf(rest);
  if (kind === 'write') return writeOf(rest);
  if (kind === 'panel' || kind === 'lamp') return panelChange(kind, rest);
  throw new Unanswered('a cause is that of `cell PLACE`, `write CCC`, `panel FIELD` or `lamp NAME`');
}

// Returns the line of the boundary after which a cell had another word.
async function changeOf(place) {
  const cell = `cell ${place}`;
  for (let at = 0; at < MOST_BOUNDARIES; at += STEPS) {
    const { answers: [back, , before, ...steps] } = await search([`back until ${cell}`, `step ${at}`, cell, ...times(STEPS, 'step', cell)]);
    if (!isHit(back)) return null;
    const changed = steps.findIndex((step, i) => i % 2 && step.lines[0] !== before.lines[0]);
    if (changed >= 0) return steps[changed - 1].lines[0];
  }
  return null;
}

// Returns the line of the order that wrote to a channel last, or of the event that has set it since.
async function writeOf(channel) {
  const { cycle, answers: [now, back, ahead] } = await search([`ahead ${MOST_BOUNDARIES}`, `back until write ${channel}`, `ahead ${MOST_BOUNDARIES}`]);
  const order = isHit(back) ? ahead.lines.find(isWrite) ?? null : null;
  const due = (await session.script()).split(LINE).filter((line) => line && cycleOf(line) <= cycle);
  const left = now.lines.filter((line) => line.startsWith(`${cycle} - event `)).length;
  const sets = ([at, name, number]) => Number(at) > (order === null ? -1 : cycleOf(order))
    && (name === 'input' ? parseInt(number, 8) : INPUTS[name]) === parseInt(channel, 8);
  const event = due.slice(0, due.length - left).findLast((line) => sets(line.split(' ')));
  return event === undefined ? order : event.replace(' ', ' - event ');
}

const fieldsIn = ({ lines }) => Object.fromEntries(lines.map((line) => [line.split(' ', 1)[0], line.slice(line.indexOf(' ') + 1)]));
const isLitIn = (answer, lamp) => fieldsIn(answer).LAMPS.split(', ').includes(lamp);

// Returns the line of the order that changed a field or a lamp last. It looks through longer and longer times before now, for when the
// panel got the line that it has; of a lamp that is dark, for each change of the panel.
async function panelChange(kind, name) {
  const { cycle, answers: [panel] } = await search(['panel']);
  const field = fieldsIn(panel)[name];
  if (kind === 'panel' && field === undefined) throw new Unanswered(`the panel has no ${name}`);
  const breaks = [`break panel ${kind === 'lamp' ? `LAMPS ${name}` : `${name} ${field}`}`];
  const dark = kind === 'lamp' && !isLitIn(panel, name) ? name : null;
  if (dark !== null) breaks.push('break panel');
  let last = null;
  for (let [begin, end, length] = [cycle, cycle, Math.floor(CYCLES_A_SECOND)]; begin > 0 && last === null; length *= 4) {
    begin = Math.max(0, begin - length);
    last = await lastChange(breaks, dark, begin, end);
    end = begin + LONGEST_BOUNDARY; // one may have begun before
  }
  if (last === null) return null;
  const { answers: [, ahead] } = await search(['back step', `ahead ${MOST_BOUNDARIES}`], { before: last });
  return ahead.lines.find(isWrite) ?? null;
}

// Returns the line of the order that first lit a lamp from a cycle of the past on up to another one.
async function lightOf({ lamp, since, end }) {
  const lines = [`break panel LAMPS ${lamp}`, `continue within ${Math.max(1, end - since)}`, 'back step', `ahead ${MOST_BOUNDARIES}`];
  const { cycle, answers: [, run, , ahead] } = await search(lines, { before: since });
  const isLit = isHit(run) && run.lines.some((line) => line !== 'hit none');
  return { cycle, line: isLit ? ahead.lines.find(isWrite) ?? null : null };
}

// Returns the cycle behind the last hit of breakpoints in a time, or behind the last one that put a lamp out; null if there is none.
async function lastChange(breaks, dark, begin, end) {
  let last = null;
  for (let at = begin, next; at < end; at = next) {
    const runs = times(STEPS, `continue within ${Math.ceil((end - at) / STEPS)}`, 'panel');
    const { answers } = await search([...breaks, 'panel', ...runs], { before: at });
    breaks.forEach((_, i) => isHit(answers[i])); // refuses what is no lamp
    for (let i = breaks.length; i < answers.length - 2; i += 2) {
      const [before, run, after] = answers.slice(i, i + 3);
      const isChange = dark === null || (isLitIn(before, dark) && !isLitIn(after, dark));
      if (isChange && run.cycle <= end && run.lines?.some((line) => line !== 'hit none')) last = run.cycle; // none if the machine has stopped
    }
    next = answers.at(-1).cycle;
  }
  return last;
}

// words

async function wordsOf({ bank = null, cells = [], channels = [] }) {
  const places = cells.filter((cell) => CELL.test(cell));
  const lines = [
    ...(bank === null ? [] : [`cell E${bank},1400 ${BANK_WORDS}`]), ...places.map((cell) => `cell ${cell}`), ...channels.map((each) => `channel ${octal(each, 3)}`),
  ];
  const { cycle, answers, ...answer } = await session.say({ lines });
  if (answer.status !== 200) return answer;
  const words = (found) => found.lines.map(wordIn);
  const next = answers.values();
  const take = (read) => { const found = next.next().value; return found.error ?? read(words(found)); };
  return {
    ...answer, cycle, bank: bank === null ? null : take((all) => all),
    cells: Object.fromEntries(cells.map((cell) => [cell, CELL.test(cell) ? take((all) => (cell.includes(' ') ? all : all[0])) : 'a cell is one word'])),
    channels: Object.fromEntries(channels.map((each) => [each, take(([word]) => word)])),
  };
}

const answered = (task) => async (wanted) => {
  try {
    return { status: 200, ...await task(wanted) };
  } catch (error) {
    if (error instanceof Unanswered) return { status: error.status, error: error.message };
    throw error;
  }
};

Object.assign(session, {
  // Returns the status, and the words of an erasable bank, of cells or channels: of a cell its word, of "PLACE COUNT" the words of so
  // many cells, or a sentence that says why they cannot be read.
  look: wordsOf,

  // Searches backwards for the last boundary that hits one of `places`, in the words of the console's `back until`, before the
  // cycle `before`, or before now. Returns the status, the `cycle` at which it came and `order`, the cycle at which the order before
  // it began; or an `error`.
  find: answered(findBack),

  // Returns the status, and the `cycle` to which the console's `back step`, `back over` or `back finish` goes from here; or an `error`.
  findStep: answered(findStep),

  // Searches for what changed one of `places` last: "cell PLACE", "panel FIELD", "lamp NAME" or "write CCC" for a channel. Returns
  // the status, the `cycle` at which the machine stands, and `line`, the boundary as a trace has it, null if nothing has; or an `error`.
  cause: answered(cause),

  // Searches for what first lit a `lamp` from the cycle `since` on, at most up to `end`. Returns the same.
  light: answered(lightOf),
});
