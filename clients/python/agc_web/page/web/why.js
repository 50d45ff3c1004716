'use strict';
// Why an alarm came: time goes back to the order that caused it, and the tab Alarm says what the Executive had then.

const ALARMS = ['BAILOUT', 'POODOO', 'ALARM']; // the routines that light PROG
const JOB = 'a core set for one more job';
const LARGE_JOB = 'a core set and a VAC area for one more job';
const TASK = 'a place in the Waitlist for one more task';
const CALLS = { NOVAC: JOB, FINDVAC: LARGE_JOB, SPVAC: LARGE_JOB, WAITLIST: TASK, TWIDDLE: TASK, FIXDELAY: TASK, VARDELAY: TASK }; // what they want
const CODE = 'FAILREG+2'; // the last alarm's code
const CODE_OF_LAMP = 'FAILREG'; // that of the first one, for which PROG is lit: RSET clears it, and later alarms leave it alone
const CODES = { 0o1201: 'no VAC area was free', 0o1202: 'no core set was free', 0o1203: 'no place was free in the Waitlist' };
const COUNTERS = { 0o32: 'CDUX', 0o33: 'CDUY', 0o34: 'CDUZ', 0o35: 'CDUT: rendezvous radar', 0o36: 'CDUS: rendezvous radar', 0o37: 'PIPAX', 0o40: 'PIPAY', 0o41: 'PIPAZ' };
const SUPERBANK = 0o100; // of the word that core sets keep: banks 30 to 37 are 40 to 47

// `cycle`: that of the order that the tab explains.
const why = { names: new Set(), banks: {}, pending: null, isExplained: false, cycle: null };

// names

// Keeps the names of places, and of fixed memory their addresses bank by bank.
function keepNames({ names, places }) {
  why.names = new Set(names);
  why.banks = {};
  places.forEach((place, i) => {
    const [, bank, address] = place.match(/^(?:(\d\d),)?([0-7]{4})$/) || [];
    if (!address || (!bank && parseInt(address, 8) < 0o4000)) return;
    const at = parseInt(address, 8);
    (why.banks[bank === undefined ? bankOf(at, 0) : parseInt(bank, 8)] ??= []).push([at, names[i]]);
  });
  for (const list of Object.values(why.banks)) list.sort(([one], [other]) => one - other);
}

// Returns the bank of an address, by the banks that a job goes on with.
function bankOf(address, banks) {
  if (address >= 0o4000) return address >= 0o6000 ? 3 : 2;
  const bank = (banks >> 10) & 0o37;
  return bank >= 0o30 && banks & SUPERBANK ? bank + 0o10 : bank;
}

// Returns the name of a place as "PREDICT +55", or the place.
function nameOf(address, banks) {
  const before = (why.banks[bankOf(address, banks)] || []).filter(([at]) => at <= address).pop();
  if (!before) return octal(address, 4);
  return address === before[0] ? before[1] : `${before[1]} +${address - before[0]}`;
}

const known = (names) => names.filter((name) => why.names.has(name));

// going back

// Searches backwards. Returns what was found, or null, and shows why; of alarms in their own words.
async function seek(places, before) {
  const answer = await request(() => session.find({ places, before }));
  const isNone = answer?.status === 409 && places.every((place) => ALARMS.includes(place));
  if (answer) showFault(isNone ? 'There was no alarm up to here.' : answer.error || '');
  return answer?.status === 200 ? answer : null;
}

// Searches for the alarm for which PROG is lit: the one that gave FAILREG its code, however many have come since; without that cell
// the last one.
async function seekFirst(places) {
  const change = await request(() => session.find({ places: [`cell ${CODE_OF_LAMP}`] }));
  return seek(places, change?.cycle);
}

// Goes back to the last time that a breakpoint would have been hit. Instruments go back to the tick before; from there it goes on.
async function backTo(text) {
  const found = await seek([text]);
  return found !== null && goExactly(found.cycle);
}

// Explains the alarm for which PROG is lit; others may have come until the user has clicked.
const explainLamp = () => explainAlarm(CODE_OF_LAMP, seekFirst);
const explainLast = () => explainAlarm(CODE, seek);

// Goes back to the order that caused the alarm that is found: the call of the Executive or the Waitlist that found no room,
// or else that of the alarm. A cell has its code.
async function explainAlarm(cell, search) {
  why.isExplained = false;
  if (now.playing) await ask('pause');
  const code = await alarmCode(cell);
  const alarm = await search(known(ALARMS));
  if (!alarm) return;
  const call = code in CODES ? await seek(known(Object.keys(CALLS)), alarm.cycle) : null;
  const { order } = call || alarm;
  why.pending = { code, cycle: order };
  if (await ask('go', { cycle: order })) showTab('why'); else why.pending = null;
  followWhy();
  bringIntoView(find('why-says')); // it was hidden if the news of the cycle came before the answer
}

async function alarmCode(cell) {
  const seen = await request(() => session.look({ cells: [cell] }));
  const word = seen?.cells?.[cell];
  return typeof word === 'number' ? word : null;
}

// what is shown

// Offers the reason if PROG is lit, and shows it once the machine is where it is to be.
function followWhy() {
  const isAlarm = isLit('PROG') && !LAMPS.filter(Boolean).every(isLit); // a lamp test lights all
  find('alarm').hidden = !isAlarm || !known(ALARMS).length;
  if (now.playing || now.cycle !== why.cycle) why.isExplained = false;
  setText(find('why-stands'), now.cycle === why.cycle ? ' Time stands before this order.' : '');
  if (!why.pending || now.playing) return;
  const { code, cycle } = why.pending;
  if (now.cycle < cycle && !why.pending.isOn) { // the instruments went back to the tick before
    why.pending.isOn = true;
    ask('go', { cycle });
  }
  if (now.cycle !== cycle) return;
  Object.assign(why, { pending: null, isExplained: true, cycle });
  setText(find('why-stands'), ' Time stands before this order.');
  showCause(code, cycle);
  showSets((shown.tables || []).filter((line) => line.startsWith('SET ')));
  showStolen(cycle);
  bringIntoView(find('why-says'));
  followGuide(); // nothing else comes that would move it on: time stands
}

function showCause(code, cycle) {
  const [, name, , order] = shown.machine.next.match(/^\S+ (.*?) *([0-7]{5}) (.*)$/) || [];
  const called = parseInt(order?.split(' ')[1], 8);
  const alarm = code === null ? 'An alarm' : `Alarm ${octal(code, 4)}`;
  const reason = CODES[code] ? `${alarm}: ${CODES[code]}.` : `${alarm}.`;
  const place = name || shown.machine.next.split(' ')[0];
  const seconds = (cycle / CYCLES_A_SECOND).toFixed(3);
  const routine = Number.isNaN(called) ? order : nameOf(called, 0);
  const wish = CALLS[routine] ? `, for it wants ${CALLS[routine]},` : '';
  setText(find('why-text'), `${reason} ${place} called ${routine}${wish} at ${seconds} s, cycle ${grouped(cycle)}.`);
}

function showSets(lines) {
  const rows = lines.map((line) => {
    const [, set, state, priority, loc, banks] = line.match(/^SET (\d+) (\w+)(?: (\d+) LOC (\d+) BANKSET (\d+))?$/) || [];
    const cells = loc ? [set, priority, nameOf(parseInt(loc, 8), parseInt(banks, 8)), state === 'ASLEEP' ? 'asleep' : ''] : [set, '', 'free', ''];
    return make('tr', {}, ...cells.map((text) => make('td', {}, text || '')));
  });
  find('why-sets').replaceChildren(...rows);
  const used = lines.filter((line) => !line.endsWith('FREE')).length;
  const says = used ? `${used} of ${lines.length} core sets are in use, by these jobs${crowdOf(rows)}:` : `None of the ${lines.length} core sets is in use.`;
  setText(find('why-used'), lines.length ? says : '');
}

// Returns which job stands in most of the sets, if it stands in more than two.
function crowdOf(rows) {
  const names = rows.map((row) => row.children[2].textContent).filter((name) => name !== 'free');
  const [name, count] = names.map((each) => [each, names.filter((other) => other === each).length]).reduce((one, other) => (other[1] > one[1] ? other : one), ['', 0]);
  return count > 2 ? `, ${count} times ${name}` : '';
}

// Counts the cycles that pulses of counters took in the second before.
async function showStolen(cycle) {
  setText(find('why-stolen'), '');
  const counts = {};
  let script;
  try {
    script = await session.script();
  } catch {
    return; // the stream says that the session is gone
  }
  for (const line of script.split(LINE)) {
    const [at, kind, counter] = line.split(' ');
    if (kind === 'pulse' && Number(at) < cycle && Number(at) >= cycle - CYCLES_A_SECOND) counts[counter] = (counts[counter] || 0) + 1;
  }
  const all = Object.entries(counts).sort(([, one], [, other]) => other - one);
  const sum = all.reduce((total, [, count]) => total + count, 0);
  const nameOfCounter = (counter) => (COUNTERS[parseInt(counter, 8)] ? `${COUNTERS[parseInt(counter, 8)]}, counter ${counter}` : `counter ${counter}`);
  const each = all.map(([counter, count]) => `${grouped(count)} (${nameOfCounter(counter)})`);
  const share = ((100 * sum) / CYCLES_A_SECOND).toFixed(1);
  setText(find('why-stolen'), sum ? `In the second before, pulses took ${grouped(sum)} of ${grouped(Math.round(CYCLES_A_SECOND))} cycles (${share} %): ${each.join('; ')}.` : '');
}

function buildWhy() {
  find('why').addEventListener('click', explainLamp);
  find('why-again').addEventListener('click', explainLast);
  find('why-return').addEventListener('click', undo);
}
