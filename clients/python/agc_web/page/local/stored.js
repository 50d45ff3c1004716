'use strict';
// A session as text, in the browser's store and in links, and reading it again. What is read was written by anybody: it is
// checked, and gives only texts to the console.

const FORMAT = 1;
const LONGEST_STORED = 8e6; // characters
const MOST_EVENTS = 65536;
const EVENT = /^~?\d{1,13} (key|pro|input|pulse|raise|poke) [A-Za-z0-9+ -]{1,40}$/;

const base64Of = (bytes) => {
  let text = '';
  for (let at = 0; at < bytes.length; at += 0x8000) text += String.fromCharCode(...bytes.subarray(at, at + 0x8000));
  return btoa(text);
};

const isWhole = (value) => Number.isSafeInteger(value) && value >= 0;
const isBrief = (value, longest = 100) => typeof value === 'string' && value.length <= longest;
const isMissing = (value) => value === null || value === undefined;

// Checks of what a text says of a session.
const CHECKS = {
  title: (value) => isBrief(value),
  rope: (value) => isMissing(value) || (isBrief(value, LONGEST_STORED) && /^[A-Za-z0-9+/=]*$/.test(value)),
  script: (value) => isMissing(value) || isBrief(value, LONGEST_STORED),
  names: (value) => isMissing(value) || isBrief(value, LONGEST_STORED),
  guide: (value) => isMissing(value) || isBrief(value, LONGEST_STORED),
  quantities: (value) => isMissing(value) || isBrief(value, LONGEST_STORED),
  nouns: (value) => isMissing(value) || isBrief(value, LONGEST_STORED),
  form: (value) => isMissing(value) || ['classic', 'parity'].includes(value),
  watch: (value) => isMissing(value) || (isBrief(value) && /^[0-7,]+$/.test(value)),
  example: (value) => isMissing(value) || (isBrief(value) && Object.hasOwn(EXAMPLES, value)),
  options: (value) => isMissing(value) || (typeof value === 'object' && JSON.stringify(value).length < 200),
  cycle: (value) => isWhole(value) && value <= 1e12,
  events: (value) => Array.isArray(value) && value.length <= MOST_EVENTS && value.every((line) => isBrief(line) && EVENT.test(line)),
  controls: (value) => Array.isArray(value) && value.length <= MOST_EVENTS && value.every(isControl),
  speed: (value) => SPEED_STEPS.includes(value),
  breakpoints: (value) => Array.isArray(value) && value.length <= 8 && value.every((text) => isBrief(text, 80) && /^[ -~]+$/.test(text)),
};

function isControl(value) {
  return value !== null && typeof value === 'object' && isWhole(value.tick) && isWhole(value.cycle) && isWhole(value.instrument)
    && isBrief(value.name) && typeof value.down === 'boolean';
}

// What can be read of a stored session: {files, kept}. Throws an error that says what is wrong.
function readSession(text) {
  let value;
  try {
    value = JSON.parse(text);
  } catch {
    throw new Error('it is cut off, or no session');
  }
  if (value === null || typeof value !== 'object') throw new Error('it is no session');
  if (value.format !== FORMAT) throw new Error('it is of another version of this page');
  const wrong = Object.keys(CHECKS).find((name) => !CHECKS[name](value[name]));
  if (wrong) throw new Error(`its part ${wrong} is not as it has to be`);
  return { files: filesOf(value), kept: keptOf(value) };
}

function filesOf({ title, rope, script, names, form, watch, guide, quantities, nouns, example, options }) {
  const from = example ? EXAMPLES[example] : {};
  if (!rope && !from.rope) throw new Error('it has no rope');
  return {
    title, rope: bytesOf(rope ?? from.rope), script: script ?? from.script ?? '', names: names ?? null, form: form ?? null, watch: watch ?? null,
    guide: guide ?? from.guide ?? null, quantities: quantities ?? from.quantities ?? null, nouns: nouns ?? from.nouns ?? null, listing: null, example: example ?? null, instrument: from.instrument ?? null, options: options ?? null,
  };
}

function keptOf({ cycle, events, controls, speed, breakpoints }) {
  const read = (line) => {
    const [, other, at, command] = line.match(/^(~?)(\d+) (.*)$/);
    return { cycle: Number(at), command, byUser: !other };
  };
  return { cycle, events: events.map(read), controls, speed, breakpoints };
}

// The files of the session, as they are stored.
function storedFiles({ title, rope, script, names, form, watch, guide, quantities, nouns, example }) {
  return { title, rope: base64Of(rope), script, names, form, watch, guide, quantities, nouns, example };
}

// What else is stored of it.
function storedRest({ cycle, events, controls, options, speed, breakpoints }) {
  return { format: FORMAT, cycle, events, controls, options: options[0] ?? null, speed, breakpoints };
}

// The script of a stored session, as far as its text has one.
function scriptIn(text) {
  try {
    const { events } = JSON.parse(text);
    return events.map((line) => `${String(line).replace('~', '')}\n`).join('');
  } catch {
    return text;
  }
}
