// The worker of the page: one machine, its news, and answers to the page's calls.
//
// The page posts {id, call, body} and gets {id, answer}; news come as {news: {part: value}}, only the parts that have changed. The page
// posts {taken: true} once it has shown news; until then what is new is gathered, so that a slow page never falls behind. While a session
// that was kept is run once more, {came: cycle} says how far it is, and the page may post {stop: true}, so that it stands there.
// The first call is `open`, or `film`, which needs no machine.
import { doCommand } from './commands.js';
import { Console } from './console.js';
import { Ended, Fault } from './faults.js';
import { blockOf, filmOf } from './film.js';
import { makeInstruments } from './instruments.js';
import { Machine } from './machine.js';
import { Searcher } from './searcher.js';

let machine = null;
let fresh = {}; // parts that have changed and were not posted yet
let isTaken = true; // whether the page has shown the news posted last
let isStopped = false; // whether the page wants no more of the session that is run once more
let isPosting = false; // whether news are posted once the present task waits
const shown = new Map(); // each part as it was posted last

function publish(part, value) {
  const text = JSON.stringify(value);
  if (shown.get(part) === text) return;
  shown.set(part, text);
  fresh[part] = value;
  if (isPosting || !isTaken) return;
  isPosting = true;
  queueMicrotask(post);
}

function post() {
  isPosting = false;
  if (!Object.keys(fresh).length) return;
  const news = fresh;
  fresh = {};
  isTaken = false;
  if (machine) news.kept = machine.kept();
  postMessage({ news });
}

// Starts a console with names and tables, and without those that are refused: their faults are in `notes`.
async function start(module, files) {
  const notes = [];
  let { names } = files;
  let console;
  try {
    console = await Console.start(module, files);
  } catch (error) {
    if (!names || !(error instanceof Ended)) throw error;
    console = await Console.start(module, { ...files, names: null }); // throws once more if it was not for the names
    notes.push(`The names are left out: ${error.message}`);
    names = null;
  }
  let watch = files.watch || null;
  try {
    if (watch !== null) await console.say(`watch ${watch}`);
  } catch (error) {
    notes.push(`The tables are left out: ${error.message}`);
    watch = null;
  }
  return { console, names, watch, notes };
}

// Says how far the session has come that is run once more, and lets messages of the page in. Returns whether it goes on.
async function goesOn(cycle) {
  postMessage({ came: cycle });
  await new Promise((done) => { setTimeout(done); });
  return !isStopped;
}

// Opens a session: {module, title, rope, script, names, form, watch, guide, quantities, nouns, listing, instrument, options, kept}; `listing`
// is whether the page has one. Returns what is to be said, and whether the session came to where it stood when it was kept.
async function open({ module, title, guide, quantities, nouns, listing, instrument, options, kept, ...files }) {
  const { console, names, watch, notes } = await start(module, files);
  const searcher = new Searcher((script) => Console.start(module, { ...files, names, script }));
  const base = (await console.say('script')).lines;
  machine = new Machine(console, { base, watch, instruments: makeInstruments(instrument, options), news: publish, searcher });
  const isWhole = !kept || await machine.resume(kept, goesOn);
  publish('about', { rope: title, names, watch, guide, quantities, nouns, listing });
  await machine.look();
  return { notes, isWhole };
}

const CALLS = {
  open,
  do: async (body) => { await doCommand(machine, body); },
  say: ({ lines }) => machine.say(lines),
  search: ({ lines, before }) => machine.search(lines, before),
  script: () => ({ script: machine.script(), limit: machine.limit() }),
  views: async () => ({ views: await machine.pastViews() }),
  film: async ({ module, ...files }) => ({ film: await filmOf(module, files), nouns: blockOf(files.nouns ?? '') }),
};

async function answerTo(call, body) {
  try {
    return { status: 200, ...(await CALLS[call](body)) };
  } catch (error) {
    const status = error instanceof Fault ? error.status : error instanceof RangeError ? 400 : 500;
    return { status, error: error.message, ...(error.sure && { sure: error.sure }) };
  }
}

onmessage = async ({ data: { id, call, body, taken, stop } }) => {
  if (stop) {
    isStopped = true;
    return;
  }
  if (taken) {
    isTaken = true;
    post();
    return;
  }
  const answer = await answerTo(call, body);
  post(); // the page shows what a call has done before it gets the answer
  postMessage({ id, answer });
};
