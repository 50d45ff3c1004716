const find = (id) => document.getElementById(id);

// a file's name, in which a backslash with three octal digits stands for a byte
function readName(text) {
  const bytes = [];
  for (let i = 0; i < text.length; i += 1) {
    const coded = text[i] === BACKSLASH;
    bytes.push(coded ? parseInt(text.slice(i + 1, i + 4), 8) : text.charCodeAt(i));
    if (coded) i += 3;
  }
  return new TextDecoder().decode(Uint8Array.from(bytes));
}

// a key: whether PRO is held after it stands with it
function readKey(cycle, name, before) {
  return { cycle, name, held: name.startsWith('PRO') ? name === 'PRO' : Boolean(before && before.held) };
}

// takes a write of the panel: its cycle, channel and word
function readWrite(run, line) {
  const [cycle, channel, word] = line.split(' ');
  if (run.cycles.length % KEPT_EVERY === 0) run.kept.push([...run.shown]);
  run.cycles.push(Number(cycle));
  run.words.push(wordOf(parseInt(channel, 8), parseInt(word, 8)));
  putWord(run.shown, run.words.at(-1));
}

// the panel after a write: the words that were kept before it, with the writes up to it; before the first write it is blank
function panelOf(run, place) {
  const first = place - (place % KEPT_EVERY);
  const words = place < 0 ? new Array(ROWS).fill(0) : [...run.kept[first / KEPT_EVERY]];
  for (let one = Math.max(first, 0); one <= place; one += 1) putWord(words, run.words[one]);
  return textOf(words);
}

// takes a line that is no write
function readLine(run, line) {
  const [word, number, ...rest] = line.split(' ');
  if (word === 'key') {
    run.keyCycles.push(Number(number));
    run.keys.push(readKey(Number(number), rest.join(' '), run.keys.at(-1)));
  } else if (word === 'stop' || word === 'to') {
    run.stop = Number(number);
    run.reason = rest.join(' ');
    run.ended = true;
  } else if (word === 'from') {
    run.from = Number(number);
  } else if (word === 'limit') {
    run.limit = number;
  } else if (word === 'rope' || word === 'script') {
    run[word] = readName(line.slice(word.length + 1));
  }
}

// a run of the page: its files and its limit, its writes, its keys and its end
function readRun(id) {
  const run = { id, cycles: [], words: [], kept: [], shown: new Array(ROWS).fill(0), keys: [], keyCycles: [], from: 0, stop: 0, reason: '', ended: false };
  for (const part of document.querySelectorAll(`#${id}, script.${id}`)) {
    for (const line of part.textContent.split(LINE)) (/^[0-9]/.test(line) ? readWrite : readLine)(run, line);
  }
  return run;
}

const runs = ['left', 'right'].filter(find).map(readRun);
const begin = Math.max(...runs.map((run) => run.from));
const end = Math.max(begin, ...runs.map((run) => run.stop));
const parting = find('parting') ? Number(find('parting').textContent) : NaN;
let now = begin;
let playing = false;

// the place of the last of some rising cycles up to a cycle, or -1
function lastUpTo(cycles, cycle) {
  let low = 0;
  let high = cycles.length;
  while (low < high) {
    const middle = (low + high) >> 1;
    if (cycles[middle] <= cycle) low = middle + 1; else high = middle;
  }
  return low - 1;
}

// the last change before a cycle, and the first one after it
const changeBefore = (cycle) => Math.max(begin, ...runs.map((run) => run.cycles[lastUpTo(run.cycles, Math.ceil(cycle) - 1)] ?? begin));
const changeAfter = (cycle) => Math.min(end, ...runs.map((run) => run.cycles[lastUpTo(run.cycles, cycle) + 1] ?? end));
