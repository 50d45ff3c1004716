'use strict';
// The listing of a source, in the form that `agc-study weave --write-listing` writes: its lines with their places and words,
// which have to be the rope's, and its names. It was written by anybody: it gives only texts.

const MOST_LISTED = 200000; // lines
const LISTED = /^(?:([0-4][0-7],[0-7]{4}) ([0-7]{5}) ?| {14})(?:# (.+?) (\d+): ?(.*))?$/;
const NAME_LISTED = /^# (C?[E0-7,]+) (\S+)$/;
const CLASSIC = [2, 3, 0, 1]; // the place in a classic rope of banks 00 to 03
const BANK_OF_ROPE = 1024; // words

// Returns the number of a word of fixed memory by its place, as traces and listings have it; null for any other place.
function keyOf(place) {
  const [, bank, address] = (place ?? '').match(/^(?:([0-4][0-7]),)?([0-7]{4})$/) || [];
  const at = parseInt(address, 8);
  if (!address || at < 0o2000 || (at < 0o4000 && bank === undefined)) return null;
  return (at < 0o4000 ? parseInt(bank, 8) : at >> 10) * BANK_OF_ROPE + (at % BANK_OF_ROPE);
}

// Returns the word of a rope's bytes with this number; past their end +0.
function wordOf(rope, form, key) {
  const bank = Math.floor(key / BANK_OF_ROPE);
  const at = 2 * ((form === 'parity' ? bank : CLASSIC[bank] ?? bank) * BANK_OF_ROPE + (key % BANK_OF_ROPE));
  return (((rope[at] ?? 0) << 8) | (rope[at + 1] ?? 0)) >> 1;
}

// Reads a listing: {lines, at, names}. A line has its file, number, text and words: [{place, word}]; `at` has the line of each
// place. Throws an error that says what is wrong.
function readListing(text) {
  if (text.includes('\0')) throw new Error('it has a NUL, so it is no text');
  let count = 1;
  for (let i = text.indexOf(LINE); i >= 0; i = text.indexOf(LINE, i + 1)) count += 1;
  if (count > MOST_LISTED) throw new Error(`it has ${grouped(count)} lines, at most ${grouped(MOST_LISTED)}`);
  const rows = text.split(/\r?\n/);
  const end = rows.indexOf('# names');
  const found = { lines: [], at: new Map(), names: new Map() };
  rows.slice(0, end < 0 ? undefined : end).forEach((row, i) => { if (row) addRow(found, row, i + 1); });
  if (!found.at.size) throw new Error('it has no line with a place and a word');
  for (const row of end < 0 ? [] : rows.slice(end)) {
    const [, place, name] = row.match(NAME_LISTED) || [];
    if (name && !found.names.has(name)) found.names.set(name, place);
  }
  return found;
}

// Adds a row to what was read: a line, or one word more of the line before.
function addRow({ lines, at }, row, number) {
  const [, place, word, file, of, text] = row.match(LISTED) || [];
  const isMore = place && !file;
  if ((!file && !place) || (isMore && !lines.length)) throw new Error(`its line ${number} is not as weave --write-listing writes it`);
  if (!isMore) lines.push({ file, number: of, text, words: [] });
  if (!place) return;
  const key = keyOf(place);
  if (key === null) throw new Error(`its line ${number} has the place ${place}, which is none of a rope`);
  if (at.has(key)) throw new Error(`its line ${number} has the place ${place} once more`);
  at.set(key, lines.length - 1);
  lines[lines.length - 1].words.push({ key, place, word: parseInt(word, 8) });
}

// Throws an error with the first place at which a listing has another word than the rope.
function compareWords({ lines }, rope, form) {
  if (!rope.length) throw new Error('the bytes of the rope are not known');
  const words = lines.flatMap((line) => line.words).sort((one, other) => one.key - other.key);
  const wrong = words.find(({ key, word }) => word !== wordOf(rope, form, key));
  if (wrong) throw new Error(`it is not of this rope: at ${wrong.place} it has ${octal(wrong.word)}, and the rope ${octal(wordOf(rope, form, wrong.key))}`);
}
