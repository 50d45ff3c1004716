'use strict';
// Quantities: what cells hold, in units. A file has one a line, NAME PLACE KIND SCALE [UNIT], in the form of docs/WEB.md. A value is
// printed as the shortest decimal that tells it from its neighbours.

const KINDS = { single: [1, 14], double: [2, 28], triple: [3, 42], vector: [6, 28], unsigned: [1, 15], bits: [1, 0], octal: [1, 0] }; // words, and bits behind the point
const LARGEST_QUANTITIES = 1048576; // characters
const MOST_COLUMNS = 64;
const LARGEST_POWER = 60;
const MOST_DIGITS = 15;
const WORD_BITS = 14;
const BANK_CELLS = 256;

// Words as numbers

const signed = (word) => (word > 0o37777 ? word - 0o77777 : word);

// Whether a kind takes bits of a word, in place of a scale.
const hasBits = (kind) => kind === 'bits' || kind === 'octal';

// Returns the whole number that a column's words stand for; words of unlike sign are added.
function numberOf(words, { kind, first, count, high, low }) {
  const own = words.slice(first, first + count);
  if (kind === 'unsigned') return own[0];
  if (hasBits(kind)) return (own[0] >> (low - 1)) % 2 ** (high - low + 1);
  return own.reduce((sum, word) => sum * 2 ** WORD_BITS + signed(word), 0);
}

// Writes a column's number: in octal, with a digit for each three bits, or as a decimal.
function textOf(number, column) {
  return column.kind === 'octal' ? octal(number, Math.ceil((column.high - column.low + 1) / 3)) : decimalOf(number, column);
}

// Writes number * p / b as the shortest decimal that is nearer to it than half a step, p / b: a value is that many steps.
function decimalOf(number, { p, b }) {
  const all = BigInt(Math.abs(number)) * p;
  let [digits, rest, step, places] = [all / b, all % b, p, 0];
  while (2n * rest >= step && 2n * (b - rest) >= step) {
    rest *= 10n;
    digits = digits * 10n + rest / b;
    rest %= b;
    step *= 10n;
    places += 1;
  }
  const [isDown, isUp] = [2n * rest < step, 2n * (b - rest) < step];
  if (isUp && (!isDown || b - rest < rest)) digits += 1n;
  const text = String(digits).padStart(places + 1, '0');
  const point = text.length - places;
  return `${number < 0 ? '-' : ''}${text.slice(0, point)}${places ? `.${text.slice(point)}` : ''}`;
}

// What the file says

// Returns {p, b} of a scale with so many bits behind the point: "B14", or a full word's worth as a decimal. A text is a fault.
function scaleOf(text, bits) {
  const b = 2n ** BigInt(bits);
  const [, power] = text.match(/^B(-?\d{1,2})$/) || [];
  if (power !== undefined && Math.abs(power) <= LARGEST_POWER) {
    const factor = 2n ** BigInt(Math.abs(power));
    return power < 0 ? { p: 1n, b: b * factor } : { p: factor, b };
  }
  const [, whole, part = ''] = text.match(/^(\d+)(?:\.(\d+))?$/) || [];
  const p = whole === undefined || whole.length + part.length > MOST_DIGITS ? 0n : BigInt(whole + part);
  return p ? { p, b: b * 10n ** BigInt(part.length) } : `bad scale ${text}: B-60 to B60, or a positive number of at most ${MOST_DIGITS} digits`;
}

// Returns the bits of "13" or "15-11"; a text is a fault.
function bitsOf(text) {
  const [, high, low = high] = text.match(/^(\d{1,2})(?:-(\d{1,2}))?$/) || [];
  const isRange = high !== undefined && 15 >= Number(high) && Number(high) >= Number(low) && Number(low) >= 1;
  return isRange ? { high: Number(high), low: Number(low), p: 1n, b: 1n } : `bad bits ${text}: N or HIGH-LOW, 15 to 1`;
}

// Returns the columns of a line's fields: a vector has three; a text is a fault.
function columnsOf([name, place, kind, scale, unit = '', ...more]) {
  if (!/^[A-Za-z][A-Za-z0-9_.-]{0,23}$/.test(name)) return `bad name ${name}: a letter, then letters, digits, _ . and -, at most 24`;
  if (scale === undefined || more.length) return `${scale === undefined ? 'too few' : 'too many'} fields: NAME PLACE KIND SCALE [UNIT]`;
  if (!Object.hasOwn(KINDS, kind)) return `unknown kind ${kind}: ${Object.keys(KINDS).join(', ')}`;
  if (!/^[!-~]{0,16}$/.test(unit)) return `bad unit ${unit}: at most 16 characters`;
  const [words, bits] = KINDS[kind];
  const worth = hasBits(kind) ? bitsOf(scale) : scaleOf(scale, bits);
  if (typeof worth === 'string') return worth;
  const cells = words === 1 ? place : `${place} ${words}`;
  const column = { name, cells, kind, unit, first: 0, count: words, ...worth };
  return kind === 'vector' ? ['x', 'y', 'z'].map((axis, i) => ({ ...column, name: `${name}.${axis}`, first: 2 * i, count: 2 })) : [column];
}

// Reads a file: {quantities, faults}. A quantity has its line, name, place, words and columns; a fault {line, text}.
function readQuantities(text) {
  const quantities = [];
  const faults = [];
  const names = new Set();
  let count = 0;
  const lines = text.length > LARGEST_QUANTITIES ? [] : text.split(/\r?\n/);
  lines.forEach((line, i) => {
    const fields = line.split('#')[0].split(/[ \t]+/).filter(Boolean);
    if (!fields.length) return;
    const columns = columnsOf(fields);
    const twice = Array.isArray(columns) && [fields[0], ...columns.map(({ name }) => name)].find((name) => names.has(name));
    const fault = typeof columns === 'string' ? columns : twice ? `${twice} has a line already` : '';
    if (!fault) count += columns.length;
    if (fault || count > MOST_COLUMNS) faults.push({ line: i + 1, text: fault || `more than ${MOST_COLUMNS} columns` });
    else quantities.push({ line: i + 1, name: fields[0], place: fields[1], words: KINDS[fields[2]][0], columns });
    if (!fault) [fields[0], ...columns.map(({ name }) => name)].forEach((name) => names.add(name));
  });
  if (!lines.length) faults.push({ line: 0, text: `the file has more than ${LARGEST_QUANTITIES} bytes` });
  else if (!quantities.length && !faults.length) faults.push({ line: 0, text: 'there is no quantity in the file' });
  return { quantities, faults };
}

// Where they are

// Returns which of all erasable cells a place is, if it is octal or a name of the file of names; else null.
function cellNumber(place, places) {
  const [, name, by = '0'] = place.match(NAMED) || [];
  const isWhole = places.has(place);
  const at = places.get(place) ?? places.get(name) ?? place;
  const [, bank = null, address] = at.match(/^(?:E([0-7]),)?([01][0-7]{3})$/) || [];
  if (address === undefined) return null;
  const within = parseInt(address, 8);
  return (bank === null ? within : BANK_CELLS * bank + (within % BANK_CELLS)) + (isWhole || at === place ? 0 : Number(by));
}

// What is shown

// `about` is that of the session; `rows` has the columns that can be shown.
const quantities = { about: null, rows: [] };

// Begins anew with each session: reads its file, and lets the session find the places.
async function keepQuantities(about) {
  if (quantities.about?.quantities === about.quantities && quantities.about?.rope === about.rope && quantities.rows.length) return;
  Object.assign(quantities, { about, rows: [] });
  showQuantities('');
  if (!about.quantities) return;
  const { quantities: found, faults } = readQuantities(about.quantities);
  const wrong = await wrongPlaces(found, placesByName(about));
  if (quantities.about !== about) return; // of another session
  const all = [...faults, ...wrong].sort((one, other) => one.line - other.line);
  quantities.rows = found.filter(({ line }) => !wrong.some((each) => each.line === line)).flatMap(({ columns }) => columns);
  const more = all.length > 1 ? ` ${all.length - 1} more.` : '';
  beginPlot();
  showQuantities(all.length ? `The file of quantities, ${all[0].line ? `line ${all[0].line}: ` : ''}${all[0].text}`.replace(/\??$/, (end) => end || '.') + more : '');
}

// Returns the faults of places: the session says why it cannot read one.
async function wrongPlaces(found, places) {
  const faults = [];
  const cells = found.map(({ columns }) => columns[0].cells);
  const seen = {};
  try {
    for (let i = 0; i < cells.length; i += MOST_CELLS) Object.assign(seen, (await session.look({ cells: cells.slice(i, i + MOST_CELLS) })).cells);
  } catch { /* the stream says that the session is gone */ }
  found.forEach(({ line, place, words, columns }) => {
    const answer = seen[columns[0].cells];
    const cell = cellNumber(place, places);
    const isPast = cell !== null && (cell % BANK_CELLS) + words > BANK_CELLS;
    if (typeof answer === 'string') faults.push({ line, text: `${place}: ${answer}` });
    else if (isPast) faults.push({ line, text: `${place} runs past the last cell of its bank` });
  });
  return faults;
}

function showQuantities(fault) {
  setText(find('quantities-fault'), fault);
  find('quantities').hidden = !quantities.rows.length;
  find('quantity-rows').replaceChildren(...quantities.rows.map((column) => make('tr', { 'data-quantity': column.name },
    make('th', { scope: 'row' }, column.name), make('td', { class: 'word' }), make('td', {}, column.unit), make('td', {}, causeButton(column.name, placesOf(column))))));
  look();
}

// The places of a column's words, for the session's `cause`.
function placesOf({ cells, first, count }) {
  const [place] = cells.split(' ');
  const at = cellNumber(place, placesByName(quantities.about));
  if (at === null) return [`cell ${place}`]; // a register or a counter by its own name
  return [...Array(count).keys()].map((i) => at + first + i).map((cell) => `cell E${cell >> 8},${octal(0o1400 + (cell % BANK_CELLS), 4)}`);
}

// The cells of all that is shown, each once.
const quantityCells = () => [...new Set(quantities.rows.map(({ cells }) => cells))];

// Shows the values that cells have, as the session's look returns them.
function showValues(cells) {
  quantities.rows.forEach((column, i) => {
    const words = [cells[column.cells] ?? []].flat();
    if (typeof words[0] === 'number') showChanged(find('quantity-rows').children[i].children[1], textOf(numberOf(words, column), column));
  });
}
