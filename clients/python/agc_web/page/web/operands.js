'use strict';
// The names of operands, by the rule of `agc-study trace`: `TS 0100` is `TS FLAGS`. An operand is named only if it is sure which cell or
// word it is: by the bank that the order stands in, or by the registers.

const ERASABLE_WINDOW = 0o1400;
const FIXED_WINDOW = 0o2000;
const FIXED_FIXED = 0o4000;
const CELLS_OF_BANK = 256;
const MOST_BELOW = 0o100; // words from a name to a place that is counted from it
const FIRST_GENERAL = 0o61; // the cells before it are registers and counters, each of one word
const FIRST_SUPERBANKED = 0o30; // FB selects banks from here on as the superbank has them
const BANK_REGISTERS = [0o1402, 0o1403, 0o1405, 0o1406]; // one word, or the upper one of two, that is EB or BB if the window shows bank 0
const WRITING = new Set(['TS', 'XCH', 'LXCH', 'QXCH', 'DXCH', 'DAS', 'ADS', 'INCR', 'AUG', 'DIM']);
const ORDER_LINE = /^(?:(E)?(\d\d?),)?([0-7]{4}) (?:.*? )?[0-7]{5} (?!EDRUPT )([A-Z]+) ([0-7]{3,4})(?![0-7])/; // up to the operand
const BANKS_AFTER = / EB ([0-7]) FB ([0-7]{2})$/;

// Names by what they name: words of fixed memory and cells by their numbers, and channels.
const operands = { fixed: new Map(), cells: new Map(), channels: new Map() };

// Keeps the names of a file. Of two names of a place the first one counts.
function keepOperands(text) {
  for (const names of Object.values(operands)) names.clear();
  for (const line of (text ?? '').split(LINE)) {
    const [place, name] = line.trim().split(/\s+/);
    if (name && !name.startsWith('#')) keepOperand(place, name);
  }
}

function keepOperand(place, name) {
  const [, channel] = place.match(/^C([0-7]{1,3})$/) || [];
  const [names, number] = channel ? [operands.channels, parseInt(channel, 8)] : numberOfPlace(place);
  if (number !== null && !names.has(number)) names.set(number, name);
}

// Returns the names among which a place has its own, and its number there; null if it is no place.
function numberOfPlace(place) {
  const [, bank, digits] = place.match(/^(?:E([0-7]),)?([0-7]{1,4})$/) || [];
  const address = parseInt(digits, 8);
  if (address < ERASABLE_WINDOW) return [operands.cells, address];
  if (address < FIXED_WINDOW && bank !== undefined) return [operands.cells, CELLS_OF_BANK * bank + (address % CELLS_OF_BANK)];
  return [operands.fixed, keyOf(place)];
}

// Returns the nearest name at or below a number, in the same bank, as "FLAGS +1"; null if there is none.
function nearestName(names, number, bankSize) {
  for (let below = 0; below <= Math.min(number % bankSize, MOST_BELOW); below += 1) {
    const name = names.get(number - below);
    if (name !== undefined) return below ? `${name} +${below}` : name;
  }
  return null;
}

function nameOfCell(number) {
  return number < FIRST_GENERAL ? operands.cells.get(number) ?? null : nearestName(operands.cells, number, CELLS_OF_BANK);
}

// Returns the name of what a breakpoint is at, if it was given by a number; null if it has none.
function nameOfBreak(text) {
  const [what, place] = text.split(' ');
  if (what === 'write') return operands.channels.get(parseInt(place, 8)) ?? null;
  const [names, number] = numberOfPlace(what === 'cell' ? place : what);
  if (number === null) return null;
  return names === operands.cells ? nameOfCell(number) : nearestName(names, number, BANK_OF_ROPE);
}

// Returns the name of an address, if these banks decide what it is: each null if it is not known.
function nameOfAddress(address, { erasable, fixed }) {
  if (address < ERASABLE_WINDOW) return nameOfCell(address);
  if (address < FIXED_WINDOW) return erasable === null ? null : nameOfCell(CELLS_OF_BANK * erasable + (address % CELLS_OF_BANK));
  if (address >= FIXED_FIXED) return nearestName(operands.fixed, address, BANK_OF_ROPE);
  return fixed === null ? null : nearestName(operands.fixed, BANK_OF_ROPE * fixed + (address % BANK_OF_ROPE), BANK_OF_ROPE);
}

// The banks that EB and FB select.
const banksSelected = (eb, fb) => ({ erasable: eb, fixed: fb < FIRST_SUPERBANKED ? fb : null });

// Returns the banks before an order, as far as the registers after it tell.
function banksBefore(mnemonic, address, after) {
  const [, eb, fb] = after.match(BANKS_AFTER) || [];
  if (eb === undefined) return { erasable: null, fixed: null };
  const banks = banksSelected(parseInt(eb, 8), parseInt(fb, 8));
  return BANK_REGISTERS.includes(address) && WRITING.has(mnemonic) ? { ...banks, erasable: null } : banks;
}

// Returns what happened with the operand of its order by its name, as `4223 ENTR +2     54100 TS FLAGS`. `banksOf` gives the banks before
// an order that are known, by its mnemonic and address.
function withOperand(what, banksOf) {
  const found = what.match(ORDER_LINE);
  if (!found) return what;
  const [all, isErasable, bank, , mnemonic, digits] = found;
  const number = parseInt(digits, 8);
  const own = bank === undefined ? {} : { [isErasable ? 'erasable' : 'fixed']: parseInt(bank, 8) };
  const isChannel = digits.length === 3;
  const name = isChannel ? operands.channels.get(number) : nameOfAddress(number, { ...banksOf(mnemonic, number), ...own });
  return name ? all.slice(0, -digits.length) + name + what.slice(all.length) : what;
}

// Returns what happened in a boundary, with the registers after it.
const happenedByName = (what, after) => withOperand(what, (mnemonic, address) => banksBefore(mnemonic, address, after));

// Returns what comes next, with the registers now.
const comingByName = (next, { eb, fb }) => withOperand(next, () => banksSelected(eb, fb));
