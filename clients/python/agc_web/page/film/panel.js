// The words of a panel are that of channel 11 and those of rows 1 to 12 of channel 10, by their rows.
const ROWS = 13;
const WORD_SIZE = 2 ** 15;

// the lines of digits: a name, the row of the plus relay (the minus relay is in the row below it), and each digit's row and side
const DIGIT_LINES = [['PROG', 0, '11L 11R'], ['VERB', 0, '10L 10R'], ['NOUN', 0, '9L 9R'],
  ['R1', 7, '8R 7L 7R 6L 6R'], ['R2', 5, '5L 5R 4L 4R 3L'], ['R3', 2, '3R 2L 2R 1L 1R']]
  .map(([name, plus, digits]) => [name, plus, digits.split(' ').map((digit) => [parseInt(digit, 10), digit.endsWith('L') ? 5 : 0])]);
const CODES = [0o25, 0o03, 0o31, 0o33, 0o17, 0o36, 0o34, 0o23, 0o35, 0o37]; // of the digits 0 to 9

// the lamps in the order of their line: a name, and the row and the bit that light it
const LAMP_BITS = [['COMP ACTY', 0, 2], ['UPLINK ACTY', 0, 3], ['NO ATT', 12, 4], ['TEMP', 0, 4], ['GIMBAL LOCK', 12, 6], ['PROG', 12, 9],
  ['KEY REL', 0, 5], ['OPR ERR', 0, 7], ['TRACKER', 12, 8], ['ALT', 12, 5], ['VEL', 12, 3], ['ISS', 0, 1]];
const FLASH_BIT = 6;

// a write's word with its row, as one number; a write that is of no row of the panel gets one beyond them
function wordOf(channel, word) {
  const row = channel === 0o11 ? 0 : (channel === 0o10 && word >> 11) || ROWS;
  return row * WORD_SIZE + word;
}

function putWord(words, word) {
  words[Math.floor(word / WORD_SIZE)] = word % WORD_SIZE;
}

function digitOf(code) {
  const digit = CODES.indexOf(code);
  return code === 0 ? '_' : digit < 0 ? '?' : String(digit);
}

// the panel's text, as agc prints it
function textOf(words) {
  const isOn = (row, bit) => (words[row] >> (bit - 1)) % 2 === 1;
  const signOf = (plus) => (plus === 0 ? '' : isOn(plus, 11) ? '+' : isOn(plus - 1, 11) ? '-' : '_');
  const lines = DIGIT_LINES.map(([name, plus, digits]) => `${name} ${signOf(plus)}${digits.map(([row, shift]) => digitOf((words[row] >> shift) % 32)).join('')}`);
  const lit = LAMP_BITS.filter(([, row, bit]) => isOn(row, bit)).map(([name]) => name);
  return [...lines, `FLASH ${isOn(0, FLASH_BIT) ? 'on' : 'off'}`, `LAMPS ${lit.join(', ') || 'none'}`, ''].join(LINE);
}
