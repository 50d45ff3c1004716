// the lamps beside the digits, row by row; those of the right column are cautions
const LAMPS = 'UPLINK ACTY,TEMP,NO ATT,GIMBAL LOCK,,PROG,KEY REL,,OPR ERR,TRACKER,,ALT,ISS,VEL'.split(',');

// the keys column by column, each column with the half row in which it begins
const KEYS = [[2, 'VERB NOUN'], [1, '+ - 0'], [1, '7 4 1'], [1, '8 5 2'], [1, '9 6 3'], [1, 'CLR PRO KEYREL'], [2, 'ENTR RSET']];

const SEGMENTS = {
  a: '6,3 30,3 25,9 11,9',
  b: '32,5 32,28 29,30 26,27 26,11',
  c: '32,55 32,32 29,30 26,33 26,49',
  d: '6,57 30,57 25,51 11,51',
  e: '4,55 4,32 7,30 10,33 10,49',
  f: '4,5 4,28 7,30 10,27 10,11',
  g: '8,30 11,27 25,27 28,30 25,33 11,33',
};
const DIGITS = { 0: 'abcdef', 1: 'bc', 2: 'abdeg', 3: 'abcdg', 4: 'bcfg', 5: 'acdfg', 6: 'acdefg', 7: 'abc', 8: 'abcdefg', 9: 'abcdfg', '?': 'abeg' };
const SIGN_BARS = { g: '5,27 31,27 31,33 5,33', v: '15,14 21,14 21,26 15,26', w: '15,34 21,34 21,46 15,46' };
const SIGNS = { '+': 'gvw', '-': 'g' };
