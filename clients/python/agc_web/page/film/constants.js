'use strict';
const CYCLES_A_SECOND = 1024000 / 12;
const LINE = String.fromCharCode(10);
const BACKSLASH = String.fromCharCode(92);
const KEPT_EVERY = 1024; // before so many writes the words of the panel are kept
