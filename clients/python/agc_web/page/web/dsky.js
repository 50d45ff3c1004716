'use strict';
// The DSKY of the page: the face that films have, with keys to be pressed.

const KEY_SHOWN = 150; // milliseconds that a key looks pressed
const LABELS = { '+': 'plus', '-': 'minus', KEYREL: 'KEY REL', ENTR: 'ENTER', CLR: 'CLEAR', RSET: 'RESET', PRO: 'PROCEED' };
const TYPED = { v: 'VERB', n: 'NOUN', enter: 'ENTR', c: 'CLR', k: 'KEYREL', r: 'RSET' };

const live = { id: 'live', text: null, section: null };
let proHeldBy = ''; // what holds PRO down here: a key of the keyboard or a pointer

// Makes the face: lamps, display and keys.
function buildFace() {
  const lamps = LAMPS.map((name, i) => `<li class="${i % 2 ? 'caution' : ''}" data-lamp="${name}">${name}</li>`).join('');
  const pair = (name) => `<div><span class="name">${name}</span>${places(name, 2, '')}</div>`;
  const registers = ['R1', 'R2', 'R3'].map((name) => `<div class="wide">${places(name, 6, 'register')}</div>`).join('');
  const activity = '<div class="acty" data-lamp="COMP ACTY">COMP<br>ACTY</div>';
  live.section = find('face');
  live.section.innerHTML = `<div class="dsky"><ul class="lamps" aria-label="Lamps">${lamps}</ul>`
    + `<div class="display" role="group" aria-label="Display">${activity}${pair('PROG')}${pair('VERB')}${pair('NOUN')}${registers}</div>`
    + '<div class="keys" role="group" aria-label="Keyboard"></div></div>';
  KEYS.forEach(([row, names], column) => names.split(' ').forEach((name, i) => addKey(name, column + 1, row + 2 * i)));
}

function addKey(name, column, row) {
  const cap = make('span', { class: name.length === 1 ? 'figure' : '', 'data-key': name });
  cap.style.gridArea = `${row} / ${column} / span 2`;
  const button = make('button', { type: 'button', 'aria-label': LABELS[name] || name });
  button.append(...(name === 'KEYREL' ? ['KEY', make('br'), 'REL'] : [name]));
  if (name === 'PRO') holdPro(button); else pressKey(button, name);
  cap.append(button);
  live.section.querySelector('.keys').append(cap);
}

// A key goes down with the mouse. A finger may only be scrolling, so its click counts; and a click without a pointer comes
// from a keyboard or a screen reader.
function pressKey(button, name) {
  let touched = false;
  button.addEventListener('pointerdown', (event) => {
    touched = event.pointerType === 'touch';
    if (!touched && event.button === 0) press(name);
  });
  button.addEventListener('click', (event) => { if (touched || event.detail === 0) press(name); });
}

function holdPro(button) {
  button.addEventListener('pointerdown', (event) => {
    if (event.button !== 0) return;
    button.setPointerCapture(event.pointerId);
    setPro('pointer', true);
  });
  for (const kind of ['pointerup', 'pointercancel', 'lostpointercapture']) button.addEventListener(kind, () => setPro('pointer', false));
  button.addEventListener('keydown', (event) => { if (event.key === ' ' || event.key === 'Enter') { event.preventDefault(); setPro('button', true); } });
  button.addEventListener('keyup', () => setPro('button', false));
  button.addEventListener('blur', () => setPro('button', false));
}

// Holds PRO down, or lets it come up: only what holds it lets it up.
function setPro(holder, down) {
  if (down ? proHeldBy : !holder || proHeldBy !== holder) return;
  proHeldBy = down ? holder : '';
  ask('pro', { down });
}

function press(name) {
  const cap = live.section.querySelector(`[data-key='${name}']`);
  cap.classList.add('down');
  setTimeout(() => cap.classList.remove('down'), KEY_SHOWN);
  ask('key', { name });
}

// Returns the DSKY's key that a key of the keyboard stands for, or nothing.
function keyTyped(key) {
  if (/^[0-9+-]$/.test(key)) return key;
  return TYPED[key.toLowerCase()];
}

// Shows the panel as the server has it.
function showFace(panel) {
  showPanel(live, Object.entries(panel).map(([name, value]) => name + ' ' + value + LINE).join(''));
}

function showPro(down) {
  live.section.querySelector("[data-key='PRO']").classList.toggle('down', down);
}
