'use strict';
// The session is kept in this browser, so that it survives a reload: its files once, and what changes soon after each change.

const FILES = 'agc.files';
const REST = 'agc.session';
const LISTING = 'agc.listing'; // of the files, if they have one
const OWNER = 'agc.owner';
const OTHER = 'agc.other'; // a session that could not be read
const SOON = 300; // milliseconds after a change
const LATER = 3000; // the same, if there are many events
const MANY = 5000;

const keeping = { id: String(Math.random()), is: false, timer: null };

// Runs a task of the store; returns whether the store has done it.
function inStore(task) {
  try {
    task(localStorage);
    return true;
  } catch {
    return false;
  }
}

// Begins to keep the session that was opened.
function beginToKeep() {
  const text = JSON.stringify(storedFiles(session.files));
  keeping.is = inStore((store) => {
    store.removeItem(REST);
    store.setItem(OWNER, keeping.id);
    store.setItem(FILES, text);
  });
  if (!keeping.is) sayNotKept();
  keepListingText(session.files.listing ?? '');
  keepNow();
}

// Keeps the text of a listing, if there is room beside the session.
function keepListingText(text) {
  inStore((store) => store.removeItem(LISTING));
  if (text && !inStore((store) => store.setItem(LISTING, text))) say('This browser has no room for the listing, so a reload loses it.');
}

function keptListing() {
  let text = null;
  inStore((store) => { text = store.getItem(LISTING); });
  return text;
}

function sayNotKept() {
  say('This browser has no room for the session, so a reload loses it. Its script can be downloaded in the tab Script.');
}

function keepSoon() {
  if (keeping.timer !== null || !keeping.is) return;
  keeping.timer = setTimeout(keepNow, engine.events.length > MANY ? LATER : SOON);
}

function keepNow() {
  clearTimeout(keeping.timer);
  keeping.timer = null;
  if (!keeping.is) return;
  const text = JSON.stringify(storedRest(session.kept()));
  if (inStore((store) => store.setItem(REST, text))) return;
  keeping.is = false;
  sayNotKept();
}

// Forgets what is kept.
function forget() {
  keeping.is = false;
  inStore((store) => [FILES, REST, LISTING, OWNER, OTHER].forEach((name) => store.removeItem(name)));
}

// The text of the session that is kept, or null.
function keptText() {
  let text = null;
  inStore((store) => {
    const [files, rest] = [store.getItem(FILES), store.getItem(REST)];
    if (files !== null && rest !== null) text = `${files.slice(0, -1)},${rest.slice(1)}`;
  });
  return text;
}

// Puts a session that could not be read aside, so that its script can be downloaded.
function putAside(text) {
  inStore((store) => store.setItem(OTHER, text));
}

function keptAside() {
  let text = null;
  inStore((store) => { text = store.getItem(OTHER); });
  return text;
}

// Another tab keeps its session from now on.
window.addEventListener('storage', ({ key, newValue }) => {
  if (key !== OWNER || newValue === keeping.id || !keeping.is) return;
  keeping.is = false;
  say('Another tab keeps its session in this browser now. This one goes on, but a reload loses it.');
});
window.addEventListener('pagehide', keepNow);
