'use strict';
// What is opened: a link's session, the one that this browser keeps, an example, or files that the user chooses or drops.

const EXAMPLES = JSON.parse(dataOf('examples')); // by name {title, about, rope, script, names, watch, guide, instrument, isLesson}
Object.values(EXAMPLES).forEach((each) => { each.rope = base64In(each.rope); });
const FIRST = 'verbs';
const OFFERED = [['descent', ''], ['descent', 'Land with alarm 1202'], ['count-1', '']]; // by the strip: an example, and a guide that is not its first
const LARGEST_FILE = 4e6; // bytes
const SAID_EVERY = 500; // milliseconds between two sentences on how far a session has come
const SHOWN_ALONE = ['quantities', 'nouns'];
// What each line of a file begins with, by its kind.
const LINE_OF = {
  script: /^\s*(#|\d+\s+(key|pro|input|pulse|raise|poke)\b|$)/,
  quantities: /^\s*(#|[A-Za-z]\S*\s+\S+\s+(single|double|triple|vector|unsigned|bits|octal)\s|$)/,
  nouns: /^\s*(#|(verb|noun) \d\d\s|$)/,
};

// Shows a sentence to the user, above the page, until it is closed. `stop` ends what it says, by a button.
function say(text, stop = null) {
  setText(find('notice-text'), text);
  find('notice').hidden = !text;
  find('notice-stop').hidden = !stop;
  find('notice-stop').onclick = stop;
}

// Machine time in whole seconds.
const secondsOf = (cycle) => grouped(Math.floor(cycle / CYCLES_A_SECOND));

// Returns what says now and then how far a session has come that is run once more, and offers to let it stand there.
function progressTo(end, stop) {
  let said = performance.now();
  return (cycle) => {
    if (performance.now() - said < SAID_EVERY) return;
    said = performance.now();
    say(`The session is run again up to where it stood: second ${secondsOf(cycle)} of ${secondsOf(end)}.`, stop);
  };
}

// What is said of a session that the user has stopped on its way to where it stood.
const stoppedAt = (end) => `You stopped this session on its way to second ${secondsOf(end)} of its machine time.`;

const sentence = (text) => text.replace(/\.?$/, '.');

// Opens a session; if it is refused, says why, and the one before stays. Returns whether it was opened.
async function openAndSay(files, kept, what) {
  const why = await session.open(files, kept);
  if (why) say(what + sentence(why));
  return !why;
}

const filesOfExample = (name) => filesOf({ ...EXAMPLES[name], rope: null, example: name });

async function openExample(name) {
  const why = await session.open(filesOfExample(name));
  if (why) say(why);
  else beginToKeep();
}

// Opens the first session of the page.
async function openFirst() {
  buildOpening();
  buildSource();
  if (IS_OLD) {
    say(TOO_OLD);
    return;
  }
  const isLinked = location.hash.startsWith(MARK) && await openLink();
  const refused = isLinked ? '' : find('notice-text').textContent; // the session in the link's place takes the sentence away
  if (!isLinked && !session.isBegun && !await openKept()) await openExample(FIRST);
  if (refused) say(`${refused} ${find('notice-text').textContent}`.trim());
  openLinkedSource();
}

// Opens the session of the link; returns whether it did.
async function openLink() {
  say('The session of the link is coming. A long one takes some seconds.');
  try {
    const { files, kept, chosen } = await readLink(location.hash);
    if (!await openAndSay(files, kept, 'The session of the link cannot be opened: ')) return false;
    beginGuideNamed(chosen);
    keeping.is = false;
    const about = session.isWhole ? 'This session came with the link.' : `${stoppedAt(kept.cycle)} It came with the link.`;
    say(`${about} A reload opens it anew: download its script to keep what you change.`);
    return true;
  } catch (error) {
    say(`The session of the link cannot be opened: ${sentence(error.message)}`);
    return false;
  }
}

// Opens the session that this browser keeps; returns whether it did. One that cannot be opened is put aside. One that the user stops on
// its way stays as it was kept.
async function openKept() {
  const text = keptText();
  if (text === null) return false;
  let [why, end] = ['', 0];
  say('The session that this browser keeps is coming back. A long one takes some seconds.');
  try {
    const { files, kept } = readSession(text);
    end = kept.cycle;
    why = await session.open({ ...files, listing: keptListing() }, kept);
  } catch (error) {
    why = error.message;
  }
  if (!why && session.isWhole) {
    beginToKeep();
    return true;
  }
  if (!why) {
    say(`${stoppedAt(end)} This browser keeps the whole one, and a reload opens it: download the script to keep what you change here.`);
    return true;
  }
  putAside(text);
  if (session.isBegun) return true;
  await openExample(FIRST);
  say(`The session that this browser kept cannot be opened: ${sentence(why)} Its script can be downloaded under Open.`);
  return true;
}

// files of the user

// What a file is, by its name or what is in it: a rope, script, names, the tables' SPEC, guided steps, quantities, nouns, or a listing.
function kindOf(name, bytes) {
  const kind = name.toLowerCase().match(/(^|\.)(rope|script|names|watch|guide|quantities|nouns|listing)(\.txt)?$/)?.[2];
  if (kind) return kind;
  const text = new TextDecoder().decode(bytes.subarray(0, 1e5));
  if (isListing(text)) return 'listing';
  if (!/^[\t\n\r -~]+$/.test(text)) return 'rope';
  const lines = text.split(/\r?\n/).slice(0, -1);
  return Object.keys(LINE_OF).find((each) => lines.every((line) => LINE_OF[each].test(line))) ?? 'names';
}

// Opens the files of a list: a rope, or what goes with the rope that is open.
async function openFiles(list) {
  const found = {};
  if (list.length === 1 && isSourceName(list[0].name)) {
    openSourceFile(list[0]);
    return;
  }
  for (const file of list) {
    if (file.size > (isListingName(file.name) ? LARGEST_LISTING : LARGEST_FILE)) {
      say(`${file.name} is no rope or script: it has ${grouped(file.size)} bytes.`);
      return;
    }
    const bytes = new Uint8Array(await file.arrayBuffer());
    const kind = kindOf(file.name, bytes);
    if (found[kind]) {
      say(`Two files are a ${kind}: ${found[kind].name} and ${file.name}.`);
      return;
    }
    found[kind] = { name: file.name, bytes, text: new TextDecoder().decode(bytes) };
  }
  if (!Object.keys(found).length) return;
  const { rope, watch } = found;
  const before = rope ? { title: rope.name.slice(-100), rope: rope.bytes, example: null, instrument: null, options: null } : session.files;
  const own = (kind) => found[kind]?.text ?? (rope ? null : before[kind]);
  const files = {
    ...before, script: own('script') ?? '', names: own('names'), watch: watch?.text.split('\n')[0].trim() ?? own('watch'), guide: own('guide'),
    quantities: own('quantities'), nouns: own('nouns'), listing: own('listing'), form: find('parity').checked ? 'parity' : null,
  };
  if (Object.keys(found).every((kind) => SHOWN_ALONE.includes(kind))) showWith(files);
  else if (await openAndSay(files, null, '')) beginToKeep();
}

// Shows the session that is open with other texts that only the page needs, and the same tab, if others come beside it.
function showWith(files) {
  const { tab } = inspector;
  session.files = files;
  showNews({ about: { ...shown.about, ...Object.fromEntries(SHOWN_ALONE.map((kind) => [kind, files[kind]])) } });
  if (find(`${tab}-tab`)) showTab(tab);
  if (session.isWhole) beginToKeep();
}

// the dialog

function buildOpening() {
  const notice = make('p', { id: 'notice', role: 'status', hidden: '' }, make('span', { id: 'notice-text' }), ' ',
    button('Stop here', () => {}, { id: 'notice-stop', hidden: '' }), button('✕', () => say(''), { 'aria-label': 'Close this note' }));
  find('trouble').before(notice);
  find('help-button').before(button('Open …', () => showOpening(), { id: 'open-button', 'aria-haspopup': 'dialog' }));
  document.body.append(openingDialog());
  guiding.more = otherGuides;
  const link = button('Link', copyLink, { id: 'link' });
  find('film').before(link, ' ');
  find('download').addEventListener('click', (event) => {
    event.preventDefault();
    download('session.script', session.script());
    say('The script is saved as session.script, among the downloads of this browser.');
  });
  find('film').addEventListener('click', (event) => {
    event.preventDefault();
    openFilm();
  });
  document.addEventListener('dragover', (event) => event.preventDefault());
  document.addEventListener('drop', (event) => {
    event.preventDefault();
    find('open').close();
    openFiles([...event.dataTransfer.files]);
  });
  window.addEventListener('hashchange', () => { if (location.hash.startsWith(MARK)) openLink(); });
}

// Buttons of the strip: the other examples that begin with a guide. Each opens its example and begins a guide. If the
// session that is shown has begun, the dialog opens first, at that example.
function otherGuides() {
  const open = (name, title) => {
    if (!now.cycle && !engine.events.length) {
      openWithGuide(name, title);
      return;
    }
    showOpening();
    find('open').querySelector(`[data-example="${name}"]`).focus();
  };
  const others = OFFERED.filter(([name]) => name !== session.files?.example);
  const offer = (label, action) => ({ label, build: () => button(label, action) });
  return [...others.map(([name, title]) => offer(title || EXAMPLES[name].title, () => open(name, title))), offer('More …', showOpening)];
}

async function openWithGuide(name, title) {
  await openExample(name);
  if (session.files?.example === name && guiding.guides.length) beginGuideNamed(title || guiding.guides[0].title);
}

function button(text, action, attributes = {}) {
  const made = make('button', { type: 'button', ...attributes }, text);
  made.addEventListener('click', action);
  return made;
}

function openingDialog() {
  const choose = (action) => () => {
    find('open').close();
    action();
  };
  const listed = (wanted) => Object.entries(EXAMPLES).filter(([, { isLesson }]) => isLesson === wanted).map(([name, { title, about }]) => make('li', {},
    button(title, choose(() => openExample(name)), { 'data-example': name }), ` ${about}`));
  const input = make('input', { type: 'file', id: 'files', multiple: '' });
  input.addEventListener('change', choose(() => openFiles([...input.files]).then(() => { input.value = ''; })));
  return make('dialog', { id: 'open', 'aria-labelledby': 'open-title' },
    make('h2', { id: 'open-title' }, 'Open'),
    make('p', { class: 'note' }, 'Opening ends the session that is shown. This browser keeps one session; nothing leaves this page.'),
    make('ul', { id: 'example-list', 'aria-label': 'Examples' }, ...listed(false)),
    make('p', {}, 'Lessons with guided steps:'),
    make('ul', { id: 'lesson-list', 'aria-label': 'Lessons' }, ...listed(true)),
    ...(HAS_ASSEMBLER ? sourcesToChange(choose) : []),
    make('p', {}, make('label', {}, 'Your rope, with its script and names if you like: ', input)),
    make('p', {}, make('label', {}, make('input', { type: 'checkbox', id: 'parity' }), ' with parity bits'), ' (you may also drop files on the page)'),
    make('p', { class: 'row' }, button('Forget the kept session', choose(forgetAndSay), { id: 'forget' }),
      button('Download the one put aside', () => download('other.script', scriptIn(keptAside())), { id: 'aside' }),
      button('Close', () => find('open').close(), { id: 'open-close' })));
}

function sourcesToChange(choose) {
  const items = Object.entries(SOURCES).map(([name, { title, about }]) => make('li', {},
    button(title, choose(() => openSourceExample(name)), { 'data-source': name }), ` ${about}`));
  return [make('h2', {}, 'Write'), make('ul', { id: 'source-list', 'aria-label': 'Sources to change' }, ...items)];
}

function showOpening() {
  find('aside').hidden = keptAside() === null;
  find('open').showModal();
}

function forgetAndSay() {
  forget();
  say('This browser keeps no session now. The one that is shown goes on, and a reload loses it.');
}

// Opens a film of the session in a tab of its own, at once, because a browser opens none later; without one it is downloaded.
async function openFilm() {
  const tab = window.open('', '_blank');
  try {
    const film = await session.film();
    if (!tab) {
      download('film.html', film);
      return;
    }
    tab.opener = null;
    tab.location.replace(URL.createObjectURL(new Blob([film], { type: 'text/html' })));
  } catch (error) {
    tab?.close();
    say(`There is no film: ${error.message}`);
  }
}

async function copyLink() {
  try {
    await offerLink(await linkOf(session.files, session.kept()), 'The link is copied. It holds this session, and opens it with time stopped.');
  } catch (error) {
    say(error.message);
  }
}

// Copies a link and says so; if the browser refuses that, the page's address is the link.
async function offerLink(link, what) {
  await navigator.clipboard.writeText(link).then(() => say(what), () => {
    history.replaceState(null, '', link);
    say('The address of this page is the link now: copy it there.');
  });
}
