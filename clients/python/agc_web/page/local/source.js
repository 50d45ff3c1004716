'use strict';
// A program that is written in the page: its text with line numbers, its faults at their lines, and its run.

const HAS_ASSEMBLER = Boolean(find('assembler')); // without it there is no tab Source
// By name {title, about, text, opens, guide}: `opens` is the example with whose instrument and tables it runs.
const SOURCES = Object.fromEntries((HAS_ASSEMBLER ? JSON.parse(dataOf('sources')) : []).map((source) => [source.name, source]));
const SOURCE_STORE = 'agc.source';
const CHECK_AFTER = 400; // milliseconds after the last change
const COLUMNS = 8; // between two stops of the tab key
const FAULT = /^agc-study: \S+ line (\d+)(?:, column \d+)?: (.*)$/;
const UNKNOWN_ORDER = /^unknown order or directive `[^`]*[a-z][^`]*`/; // with a lower-case letter
const NOTHING_WRITTEN = { name: '', text: '', example: null };

// The text that is shown: `before` is the one whose place it took, `example` the one of SOURCES from which it came. `run` is the text
// that was woven last, `files` those of its session.
const writing = { ...NOTHING_WRITTEN, before: null, faults: [], woven: null, run: null, files: null, timer: null, isChecking: false, isStale: false, isFull: false };

const sourceText = () => find('source').value;
const written = () => ({ name: find('source-name').value.trim() || 'program', text: sourceText(), example: writing.example });

// what is woven

// Returns the faults and remarks of what the assembler said: {line, text}, line 0 if it names none.
function faultsIn({ said, explained = '' }) {
  const lines = said.split('\n').filter((line) => line && !line.startsWith('agc-study: faults: '));
  const reasons = reasonsIn(explained);
  return lines.map((line) => {
    const [, number, text] = line.match(FAULT) ?? [line, 0, line.replace('agc-study: ', '')];
    return { line: Number(number), text: withReason(text, reasons.get(Number(number))) };
  });
}

// Returns the reasons of what `agc-study check` explained, by line: of each line its word at fault, and the nearest name.
function reasonsIn(explained) {
  const reasons = new Map();
  let at = 0;
  for (const line of explained.split('\n')) {
    at = Number(line.match(/^text line (\d+): /)?.[1] ?? at);
    const reason = line.match(/^ {4}column \d+: (.*)$/)?.[1];
    if (reason) reasons.set(at, reason);
  }
  return reasons;
}

// Returns a fault with its reason, which says an unknown name by itself.
function withReason(text, reason) {
  if (!reason) return text;
  const capitals = UNKNOWN_ORDER.test(reason) ? ' Orders and directives are in capitals.' : '';
  return reason.startsWith('unknown ') ? reason + capitals : `${text.replace(/: `[^`]*`$/, '')}: ${reason}`;
}

// Weaves the text as it stands, and shows what the assembler says, if it still stands so. Returns the answer, or null.
async function weaveSource() {
  clearTimeout(writing.timer);
  const text = sourceText();
  const woven = await session.weave(text, fileNamed(written().name));
  if (text !== sourceText()) return null;
  writing.woven = woven;
  writing.faults = woven.error ? [{ line: 0, text: woven.error }] : faultsIn(woven);
  showFaults();
  setText(find('source-said'), text.trim() ? summaryOf(woven) : '');
  followGuide();
  followInEditor();
  return woven;
}

const counted = (count, one, many) => `${count} ${count === 1 ? one : many}`;

// Whether the machine has a program that was woven here.
const hasWoven = () => writing.files !== null && session.files === writing.files;

// Says what came of the weaving. The listing leaves out words that are 0.
function summaryOf(woven) {
  const { length } = writing.faults;
  if (!woven.rope) return `${counted(length, 'fault', 'faults')}.${hasWoven() ? ' The machine still has the program woven before.' : ''}`;
  const words = woven.listing.split('\n').length - 1;
  return `No fault: ${counted(words, 'word', 'words')}, not counting those that are 0${length ? `; ${counted(length, 'remark', 'remarks')}` : ''}.`;
}

// Checks the text soon after its last change; one check at a time.
function checkSoon() {
  clearTimeout(writing.timer);
  writing.timer = setTimeout(checkSource, CHECK_AFTER);
}

async function checkSource() {
  writing.isStale = writing.isChecking;
  if (writing.isChecking) return;
  writing.isChecking = true;
  await weaveSource();
  writing.isChecking = false;
  if (writing.isStale) checkSource();
}

// The files of the session that runs what was woven: with the instrument, tables and guide of the example from which it came.
function filesOfSource({ name, example }, { rope, names, lines }) {
  const { opens = null, guide = null } = SOURCES[example] ?? {};
  const from = opens ? filesOfExample(opens) : { script: '', watch: null, guide: null, example: null, instrument: null, options: null };
  return { ...from, title: name, rope, names, listing: lines, form: null, guide: guide ?? from.guide };
}

// Opens a session of the text, if it has no fault. Returns whether it did. The guided steps go on where they were, and
// breakpoints stay if `keepsBreaks`.
async function openWoven(keepsBreaks) {
  const woven = await weaveSource();
  if (!woven?.rope) {
    if (writing.faults.length) goToLine(writing.faults[0].line);
    return false;
  }
  const { guide, at, since } = guiding;
  const done = written();
  const files = filesOfSource(done, woven);
  const breaks = keepsBreaks ? await breaksWithLines() : [];
  if (!await openAndSay(files, null, '')) return false;
  await setBreaks(breaks, readListing(woven.lines).lines);
  beginToKeep();
  writing.files = files;
  const again = guiding.guides.find(({ title }) => title === guide?.title);
  if (again) Object.assign(guiding, { guide: again, at, since });
  writing.run = done.text;
  setText(find('source-listed'), `${woven.listing}${woven.names ? `\nNames:\n${woven.names}` : ''}`);
  showTab('source');
  showEditor(true);
  return true;
}

// Runs the text at once. From then on the keys are the DSKY's, but if the keyboard asked for it.
async function runSource(staysThere = false) {
  const isRun = await openWoven(true);
  if (isRun && !staysThere) find('source').blur();
  if (isRun) await ask('play');
  followGuide();
}

// what is shown

function showLines() {
  const count = sourceText().split('\n').length;
  const faulty = new Set(writing.faults.map(({ line }) => line));
  const kind = writing.woven?.rope ? 'remark' : 'faulty';
  find('source-lines').replaceChildren(...[...Array(count).keys()].map((i) => (
    make('span', faulty.has(i + 1) ? { class: kind } : {}, `${i + 1}\n`))));
  scrollLines();
}

// Shows the faults at their lines, and as a list that leads there.
function showFaults() {
  const { faults, woven } = writing;
  const height = parseFloat(getComputedStyle(find('source')).lineHeight);
  find('source-marks').classList.toggle('remarks', Boolean(woven?.rope));
  find('source-marks').replaceChildren(...faults.filter(({ line }) => line).map(({ line, text }) => {
    const mark = make('p', { 'data-line': line }, make('span', {}, text));
    mark.style.top = `${(line - 1) * height}px`;
    return mark;
  }));
  find('source-faults').replaceChildren(...faults.map(({ line, text }) => make('li', {},
    line ? button(`Line ${line}`, () => goToLine(line)) : '', ` ${text}`)));
  showLines();
}

function scrollLines() {
  const { scrollTop } = find('source');
  find('source-lines').scrollTop = scrollTop;
  find('source-marks').style.transform = `translateY(${-scrollTop}px)`;
}

// Selects a line of the text.
function goToLine(line) {
  const lines = sourceText().split('\n');
  const start = lines.slice(0, line - 1).reduce((at, each) => at + each.length + 1, 0);
  const area = find('source');
  showEditor(true);
  area.focus();
  area.setSelectionRange(start, start + (lines[line - 1] ?? '').length);
  area.scrollTop = Math.max(0, (line - 4) * parseFloat(getComputedStyle(area).lineHeight));
}

// Puts a text into the area. The one before can be brought back. Nothing is woven yet.
function showSource(source) {
  const given = SOURCES[writing.example]?.text === sourceText();
  clearTimeout(writing.timer);
  if (sourceText().trim() && !given && sourceText() !== source.text) writing.before = written();
  Object.assign(writing, { ...source, faults: [], woven: null, run: null });
  find('source').value = source.text;
  find('source-name').value = source.name;
  find('source-example').value = source.example ?? '';
  setText(find('source-said'), '');
  find('source-back').hidden = !writing.before;
  find('source').scrollTop = 0;
  showEditor(true);
  showFaults();
}

function bringBack() {
  const { before } = writing;
  writing.before = null;
  showSource(before);
  keepSource();
  checkSoon();
}

// Shows an example to change, and opens its session at cycle 0.
async function openSourceExample(name) {
  const { title, text } = SOURCES[name];
  showSource({ name: title, text, example: name });
  keepSource();
  await openWoven(false);
}

function showSourceTab() {
  showTab('source');
  showEditor(true);
  if (!sourceText()) openSourceExample('first');
}

// what is kept, saved, opened and sent

function keepSource() {
  const { before } = writing;
  const text = JSON.stringify({ ...written(), before });
  const isKept = inStore((store) => (sourceText() || before ? store.setItem(SOURCE_STORE, text) : store.removeItem(SOURCE_STORE)));
  if (!isKept && !writing.isFull) say('This browser has no room for the source, so a reload loses it. Save it as a file.');
  writing.isFull = !isKept;
}

// Returns a source of what was kept or sent, or null if it is none: {name, text, example}.
function readSource(value) {
  const { name, text, example = null } = value ?? {};
  const isRight = isBrief(name, 60) && isBrief(text, LARGEST_SOURCE) && (example === null || (isBrief(example) && Object.hasOwn(SOURCES, example)));
  return isRight ? { name, text: text.replace(/\r\n?/g, '\n'), example } : null;
}

function openKeptSource() {
  let value = null;
  inStore((store) => { value = JSON.parse(store.getItem(SOURCE_STORE)); });
  const kept = readSource(value);
  if (!kept) return;
  showSource(kept);
  writing.before = readSource(value.before);
  find('source-back').hidden = !writing.before;
  if (!location.hash.startsWith(SOURCE_MARK)) checkSoon();
}

// Returns the name of a source's file: it is woven and saved by this name.
function fileNamed(name) {
  const plain = name.replace(/[^\w.-]+/g, '-');
  return isSourceName(plain) ? plain : `${plain}.agc`;
}

function saveSource() {
  const { name, text } = written();
  download(fileNamed(name), text);
  say(`The source is saved as ${fileNamed(name)}, among the downloads of this browser.`);
}

// Opens a file of a source. Returns whether it is one, or was meant to be one.
async function openSourceFile(file) {
  if (file.size > LARGEST_SOURCE) {
    say(`${file.name} is too long for a source: ${grouped(file.size)} bytes, at most ${grouped(LARGEST_SOURCE)}.`);
    return;
  }
  let text;
  try {
    text = new TextDecoder('utf-8', { fatal: true }).decode(await file.arrayBuffer());
  } catch {
    say(`${file.name} is no source: it is not text.`);
    return;
  }
  showSource(readSource({ name: file.name.replace(/\.agc$/, '').slice(-60), text }));
  keepSource();
  showTab('source');
  checkSoon();
}

const isSourceName = (name) => HAS_ASSEMBLER && /(\.agc|(^|\.)words)(\.txt)?$/i.test(name);

async function copySourceLink() {
  try {
    const link = await linkOfSource(written());
    await offerLink(link, 'The link is copied. It holds this source; whoever opens it sees the text, and nothing runs by itself.');
  } catch (error) {
    say(error.message);
  }
}

// Shows the source of the link, if the address has one. It is not woven before somebody changes it or asks for it.
async function openLinkedSource() {
  if (!location.hash.startsWith(SOURCE_MARK)) return;
  if (!HAS_ASSEMBLER) {
    say('The link has a source, and this page has no assembler: open it in another copy of agc.html.');
    return;
  }
  try {
    showSource(await readSourceLink(location.hash));
    showTab('source');
    say('This source came with the link. It has not run: read it, then weave and run it.');
  } catch (error) {
    say(`The source of the link cannot be opened: ${sentence(error.message)}`);
  }
}

// guided steps

// The lines of the text, each as its words with one space between them, without comments and empty lines.
const codeLines = () => sourceText().split('\n').map((line) => line.replace(/#.*/, '').trim().split(/\s+/).join(' ')).filter(Boolean);

// Goes to the first line with this word.
function findInSource(word) {
  const line = sourceText().split('\n').findIndex((each) => each.split(/\s+/).includes(word)) + 1;
  showTab('source');
  if (line) goToLine(line); else showFault(`The guide names a word that is not in the source: ${word}.`);
}

// Writes a line in the place of the first one that has its name.
function writeInSource(text) {
  const [name, order, ...operand] = text.split(' ');
  const lines = sourceText().split('\n');
  const at = lines.findIndex((line) => line.split(/\s+/, 1)[0] === name);
  if (at < 0) {
    showFault(`The guide names a line that is not in the source: ${name}.`);
    return;
  }
  goToLine(at + 1);
  insertText(find('source'), `${name.padEnd(COLUMNS)}${(order ?? '').padEnd(COLUMNS)}${operand.join(' ')}`.trimEnd());
}

CLICKS.weave = () => ({ run: () => runSource() });
CLICKS.find = (text) => (/^\S+$/.test(text) ? { run: () => findInSource(text) } : 'a word of the source');
CLICKS.write = (text) => (text.includes(' ') ? { run: () => writeInSource(text) } : 'NAME ORDER OPERAND');
CONDITIONS.woven = () => () => hasWoven() && writing.run === sourceText();
CONDITIONS.source = (text) => (text ? () => `/ ${codeLines().join(' / ')} /`.includes(`/ ${text} /`) : 'lines of the source, with / between them');

// the area

function onSourceKey(event) {
  const area = event.target;
  if (event.key === 'Enter' && (event.ctrlKey || event.metaKey)) {
    event.preventDefault();
    runSource(true);
  } else if (event.key === 'Escape') {
    area.blur();
  } else if (event.key === 'Tab' && !event.shiftKey && !event.ctrlKey && !event.altKey) {
    event.preventDefault();
    const column = area.selectionStart - (area.value.lastIndexOf('\n', area.selectionStart - 1) + 1);
    insertText(area, ' '.repeat(COLUMNS - (column % COLUMNS)));
  }
}

// Inserts a text as if it was typed, so that the browser can undo it.
function insertText(area, text) {
  if (!document.execCommand('insertText', false, text)) {
    area.setRangeText(text, area.selectionStart, area.selectionEnd, 'end');
    onSourceInput();
  }
}

function onSourceInput() {
  showLines();
  followGuide();
  keepSource();
  checkSoon();
}

function buildSource() {
  window.addEventListener('hashchange', openLinkedSource);
  if (!HAS_ASSEMBLER) return;
  const file = make('input', { type: 'file', id: 'source-file', class: 'unseen', tabindex: '-1', accept: '.agc,.words,.txt,text/plain', 'aria-label': 'A file with a source' });
  file.addEventListener('change', () => openSourceFile(file.files[0]).then(() => { file.value = ''; }));
  const area = make('textarea', { id: 'source', spellcheck: 'false', autocomplete: 'off', autocapitalize: 'off', wrap: 'off', maxlength: LARGEST_SOURCE, 'aria-label': 'The source', 'aria-describedby': 'source-said source-note' });
  area.addEventListener('input', onSourceInput);
  area.addEventListener('keydown', onSourceKey);
  area.addEventListener('scroll', scrollLines);
  find('source-panel').append(make('div', { id: 'source-edit' },
    sourceButtons(file),
    make('div', { id: 'source-area' }, make('pre', { id: 'source-lines', 'aria-hidden': 'true' }), area, make('div', { id: 'source-window', 'aria-hidden': 'true' }, make('div', { id: 'source-marks' }))),
    make('p', { id: 'source-said', role: 'status' }), make('ul', { id: 'source-faults', 'aria-label': 'Faults' }),
    make('p', { id: 'source-note', class: 'note' }, 'Names begin in the first column, orders after it. Tab goes to the next column of eight, Escape leaves the text, Ctrl+Enter weaves and runs it. This browser keeps the text.'),
    make('details', {}, make('summary', {}, 'The language on one page'), make('pre', { id: 'source-language' }, dataOf('language'))),
    make('details', {}, make('summary', {}, 'Names and listing'), make('pre', { id: 'source-listed' }, 'Weave and run first.'))));
  buildSourceLines();
  find('open-button').before(button('Write …', showSourceTab, { id: 'write-button' }));
  openKeptSource();
}

function sourceButtons(file) {
  const choice = make('select', { id: 'source-example', 'aria-label': 'An example to change' }, make('option', { value: '' }, 'Examples …'),
    ...Object.entries(SOURCES).map(([name, { title }]) => make('option', { value: name }, title)));
  choice.addEventListener('change', () => { if (choice.value) openSourceExample(choice.value); });
  const name = make('input', { id: 'source-name', size: '12', maxlength: '60', autocomplete: 'off', spellcheck: 'false', placeholder: 'program', 'aria-label': 'The name of the source' });
  name.addEventListener('input', keepSource);
  return make('p', { class: 'row' }, button('Weave and run', () => runSource(), { id: 'weave', class: 'main' }), choice, name,
    button('Save', saveSource, { id: 'source-save' }), button('File …', () => file.click(), { id: 'source-open' }), file,
    button('Link', copySourceLink, { id: 'source-link' }), button('↶ The text before', bringBack, { id: 'source-back', hidden: '' }));
}
