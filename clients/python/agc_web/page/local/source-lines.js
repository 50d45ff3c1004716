'use strict';
// What runs, in the tab Source of this page: the lines of the listing; or the editor, whose lines are lit and have breakpoints as
// long as its text is what runs.

const TOP_OF_TEXT = 4; // pixels above the first line of the editor, as in local.css
const LEFT_OF_TEXT = 6;
const LARGEST_LISTING = 16777216; // bytes

const following = { isOwn: false, marks: '', scrolledAt: -1, width: 0 };

// the listing of a session

const sourceOfExample = (name) => EXAMPLES[name]?.source ?? Object.values(SOURCES).find(({ opens }) => opens === name)?.text ?? null;

// Whether there are lines for a session: its files have a listing, or it runs an example whose source is in this page.
function hasListing({ listing: text, example, rope }) {
  if (text) return true;
  return HAS_ASSEMBLER && Boolean(example) && sourceOfExample(example) !== null && base64Of(rope) === EXAMPLES[example].rope;
}

async function listingOf({ listing: text, example }) {
  if (text) return text;
  const woven = await session.weave(sourceOfExample(example), fileNamed(EXAMPLES[example].title));
  if (!woven.lines) throw new Error(woven.error ?? 'its source has a fault');
  return woven.lines;
}

// Returns a file of the names at the end of a listing, or null if it has none.
function namesIn(text) {
  const [, names] = (text ?? '').match(/\n# names\n((?:# \S+ \S+\n)+)/) || [];
  return names?.replace(/^# /gm, '') ?? null;
}

// Whether a text begins as a listing does.
const isListing = (text) => text.split(LINE, 1)[0].match(LISTED)?.[3] !== undefined;
const isListingName = (name) => /(^|\.)listing(\.txt)?$/i.test(name);

// editor or listing

// Shows the editor, or the lines of what runs if there are any.
function showEditor(is) {
  if (!HAS_ASSEMBLER) return;
  find('source-panel').classList.toggle('editing', is || !listing.offered);
  showListing();
  followInEditor();
}

// Follows the machine: called with all news of it.
function followInEditor() {
  const isOwn = isTextRunning();
  const panel = find('source-panel');
  panel.classList.toggle('own', isOwn);
  if (!listing.offered || (isOwn && !following.isOwn)) panel.classList.add('editing');
  following.isOwn = isOwn;
  find('source-running').hidden = isOwn || !listing.offered;
  find('source-change').hidden = sourceOfExample(session.files?.example) === null;
  showMarks();
}

const isTextRunning = () => listing.read !== null && sourceText().replace(/\n$/, '') === listing.code;

// Whether what runs was woven from the editor's text, or from an earlier one: then the listing's file has the session's name.
const isWovenHere = () => sourceText() !== '' && session.files?.listing?.split(LINE, 1)[0].match(LISTED)?.[3] === fileNamed(session.files.title);

// Called with each session: it is shown by its lines if it has a listing, or in the editor if it comes from there.
function followSession() {
  find('source-panel').classList.toggle('editing', !listing.offered || isWovenHere());
  Object.assign(following, { isOwn: false, scrolledAt: -1 });
}

// Puts the source of the example that runs into the editor.
function changeExample() {
  const { example, title } = session.files;
  const name = Object.keys(SOURCES).find((each) => SOURCES[each].opens === example) ?? null;
  showSource({ name: title.slice(0, 60), text: sourceOfExample(example), example: name });
  keepSource();
  checkSoon();
}

// breakpoints of a text that is woven again

// The words of a line, without its comment: the same in two lines that differ in spaces alone.
const codeOfLine = ({ text }) => text.split('#')[0].trim().split(/\s+/).join(' ');
const nameOfLine = ({ text }) => text.match(/^[^\s#]+/)?.[0];

// Returns the breakpoints: their texts and, of one that is given by its place, its line and how many of the same are above it.
async function breaksWithLines() {
  if (!shown.breakpoints?.length) return [];
  await loadListing();
  const { lines = [], at } = listing.read ?? {};
  return shown.breakpoints.map((text) => {
    const index = at?.get(keyOf(text.split(' ')[0]));
    const line = lines[index];
    return { text, line, above: line && lines.slice(0, index).filter((each) => codeOfLine(each) === codeOfLine(line)).length };
  });
}

// Returns where the line of a breakpoint is now: the line with the same words, or else the one with its name. Undefined if it has gone.
function placeOfLine({ line, above }, lines) {
  const same = lines.filter((each) => each.words.length && codeOfLine(each) === codeOfLine(line));
  const named = lines.find((each) => each.words.length && nameOfLine(each) !== undefined && nameOfLine(each) === nameOfLine(line));
  return (same[above] ?? same.at(-1) ?? named)?.words[0].place;
}

// Sets the breakpoints of the session before, as far as their lines and names are in the new one, and says which have gone.
async function setBreaks(breaks, lines) {
  const gone = [];
  for (const each of breaks) {
    const [place, ...condition] = each.text.split(' ');
    const there = each.line ? placeOfLine(each, lines) : place;
    const isSet = there !== undefined && (await session.do('break', { place: [there, ...condition].join(' ') })).status === 200;
    if (!isSet) gone.push(breakText(each.text) + (each.line ? ` (${codeOfLine(each.line)})` : ''));
  }
  if (gone.length) say(`Breakpoints that are removed, because their lines or names are gone: ${gone.join('; ')}.`);
}

// the editor's lines

function showMarks() {
  const { isOwn } = following;
  const stops = isOwn ? [...listing.breaks.keys()] : [];
  const here = isOwn ? listing.here : null;
  const marks = JSON.stringify([here, stops]);
  if (marks !== following.marks) {
    const mark = (index, kind) => {
      const made = make('p', { class: kind, 'data-line': index });
      made.style.top = `${index * LINE_HEIGHT}px`;
      return made;
    };
    find('source-own').replaceChildren(...(here === null ? [] : [mark(here, 'here')]), ...stops.map((index) => mark(index, 'stops')));
    following.marks = marks;
  }
  if (here === null || now.playing || following.scrolledAt === now.cycle) return;
  following.scrolledAt = now.cycle;
  showEditorLine(here);
}

// Scrolls the editor so that a line is seen.
function showEditorLine(index) {
  const area = find('source');
  const [top, height] = [index * LINE_HEIGHT, area.clientHeight];
  const isSeen = top >= area.scrollTop + MARGIN * LINE_HEIGHT && top + LINE_HEIGHT <= area.scrollTop + height - MARGIN * LINE_HEIGHT;
  if (!isSeen && height) area.scrollTop = Math.max(0, top - height * 0.4);
}

const lineAt = ({ clientY, currentTarget: area }) => Math.floor((clientY - area.getBoundingClientRect().top - TOP_OF_TEXT + area.scrollTop) / LINE_HEIGHT);

function toggleOwn(index) {
  if (following.isOwn && listing.read.lines[index]?.words.length) toggleBreak(index);
}

const caretLine = (area) => area.value.slice(0, area.selectionStart).split(LINE).length - 1;

// Shows the name in the text at which one points.
function pointInEditor(event) {
  if (!following.isOwn) return;
  const column = Math.floor((event.offsetX - LEFT_OF_TEXT + event.target.scrollLeft) / widthOfSign(event.target));
  const name = nameAt(listing.read.lines[lineAt(event)]?.text ?? '', column);
  if (name !== null && listing.pointed?.join() !== name) showNames([name]);
}

function widthOfSign(area) {
  if (!following.width) {
    const canvas = document.createElement('canvas').getContext('2d');
    canvas.font = getComputedStyle(area).font;
    following.width = canvas.measureText('0').width;
  }
  return following.width;
}

// Returns the name at a column of a line, in which tabs lead to the next column of eight; null if there is none.
function nameAt(text, column) {
  let at = 0;
  for (const word of text.split('#')[0].match(/\t| |[^\t ]+/g) ?? []) {
    at += word === '\t' ? COLUMNS - (at % COLUMNS) : word.length;
    if (at > column) return nameIn(word);
  }
  return null;
}

function buildSourceLines() {
  listing.also = followInEditor;
  listing.begins = followSession;
  listing.isOffered = () => true;
  find('source-area').append(make('div', { id: 'source-overlay', 'aria-hidden': 'true' }, make('div', { id: 'source-own' })));
  find('weave').after(button('What runs', () => showEditor(false), { id: 'source-running', hidden: '' }));
  find('listing-now').before(button('Change it', changeExample, { id: 'source-change' }), button('Your text', showSourceTab, { id: 'source-yours' }));
  find('listing-now').addEventListener('click', () => { if (following.isOwn) showEditorLine(listing.here); });
  const area = find('source');
  area.addEventListener('scroll', () => { find('source-own').style.transform = `translateY(${-area.scrollTop}px)`; });
  area.addEventListener('mousemove', pointInEditor);
  area.addEventListener('keydown', (event) => { if (event.key === 'F9') toggleOwn(caretLine(area)); });
  area.addEventListener('input', followInEditor);
  find('source-lines').addEventListener('click', (event) => toggleOwn(lineAt(event)));
  followSession();
}
