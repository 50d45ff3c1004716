'use strict';
// The session behind the page of agc.html: a machine in a worker of this page. It takes the place of web/session.js, and has the
// same calls; `weave`, `open`, `files` and `kept` are for the other files of this folder.

const IS_OLD = !('WebAssembly' in window && 'DecompressionStream' in window); // whether this browser lacks what the page needs
const TOO_OLD = 'This browser cannot run the machine: it has no WebAssembly or no DecompressionStream. Chromium 103, Firefox 113 and Safari 16.4 have both.';

// Returns the bytes of base64. A loop, because Uint8Array.from takes ten times as long for a module.
function bytesOf(base64) {
  const text = atob(base64);
  const bytes = new Uint8Array(text.length);
  for (let i = 0; i < text.length; i += 1) bytes[i] = text.charCodeAt(i);
  return bytes;
}

const dataOf = (id) => document.getElementById(id).textContent;

// Returns the base64 of which launch/page made letters, digits and _ alone.
function base64In(letters) {
  const text = letters.replaceAll('_a', '+').replaceAll('_b', '/');
  return text.padEnd(4 * Math.ceil(text.length / 4), '=');
}

// Returns the bytes of a block that launch/page has packed.
const unpacked = (id) => through(new DecompressionStream('deflate'), bytesOf(base64In(dataOf(id))), Infinity);

// A worker with one machine, whose news wait until somebody listens.
class Engine {
  kept = null; // what is to be kept of the session, as of the last news
  events = []; // the lines of its events: "~" stands before those of instruments
  #worker;
  #calls = new Map();
  #count = 0;
  #waiting = [];
  #news = (news) => this.#waiting.push(news);
  #lost;
  #came;

  // `lost` is called if the worker fails; `came` with the cycle to which a session has come that is run once more.
  constructor(lost, came = () => {}) {
    this.#lost = lost;
    this.#came = came;
    const address = URL.createObjectURL(new Blob([dataOf('worker')], { type: 'text/javascript' }));
    this.#worker = new Worker(address);
    this.#worker.onmessage = ({ data }) => this.#take(data);
    this.#worker.onerror = () => this.#end();
  }

  call(call, body) {
    this.#count += 1;
    this.#worker.postMessage({ id: this.#count, call, body });
    return new Promise((done) => { this.#calls.set(this.#count, done); });
  }

  listen(news) {
    this.#waiting.forEach(news);
    this.#news = news;
  }

  // Lets a session that is run once more stand where it is.
  stop() {
    this.#worker.postMessage({ stop: true });
  }

  close(why = '') {
    this.#worker.terminate();
    for (const done of this.#calls.values()) done({ status: 409, error: why }); // nobody waits for an answer that never comes
  }

  #take({ id, answer, news, came }) {
    if (came !== undefined) {
      this.#came(came);
      return;
    }
    if (!news) {
      this.#calls.get(id)(answer);
      this.#calls.delete(id);
      return;
    }
    const { kept, ...parts } = news;
    if (kept) this.#keep(kept);
    try {
      this.#news(parts);
    } finally {
      this.#worker.postMessage({ taken: true });
    }
  }

  #keep({ changes, ...kept }) {
    this.events.length = changes.from;
    for (const [line, byUser] of changes.lines) this.events.push(byUser ? line : `~${line}`);
    this.kept = kept;
  }

  #end() {
    for (const done of this.#calls.values()) done({ status: 500, error: 'The machine has failed.' });
    this.#calls.clear();
    this.#lost();
  }
}

let engine = null;
let coming = null; // the engine of the session that is being opened
let page = null; // what listens
let begin; // the first session is there
const hasBegun = new Promise((done) => { begin = done; });

async function callEngine(call, body) {
  await hasBegun;
  return engine.call(call, body);
}

const session = {
  lost: 'The machine has failed. Reload the page: what this browser has kept is still there.',
  files: null, // {title, rope, script, names, form, watch, guide, quantities, nouns, listing, example, instrument, options} of the session

  listen(news, reached) {
    page = { news, reached };
    openFirst();
  },

  do: (command, more) => callEngine('do', { do: command, ...more }),
  say: (wanted) => callEngine('say', wanted),
  search: (wanted) => callEngine('search', wanted),
  script: async () => (await callEngine('script')).script,
  weave: (text, file) => weaveText(text, file),
  source: async () => ({ listing: await listingOf(session.files), rope: session.files.rope, form: session.files.form }),
  scriptAddress: '#script',
  filmAddress: '#film',

  // Whether a session is there, or is being opened.
  get isBegun() {
    return Boolean(engine ?? coming);
  },

  // Opens a rope, with what was kept of a session of it. Returns why that is refused, or nothing: then its session is the page's, and
  // isWhole says whether it came to where it was kept. What is being opened already gives way.
  async open(files, kept = null) {
    const module = await unpacked('console');
    const opened = new Engine(() => page.reached(false), progressTo(kept?.cycle, () => opened.stop()));
    coming?.close('another session was opened in its place');
    coming = opened;
    const answer = await opened.call('open', { ...files, names: files.names ?? namesIn(files.listing), listing: hasListing(files), module, kept });
    if (coming === opened) coming = null;
    if (answer.status !== 200) {
      opened.close();
      return answer.error;
    }
    if (engine) {
      engine.close();
      resetPage();
    }
    engine = opened;
    session.files = files;
    session.isWhole = answer.isWhole;
    begin();
    page.reached(true);
    engine.listen((news) => {
      page.news(news);
      keepSoon();
    });
    say(answer.notes.join(' '));
    return '';
  },

  // Returns the page of a film of the session so far.
  async film() {
    const { script, limit } = await callEngine('script');
    const { views } = await callEngine('views');
    const maker = new Engine(() => {});
    const answer = await maker.call('film', { ...session.files, module: await unpacked('console'), script, limit });
    maker.close();
    if (answer.status !== 200) throw new Error(answer.error);
    const [head, tail, viewer, inWords] = JSON.parse(dataOf('film-page'));
    const lines = views.map(([cycle, line]) => `${cycle} ${line.replaceAll('<', '\\u003c')}\n`).join('');
    const block = (id, text) => `<script type="text/plain" id="${id}">\n${text}<\/script>\n`;
    const more = (lines && block('left-view', lines) + viewer) + (answer.nouns && block('nouns', answer.nouns) + inWords);
    return head + answer.film + tail.replace('</body>', () => `${more}</body>`);
  },

  // The rope as agc takes it, beside the script of the session: an example's by its path.
  ropeOfScript() {
    const { example, form } = session.files;
    const isExample = example && storedFiles(session.files).rope === EXAMPLES[example].rope;
    return (isExample ? `examples/${example}/rope` : 'ROPE') + (form === 'parity' ? ' --form parity' : '');
  },

  // What is to be kept of the session.
  kept: () => ({ ...engine.kept, events: engine.events }),
};

// Takes away what the page shows of the session before.
function resetPage() {
  for (const panel of document.querySelectorAll('.panel.instrument')) panel.remove();
  document.body.classList.remove('with-view');
  for (const name of Object.keys(TABS)) if (name.startsWith('instrument')) delete TABS[name];
  for (const part of Object.keys(shown)) delete shown[part];
  find('tabs').replaceChildren();
  find('watched').replaceChildren();
  Object.assign(guiding, { text: undefined, guide: null, at: 0 });
  Object.assign(why, { pending: null, isExplained: false });
  Object.assign(quantities, { about: null, rows: [] });
  sayCause(null);
  Object.assign(plot, noCurves(), { epoch: plot.epoch + 1 });
  Object.assign(inspector, { tab: 'orders', cycle: -1, events: -1, watched: [] });
  for (const cell of document.querySelectorAll('#memory tbody button, #channels .word')) cell.textContent = '';
}
