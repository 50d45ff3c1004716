'use strict';
// The session behind the page, as agc-web serves it. This is all that the page wants of it: a page without a server has its
// own session in this file's place.

const WINDOW = crypto.randomUUID ? crypto.randomUUID() : String(Math.random());
const AGAIN = 1000; // milliseconds after which a lost stream is opened again

const session = {
  // Calls `news` with the parts that have changed, and `reached` with whether the session answers. A WebSocket does not count
  // among the six connections that a browser opens to a host, so that any number of tabs may listen.
  listen(news, reached) {
    const stream = new WebSocket(`${location.origin.replace(/^http/, 'ws')}/events?window=${WINDOW}`);
    stream.onopen = () => reached(true);
    stream.onmessage = (message) => news(JSON.parse(message.data));
    stream.onclose = () => {
      reached(false);
      setTimeout(() => session.listen(news, reached), AGAIN);
    };
  },

  // Has a command done. Returns the status, and `error` or `sure` if it was not done.
  do: (command, more) => post('do', { do: command, window: WINDOW, ...more }),

  // Has `lines`, the console's `cell` and `channel`, said to the machine's console. Returns the status, the `cycle` at which the machine
  // stands, and `answers`: the `cycle` after each line with the `lines` of its answer, or with the name of its `fault` and the `error`;
  // or, for all, an `error`.
  say: (wanted) => post('say', wanted),

  // The same for a second console, which may also go back and on, with `before` a cycle of the past, and else where the machine stands.
  search: (wanted) => post('search', wanted),

  // Returns what the page compares before it shows the source: the text of a listing, and the bytes and the form of the rope.
  async source() {
    const response = await fetch('source');
    const { listing, rope, form } = await response.json();
    return { listing, rope: Uint8Array.from(atob(rope), (sign) => sign.charCodeAt(0)), form };
  },

  // Returns the script that repeats the session.
  async script() {
    const response = await fetch(session.scriptAddress);
    if (!response.ok) throw new Error(response.status);
    return response.text();
  },

  // Has a timeline of the session so far made, which `timelineAddress` then gives. Returns the status and the `cycle` of its end, or
  // an `error`.
  makeTimeline: () => post('timeline', {}),

  // What the page says if the session does not answer.
  lost: 'agc-web cannot be reached. If it has ended, its script was saved or printed in the terminal.',

  scriptAddress: 'script',
  filmAddress: 'film',
  timelineAddress: 'timeline',
};

// Posts a body; returns the status and the answer.
async function post(path, body) {
  const response = await fetch(path, { method: 'POST', headers: { 'Content-Type': 'application/json' }, body: JSON.stringify(body) });
  return { status: response.status, ...(await response.json()) };
}
