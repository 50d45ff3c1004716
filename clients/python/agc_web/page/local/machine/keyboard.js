// The keys that wait until the machine can take them, and PRO, which is held.

export const KEYS = [...'0123456789+-', 'VERB', 'NOUN', 'ENTR', 'CLR', 'RSET', 'KEYREL'];
export const MOST_WAITING = 100; // keys
const KEY_GAP = 8533; // cycles between two keys: a tenth of a second

const isPro = (name) => name.startsWith('PRO');

// PRO goes down as "PRO", and comes up as "PRO up".
export class Keyboard {
  waiting = [];
  proDown = false;
  #lastKey = -KEY_GAP;

  get isFull() {
    return this.waiting.length >= MOST_WAITING;
  }

  // Whether PRO is down once the keys that wait are through.
  get proComesDown() {
    const last = this.waiting.filter(isPro).at(-1);
    return last === undefined ? this.proDown : last === 'PRO';
  }

  // Whether a key waits, and the key before it was long enough ago.
  isDue(cycle) {
    return this.waiting.length > 0 && cycle >= this.#lastKey + KEY_GAP;
  }

  // The cycle at which the next key is due, if one waits.
  nextCycles(cycle) {
    return this.waiting.length ? [Math.max(this.#lastKey + KEY_GAP, cycle + 1)] : [];
  }

  // Presses the key that waits first.
  async pressNext(console) {
    const name = this.waiting.shift();
    this.#lastKey = console.cycle;
    if (!isPro(name)) return console.say(`key ${name}`);
    await console.say(name === 'PRO' ? 'pro down' : 'pro up');
    this.proDown = name === 'PRO';
  }

  // Lets PRO come up: it was held at a time that is over.
  async releasePro(console) {
    await console.say('pro up');
    this.proDown = false;
    this.#lastKey = console.cycle;
  }

  // Finds in the events when the last key went down, and whether PRO is down.
  find(events) {
    const isPressed = (event) => /^(key|pro)/.test(event.command);
    this.#lastKey = events.findLast(isPressed)?.cycle ?? -KEY_GAP;
    this.proDown = events.findLast((event) => event.command.startsWith('pro'))?.command === 'pro down';
  }
}
