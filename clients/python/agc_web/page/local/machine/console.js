// A client of agc-console, which runs in this worker as WebAssembly.
import { Input, runProgram } from '../../../../../../ports/wasm/program.js';
import { Ended, Refused } from './faults.js';

// The commands that inject an event.
export const EVENTS = new Set(['key', 'pro', 'input', 'pulse', 'raise', 'poke']);

const FILES = { rope: 'rope', script: 'script', names: 'names' };
const NONE = []; // the lines of an answer without lines
const [LINE, SPACE, ZERO] = [10, 32, 48]; // codes
const [AT, WRITE] = ['at ', 'write '].map((word) => new TextEncoder().encode(word));

function begins(bytes, at, word) {
  for (let i = 0; i < word.length; i += 1) if (bytes[at + i] !== word[i]) return false;
  return true;
}

// Reads the digits that stand from a place up to another one.
function numberIn(bytes, at, end, base) {
  let number = 0;
  for (let i = at; i < end; i += 1) number = number * base + bytes[i] - ZERO;
  return number;
}

export class Console {
  cycle = 0; // that the machine has reached, from the last answer
  stop = null; // why the machine has stopped, if it has
  onAnswer = () => {}; // called with each command and its answer, but not for refused commands
  onWrite = null; // called with the channel and the word of each write that a run prints; without it these are lines of the answer
  #input = new Input();
  #decoder = new TextDecoder();
  #decoderOfErrors = new TextDecoder();
  #lines = NONE;
  #begun = new Uint8Array(0); // of a line that is not whole yet
  #errors = '';
  #asked = null; // the commands that are being answered
  #ended = null;

  // Starts a console with the bytes of a rope, and the texts of a script and of names; all but these two may be missing. `module`
  // are the bytes of a module that stops by itself while it waits. Throws `Ended` if a file is refused.
  static async start(module, { rope, script, names, form, limit }) {
    const console = new Console();
    const bytes = (text) => new TextEncoder().encode(text);
    const files = new Map([[FILES.rope, rope], [FILES.script, bytes(script)]]);
    const args = ['agc-console'];
    if (form) args.push(`--form=${form}`);
    if (limit) args.push(`--limit=${limit}`);
    if (names) {
      files.set(FILES.names, bytes(names));
      args.push(`--names=${FILES.names}`);
    }
    args.push('--', FILES.rope, FILES.script);
    const given = { args, files, write: (file, part) => console.#write(file, part) };
    runProgram(module, given, console.#input, true)
      .then((status) => console.#end(console.#errors.trim() || `agc-console has ended with status ${status}`))
      .catch((error) => console.#end(`agc-console has failed: ${error.message}`));
    await console.say('quiet');
    return console;
  }

  // Says a command, as docs/CONSOLE.md has them, and returns its answer; throws `Refused` if that is an error.
  async say(command) {
    return (await this.sayAll([command]))[0];
  }

  // Says some commands one after another, and returns their answers. The first error is thrown once all are answered.
  async sayAll(commands) {
    return this.sayNow(commands);
  }

  // The same without a promise, if the program answers before this returns: it does unless it is being started, or ends.
  sayNow(commands) {
    const answers = this.#ask(commands);
    return answers instanceof Promise ? answers.then(noneRefused) : noneRefused(answers);
  }

  // Says some commands one after another, and returns their answers; of one that is an error, `refused` is it.
  async answersTo(commands) {
    return this.#ask(commands);
  }

  #ask(commands) {
    if (this.#ended) throw this.#ended;
    if (!commands.length) return [];
    const asked = { commands, answers: [], resolve: null, reject: null };
    this.#asked = asked;
    this.#input.give(`${commands.join('\n')}\n`);
    if (asked.answers.length === commands.length) return asked.answers;
    return new Promise((resolve, reject) => { Object.assign(asked, { resolve, reject }); });
  }

  // Runs up to a cycle, and returns the answer.
  goTo(cycle) {
    return this.say(`go to ${cycle}`);
  }

  // Runs so many boundaries, and returns their lines.
  async step(boundaries = 1) {
    return (await this.say(`step ${boundaries}`)).lines;
  }

  // Returns what comes next, as a trace has it.
  async next() {
    return (await this.say('next')).lines[0].slice('next '.length);
  }

  back(cycle) {
    return this.say(`back ${cycle}`);
  }

  // The end of the input ends the program.
  close() {
    this.#input.give(null);
  }

  #write(file, part) {
    if (file === 2) {
      this.#errors += this.#decoderOfErrors.decode(part, { stream: true });
      return;
    }
    const all = this.#begun.length ? joined(this.#begun, part) : part;
    let at = 0;
    for (let end = all.indexOf(LINE); end >= 0; end = all.indexOf(LINE, at)) {
      this.#read(all, at, end);
      at = end + 1;
    }
    this.#begun = all.subarray(at);
  }

  // Takes a line of an answer. A string is made only of a line that somebody reads: most say where the machine is, or are writes.
  #read(bytes, at, end) {
    if (begins(bytes, at, AT)) {
      this.cycle = numberIn(bytes, at + AT.length, end, 10);
      this.stop = null;
      this.#take();
    } else if (this.onWrite !== null && begins(bytes, at, WRITE)) {
      const channel = bytes.indexOf(SPACE, at + WRITE.length) + 1;
      const word = bytes.indexOf(SPACE, channel) + 1;
      this.onWrite(numberIn(bytes, channel, word - 1, 8), numberIn(bytes, word, end, 8));
    } else {
      this.#readText(this.#decoder.decode(bytes.subarray(at, end)));
    }
  }

  #readText(line) {
    if (line.startsWith('stop ')) {
      const [reason, cycle] = line.slice(5).split(' at ');
      this.cycle = Number(cycle);
      this.stop = reason;
      this.#take();
    } else if (line.startsWith('error: ')) {
      this.#take(new Refused(line.slice(7)));
    } else if (this.#lines === NONE) {
      this.#lines = [line];
    } else {
      this.#lines.push(line);
    }
  }

  // Takes the lines up to here as an answer.
  #take(refused = undefined) {
    const { commands, answers, resolve } = this.#asked;
    const answer = { lines: this.#lines, cycle: this.cycle, stop: this.stop, refused };
    this.#lines = NONE;
    if (!refused) this.onAnswer(commands[answers.length], answer);
    answers.push(answer);
    if (answers.length === commands.length) resolve?.(answers);
  }

  #end(text) {
    this.#ended = new Ended(text.replace('agc-console: ', ''));
    this.#asked?.reject?.(this.#ended);
  }
}

// Returns bytes and those behind them as one.
function joined(bytes, more) {
  const all = new Uint8Array(bytes.length + more.length);
  all.set(bytes);
  all.set(more, bytes.length);
  return all;
}

// Throws the first error of some answers, if there is one.
function noneRefused(answers) {
  for (const { refused } of answers) if (refused) throw refused;
  return answers;
}
