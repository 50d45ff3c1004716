// Runs agc-console as WebAssembly: on a browser that suspends a module while it waits for input, or with a module that stops by
// itself, which runs on every browser.
import { makeHost } from "./host.js";

// Returns the bytes of a text. A loop, because what a browser's encoder returns is slow to collect, and most texts are short.
function bytesOf(text) {
  const bytes = new Uint8Array(text.length);
  for (let i = 0; i < text.length; i += 1) {
    const code = text.charCodeAt(i);
    if (code > 127) return new TextEncoder().encode(text);
    bytes[i] = code;
  }
  return bytes;
}

// Standard input: what was given and not read yet.
export class Input {
  #bytes = new Uint8Array(0);
  #ended = false;
  #wake = null;

  // Gives the program more text; null is the end.
  give(text) {
    const more = bytesOf(text ?? "");
    const all = this.#bytes.length ? new Uint8Array(this.#bytes.length + more.length) : more;
    if (all !== more) {
      all.set(this.#bytes);
      all.set(more, this.#bytes.length);
    }
    this.#bytes = all;
    this.#ended ||= text === null;
    const wake = this.#wake;
    this.#wake = null;
    wake?.();
  }

  // Returns at most so many bytes.
  take(count) {
    const part = this.#bytes.subarray(0, count);
    this.#bytes = this.#bytes.subarray(part.length);
    return part;
  }

  // Whether a read needs no waiting.
  get isThere() {
    return this.#bytes.length > 0 || this.#ended;
  }

  // Calls a task once there is more input, or its end: before `give` returns.
  wakes(task) {
    this.#wake = task;
  }

  // Resolves when there is more input, or its end.
  comes() {
    return new Promise((resolve) => this.wakes(resolve));
  }
}

// Runs a module to its end, and returns the program's status. `given` is {args, files, write} as for makeHost; `stops` says that
// the module stops by itself.
export function runProgram(code, given, input, stops) {
  return stops ? runStopping(code, given, input) : runSuspending(code, given, input);
}

// The browser suspends the module while it waits in read.
async function runSuspending(code, given, input) {
  const read = (count) => (input.isThere ? input.take(count) : input.comes().then(() => input.take(count)));
  const { host, use } = makeHost({ ...given, read });
  host.read = new WebAssembly.Suspending(host.read);
  const { instance } = await WebAssembly.instantiate(code, { host });
  use(instance.exports.memory);
  return WebAssembly.promising(instance.exports.main)(0, 0n);
}

// The module itself leaves all its calls when it has to wait in read, and comes back to the same place when main is called again:
// within `give`, which returns when it waits once more.
async function runStopping(code, given, input) {
  const { host, use } = makeHost({ ...given, read: (count) => input.take(count) });
  const readNow = host.read;
  let program;
  let saved;
  let comesBack = false;
  let waits = false;
  host.read = (file, at, count) => {
    if (comesBack) {
      comesBack = false;
      program.asyncify_stop_rewind();
    }
    if (file !== 0 || input.isThere) return readNow(file, at, count);
    waits = true;
    program.asyncify_start_unwind(saved);
    return 0n;
  };
  const { instance } = await WebAssembly.instantiate(code, { host });
  program = instance.exports;
  use(program.memory);
  // a block of the heap for what the calls keep: first where it is used from, and where it ends
  const room = 1 << 17;
  saved = Number(program.malloc(BigInt(room)));
  new Int32Array(program.memory.buffer, saved, 2).set([saved + 8, saved + room]);
  const goOn = () => {
    const status = program.main(0, 0n);
    if (!waits) return status;
    waits = false;
    program.asyncify_stop_unwind();
    return null;
  };
  return new Promise((end, fail) => {
    const run = () => {
      try {
        const status = goOn();
        if (status !== null) {
          end(status);
          return;
        }
      } catch (error) {
        fail(error);
        return;
      }
      input.wakes(() => {
        comesBack = true;
        program.asyncify_start_rewind(saved);
        run();
      });
    };
    run();
  });
}
