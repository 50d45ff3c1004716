'use strict';
// The assembler behind the page: agc-study in a worker of its own, which weaves one text after another.

const LARGEST_SOURCE = 1e6; // characters

// The worker, from the first text on; the weaving that was asked for last; and how many milliseconds one may take.
const assembling = { worker: null, last: Promise.resolve(), longest: 60000 };

// Weaves a text, as a file of this name. Returns {status, said, explained, rope, names, listing, lines} as the worker has them, or {error}.
function weaveText(text, file) {
  if (text.length > LARGEST_SOURCE) {
    return { error: `The text is too long: ${grouped(text.length)} characters, at most ${grouped(LARGEST_SOURCE)}.` };
  }
  assembling.last = assembling.last.then(() => weaveNow(text, file));
  return assembling.last;
}

async function startAssembler() {
  const worker = new Worker(URL.createObjectURL(new Blob([dataOf('assembler-worker')], { type: 'text/javascript' })));
  worker.postMessage({ code: await unpacked('assembler') });
  return worker;
}

async function weaveNow(text, file) {
  assembling.worker ??= await startAssembler();
  const { worker } = assembling;
  return new Promise((done) => {
    const end = (answer) => {
      clearTimeout(timer);
      done(answer);
    };
    const fail = (error) => {
      worker.terminate();
      assembling.worker = null;
      end({ error });
    };
    const timer = setTimeout(() => fail('The assembler took too long, and was ended.'), assembling.longest);
    worker.onmessage = ({ data }) => end(data);
    worker.onerror = () => fail('The assembler has failed.');
    worker.postMessage({ text, file });
  });
}
