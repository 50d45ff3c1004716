// The worker that weaves: agc-study as WebAssembly, on files in memory.
//
// The page posts {code}, the bytes of the module, and then {text, file} for each text, with the name of its file. Each text is answered
// by {status, said, rope, names, listing, lines}: the status of `agc-study weave`, what it said on standard error, and with status 0
// what it made (`lines` is what --write-listing writes); otherwise {status, said, explained}, with what `agc-study check` explains of
// the faults.
import { runOnce } from '../../../../../../ports/wasm/once.js';

const [PROGRAM, NAMES, ROPE, LINES] = ['agc-study', 'names', 'rope', 'listing'];

let module = null; // a promise of the compiled program

async function weave(text, file) {
  const files = new Map([[file, new TextEncoder().encode(text)]]);
  const { status, out, err } = await runOnce(await module, [PROGRAM, 'weave', '--write-names', NAMES, '--write-listing', LINES, '--', file], files);
  if (status !== 0) {
    const checked = await runOnce(await module, [PROGRAM, 'check', `--listing=${file}`], files);
    return { status, said: err, explained: new TextDecoder().decode(checked.out) };
  }
  const [names, lines] = [NAMES, LINES].map((each) => files.get(each));
  const listed = await runOnce(await module, [PROGRAM, 'list', ROPE, '--names', NAMES], new Map([[ROPE, out], [NAMES, names]]));
  const listing = new TextDecoder().decode(listed.out) + listed.err;
  const [textOfNames, textOfLines] = [names, lines].map((bytes) => new TextDecoder().decode(bytes));
  return { status, said: err, rope: out, names: textOfNames, listing, lines: textOfLines };
}

onmessage = async ({ data: { code, text, file } }) => {
  if (code) {
    module = WebAssembly.compile(code);
    return;
  }
  try {
    postMessage(await weave(text, file));
  } catch (error) {
    postMessage({ error: `The assembler has failed: ${error.message}` });
  }
};
