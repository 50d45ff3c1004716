// Runs agc-console in a worker, so that a page stays awake.
//
// The page posts {module, files, args} first: the address of a module of prebuilt/wasm, a Map of paths to Uint8Array, and the
// words of the command line after the program's name. Then each string that it posts is standard input, and null its end. It
// gets {file, text} for standard output (1) and standard error (2), and at the end {status, files}, or {fault} if the program
// could not run. A module whose name ends with -asyncify.wasm runs in every browser; the others need one that suspends.
import { Input, runProgram } from "./program.js";

const input = new Input();

// one decoder for each stream, because a character may be written in two parts
const decoders = [null, new TextDecoder(), new TextDecoder()];
const write = (file, part) => postMessage({ file, text: decoders[file].decode(part, { stream: true }) });

onmessage = async ({ data: { module, files, args } }) => {
  onmessage = ({ data }) => input.give(data);
  try {
    const code = await (await fetch(module)).arrayBuffer();
    const given = { args: ["agc-console", ...args], files, write };
    const status = await runProgram(code, given, input, module.endsWith("-asyncify.wasm"));
    postMessage({ status, files });
  } catch (error) {
    postMessage({ fault: String(error) });
  }
};
