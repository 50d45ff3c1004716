// Runs a program as WebAssembly that reads no standard input, from its words and files to its end.
import { makeHost } from "./host.js";

// `module` is a WebAssembly.Module, args are the words of the command line, the program's name first, and files is a Map of paths
// to Uint8Array, which the program may change. Returns the status, the bytes of standard output, and the text of standard error.
export async function runOnce(module, args, files) {
  const parts = [];
  const decoder = new TextDecoder();
  let err = "";
  const write = (file, part) => {
    if (file === 1) parts.push(part);
    else err += decoder.decode(part, { stream: true });
  };
  const { host, use } = makeHost({ args, files, read: () => new Uint8Array(0), write });
  const { exports } = await WebAssembly.instantiate(module, { host });
  use(exports.memory);
  const status = exports.main(0, 0n);
  const out = new Uint8Array(parts.reduce((bytes, part) => bytes + part.length, 0));
  parts.reduce((at, part) => { out.set(part, at); return at + part.length; }, 0);
  return { status, out, err };
}
