// What the programs call of their host, as WebAssembly: files in memory, and streams by two functions. It runs in a page, in a
// worker and in node.
//
// Numbers of 64 bits, addresses too, are BigInt, in the modules with 32-bit addresses as well.

// Linux's numbers of errors, and flags of open
const ENOENT = 2;
const EBADF = 9;
const EEXIST = 17;
const CREAT = 0o100;
const EXCL = 0o200;
const TRUNC = 0o1000;

// makeHost({args, files, read, write}): args are the words of the command line, the program's name first; files is a Map of
// paths to Uint8Array, whose folders are those that the paths name. read(n) returns at most n bytes of standard input, or a promise of them, none at its end;
// write(file, bytes) takes the bytes for standard output (1) or standard error (2), and may return an error's number.
// The result: the functions to import as "host", and use(memory), to be called before the program starts.
export function makeHost({ args, files, read, write }) {
  const opened = new Map();
  let memory;
  const bytes = (at, count) => new Uint8Array(memory.buffer, Number(at), Number(count));
  const text = (at, count) => new TextDecoder().decode(bytes(at, count));
  const put = (at, part) => {
    bytes(at, part.length).set(part);
    return BigInt(part.length);
  };
  const host = {
    // the length of the word, -1 if there is none, -2 if there is no room for it
    arg(number, at, room) {
      if (number >= args.length) return -1n;
      const word = new TextEncoder().encode(args[Number(number)]);
      return word.length > room ? -2n : put(at, word);
    },
    read(file, at, count) {
      if (file === 0) {
        const part = read(Number(count));
        return part instanceof Promise ? part.then((given) => put(at, given)) : put(at, part);
      }
      const from = opened.get(file);
      if (!from) return BigInt(-EBADF);
      const part = from.data.subarray(from.at, from.at + Number(count));
      from.at += part.length;
      return put(at, part);
    },
    write(file, at, count) {
      // a copy, because the memory changes
      const part = bytes(at, count).slice();
      if (file === 1 || file === 2) return BigInt(-(write(file, part) || 0)) || count;
      const to = opened.get(file);
      if (!to) return BigInt(-EBADF);
      const made = new Uint8Array(to.data.length + part.length);
      made.set(to.data);
      made.set(part, to.data.length);
      to.data = made;
      files.set(to.path, made);
      return count;
    },
    open(at, count, flags) {
      const path = text(at, count);
      const exists = files.has(path);
      const folder = path.slice(0, path.lastIndexOf("/") + 1);
      const hasFolder = folder === "" || [...files.keys()].some((each) => each.startsWith(folder));
      if (!exists && !(flags & CREAT && hasFolder)) return -ENOENT;
      if (exists && flags & EXCL) return -EEXIST;
      if (!exists || flags & TRUNC) files.set(path, new Uint8Array(0));
      let file = 3;
      while (opened.has(file)) file++;
      opened.set(file, { path, data: files.get(path), at: 0 });
      return file;
    },
    // whether a path is that of a file (1) or of a folder (2)
    kind(at, count) {
      const path = text(at, count);
      if (files.has(path)) return 1;
      return [...files.keys()].some((each) => each.startsWith(`${path.replace(/\/$/, "")}/`)) ? 2 : 0;
    },
    rename(at, count, newAt, newCount) {
      const [from, to] = [text(at, count), text(newAt, newCount)];
      if (!files.has(from)) return -ENOENT;
      files.set(to, files.get(from));
      if (from !== to) files.delete(from);
      return 0;
    },
    close: (file) => (opened.delete(file) ? 0 : -EBADF),
    unlink: (at, count) => (files.delete(text(at, count)) ? 0 : -ENOENT),
  };
  return { host, use: (given) => { memory = given; } };
}
