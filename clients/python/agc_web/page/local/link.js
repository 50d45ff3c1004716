'use strict';
// A session in a link, behind `#`: JSON, compressed, in base 64. A link opens its session with time stopped.

const MARK = '#session=';
const LONGEST_LINK = 30000; // characters
const LONGEST_TEXT_OF_LINK = 2e6; // characters, once it is not compressed any more

// Sends bytes through a stream, and returns what comes out, at most so many bytes.
async function through(stream, bytes, most) {
  const writer = stream.writable.getWriter();
  writer.write(bytes).catch(() => {});
  writer.close().catch(() => {});
  const parts = [];
  let length = 0;
  for (let reader = stream.readable.getReader(), part = await reader.read(); !part.done; part = await reader.read()) {
    length += part.value.length;
    if (length > most) {
      reader.cancel();
      throw new Error('it is too long');
    }
    parts.push(part.value);
  }
  const all = new Uint8Array(length);
  parts.reduce((at, part) => { all.set(part, at); return at + part.length; }, 0);
  return all;
}

// A text as what stands in a link, and back.
async function codeOf(text) {
  const bytes = await through(new CompressionStream('deflate-raw'), new TextEncoder().encode(text), Infinity);
  return base64Of(bytes).replaceAll('+', '-').replaceAll('/', '_').replaceAll('=', '');
}

async function textOfCode(code) {
  const bytes = bytesOf(code.replaceAll('-', '+').replaceAll('_', '/'));
  return new TextDecoder().decode(await through(new DecompressionStream('deflate-raw'), bytes, LONGEST_TEXT_OF_LINK));
}

// What a link says of the files: of an example only what differs from it.
function linkedFiles(files) {
  const { rope, ...rest } = storedFiles(files);
  const from = EXAMPLES[files.example];
  if (rope !== from?.rope) return { rope, ...rest };
  const { script, guide, quantities, nouns, ...others } = rest;
  const own = Object.entries({ script, guide, quantities, nouns }).filter(([kind, text]) => (text ?? '') !== (from[kind] ?? ''));
  return { ...others, ...Object.fromEntries(own), sum: sumOf(rope) };
}

// The address of this page with the session behind it, and the guide that is followed; throws an error if that would be too long.
async function linkOf(files, kept) {
  const text = JSON.stringify({ ...linkedFiles(files), ...storedRest(kept), chosen: guiding.guide?.title ?? null });
  const code = await codeOf(text);
  if (code.length > LONGEST_LINK) {
    throw new Error(`The session is too long for a link: ${grouped(code.length)} characters, at most ${grouped(LONGEST_LINK)}. Send its script.`);
  }
  return `${location.href.split('#')[0]}${MARK}${code}`;
}

// Reads the session of a link: {files, kept, chosen}. Throws an error that says what is wrong.
async function readLink(hash) {
  const [code] = hash.slice(MARK.length).match(/^[\w-]*/); // a mail may have put a space or a full stop behind it
  if (code.length > LONGEST_LINK) throw new Error('it is too long');
  let text;
  try {
    text = await textOfCode(code);
  } catch {
    throw new Error('it is cut off, or no session');
  }
  const found = readSession(text);
  const { sum, chosen } = JSON.parse(text);
  if (sum === undefined) return { ...found, chosen };
  if (!found.files.example) throw new Error('it has the sum of an example, and names none');
  if (sum !== sumOf(EXAMPLES[found.files.example].rope)) throw new Error('it is of another version of this page');
  return { ...found, chosen };
}

// A number that differs if a text differs, but for rare cases: FNV-1a with 32 bits.
function sumOf(text) {
  let sum = 0x811c9dc5;
  for (let i = 0; i < text.length; i += 1) sum = Math.imul(sum ^ text.charCodeAt(i), 0x01000193) >>> 0;
  return sum;
}
