'use strict';
// A source in a link, behind `#`: JSON, compressed, in base 64. A link shows its text, and starts nothing.

const SOURCE_MARK = '#source=';
const SOURCE_FORMAT = 1;

// The address of this page with the source behind it; throws an error if that would be too long.
async function linkOfSource({ name, text, example }) {
  const code = await codeOf(JSON.stringify({ format: SOURCE_FORMAT, name, text, example }));
  if (code.length > LONGEST_LINK) {
    throw new Error(`The source is too long for a link: ${grouped(code.length)} characters, at most ${grouped(LONGEST_LINK)}. Send it as a file.`);
  }
  return `${location.href.split('#')[0]}${SOURCE_MARK}${code}`;
}

// Reads the source of a link: {name, text, example}. Throws an error that says what is wrong.
async function readSourceLink(hash) {
  const code = hash.slice(SOURCE_MARK.length);
  if (code.length > LONGEST_LINK) throw new Error('it is too long');
  let value;
  try {
    value = JSON.parse(await textOfCode(code));
  } catch {
    throw new Error('it is cut off, or no source');
  }
  if (value?.format !== SOURCE_FORMAT) throw new Error(value?.format ? 'it is of another version of this page' : 'it is no source');
  const source = readSource(value);
  if (!source) throw new Error('it is no source');
  return source;
}
