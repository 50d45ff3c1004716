// A film of a session: the run of its script, as agc-study's films have it.
import { Console } from './console.js';

const BLOCK = 65536; // writes of a block
const RELAY_ROWS = 12;
const PRINTABLE = /[!-;=-[\]-~ ]/; // without < and the backslash

// Returns a text without line feeds as a block has it: what could end the block is a backslash and three octal digits.
function nameOf(text) {
  const bytes = [...new TextEncoder().encode(text)].map((byte) => [byte, String.fromCharCode(byte)]);
  return bytes.map(([byte, sign]) => (PRINTABLE.test(sign) ? sign : `\\${byte.toString(8).padStart(3, '0')}`)).join('');
}

// Returns the text of a file as the lines of a block.
export const blockOf = (text) => text.split('\n').map(nameOf).join('\n');

// Runs to the stop, and calls `add` with the writes up to each one that changes the panel, as `agc --log` has them.
async function eachChange(console, add) {
  await console.sayAll(['quiet off', 'break panel']);
  let writes = [];
  while (console.stop === null) {
    const [went] = await console.sayAll(['continue within 1000000']);
    writes.push(...went.lines.filter((line) => line.startsWith('write ')).map((line) => line.slice('write '.length)));
    if (went.lines.at(-1) === 'hit none') continue;
    add(writes);
    writes = [];
  }
}

// Returns the row that a write sets, 0 if it sets none.
function rowOf(write) {
  const [, channel, word] = write.split(' ');
  const row = channel === '010' ? parseInt(word, 8) >> 11 : 0;
  return row <= RELAY_ROWS ? row : 0;
}

// Returns the blocks of a film's run, as pages: {title, script, limit} and the files of the session.
export async function filmOf(module, { title, script, limit, ...files }) {
  const console = await Console.start(module, { ...files, script, names: null, limit });
  const blocks = [[`rope ${nameOf(title)}`, 'script session.script', `limit ${limit}`, 'from 0']];
  let count = 0;
  const rows = new Map(); // the word of each row, as a relay that is hidden now may show later
  await eachChange(console, (writes) => {
    writes.forEach((write, i) => {
      const [, , word] = write.split(' ');
      const row = rowOf(write);
      const isNew = row > 0 && rows.get(row) !== word;
      if (row > 0) rows.set(row, word);
      if (!isNew && i < writes.length - 1) return;
      if (count > 0 && count % BLOCK === 0) blocks.push([]);
      blocks.at(-1).push(write);
      count += 1;
    });
  });
  const keys = (await console.say('script')).lines.map((line) => line.match(/^(\d+) (key|pro) (\w+|[+-])$/)).filter(Boolean);
  blocks.at(-1).push(...keys.filter(([, cycle]) => Number(cycle) < console.cycle).map(([, cycle, kind, name]) => (
    `key ${cycle} ${kind === 'key' ? name : name === 'down' ? 'PRO' : 'PRO up'}`)));
  blocks.at(-1).push(`stop ${console.cycle} ${console.stop}`);
  console.close();
  const head = (i) => (i ? 'class="left"' : 'id="left"');
  return blocks.map((lines, i) => `<script type="text/plain" ${head(i)}>\n${lines.join('\n')}\n<\/script>\n`).join('');
}
