// What tests/page puts into the page's worker: the channel writes that the first console of the worker has printed, as the session was
// lived. Runs print a line for each write, and a step one for each order. What lies from a cycle on is dropped as the machine goes
// back before it.
const Seen = (() => {
  const decoder = new TextDecoder();
  const WRITE = /^write (\d+ [0-7]{3} [0-7]{5})$/;
  const STEPPED = /^(\d+) .* > ([0-7]{3} [0-7]{5}) \| A /;
  let [session, begun, asked, found, writes] = [null, '', [], [], []];

  function end(line) {
    const command = asked.shift();
    if (command.startsWith('back') && line.startsWith('at ')) writes = writes.filter((each) => parseInt(each, 10) < Number(line.slice(3)));
    if (!command.startsWith('ahead')) writes.push(...found);
    found = [];
  }

  return {
    say: (console, text) => { if (console === (session ??= console)) asked.push(...text.trimEnd().split('\n')); },

    take(console, file, part) {
      if (console !== session || file !== 1) return;
      const lines = (begun + decoder.decode(part, { stream: true })).split('\n');
      begun = lines.pop();
      for (const line of lines) {
        const write = line.match(WRITE) ?? line.match(STEPPED);
        if (write) found.push(write.slice(1).join(' '));
        else if (/^(at|stop|error:) /.test(line)) end(line);
      }
    },

    log: () => writes,
  };
})();
