// What tests/page measures inside agc.html, by the page's own clock: milliseconds, and cycles of the machine.
const Figures = {
  // Waits until the browser has drawn the frame that comes next.
  drawn: () => new Promise((done) => {
    requestAnimationFrame(() => {
      const { port1, port2 } = new MessageChannel();
      port1.onmessage = () => done(performance.now());
      port2.postMessage(0);
    });
  }),

  // Waits until this holds, as looks before each frame find it, and the frame is drawn; returns when.
  async until(holds) {
    while (!holds()) await new Promise((done) => { requestAnimationFrame(done); });
    return Figures.drawn();
  },

  // Opens an example or files anew, as a user does, so that the browser keeps the session.
  async open(files) {
    const why = await session.open(files);
    if (why) throw new Error(why);
    beginToKeep();
  },

  lit: () => [...document.querySelectorAll('#face [data-lamp]')].filter((lamp) => lamp.classList.contains('lit')).map((lamp) => lamp.dataset.lamp),

  // Notes from now on the time from each key of the keyboard that goes down to the frame in which the lamp PROG has changed.
  noteLamps() {
    Figures.times = [];
    let pressed = null;
    addEventListener('keydown', (event) => { pressed = event.timeStamp; }, true);
    new MutationObserver(async () => {
      if (pressed === null) return;
      const began = pressed;
      pressed = null;
      Figures.times.push(await Figures.drawn() - began);
    }).observe(document.querySelector("#face [data-lamp='PROG']"), { attributes: true });
  },

  // Runs up to a cycle at a speed; returns the seconds. An error says why time stopped before.
  async runTo(end, speed) {
    await session.do('speed', { times: speed });
    const began = performance.now();
    await session.do('play');
    await Figures.until(() => now.cycle >= end || !now.playing);
    const took = (performance.now() - began) / 1000;
    if (now.cycle < end) throw new Error(`${now.trouble} ${now.stop} at ${now.cycle}`);
    return took;
  },

  // Flies at a speed until this many seconds were flown, each flight from cycle 0 to this one; returns the cycles, seconds and flights.
  async fly(files, speed, end, seconds) {
    const flown = { cycles: 0, seconds: 0, flights: 0 };
    await Figures.open(files);
    while (flown.seconds < seconds) {
      await session.do('go', { cycle: 0, sure: true });
      flown.seconds += await Figures.runTo(end, speed);
      flown.cycles += now.cycle;
      flown.flights += 1;
    }
    await session.do('pause');
    return flown;
  },

  // Runs files as fast as it goes up to a cycle; returns the seconds.
  async run(files, end) {
    await Figures.open(files);
    const took = await Figures.runTo(end, 1000);
    await session.do('pause');
    return took;
  },

  // Goes back to a cycle; returns the seconds until that is drawn.
  async back(cycle) {
    const began = performance.now();
    await session.do('go', { cycle, sure: true });
    return (await Figures.until(() => now.cycle <= cycle) - began) / 1000;
  },

  // Runs files for some seconds as fast as it goes, and stops; returns the longest time from one frame to the next, and that to the stop.
  async flood(files, seconds) {
    await Figures.open(files);
    await session.do('speed', { times: 1000 });
    await session.do('play');
    const began = performance.now();
    let longest = 0;
    for (let last = began; last - began < 1000 * seconds;) {
      const at = await Figures.drawn();
      longest = Math.max(longest, at - last);
      last = at;
    }
    const asked = performance.now();
    find('play').click();
    const stopped = await Figures.until(() => find('state').textContent === 'paused');
    return { longest, stop: stopped - asked, cycles: now.cycle };
  },
};
