// What a reader sees of a film's page: read from places and computed colours, and not from the names of classes.
const Look = {
  // the text of an element, or none
  text: (id) => document.getElementById(id)?.textContent ?? null,

  // the run on the left, or on the right, by its place on the screen
  run(side) {
    const sections = [...document.querySelectorAll('section.run')];
    sections.sort((a, b) => a.getBoundingClientRect().left - b.getBoundingClientRect().left);
    return sections[side === 'left' ? 0 : 1];
  },

  title: (side) => Look.run(side).querySelector('h2')?.textContent ?? null,
  panel: (side) => Look.run(side).querySelector('.copy pre').textContent,
  keys: (side) => Look.run(side).querySelector('.copy p').textContent,

  // the tables below a run's DSKY, as far as they are seen, or none
  tables(side) {
    const shown = Look.run(side).querySelector('[aria-label="The tables of the Executive"]');
    const dsky = Look.run(side).querySelector('.display').getBoundingClientRect();
    const isSeen = shown?.checkVisibility() && shown.getBoundingClientRect().top >= dsky.bottom;
    return isSeen ? shown.textContent : null;
  },

  // whether the tables of the only run are in the window, and the bar with the controls covers nothing of them
  seesTables() {
    const bar = document.getElementById('controls').getBoundingClientRect();
    const box = document.querySelector('[aria-label="The tables of the Executive"]').getBoundingClientRect();
    return box.top >= 0 && box.bottom <= bar.top && box.left >= 0 && box.right <= innerWidth;
  },

  // how bright a colour is, from 0 to 255; nothing that is hidden is
  light(shape, colour) {
    if (!shape.checkVisibility({ opacityProperty: true, visibilityProperty: true })) return 0;
    const [red, green, blue, alpha] = colour.match(/[0-9.]+/g).map(Number);
    return alpha === 0 ? 0 : 0.3 * red + 0.6 * green + 0.1 * blue;
  },

  // the segment of a digit that lies here in its frame of 36 by 60, by the names of the DSKY's own drawings
  segment(box) {
    const across = box.x + box.width / 2;
    const down = box.y + box.height / 2;
    if (box.width > box.height) return down < 20 ? 'a' : down < 40 ? 'g' : 'd';
    if (across < 14) return down < 30 ? 'f' : 'e';
    if (across > 22) return down < 30 ? 'b' : 'c';
    return down < 30 ? 'upper' : 'lower';
  },

  // the segments of a place that are lit, in the order of their names
  lit(place) {
    const lit = [...place.querySelectorAll('polygon')].filter((shape) => Look.light(shape, getComputedStyle(shape).fill) > 100);
    return lit.map((shape) => Look.segment(shape.getBBox())).sort().join(' ');
  },

  // the places of a run, from above and from the left: six of a register, two of each other
  places(side) {
    const all = [...Look.run(side).querySelectorAll('.display svg')].map((place) => {
      const box = place.getBoundingClientRect();
      return { x: box.left, y: box.top, lit: Look.lit(place) };
    });
    all.sort((a, b) => (Math.abs(a.y - b.y) > 10 ? a.y - b.y : a.x - b.x));
    return all.map((place) => place.lit);
  },

  // the lamps of a run, row by row: their names and what colour they have
  lamps(side) {
    const all = [...Look.run(side).querySelectorAll('.lamps > *')].map((lamp) => {
      const box = lamp.getBoundingClientRect();
      return { x: box.left, y: box.top, name: lamp.textContent, colour: getComputedStyle(lamp).backgroundColor };
    });
    all.sort((a, b) => (Math.abs(a.y - b.y) > 5 ? a.y - b.y : a.x - b.x));
    return all.map(({ name, colour }) => [name, colour]);
  },

  activity(side) {
    const lamp = [...Look.run(side).querySelectorAll('.display *')].find((part) => part.textContent === 'COMPACTY');
    return getComputedStyle(lamp).backgroundColor;
  },

  // the places that blink
  blinking(side) {
    const fields = [...Look.run(side).querySelectorAll('.display [data-name]')];
    return fields.filter((field) => getComputedStyle(field).animationName !== 'none').map((field) => field.dataset.name).join(' ');
  },

  // the keys of a run: their names, the middle of each, and whether it is light, as one that is down
  keyboard(side) {
    const keys = [...Look.run(side).querySelectorAll('.keys > *')];
    return keys.map((key) => {
      const box = key.getBoundingClientRect();
      const down = Look.light(key, getComputedStyle(key).backgroundColor) > 100;
      return { name: key.textContent, x: box.left + box.width / 2, y: box.top + box.height / 2, down };
    });
  },

  down: (side) => Look.keyboard(side).filter((key) => key.down).map((key) => key.name).join(' '),

  // where a control is, or none where it is not seen
  box(id) {
    const control = document.getElementById(id);
    if (!control.checkVisibility({ opacityProperty: true, visibilityProperty: true })) return null;
    const box = control.getBoundingClientRect();
    return { left: box.left, top: box.top, right: box.right, bottom: box.bottom };
  },

  // whether a reader who points at the middle of a control points at it, or at a part of it
  onTop(id) {
    const control = document.getElementById(id);
    const box = control.getBoundingClientRect();
    return control.contains(document.elementFromPoint((box.left + box.right) / 2, (box.top + box.bottom) / 2));
  },

  // where the display of a run ends, with its keys
  bottom: (side) => Look.run(side).querySelector('.dsky').getBoundingClientRect().bottom,

  // the middles of the strokes of a colour in a row of the strip
  strokes(row, wanted) {
    const strip = document.getElementById('strip');
    const pixels = strip.getContext('2d').getImageData(0, row, strip.width, 1).data;
    const middles = [];
    let from = -1;
    for (let x = 0; x <= strip.width; x += 1) {
      const is = x < strip.width && pixels[4 * x + 3] > 0 && wanted.every((part, i) => Math.abs(pixels[4 * x + i] - part) < 12);
      if (is && from < 0) from = x;
      if (!is && from >= 0) {
        middles.push((from + x) / 2);
        from = -1;
      }
    }
    return middles;
  },

  // the cycle that the clock tells, with the time of the browser, at some of the next pictures
  pictures: (count) => new Promise((done) => {
    const seen = [];
    const note = (at) => {
      seen.push([at, Number(document.getElementById('clock').textContent.split(' ')[1])]);
      if (seen.length < count) requestAnimationFrame(note); else done(seen);
    };
    requestAnimationFrame(note);
  }),

  // goes to a cycle as a link does, also where the last link went there
  go: (cycle) => new Promise((done) => {
    history.replaceState(null, '', '#');
    addEventListener('hashchange', () => done(), { once: true });
    location.hash = `cycle=${cycle}`;
  }),

  // chooses the speed with this label
  choose(label) {
    const speed = document.getElementById('speed');
    speed.selectedIndex = [...speed.options].findIndex((option) => option.textContent.startsWith(label));
    speed.dispatchEvent(new Event('change', { bubbles: true }));
  },

  // the speed that is chosen, as a reader sees it
  speed: () => document.getElementById('speed').selectedOptions[0].textContent,
};
