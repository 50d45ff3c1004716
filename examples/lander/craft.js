// The craft of craft.py once more, as an instrument of agc.html: the same pulses from the same commands.

const CDUX = 0o32;
const WANTED = 0o100;
const CHANNEL = 5;
const UP = 1; // the jets of the channel
const DOWN = 2;
const PARTS = 64; // of a pulse
const TURN = 32768; // the pulses of CDUX
const DEGREE = TURN / 360;
const RATE = 6; // degrees a second, while a button is held
const EVERY = 10; // ticks between two words that the machine is given: an event each

const modulo = (value, by) => ((value % by) + by) % by;

// Rounds halves to even, as Python does.
function rounded(value) {
  const low = Math.floor(value);
  const rest = value - low;
  return rest < 0.5 || (rest === 0.5 && low % 2 === 0) ? low : low + 1;
}

// What turns: its angle, and by how much it turns in a step, in parts of a pulse.
export class Craft {
  constructor(degrees = 10, degreesASecond = 1) {
    this.angle = rounded(degrees * DEGREE) * PARTS;
    this.turning = rounded((degreesASecond * DEGREE * PARTS) / 100);
    this.jets = 0;
  }

  pulses() {
    return Math.floor(this.angle / PARTS);
  }

  // Turns for a step, and returns how many pulses CDUX is to count for it.
  step() {
    const before = this.pulses();
    this.turning += (this.jets & UP ? 1 : 0) - (this.jets & DOWN ? 1 : 0);
    this.angle += this.turning;
    return this.pulses() - before;
  }
}

const signed = (value) => `${value < 0 ? '' : '+'}${value.toFixed(2)}`;

// The craft as an instrument: its pilot turns the angle that the machine is to hold.
export class Instrument {
  reads = [CHANNEL];

  constructor(craft) {
    this.craft = craft;
    this.wanted = 0;
    this.ticks = 0;
    this.turn = 0;
  }

  // Turns for a hundredth of a second, as the jets burn, and counts it on CDUX.
  tick(agc) {
    if (this.ticks === 0) agc.poke(0, CDUX, modulo(this.craft.pulses(), TURN));
    this.craft.jets = agc.channel(CHANNEL);
    const turned = this.craft.step();
    for (let n = 0; n < Math.abs(turned); n += 1) agc.pulse(CDUX, turned > 0 ? 'pcdu' : 'mcdu');
    if (this.turn && this.ticks % EVERY === 0) {
      this.wanted += rounded((this.turn * RATE * DEGREE * EVERY) / 100);
      agc.poke(0, WANTED, modulo(this.wanted, TURN));
    }
    this.ticks += 1;
  }

  // Turns what is wanted, as long as a button is held. Returns whether there is such a button.
  control(name, down) {
    const turn = { left: -1, right: 1 }[name];
    if (turn === undefined) return false;
    this.turn = down ? turn : 0;
    return true;
  }

  view() {
    const angle = this.craft.pulses() / DEGREE;
    const wanted = this.wanted / DEGREE;
    const jets = [[UP, 'left'], [DOWN, 'right']].filter(([jet]) => this.craft.jets & jet).map(([, name]) => name);
    const burning = { left: 'up', right: 'down' }[jets[0]] ?? 'none';
    return {
      title: 'Craft',
      dial: { angle: Number(angle.toFixed(2)), wanted: Number(wanted.toFixed(2)), jets },
      rows: [
        ['Angle', `${signed(angle)}°`], ['Held angle', `${signed(wanted)}°`],
        ['Turning', `${signed((100 * this.craft.turning) / PARTS / DEGREE)}° a second`], ['Jet', burning],
      ],
      controls: [
        { name: 'left', label: '◀ Turn down', key: 'ArrowLeft' },
        { name: 'right', label: 'Turn up ▶', key: 'ArrowRight' },
      ],
    };
  }

  // All that changes, so that the craft goes back in time with the machine.
  save() {
    return { craft: { ...this.craft }, wanted: this.wanted, ticks: this.ticks, turn: this.turn };
  }

  load(state) {
    Object.assign(this.craft, state.craft);
    this.wanted = state.wanted;
    this.ticks = state.ticks;
    this.turn = state.turn;
  }
}
