// The craft of craft.py once more, as an instrument of agc.html: from the same seed, keys and buttons it gives the same events.
import { Noise, PI, SEEDS, degrees, nearest, sineAndCosine } from './exact.js';
import { drawing } from './side_view.js';

const STEP = 0.01; // seconds
const PIPAX = 0o37;
const PIPAZ = 0o41;
const CDUY = 0o33;
const RNRAD = 0o46;
const JETS = 0o5;
const LAMPS = 0o11;
const RADAR = 0o13;
const RATE_SWITCH = 0o16;
const CONTACT = 0o30;
const HAND_CONTROLLER = 0o31;
const THROTTLE = 0o42;
const STAGING = 0o43;
const ENGINE_ON = 1 << 12;
const KEYRUPT2 = 6;
const DOWNRUPT = 8;
const RADARUPT = 9;
const RUPT10 = 10;
const ALTITUDE = 0o17; // what bits 1 to 4 of channel 13 want of the radar
const FORWARD_SPEED = 0o16;
const UPWARD_SPEED = 0o14;

const GRAVITY = 1.62; // m/s/s, on the ground
const MOON = 1737400; // m, from its middle to the site
const EXHAUST = 3050; // m/s
const PULSE = 0.0585; // m/s, of an accelerometer,
const COARSE = 0.468; // and in its coarse range, for a script has no room for more pulses
const FASTEST = { [PIPAX]: 32, [PIPAZ]: 32, [CDUY]: 64 }; // pulses that an instrument sends in a hundredth of a second at most
const DOWNLINK = 10; // hundredths of a second from one interrupt of the downlink to the next: at first,
const SPARING = 100; // and from so many
const MANY = 48000; // events of the craft on, for a script has no room for more
const RADIAN = PI / 180;
const DEGREE = 32768 / 360; // pulses of CDUY
const TURNING = 4 * RADIAN; // what a jet brings each second, in radians a second
const LAG = 0.2; // seconds, of the engine
const FULL = 45000; // N
const DRY = 6500; // kg, without fuel
const LOADED = 8500; // kg, with all of it near the site,
const LOADED_IN_ORBIT = 14700; // and in orbit
const ASCENT_DRY = 2350; // kg, of the ascent stage without fuel
const ASCENT_FUEL = 2350; // kg
const ASCENT_THRUST = 15600; // N: this engine has no throttle
const HIGHEST = 4095; // m: the radar sees no ground from above
const LEG = 0.2; // m: a leg's probe touches the ground so high up
const LIMITS = [1.5, 0.6, 3]; // of a landing: m/s down, m/s forward or back, degrees
const IN_ORBIT = { height: 15000, way: 500000, forward: 1692, down: 0, isFar: true }; // where a flight in orbit starts

const ABORT = 'VERB 3 7 ENTR 7 0 ENTR'.split(' '); // what the button for it types
const WATCHES = 'VERB 1 6 NOUN 6 8 ENTR'.split(' '); // the crew watches the range, which takes time of the computer
const RENDEZVOUS = 0o36; // counts the rendezvous radar's angle
const PULSES = 65; // of it in a hundredth of a second, each a cycle
const KEY_TICKS = 25; // between two keys
const WAIT_TICKS = 200; // from the last one to the pulses
const RADAR_TICKS = 500; // of pulses
const HELD = 20; // ticks in which a switch is held

// The buttons that click the switch for the rate of descent and the hand controller: channel, its word then and afterwards, interrupt.
const SWITCHES = {
  'rate-up': [RATE_SWITCH, 0o40, 0, KEYRUPT2],
  'rate-down': [RATE_SWITCH, 0o100, 0, KEYRUPT2],
  farther: [HAND_CONTROLLER, 0o77776, 0o77777, RUPT10],
  nearer: [HAND_CONTROLLER, 0o77775, 0o77777, RUPT10],
};

// Where the craft is and how it moves, and what its instruments have counted.
export class Craft {
  constructor(seed = 1, { height = 2300, way = 7500, forward = 150, down = 45, fuel = null, isFar = false } = {}) {
    const noise = new Noise(seed);
    Object.assign(this, { seed, noise, isFar, height, way, forward, up: -down });
    const [loaded, tilt, massError, speedError] = isFar ? [LOADED_IN_ORBIT, -90, 0.005, 0.05] : [LOADED, -43, 0.015, 1];
    const spent = fuel === null ? 0 : loaded - DRY - fuel;
    this.mass = Math.max(DRY, loaded * (1 + noise.between(-massError, massError)) - spent);
    this.knownHeight = height + noise.between(-40, 40);
    this.knownMass = loaded;
    this.tilt = (tilt + noise.between(-3, 3)) * RADIAN;
    this.turning = noise.between(-0.5, 0.5) * RADIAN;
    this.knownForward = forward + noise.between(-2 * speedError, 2 * speedError);
    this.knownUp = -down + noise.between(-speedError, speedError);
    Object.assign(this, { wanted: 0, answered: 0 });
    Object.assign(this, { thrust: 25500, command: 25500, jets: 0, engine: false, flying: false, touched: null, contact: false });
    Object.assign(this, { dry: DRY, ascentFuel: ASCENT_FUEL, staged: false, pulse: PULSE, rounding: 0 });
    this.seconds = 0;
    this.lost = null; // the second since which the landing radar is lost
    this.counted = { [PIPAX]: 0, [PIPAZ]: 0 };
    this.sent = { [PIPAX]: 0, [PIPAZ]: 0, [CDUY]: this.angle() };
    this.events = 0; // that the computer got from the craft
  }

  angle() {
    return Math.floor(degrees(this.tilt) * DEGREE);
  }

  isLost() {
    return this.lost !== null && this.seconds >= this.lost;
  }

  // Takes the words of channels that the computer has written.
  take(jets, throttle, lamps, radar, staging) {
    this.jets = jets;
    this.wanted = radar & 0o17;
    this.command = 4 * throttle;
    this.engine = Boolean(lamps & ENGINE_ON);
    this.flying = this.flying || this.engine;
    this.stage(staging);
    this.scalePulses(staging);
  }

  // Drops the descent stage, if bit 1 says so. The ascent stage has an engine and fuel of its own.
  stage(word) {
    if (word & 1 && !this.staged) Object.assign(this, { staged: true, thrust: 0, dry: ASCENT_DRY, mass: ASCENT_DRY + this.ascentFuel });
  }

  // Gives the accelerometers their coarse range if bit 2 says so, or else the fine one. What is not yet a pulse is kept. Coarse pulses
  // are rounded, so that no speed is lost on the average.
  scalePulses(word) {
    const pulse = word & 2 ? COARSE : PULSE;
    if (pulse === this.pulse) return;
    for (const counter of [PIPAX, PIPAZ]) {
      this.counted[counter] -= this.sent[counter] * this.pulse;
      this.sent[counter] = 0;
    }
    Object.assign(this, { pulse, rounding: word & 2 ? 0.5 : 0 });
  }

  fuel() {
    return this.mass - this.dry;
  }

  // Gravity, less what the forward speed makes up for.
  pull() {
    const radius = MOON + this.height;
    return GRAVITY * (MOON / radius) * (MOON / radius) - (this.forward * this.forward) / radius;
  }

  // The heights of apolune and perilune in m, by Kepler's laws.
  orbit() {
    const radius = MOON + this.height;
    const moon = GRAVITY * MOON * MOON;
    const swept = radius * this.forward;
    const energy = (this.forward * this.forward + this.up * this.up) / 2 - moon / radius;
    const eccentricity = Math.sqrt(Math.max(0, 1 + (2 * energy * swept * swept) / (moon * moon)));
    const middle = -moon / (2 * energy);
    return [middle * (1 + eccentricity) - MOON, middle * (1 - eccentricity) - MOON];
  }

  // Whether the engine is off in an orbit that does not come to the ground.
  isInOrbit() {
    return this.flying && !this.engine && !this.touched && this.orbit()[1] > 0;
  }

  // Moves for a hundredth of a second. The craft is held until its engine is on for the first time.
  step() {
    this.seconds += STEP;
    if (!this.flying) return;
    this.burn();
    if (this.touched) {
      this.counted[PIPAX] += GRAVITY * STEP;
      return;
    }
    const [sine, cosine] = sineAndCosine(this.tilt);
    const push = this.thrust / this.mass;
    const along = push * sine;
    const up = push * cosine;
    this.counted[PIPAZ] += along * STEP;
    this.counted[PIPAX] += up * STEP;
    const turned = this.turning;
    this.turning += TURNING * ((this.jets & 1 ? 1 : 0) - (this.jets & 2 ? 1 : 0)) * STEP;
    this.tilt += ((turned + this.turning) / 2) * STEP;
    const pull = this.pull();
    this.forward += (along - (this.forward * this.up) / (MOON + this.height)) * STEP;
    this.up += (up - pull) * STEP;
    this.way -= this.forward * STEP;
    this.height += this.up * STEP;
    if (this.height <= 0) this.touch();
  }

  // The engine follows its command with a lag, and burns fuel while there is some.
  burn() {
    const full = this.staged ? ASCENT_THRUST : this.command;
    const wanted = this.engine ? full : 0;
    this.thrust += ((wanted - this.thrust) * STEP) / LAG;
    this.mass -= (this.thrust / EXHAUST) * STEP;
    if (this.mass <= this.dry) Object.assign(this, { mass: this.dry, thrust: 0 });
  }

  // The ground stops the craft, and its accelerometers count that.
  touch() {
    this.touched = [this.up, this.forward, degrees(this.tilt), this.way];
    this.counted[PIPAX] -= this.up;
    this.counted[PIPAZ] -= this.forward;
    Object.assign(this, { up: 0, forward: 0, turning: 0 });
  }

  // Sends the pulses since the last call.
  sendPulses(agc) {
    for (const counter of [PIPAX, PIPAZ]) this.sendUpTo(agc, counter, Math.floor(this.counted[counter] / this.pulse + this.rounding), 'pinc', 'minc');
    this.sendUpTo(agc, CDUY, this.angle(), 'pcdu', 'mcdu');
  }

  // Sends as many pulses as a counter still needs for a value, and may get in a step.
  sendUpTo(agc, counter, value, up, down) {
    const more = Math.max(-FASTEST[counter], Math.min(FASTEST[counter], value - this.sent[counter]));
    if (more === 0) return;
    this.sent[counter] += more;
    this.events += Math.abs(more);
    for (let n = 0; n < Math.abs(more); n += 1) agc.pulse(counter, more < 0 ? down : up);
  }

  // The radar's word, once for each change of what channel 13 wants; null without one.
  radar() {
    if (this.wanted === this.answered || this.isLost() || !this.flying || this.touched || this.height > HIGHEST) return null;
    this.answered = this.wanted;
    if (this.wanted === ALTITUDE) {
      const seen = this.height + this.noise.normal(0.3 + 0.005 * Math.abs(this.height));
      return Math.max(1, Math.min(16383, nearest(4 * seen)));
    }
    const [sine, cosine] = sineAndCosine(this.tilt);
    if (this.wanted === FORWARD_SPEED) return this.speedWord(this.forward * cosine - this.up * sine);
    if (this.wanted === UPWARD_SPEED) return this.speedWord(this.forward * sine + this.up * cosine);
    return null;
  }

  // A speed with the radar's noise, in 64ths of m/s.
  speedWord(speed) {
    const seen = 64 * (speed + this.noise.normal(0.1 + 0.005 * Math.abs(speed)));
    const magnitude = Math.min(16383, nearest(Math.abs(seen)));
    return seen >= 0 ? magnitude : magnitude ^ 0o77777;
  }

  // Fills an old state, if there is one: field by field, because Object.assign makes an object of each number.
  save(old) {
    if (!old) return { ...this, noise: this.noise.state, counted: { ...this.counted }, sent: { ...this.sent } };
    this.copyFlight(old);
    this.copyLoad(old);
    old.noise = this.noise.state;
    for (const counter of [PIPAX, PIPAZ]) old.counted[counter] = this.counted[counter];
    for (const counter of [PIPAX, PIPAZ, CDUY]) old.sent[counter] = this.sent[counter];
    return old;
  }

  // Copies how it flies, and what the computer has commanded.
  copyFlight(to) {
    to.height = this.height;
    to.way = this.way;
    to.forward = this.forward;
    to.up = this.up;
    to.mass = this.mass;
    to.tilt = this.tilt;
    to.turning = this.turning;
    to.thrust = this.thrust;
    to.command = this.command;
    to.jets = this.jets;
    to.engine = this.engine;
    to.flying = this.flying;
    to.touched = this.touched;
    to.contact = this.contact;
    to.staged = this.staged;
    to.dry = this.dry;
    to.seconds = this.seconds;
    to.lost = this.lost;
  }

  // Copies what it began with, and what the computer got from it.
  copyLoad(to) {
    to.seed = this.seed;
    to.isFar = this.isFar;
    to.knownHeight = this.knownHeight;
    to.knownMass = this.knownMass;
    to.knownForward = this.knownForward;
    to.knownUp = this.knownUp;
    to.ascentFuel = this.ascentFuel;
    to.wanted = this.wanted;
    to.answered = this.answered;
    to.pulse = this.pulse;
    to.rounding = this.rounding;
    to.events = this.events;
  }

  load({ noise, counted, sent, ...rest }) {
    Object.assign(this, rest, { counted: { ...counted }, sent: { ...sent } });
    this.noise.state = noise;
  }
}

// A number as two words of fourteen digits, the upper one in units of one.
function double(value) {
  const parts = nearest(Math.abs(value) * 16384);
  const words = [parts >> 14, parts & 0o37777];
  return value >= 0 ? words : words.map((word) => word ^ 0o77777);
}

// Gives the computer its erasable load. Far from the site it is in the units of an orbit, and says so in the cell ORBNAV.
function load(agc, craft) {
  const state = [-craft.way, 64 * craft.knownForward, craft.knownHeight, 64 * craft.knownUp];
  const words = [...state.map((value) => (craft.isFar ? value / 32 : value)), craft.knownMass].flatMap(double);
  words.forEach((word, offset) => agc.poke(3, offset, word));
  agc.poke(0, CDUY, ((craft.angle() % 32768) + 32768) % 32768);
  if (craft.isFar) agc.poke(3, 0o100, 2);
}

// Sends the computer what the instruments counted in a step, what the radar measured, and the downlink's interrupt.
function report(agc, craft, step) {
  craft.sendPulses(agc);
  const word = craft.radar();
  if (word !== null) {
    agc.poke(0, RNRAD, word);
    agc.raise(RADARUPT);
    craft.events += 2;
  }
  if (!craft.contact && craft.height <= LEG) {
    craft.contact = true;
    agc.input(CONTACT, 0o37577);
  }
  if (step % (craft.events < MANY ? DOWNLINK : SPARING) === 0) {
    agc.raise(DOWNRUPT);
    craft.events += 1;
  }
}

// The orbit that ends an abort, or nothing.
function orbitInWords(craft) {
  if (!craft.isInOrbit()) return '';
  const [apolune, perilune] = craft.orbit();
  return `Aborted: orbit of ${(apolune / 1000).toFixed(0)} by ${(perilune / 1000).toFixed(0)} km`;
}

// How the flight has ended in words and whether that is good; nothing before the end.
function outcome(craft) {
  const isOut = craft.mass <= craft.dry;
  // the descent stage alone is not the end
  if (!craft.touched) return { text: orbitInWords(craft) || (isOut && craft.staged ? 'Out of fuel' : ''), good: false };
  const [up, forward, tilt, way] = craft.touched;
  const place = `${Math.abs(way).toFixed(0)} m from the site`;
  const found = [[-up, 'm/s down'], [Math.abs(forward), 'm/s sideways'], [Math.abs(tilt), 'degrees of tilt']];
  const why = found.flatMap(([value, unit], i) => (value < LIMITS[i] ? [] : [`${value.toFixed(2)} ${unit}, at most ${LIMITS[i]}`]));
  if (!why.length) return { text: `Landed: ${(-up).toFixed(2)} m/s, ${place}`, good: true };
  return { text: `${isOut ? 'Out of fuel' : 'Crashed'}: ${why.join('; ')}; ${place}`, good: false };
}

// What the side view draws of a craft.
function flightOf(craft) {
  const moves = craft.flying && !craft.touched;
  const push = moves ? craft.thrust / craft.mass : 0;
  const [sine, cosine] = sineAndCosine(craft.tilt);
  return {
    x: -craft.way, height: Math.max(0, craft.height), forward: craft.forward, up: craft.up, tilt: craft.tilt,
    throttle: moves ? craft.thrust / FULL : 0, jets: [(craft.jets & 1) > 0, (craft.jets & 2) > 0],
    pulls: [push * sine, push * cosine - craft.pull()], isOver: !moves,
  };
}

// Writes a number, and a zero without a minus.
const fixed = (value, digits) => value.toFixed(digits).replace(/^-(0(?:\.0*)?)$/, '$1');
const signed = (value, digits) => `${fixed(value, digits).startsWith('-') ? '' : '+'}${fixed(value, digits)}`;

// The craft as an instrument. The user presses the keys: V37E, 64E or in orbit 63E, then PRO.
export class Instrument {
  reads = [JETS, THROTTLE, LAMPS, RADAR, STAGING];
  #machine = null;
  #next = null; // the craft of a flight that begins anew

  constructor({ seed = 1, orbit = false } = {}) {
    this.start = orbit ? IN_ORBIT : {};
    this.craft = new Craft(Number.isInteger(seed) && seed >= 0 && seed < SEEDS ? seed : 1, this.start);
    this.ticks = 0;
    this.behind = []; // where the craft was, second by second
    this.switched = null; // the tick at which the rendezvous radar was switched on
    this.clicked = []; // switches that are clicked with the next tick
    this.held = []; // each that is held, and the tick of its release
    this.typing = []; // the keys of a button that are still to be pressed
    this.seed = this.craft.seed;
  }

  // Keeps the machine, which can go back.
  attach(machine) {
    this.#machine = machine;
  }

  options() {
    return { seed: this.craft.seed, ...(this.craft.isFar && { orbit: true }) };
  }

  // Moves for a hundredth of a second by what the computer commands.
  tick(agc) {
    const { craft } = this;
    if (this.ticks === 0) load(agc, craft);
    this.ticks += 1;
    craft.take(agc.channel(JETS), agc.channel(THROTTLE), agc.channel(LAMPS), agc.channel(RADAR), agc.channel(STAGING));
    craft.step();
    report(agc, craft, this.ticks);
    this.rendezvous(agc);
    this.click(agc);
    this.typeNext(agc);
    if (this.ticks % 100 === 0 && craft.flying && !craft.touched) this.behind = [...this.behind, [-craft.way, craft.height]];
  }

  // Has the crew watch the range, and sends the rendezvous radar's pulses: together they are more than the computer has time
  // for, and the alarm is 1202.
  rendezvous(agc) {
    const since = this.sinceSwitched();
    const keyed = WATCHES.length * KEY_TICKS;
    if (since >= 0 && since < keyed && since % KEY_TICKS === 0) {
      agc.key(WATCHES[since / KEY_TICKS]);
    } else if (since - keyed - WAIT_TICKS >= 0 && since - keyed - WAIT_TICKS < RADAR_TICKS) {
      for (let n = 0; n < PULSES; n += 1) agc.pulse(RENDEZVOUS, 'pcdu');
    }
  }

  // Clicks the switches whose buttons went down, and releases those that were held long enough.
  click(agc) {
    if (!this.clicked.length && !this.held.length) return;
    for (const [name, tick] of this.held) {
      if (tick === this.ticks) agc.input(SWITCHES[name][0], SWITCHES[name][2]);
    }
    for (const name of this.clicked) {
      const [channel, word, , interrupt] = SWITCHES[name];
      agc.input(channel, word);
      agc.raise(interrupt);
    }
    const ended = this.ticks + HELD;
    this.held = [...this.held.filter((each) => each[1] > this.ticks), ...this.clicked.map((name) => [name, ended])];
    this.clicked = [];
  }

  // Presses the next key of a button, four a second.
  typeNext(agc) {
    if (!this.typing.length || this.ticks % KEY_TICKS) return;
    agc.key(this.typing[0]);
    this.typing = this.typing.slice(1);
  }

  // Types V37E70E, in flight, unless keys are being typed.
  typeAbort() {
    if (this.craft.flying && !this.craft.touched && !this.typing.length) this.typing = ABORT;
  }

  sinceSwitched() {
    return this.switched === null ? -1 : this.ticks - this.switched;
  }

  // Does what a button of the page says, as it goes down. Returns whether there is such a button, and 'once' if running the
  // session again does not need it.
  control(name, down) {
    if (Object.hasOwn(SWITCHES, name)) {
      if (down) this.clicked = [...this.clicked, name];
      return true;
    }
    const act = {
      rendezvous: () => this.switchRendezvous(), landing: () => this.switchLanding(), again: () => this.beginAgain(), abort: () => this.typeAbort(),
    }[name];
    if (!act) return false;
    if (down) act();
    return name === 'again' ? 'once' : true;
  }

  // Switches the rendezvous radar on, once in a flight.
  switchRendezvous() {
    if (this.switched === null && this.craft.flying && !this.craft.touched) this.switched = this.ticks + 1;
  }

  // Has the landing radar lost, or found again.
  switchLanding() {
    this.craft.lost = this.craft.isLost() ? null : this.craft.seconds;
  }

  // Goes back to the beginning, with a craft of the next seed.
  beginAgain() {
    this.seed = (this.seed + 1) % SEEDS;
    this.#next = new Craft(this.seed, this.start);
    if (this.ticks === 0) this.load(this.save());
    else this.#machine?.goThere(0, true).catch(() => {}); // the session has ended
  }

  radarWords() {
    const since = this.sinceSwitched();
    const begin = WATCHES.length * KEY_TICKS + WAIT_TICKS;
    if (since < 0) return 'off';
    if (since < begin) return 'to be switched on';
    return since < begin + RADAR_TICKS ? 'on' : 'off again';
  }

  view() {
    const { craft } = this;
    return {
      title: 'Lander',
      outcome: outcome(craft),
      drawing: drawing(flightOf(craft), this.behind),
      rows: [
        ['Altitude', `${fixed(craft.height, 1)} m`],
        ['Speed up', `${signed(craft.up, 2)} m/s`],
        ['Speed forward', `${signed(craft.forward, 2)} m/s`],
        ['To the site', `${fixed(craft.way, 0)} m`],
        ['Tilt', `${signed(degrees(craft.tilt), 1)}°`],
        ['Thrust', craft.engine ? `${((100 * craft.thrust) / FULL).toFixed(0)} %` : 'engine off'],
        ['Fuel', `${craft.fuel().toFixed(0)} kg`],
        ['Landing radar', craft.isLost() ? 'lost' : 'on'],
        ['Rendezvous radar', this.radarWords()],
      ],
      controls: [
        { name: 'rendezvous', label: 'Rendezvous radar: 1202' },
        { name: 'landing', label: 'Lose the landing radar, or find it' },
        { name: 'abort', label: 'Abort' },
        { name: 'again', label: 'Again with another seed' },
        { name: 'rate-up', label: 'Rate of descent: up' },
        { name: 'rate-down', label: 'Rate of descent: down' },
        { name: 'farther', label: 'Site farther' },
        { name: 'nearer', label: 'Site nearer' },
      ],
    };
  }

  // All that changes, so that the craft goes back in time with the machine.
  save(old) {
    const { ticks, behind, switched, clicked, held, typing } = this;
    if (!old) return { craft: this.craft.save(), ticks, behind, switched, clicked, held, typing };
    this.craft.save(old.craft);
    old.ticks = ticks;
    old.behind = behind;
    old.switched = switched;
    old.clicked = clicked;
    old.held = held;
    old.typing = typing;
    return old;
  }

  load({ craft, ticks, behind, switched, clicked, held, typing }) {
    Object.assign(this, { ticks, behind, switched, clicked, held, typing });
    const isAnew = ticks === 0 && this.#next;
    this.craft.load(isAnew ? this.#next.save() : craft);
    if (isAnew) this.#next = null;
  }
}
