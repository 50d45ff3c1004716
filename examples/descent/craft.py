#!/usr/bin/env python3
"""A lunar lander in lockstep with agc-console, which runs the rope beside this file.

The craft is a point mass with one angle in a vertical plane over a Moon that is a ball. Every hundredth of a second of machine
time it takes what the computer has written (jets, throttle, engine), moves, and gives back what the computer's
instruments count: pulses of the two accelerometers and of the tilt's encoder, and what the landing radar measures. Neither
side looks at a clock, so each flight is the same every time. The erasable load, the keys of the crew and the downlink's
interrupts come from here too. README.md has the craft's equations.
"""

import argparse
import copy
import math
import os
import sys
import threading
from contextlib import suppress

import side_view
from exact import SEEDS, Noise, degrees, nearest, sine_and_cosine

here = os.path.dirname(os.path.realpath(__file__))
sys.path.append(os.path.join(here, "..", "..", "clients", "python"))
from agc import Console, Error, Refused, Write  # noqa: E402

ROPE = os.path.join(here, "rope")
SECOND = 256000 / 3  # cycles
STEP = 0.01  # seconds

PIPAX, PIPAZ, CDUY, RNRAD = 0o37, 0o41, 0o33, 0o46
JETS, LAMPS, RADAR, RATE_SWITCH, CONTACT, HAND_CONTROLLER = 0o5, 0o11, 0o13, 0o16, 0o30, 0o31
THROTTLE, STAGING = 0o42, 0o43
ENGINE_ON = 1 << 12
KEYRUPT2, DOWNRUPT, RADARUPT, RUPT10 = 6, 8, 9, 10
ALTITUDE, FORWARD_SPEED, UPWARD_SPEED = 0o17, 0o16, 0o14  # what bits 1 to 4 of channel 13 want of the radar

GRAVITY = 1.62  # m/s/s, on the ground
MOON = 1737400.0  # m, from its middle to the site
EXHAUST = 3050.0  # m/s
PULSE = 0.0585  # m/s, of an accelerometer,
COARSE = 0.468  # and in its coarse range, for a script has no room for more pulses
FASTEST = {PIPAX: 32, PIPAZ: 32, CDUY: 64}  # pulses that an instrument sends in a hundredth of a second at most
DOWNLINK, SPARING = 10, 100  # hundredths of a second from one interrupt of the downlink to the next: at first, and from so many
MANY = 48000  # events of the craft on, for a script has no room for more
RADIAN = 3.141592653589793 / 180
DEGREE = 32768 / 360  # pulses of CDUY
TURNING = 4.0 * RADIAN  # what a jet brings each second, in radians a second
LAG = 0.2  # seconds, of the engine
FULL = 45000.0  # N
DRY = 6500.0  # kg, without fuel
LOADED = 8500.0  # kg, with all of it near the site,
LOADED_IN_ORBIT = 14700.0  # and in orbit
ASCENT_DRY = 2350.0  # kg, of the ascent stage without fuel
ASCENT_FUEL = 2350.0  # kg
ASCENT_THRUST = 15600.0  # N: this engine has no throttle
HIGHEST = 4095.0  # m: the radar sees no ground from above
LEG = 0.2  # m: a leg's probe touches the ground so high up
ORBITS = 5.0  # seconds that a flight goes on in orbit, or without fuel
LIMITS = (1.5, 0.6, 3.0)  # of a landing: m/s down, m/s forward or back, degrees
CLICKS = {
    "ROD+": (RATE_SWITCH, 0o40, 0, KEYRUPT2),
    "ROD-": (RATE_SWITCH, 0o100, 0, KEYRUPT2),
    "ACA+": (HAND_CONTROLLER, 0o77776, 0o77777, RUPT10),
    "ACA-": (HAND_CONTROLLER, 0o77775, 0o77777, RUPT10),
}
"""Clicks of the switch for the rate of descent and of the hand controller: channel, its word then and afterwards, interrupt."""
KEYS = (*"0123456789+-", "VERB", "NOUN", "ENTR", "CLR", "RSET", "KEYREL", "PRO", *CLICKS)
HELD = 20  # hundredths of a second in which PRO and clicks are held
FAULTS = ("radar", "forward-jet", "back-jet", "engine", "ascent-engine")


class Craft:
    """Where the craft is and how it moves, and what its instruments have counted."""

    def __init__(self, height=2300.0, way=7500.0, forward=150.0, down=45.0, seed=1, fuel=None, is_far=False):
        noise = Noise(seed)
        self.noise, self.is_far = noise, is_far
        self.height, self.way, self.forward, self.up = height, way, forward, -down
        loaded, tilt, mass_error, speed_error = (LOADED_IN_ORBIT, -90, 0.005, 0.05) if is_far else (LOADED, -43, 0.015, 1.0)
        spent = 0.0 if fuel is None else loaded - DRY - fuel
        self.mass = max(DRY, loaded * (1 + noise.between(-mass_error, mass_error)) - spent)
        self.known_height = height + noise.between(-40, 40)
        self.known_mass = loaded
        self.tilt = (tilt + noise.between(-3, 3)) * RADIAN
        self.turning = noise.between(-0.5, 0.5) * RADIAN
        self.known_forward = forward + noise.between(-2 * speed_error, 2 * speed_error)
        self.known_up = -down + noise.between(-speed_error, speed_error)
        self.wanted = self.answered = 0
        self.thrust = self.command = 25500.0
        self.jets = 0
        self.engine = False
        self.flying = False
        self.dry, self.ascent_fuel, self.staged = DRY, ASCENT_FUEL, False
        self.touched = None
        self.contact = False
        self.seconds = 0.0
        self.faults = []
        self.pulse, self.rounding = PULSE, 0.0
        self.counted = {PIPAX: 0.0, PIPAZ: 0.0}
        self.sent = {PIPAX: 0, PIPAZ: 0, CDUY: self.angle()}
        self.events = 0  # that the computer got from the craft

    def angle(self):
        return math.floor(degrees(self.tilt) * DEGREE)

    def fails(self, part):
        """Whether a part of the craft is at fault now."""
        return any(part == kind and begin <= self.seconds < end for kind, begin, end in self.faults)

    def take(self, write):
        """A channel write of the computer."""
        if write.channel == JETS:
            self.jets = write.value
        elif write.channel == THROTTLE:
            self.command = 4.0 * write.value
        elif write.channel == RADAR:
            self.wanted = write.value & 0o17
        elif write.channel == STAGING:
            self.stage(write.value)
            self.scale_pulses(write.value)
        elif write.channel == LAMPS:
            self.engine = bool(write.value & ENGINE_ON)
            self.flying = self.flying or self.engine

    def commanded(self):
        """What the writes of the computer have set."""
        return self.jets, self.command, self.wanted, self.engine, self.flying, self.staged, self.pulse

    def step(self):
        """Moves for a hundredth of a second. The craft is held until its engine is on for the first time."""
        self.seconds += STEP
        if not self.flying:
            return
        self.burn()
        if self.touched:
            self.counted[PIPAX] += GRAVITY * STEP
            return
        sine, cosine = sine_and_cosine(self.tilt)
        push = self.thrust / self.mass
        along, up = push * sine, push * cosine
        counted = self.counted
        counted[PIPAZ] += along * STEP
        counted[PIPAX] += up * STEP
        turned = self.turning
        if self.jets or self.faults:
            forward_jet = self.jets & 1 or self.fails("forward-jet")
            back_jet = self.jets & 2 or self.fails("back-jet")
            self.turning += TURNING * (bool(forward_jet) - bool(back_jet)) * STEP
        self.tilt += (turned + self.turning) / 2 * STEP
        pull = self.pull()
        self.forward += (along - self.forward * self.up / (MOON + self.height)) * STEP
        self.up += (up - pull) * STEP
        self.way -= self.forward * STEP
        self.height += self.up * STEP
        if self.height <= 0:
            self.touch()

    def pull(self):
        """Gravity, less what the forward speed makes up for."""
        radius = MOON + self.height
        return GRAVITY * (MOON / radius) * (MOON / radius) - self.forward * self.forward / radius

    def stage(self, word):
        """Drops the descent stage, if bit 1 says so. The ascent stage has an engine and fuel of its own."""
        if word & 1 and not self.staged:
            self.staged, self.thrust = True, 0.0
            self.dry, self.mass = ASCENT_DRY, ASCENT_DRY + self.ascent_fuel

    def scale_pulses(self, word):
        """Gives the accelerometers their coarse range if bit 2 says so, or else the fine one. What is not yet a pulse is kept. Coarse
        pulses are rounded, so that no speed is lost on the average."""
        pulse = COARSE if word & 2 else PULSE
        if pulse != self.pulse:
            for counter in self.counted:
                self.counted[counter] -= self.sent[counter] * self.pulse
                self.sent[counter] = 0
            self.pulse, self.rounding = pulse, 0.5 if word & 2 else 0.0

    def fuel(self):
        """The fuel of the stage in use, in kg."""
        return self.mass - self.dry

    def orbit(self):
        """The heights of apolune and perilune in m, by Kepler's laws."""
        radius, moon = MOON + self.height, GRAVITY * MOON * MOON
        swept = radius * self.forward
        energy = (self.forward * self.forward + self.up * self.up) / 2 - moon / radius
        eccentricity = math.sqrt(max(0.0, 1 + 2 * energy * swept * swept / (moon * moon)))
        middle = -moon / (2 * energy)
        return middle * (1 + eccentricity) - MOON, middle * (1 - eccentricity) - MOON

    def in_orbit(self):
        """Whether the engine is off in an orbit that does not come to the ground."""
        return self.flying and not self.engine and not self.touched and self.orbit()[1] > 0

    def burn(self):
        """The engine follows its command with a lag, and burns fuel while there is some."""
        fails = self.faults and self.fails("ascent-engine" if self.staged else "engine")
        full = ASCENT_THRUST if self.staged else self.command
        wanted = full if self.engine and not fails else 0.0
        self.thrust += (wanted - self.thrust) * STEP / LAG
        self.mass -= self.thrust / EXHAUST * STEP
        if self.mass <= self.dry:
            self.mass, self.thrust = self.dry, 0.0

    def touch(self):
        """The ground stops the craft, and its accelerometers count that."""
        self.touched = (self.up, self.forward, degrees(self.tilt), self.way)
        self.counted[PIPAX] -= self.up
        self.counted[PIPAZ] -= self.forward
        self.up = self.forward = self.turning = 0.0

    def landed(self):
        """Whether the craft touched the ground within the limits of a landing."""
        if not self.touched:
            return False
        down, forward, tilt = LIMITS
        return self.touched[0] > -down and abs(self.touched[1]) < forward and abs(self.touched[2]) < tilt

    def pulses(self):
        """The pulses since the last call: counter, kind and how many."""
        up, forward = (math.floor(self.counted[counter] / self.pulse + self.rounding) for counter in (PIPAX, PIPAZ))
        counts = {PIPAX: up, PIPAZ: forward, CDUY: self.angle()}
        if counts == self.sent:  # in every third step
            return
        for counter, value in counts.items():
            more = value - self.sent[counter]
            if more:
                more = max(-FASTEST[counter], min(FASTEST[counter], more))
                self.sent[counter] += more
                self.events += abs(more)
                kinds = ("pcdu", "mcdu") if counter == CDUY else ("pinc", "minc")
                yield counter, kinds[more < 0], abs(more)

    def radar(self):
        """The radar's word, once for each change of what channel 13 wants; None without one."""
        if self.wanted == self.answered or self.fails("radar") or not self.flying or self.touched or self.height > HIGHEST:
            return None
        self.answered = self.wanted
        if self.wanted == ALTITUDE:
            seen = self.height + self.noise.normal(0.3 + 0.005 * abs(self.height))
            return max(1, min(16383, nearest(4 * seen)))
        sine, cosine = sine_and_cosine(self.tilt)
        if self.wanted == FORWARD_SPEED:
            return self.speed_word(self.forward * cosine - self.up * sine)
        if self.wanted == UPWARD_SPEED:
            return self.speed_word(self.forward * sine + self.up * cosine)
        return None

    def speed_word(self, speed):
        """A speed with the radar's noise, in 64ths of m/s."""
        seen = 64 * (speed + self.noise.normal(0.1 + 0.005 * abs(speed)))
        magnitude = min(16383, nearest(abs(seen)))
        return magnitude if seen >= 0 else magnitude ^ 0o77777


ORBIT_LOAD = (3, 0o100, 2)  # the cell ORBNAV


def double(value):
    """A number as two words of fourteen digits, the upper one in units of one."""
    parts = nearest(abs(value) * 16384)
    upper, lower = parts >> 14, parts & 0o37777
    return (upper, lower) if value >= 0 else (upper ^ 0o77777, lower ^ 0o77777)


def load(craft):
    """The erasable load: bank, offset and word of each cell. Far from the site it is in the units of an orbit, and says so."""
    state = [-craft.way, 64 * craft.known_forward, craft.known_height, 64 * craft.known_up]
    if craft.is_far:
        state = [value / 32 for value in state]
    words = [word for value in (*state, craft.known_mass) for word in double(value)]
    cells = [(3, offset, word) for offset, word in enumerate(words)] + [(0, CDUY, craft.angle() % 32768)]
    return [*cells, ORBIT_LOAD] if craft.is_far else cells


APPROACH = {0.5 + 0.25 * n: key for n, key in enumerate("VERB 3 7 ENTR 6 4 ENTR PRO".split())}
BRAKING = {0.5 + 0.25 * n: key for n, key in enumerate("VERB 3 7 ENTR 6 3 ENTR PRO".split())}


def report(agc, craft, step):
    """Sends the computer what the instruments counted in a step, what the radar measured, and the downlink's interrupt."""
    for counter, kind, count in craft.pulses():
        for _ in range(count):
            agc.pulse(counter, kind)
    word = craft.radar()
    if word is not None:
        agc.poke(0, RNRAD, word)
        agc.raise_interrupt(RADARUPT)
        craft.events += 2
    if not craft.contact and craft.height <= LEG:
        craft.contact = True
        agc.input(CONTACT, 0o37577)
    if step % (DOWNLINK if craft.events < MANY else SPARING) == 0:
        agc.raise_interrupt(DOWNRUPT)
        craft.events += 1


def press(agc, key):
    """Presses a key of the display, or clicks a switch of the cabin. Returns whether it must be released."""
    if key == "PRO":
        agc.pro(True)
    elif key in CLICKS:
        channel, word, _, interrupt = CLICKS[key]
        agc.input(channel, word)
        agc.raise_interrupt(interrupt)
    else:
        agc.key(key)
    return key == "PRO" or key in CLICKS


def release(agc, key):
    """Releases PRO or a switch."""
    if key == "PRO":
        agc.pro(False)
    else:
        channel, _, word, _ = CLICKS[key]
        agc.input(channel, word)


def abort_has_ended(agc, craft):
    """Whether an abort is over: the craft is in orbit, or the ascent stage is out of fuel."""
    return (craft.in_orbit() or craft.staged and craft.mass <= craft.dry) and agc.panel()["PROG"] in ("70", "71")


def fly(agc, craft, keys=APPROACH, seconds=1500, disturb=None):
    """Flies, and yields the seconds and the writes of each step, up to three seconds after the ground, or five after the end
    of an abort, or ten after the last key if the engine is not on by then.

    keys says which key comes at which second; disturb is called at each step for what else happens there. The events of a
    step go to the console with the next command."""
    agc.defer()
    try:
        yield from steps_of(agc, craft, keys, seconds, disturb)
    finally:
        agc.defer(False)


def steps_of(agc, craft, keys, seconds, disturb):
    """The steps of fly."""
    for bank, offset, word in load(craft):
        agc.poke(bank, offset, word)
    due = sorted(keys.items())
    last_key = due[-1][0] if due else 0
    held = []  # each key that is held, and the step of its release
    ended = None
    for step in range(1, round(seconds / STEP) + 1):
        now = step * STEP
        writes = agc.go_to(step * 2560 // 3)
        for write in writes:
            craft.take(write)
        craft.step()
        report(agc, craft, step)
        while held and step >= held[0][1]:
            release(agc, held.pop(0)[0])
        while due and due[0][0] <= now + 1e-9:
            key = due.pop(0)[1]
            if press(agc, key):
                held.append((key, step + HELD))
        if disturb:
            disturb(agc, now)
        yield now, writes
        if craft.touched:
            ended = ended or now
            if now - ended >= 3:
                return
        elif step % 100 == 0:
            if abort_has_ended(agc, craft):
                ended = ended or now
                if now - ended >= ORBITS:
                    return
            if not craft.flying and now > last_key + 10:
                return


def touchdown(craft):
    """Returns how the craft touched the ground."""
    up, forward, tilt, way = craft.touched
    verdict = "within the limits" if craft.landed() else "OUTSIDE THE LIMITS"
    return f"{up:+.2f} m/s up, {forward:+.2f} m/s forward, tilt {tilt:+.2f}, {way:+.1f} m to go: {verdict}"


def orbit_in_words(craft):
    """Returns the orbit that ends an abort, or nothing."""
    if not craft.in_orbit():
        return ""
    apolune, perilune = craft.orbit()
    return f"Aborted: orbit of {apolune / 1000:.0f} by {perilune / 1000:.0f} km"


def outcome(craft):
    """Returns how the flight has ended in words and whether that is good, for the page; nothing before the end."""
    if not craft.touched:
        is_out = craft.staged and craft.mass <= craft.dry  # the descent stage alone is not the end
        return {"text": orbit_in_words(craft) or ("Out of fuel" if is_out else ""), "good": False}
    up, forward, tilt, way = craft.touched
    place = f"{abs(way):.0f} m from the site"
    if craft.landed():
        return {"text": f"Landed: {-up:.2f} m/s, {place}", "good": True}
    found = ((-up, "m/s down"), (abs(forward), "m/s sideways"), (abs(tilt), "degrees of tilt"))
    why = [f"{value:.2f} {unit}, at most {most:g}" for (value, unit), most in zip(found, LIMITS) if not value < most]
    return {"text": f"{'Out of fuel' if craft.mass <= craft.dry else 'Crashed'}: {'; '.join(why)}; {place}", "good": False}


def flight_of(craft):
    """Returns what the side view draws of a craft."""
    moves = craft.flying and not craft.touched
    push = craft.thrust / craft.mass if moves else 0.0
    sine, cosine = sine_and_cosine(craft.tilt)
    return side_view.Flight(
        -craft.way, max(0.0, craft.height), craft.forward, craft.up, craft.tilt,
        craft.thrust / FULL if moves else 0.0, (craft.jets & 1 > 0, craft.jets & 2 > 0),
        (push * sine, push * cosine - craft.pull()), not moves,
    )


def unsigned_zero(value, digits):
    """Rounds a number, and gives zero no sign."""
    return round(value, digits) + 0.0


WATCHES = "VERB 1 6 NOUN 6 8 ENTR".split()  # the crew watches the range, which takes time of the computer
ABORT = "VERB 3 7 ENTR 7 0 ENTR".split()
RENDEZVOUS = 0o36  # counts the rendezvous radar's angle
PULSES = 65  # of it in a hundredth of a second, each a cycle: some 6,500 a second
SWITCHES = {"rate-up": "ROD+", "rate-down": "ROD-", "farther": "ACA+", "nearer": "ACA-"}  # the buttons that are clicks
KEY_TICKS, WAIT_TICKS, RADAR_TICKS = 25, 200, 500  # between two keys; from the last one to the pulses; of pulses


class Instrument:
    """The craft as an instrument of agc-web. The user presses the keys: V37E, 64E, then PRO."""

    def __init__(self, craft, seed=1, craft_of_seed=None):
        self.craft = craft
        self.ticks = 0
        self.behind = ()  # where the craft was, second by second
        self.switched = None  # the tick at which the rendezvous radar was switched on
        self.clicked = ()  # clicks that come with the next tick
        self.held = ()  # each click that is held, and the tick of its release
        self.typing = ()  # the keys of a button that are still to be pressed
        self.seed = seed
        self.craft_of_seed = craft_of_seed or (lambda seed: Craft(seed=seed))
        self.session = self.next_craft = None

    def attach(self, session):
        """Keeps the session, which can go back."""
        self.session = session

    def tick(self, agc, cycle):
        """Moves for a hundredth of a second by what the computer commands."""
        if self.ticks == 0:
            for bank, offset, word in load(self.craft):
                agc.poke(bank, offset, word)
        self.ticks += 1
        channels = (JETS, THROTTLE, LAMPS, RADAR, STAGING)
        for channel, word in zip(channels, agc.channels(channels)):
            self.craft.take(Write(cycle, channel, word))
        self.craft.step()
        agc.defer()
        try:
            report(agc, self.craft, self.ticks)
            self.rendezvous(agc)
            self.click(agc)
            self.type_next(agc)
        finally:
            agc.defer(False)
        if self.ticks % 100 == 0 and self.craft.flying and not self.craft.touched:
            self.behind += ((-self.craft.way, self.craft.height),)

    def rendezvous(self, agc):
        """Has the crew watch the range, and sends the rendezvous radar's pulses: together they are more than the computer
        has time for, and the alarm is 1202. A script has no room for the pulses of many seconds."""
        since = -1 if self.switched is None else self.ticks - self.switched
        keyed = len(WATCHES) * KEY_TICKS
        if 0 <= since < keyed and since % KEY_TICKS == 0:
            agc.key(WATCHES[since // KEY_TICKS])
        elif 0 <= since - keyed - WAIT_TICKS < RADAR_TICKS:
            for _ in range(PULSES):
                agc.pulse(RENDEZVOUS, "pcdu")

    def type_next(self, agc):
        """Presses the next key that a button has typed, four a second."""
        if self.typing and self.ticks % KEY_TICKS == 0:
            agc.key(self.typing[0])
            self.typing = self.typing[1:]

    def click(self, agc):
        """Clicks the switches whose buttons went down, and releases those that were held long enough."""
        for key, tick in self.held:
            if tick == self.ticks:
                release(agc, key)
        for key in self.clicked:
            press(agc, key)
        ended = self.ticks + HELD
        self.held = (*(each for each in self.held if each[1] > self.ticks), *((key, ended) for key in self.clicked))
        self.clicked = ()

    def control(self, name, down):
        """Does what a button of the page says, as it goes down."""
        if name in SWITCHES:
            self.clicked += (SWITCHES[name],) * down
            return
        acts = {
            "rendezvous": self.switch_rendezvous, "landing": self.switch_landing, "again": self.begin_again, "abort": self.type_abort,
        }
        act = acts[name]
        if down:
            act()

    def type_abort(self):
        """Types V37E70E, in flight, unless keys are being typed."""
        if self.craft.flying and not self.craft.touched and not self.typing:
            self.typing = ABORT

    def switch_rendezvous(self):
        """Switches the rendezvous radar on, once in a flight."""
        if self.switched is None and self.craft.flying and not self.craft.touched:
            self.switched = self.ticks + 1

    def switch_landing(self):
        """Has the landing radar lost, or found again."""
        now = self.craft.seconds
        lost = self.craft.fails("radar")
        others = [fault for fault in self.craft.faults if fault[0] != "radar"]
        self.craft.faults = others if lost else [*others, ("radar", now, float("inf"))]

    def begin_again(self):
        """Goes back to the beginning, with a craft of the next seed. The session waits for us, so a thread asks it."""
        self.seed = (self.seed + 1) % SEEDS
        self.next_craft = self.craft_of_seed(self.seed)
        if self.ticks == 0:
            self.load(self.save())
        elif self.session is not None:
            threading.Thread(target=self.go_back, daemon=True).start()

    def go_back(self):
        """Goes back to the beginning."""
        with suppress(Exception):  # the session has ended
            self.session.go_there(0, True)

    def radar_words(self):
        """Returns what the rendezvous radar does, in words."""
        since = -1 if self.switched is None else self.ticks - self.switched
        begin = len(WATCHES) * KEY_TICKS + WAIT_TICKS
        if since < 0:
            return "off"
        return "to be switched on" if since < begin else "on" if since < begin + RADAR_TICKS else "off again"

    def view(self):
        """Returns what the page shows."""
        craft = self.craft
        tilt = degrees(craft.tilt)
        return {
            "title": "Lander",
            "outcome": outcome(craft),
            "drawing": side_view.drawing(flight_of(craft), self.behind),
            "rows": [
                ["Altitude", f"{unsigned_zero(craft.height, 1):.1f} m"],
                ["Speed up", f"{unsigned_zero(craft.up, 2):+.2f} m/s"],
                ["Speed forward", f"{unsigned_zero(craft.forward, 2):+.2f} m/s"],
                ["To the site", f"{unsigned_zero(craft.way, 0):.0f} m"],
                ["Tilt", f"{unsigned_zero(tilt, 1):+.1f}°"],
                ["Thrust", f"{100 * craft.thrust / FULL:.0f} %" if craft.engine else "engine off"],
                ["Fuel", f"{craft.fuel():.0f} kg"],
                ["Landing radar", "lost" if craft.fails("radar") else "on"],
                ["Rendezvous radar", self.radar_words()],
            ],
            "controls": [
                {"name": "rendezvous", "label": "Rendezvous radar: 1202"},
                {"name": "landing", "label": "Lose the landing radar, or find it"},
                {"name": "abort", "label": "Abort"},
                {"name": "again", "label": "Again with another seed"},
                {"name": "rate-up", "label": "Rate of descent: up"},
                {"name": "rate-down", "label": "Rate of descent: down"},
                {"name": "farther", "label": "Site farther"},
                {"name": "nearer", "label": "Site nearer"},
            ],
        }

    def save(self):
        """Returns all that changes, so that the craft goes back in time with the machine."""
        return copy.deepcopy(vars(self.craft)), self.ticks, self.behind, self.switched, self.clicked, self.held, self.typing

    def load(self, state):
        """Restores a saved state."""
        changing, self.ticks, self.behind, self.switched, self.clicked, self.held, self.typing = state
        if self.ticks == 0 and self.next_craft is not None:
            changing, self.next_craft = vars(self.next_craft), None
        vars(self.craft).update(copy.deepcopy(changing))


def show_in_browser(words, craft):
    """Shows craft and DSKY in a browser until Control-C."""
    import agc_web
    from agc_web.beside import Beside, opened, texts_of
    from agc_web.command import attached

    instrument = Instrument(craft, words.seed, lambda seed: craft_of(words, seed))
    start = lambda names: Console(words.rope, words.script, names=names, program=words.program, detached=True)
    note = lambda text: print(f"craft: {text}", file=sys.stderr)
    texts = texts_of({}, words.rope, note)
    if words.orbit:
        texts["guide"] = None  # its steps land from high gate
    agc, found = opened(start, Beside(**texts), words.rope, note)
    others = attached(words.instruments, words.listen)

    def begin(session):
        instrument.attach(session)
        if others:
            others(session)

    with agc:
        try:
            agc_web.serve(
                agc, [instrument], port=words.port, save=words.save, listen=words.listen, begin=begin, **found._asdict(),
            )
        except OSError as error:
            sys.exit(f"craft: {'port' if error.filename is None else error.filename}: {error.strerror}")


HEAD = "   time  height      up  forward    tilt  thrust   fuel  shown"


def line_of(now, craft, panel):
    """A line of the table."""
    shown = " ".join(panel[name] for name in ("PROG", "VERB", "NOUN", "R1", "R2", "R3"))
    return (
        f"{now:7.1f} {craft.height:7.1f} {craft.up:7.2f} {craft.forward:8.2f} {degrees(craft.tilt):7.2f} "
        f"{100 * craft.thrust / FULL:6.1f}% {craft.fuel():6.0f}  {shown}"
    )


def write(path, mode, text):
    """Writes a text to a file, or ends the program in a sentence."""
    try:
        with open(path, mode) as file:
            file.write(text)
    except OSError as error:
        sys.exit(f"craft: cannot write {path}: {error.strerror}")


def draw(rows, file):
    """Height, speeds, tilt and thrust over time, where matplotlib is there."""
    try:
        from matplotlib.figure import Figure
    except ImportError:
        sys.exit("no picture is drawn: there is no matplotlib")
    figure = Figure(figsize=(8, 7), layout="tight")
    axes = figure.subplots(4, sharex=True)
    names = ("height, m", "m/s", "tilt, degrees", "thrust, % of 45 kN")
    times = [row[0] for row in rows]
    for place, (name, columns) in enumerate(zip(names, ((1,), (2, 3), (4,), (5,)))):
        for column in columns:
            axes[place].plot(times, [row[column] for row in rows])
        axes[place].set_ylabel(name)
        axes[place].grid(alpha=0.3)
    axes[1].legend(("up", "forward"))
    axes[-1].set_xlabel("seconds")
    try:
        figure.savefig(file, dpi=80)
    except (OSError, ValueError) as error:
        sys.exit(f"craft: cannot draw {file}: {error}")


def finite(text):
    """Returns the number that a word of the command line names; infinity and nan are refused."""
    number = float(text)
    if not math.isfinite(number):
        raise argparse.ArgumentTypeError(f"{text} is not finite")
    return number


def key_at(text):
    """Returns the second and the key that a word of the command line names."""
    second, _, key = text.partition(":")
    if key not in KEYS:
        raise argparse.ArgumentTypeError(f"{text} names no key: SECOND:KEY, as 60:VERB")
    return finite(second), key


HIGH_GATE = {"height": 2300.0, "way": 7500.0, "forward": 150.0, "down": 45.0}
BEFORE_HIGH_GATE = {"height": 3900.0, "way": 15000.0, "forward": 200.0, "down": 50.0}
IN_ORBIT = {"height": 15000.0, "way": 500000.0, "forward": 1692.0, "down": 0.0}
"""Where a flight starts if the command line does not say so: by P64; by P63; and by P63 in orbit."""

RANGES = {"height": (30, 4000), "way": (0, 15000), "forward": (-20, 180), "down": (-20, 100)}
BRAKING_RANGES = {"height": (2500, 4000), "way": (9000, 15500), "forward": (120, 210), "down": (0, 80)}
ORBIT_RANGES = {"height": (13000, 16000), "way": (470000, 520000), "forward": (1660, 1700), "down": (-5, 10)}
"""What these may start from."""

LOADS = {"seed": (0, SEEDS - 1), "fuel": (0, 2000), "ascent_fuel": (0, 2350), "loaded_height": (-16000, 16000), "loaded_mass": (-16000, 16000)}
"""What else has a range."""


def begins(words):
    """Returns where a flight starts by itself, its ranges and its keys."""
    if words.orbit:
        return IN_ORBIT, {**ORBIT_RANGES, **LOADS, "fuel": (0, 8200)}, BRAKING
    if words.braking:
        return BEFORE_HIGH_GATE, {**BRAKING_RANGES, **LOADS}, BRAKING
    return HIGH_GATE, {**RANGES, **LOADS}, APPROACH


def refusal(words):
    """Returns why a flight cannot start so, or None. The page gives the range and its reasons."""
    for name, (low, high) in begins(words)[1].items():
        value = getattr(words, name)
        if value is not None and not low <= value <= high:
            return f"argument --{name.replace('_', '-')}: {value:g} is outside {low} to {high}"
    least = height_to_stop(words.down)
    if words.height < least:
        return f"argument --down: from {words.height:g} m nobody stops {words.down:g} m/s: this needs {least:.0f} m"
    return None


def height_to_stop(down):
    """Returns the height in which the craft can stop its speed down: ten seconds to turn, then 2 m/s/s."""
    return 20 + max(0.0, down) * (10 + max(0.0, down) / 4)


def fault_at(text):
    """Returns the part, the first and the last second of a fault that a word of the command line names."""
    part, *seconds = text.split(":")
    if part not in FAULTS or not 1 <= len(seconds) <= 2:
        parts = ", ".join(FAULTS)
        raise argparse.ArgumentTypeError(f"{text} names no fault: PART:SECOND[:SECONDS], as radar:60; parts are {parts}")
    begin = finite(seconds[0])
    return part, begin, begin + (finite(seconds[1]) if len(seconds) > 1 else 1e9)


def asked():
    parser = argparse.ArgumentParser(description="Flies a lunar landing with the rope beside this file.")
    add = parser.add_argument
    add("--height", type=finite, help="metres above the site at the start, 30 to 4000 (2300)")
    add("--way", type=finite, help="metres before the site, 0 to 15000 (7500)")
    add("--forward", type=finite, help="forward speed, -20 to 180 m/s (150)")
    add("--down", type=finite, help="speed down, -20 to 100 m/s (45)")
    start = parser.add_mutually_exclusive_group().add_argument
    start("--braking", action="store_true", help="start before high gate, by P63: 15000 m, 3900 m up, 200 m/s, 50 m/s down")
    start("--orbit", action="store_true", help="start in orbit, by P63: 500000 m, 15000 m up, 1692 m/s")
    add("--seed", type=int, default=1, help="for the radar's noise, mass, tilt and the known height (1)")
    add("--key", action="append", type=key_at, default=[], metavar="SECOND:KEY", help="one more key, as 60:VERB")
    add("--script", default=os.devnull, help="a script whose events happen as well")
    add("--fuel", type=finite, help="kg of fuel, 0 to 2000 (2000), in orbit to 8200 (8200); the computer is not told")
    add("--ascent-fuel", type=finite, default=ASCENT_FUEL, help="kg of fuel in the ascent stage, 0 to 2350 (2350)")
    add("--loaded-height", type=finite, metavar="HEIGHT", help="the height in the erasable load, instead of the right one")
    add("--loaded-mass", type=finite, metavar="MASS", help="the mass in the erasable load (8500)")
    add("--fault", action="append", type=fault_at, default=[], metavar="PART:SECOND[:SECONDS]",
        help=f"from a second on a part does not work, or a jet burns: {', '.join(FAULTS)}")
    add("--every", type=finite, default=10.0, help="seconds from line to line of the table (10)")
    add("--save", metavar="FILE", help="write the script that repeats the flight")
    add("--png", metavar="FILE", help="draw the flight, by matplotlib")
    add("--web", action="store_true", help="show craft and DSKY in a browser; you press the keys")
    add("--port", type=int, help="the port of --web (8437, or a free one)")
    add("--listen", metavar="ADDRESS", default="127.0.0.1", help="the address of --web and --instruments (127.0.0.1)")
    add("--instruments", type=int, metavar="PORT", help="with --web, serve instruments of Virtual AGC from this port on")
    add("--rope", default=ROPE, help="another rope")
    add("--program", help="another agc-console")
    words = parser.parse_args()
    for name, value in begins(words)[0].items():
        if getattr(words, name) is None:
            setattr(words, name, value)
    wrong = refusal(words)
    if wrong:
        parser.error(wrong)
    return words


def craft_of(words, seed=None):
    """Returns the craft that the command line describes, or that with another seed."""
    seed = words.seed if seed is None else seed
    craft = Craft(words.height, words.way, words.forward, words.down, seed, words.fuel, bool(words.orbit))
    craft.faults = words.fault
    craft.ascent_fuel = words.ascent_fuel
    if words.loaded_height is not None:
        craft.known_height = words.loaded_height
    if words.loaded_mass is not None:
        craft.known_mass = words.loaded_mass
    return craft


def ending(agc, craft):
    """Returns how the flight ended."""
    if craft.touched:
        return f"on the ground: {touchdown(craft)}"
    if abort_has_ended(agc, craft) and not craft.in_orbit():
        return f"Aborted: out of fuel, {craft.height / 1000:.1f} km high, {craft.up:+.2f} m/s up, {craft.forward:+.2f} m/s forward"
    return orbit_in_words(craft) or "not on the ground"


def alarm_of(agc):
    """Returns the last alarm's code as the end of a line; nothing without one."""
    code = agc.cell("FAILREG+2")
    return f", alarm {code:05o}" if code else ""


def table_of(agc, craft, words, keys):
    """Flies, prints the table, and returns the rows of the picture."""
    now, rows = 0.0, []
    every = max(1, nearest(words.every / STEP))
    print(HEAD)
    try:
        for now, _ in fly(agc, craft, keys):
            step = nearest(now / STEP)
            if step % every == 0:
                print(line_of(now, craft, agc.panel()))
            if step % 50 == 0:
                rows.append((now, craft.height, craft.up, craft.forward, degrees(craft.tilt), 100 * craft.thrust / FULL))
    except Refused as refused:
        print(f"craft: the flight ends at {now:.2f} s: {refused}", file=sys.stderr)
    print(line_of(now, craft, agc.panel()))
    return rows


def main():
    words = asked()
    keys = {**begins(words)[2], **dict(words.key)}
    craft = craft_of(words)
    if words.web:
        show_in_browser(words, craft)
        return
    if words.save is not None:
        write(words.save, "a", "")  # a flight that cannot be saved is not made
    names = os.path.join(here, "names") if words.rope == ROPE else None
    with Console(words.rope, words.script, names=names, program=words.program) as agc:
        try:
            rows = table_of(agc, craft, words, keys)
        except Error:
            if words.save is not None:
                write(words.save, "w", agc.script())  # as far as the flight came
            raise
        script = agc.script()
        print(ending(agc, craft))
        alarm = alarm_of(agc) if names else ""
        print(f"{len(script.splitlines())} events by cycle {agc.cycle}, program {agc.panel()['PROG']}{alarm}")
        if words.save is not None:
            write(words.save, "w", script)
    if words.png:
        draw(rows, words.png)


def main_or_sentence():
    """Runs main. What goes wrong ends the program in a sentence; a reader of the table who has seen enough ends it quietly."""
    try:
        main()
        sys.stdout.flush()
    except Error as error:
        sys.exit(f"craft: {error}")
    except KeyboardInterrupt:
        sys.exit(130)
    except OSError as error:
        os.dup2(os.open(os.devnull, os.O_WRONLY), 1)  # what is left to be printed has nowhere to go
        sys.exit(141 if isinstance(error, BrokenPipeError) else f"craft: cannot print: {error.strerror}")


if __name__ == "__main__":
    main_or_sentence()
