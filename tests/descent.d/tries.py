"""Tries of examples/descent. The words are the names of tries.

What is expected stands here as numbers that were worked out from the formulas in the example's README, and not with the
program. A tolerance is what the scaling leaves open.
"""

import csv
import io
import math
import multiprocessing
import os
import random
import re
import subprocess
import sys

import assembler
import craft as example
import exact
from agc import Console
from emulator import compile_emulator
from judge import AGC, CONSOLE, STUDY, attempt, finish, judge, near, scratch_folder
from uplinks import try_uplink

agc, console, study = AGC, CONSOLE, STUDY
scratch = scratch_folder()
folder = os.path.dirname(os.path.realpath(example.__file__))
HOUR = int(os.environ.get("HOUR", 307_200_000))
SECOND = example.SECOND
FLIGHTS = int(os.environ.get("FLIGHTS", 36))
FORCED = int(os.environ.get("FORCED", 4))
ORBITS = int(os.environ.get("ORBITS", 4))
JOBS = int(os.environ.get("JOBS", len(os.sched_getaffinity(0))))


def names():
    """The places of the names file, as the console takes them."""
    with open(os.path.join(folder, "names")) as file:
        return {line.split()[1]: line.split()[0] for line in file if line.strip() and not line.startswith("#")}


PLACES = names()
SPEC = "0,200,10,0,340,0,350"
PROGRAM: dict = {}


def signed(word):
    """A word in ones' complement."""
    return word if word < 0o40000 else word - 0o77777


class Machine(Console):
    """A console on the example's rope, with the names of its cells."""

    def __init__(self, script=os.devnull):
        super().__init__(example.ROPE, script, program=[console])

    def word(self, name, beyond=0):
        bank, offset = PLACES[name].split(",")
        address = int(offset, 8) + beyond
        return signed(self.cell(f"{bank},{address:04o}" if bank not in ("E0", "E1", "E2") else address))

    def both(self, name):
        return self.word(name) + self.word(name, 1) / 16384

    def put(self, name, word, beyond=0):
        bank, offset = PLACES[name].split(",")
        bank, offset = int(bank[1:]), int(offset, 8) + beyond
        if bank < 3:
            bank, offset = offset >> 8, offset & 0o377
        else:
            offset -= 0o1400
        self.poke(bank, offset, word if word >= 0 else word + 0o77777)

    def put_both(self, name, value):
        for beyond, word in enumerate(example.double(value)):
            self.put(name, word, beyond)

    def radar(self, *words):
        """Has the landing radar's words come."""
        for beyond, word in enumerate(words):
            self.put("RADWORD", word, beyond)
        self.put("RADGOT", len(words))

    def seconds(self, seconds):
        return self.go(round(seconds * SECOND))

    def press(self, keys, gap=0.25):
        for key in keys.split():
            if key == "PRO":
                self.pro(True)
                self.seconds(0.1)
                self.pro(False)
            else:
                self.key(key)
            self.seconds(gap)

    def shown(self):
        """PROG, VERB, NOUN and the registers, the flash, and the lamps without COMP ACTY."""
        panel = self.panel()
        lamps = [lamp for lamp in panel["LAMPS"].split(", ") if lamp not in ("COMP ACTY", "none")]
        return " ".join([*(panel[name] for name in ("PROG", "VERB", "NOUN", "R1", "R2", "R3")), panel["FLASH"], *lamps])


def ran(*words):
    return subprocess.run(words, capture_output=True, text=True)


EMULATOR = os.path.join(scratch, "emulator")


def emulated(script, cycle):
    """The lines that the other emulator prints of a script: display, end and writes, as `agc --log`."""
    return ran(EMULATOR, example.ROPE, script, str(cycle)).stdout.splitlines()


# flights


def start_of(seed):
    """The start of a flight: of six seeds two are near high gate, one hovers above the site, and three are anywhere in the
    range."""
    noise = random.Random(1000 + seed)
    if seed % 6 < 2:
        return [noise.uniform(*span) for span in ((2200, 2400), (7000, 8000), (142, 158), (40, 50))]
    if seed % 6 == 2:
        return [noise.uniform(30, 1000), 0.0, 0.0, 0.0]
    while True:
        start = [noise.uniform(*example.RANGES[name]) for name in ("height", "way", "forward", "down")]
        if start[0] >= example.height_to_stop(start[3]):
            return start


def is_too_fast(way, forward):
    """Whether the forward speed takes less than 45 seconds to the site: alarm 3003 may come."""
    return way < 45 * abs(forward)


def craft_at(start, seed):
    """The craft at a start: height, way, forward, down."""
    return example.Craft(*start, seed, is_far=start[1] > 20000)


class Engines:
    """What the computer's channel writes make of jets, engine and stages, for the second integration."""

    def __init__(self, mass, thrust):
        self.mass, self.thrust, self.aim = mass, thrust, thrust
        self.jets, self.is_on, self.is_flying, self.is_staged, self.is_dry = 0, False, False, False, False

    def look(self):
        """A hundredth of a second begins: the thrust takes a twentieth of what it differs from the command. There is none from
        the hundredth on in which the fuel ends."""
        aim = (15600.0 if self.is_staged else self.aim) if self.is_on and not self.is_dry else 0.0
        self.thrust += (aim - self.thrust) / 20
        self.is_dry = self.is_dry or self.mass - self.thrust / 3050 * 0.01 <= (2350 if self.is_staged else 6500)
        self.thrust = 0.0 if self.is_dry else self.thrust

    def take(self, write):
        if write.channel == 0o5:
            self.jets = (write.value & 1) - (write.value >> 1 & 1)
        elif write.channel == 0o42:
            self.aim = 4.0 * write.value
        elif write.channel == 0o43 and write.value & 1 and not self.is_staged:
            self.is_staged, self.is_dry, self.mass, self.thrust = True, False, 4700.0, 0.0
        elif write.channel == 0o11:
            self.is_on = write.value & 0o10000 != 0
            self.is_flying = self.is_flying or self.is_on

    def push(self, dt):
        """The acceleration of a step; it burns the fuel. The ascent engine has 15,600 N and no throttle."""
        push = self.thrust / self.mass
        self.mass -= self.thrust / 3050 * dt
        return push


def integrated(start, seed, written, seconds):
    """Integrates the craft's flight by itself, from the channel writes and their cycles alone: around the middle of the Moon, in
    coordinates that do not turn, by steps of five milliseconds with Python's sine and cosine, angles in degrees. What is written
    acts from the next hundredth of a second on. Returns the speeds up and forward, the tilt, and the height in the end."""
    born = craft_at(start, seed)
    engines = Engines(born.mass, 25500.0)
    moon, radius, dt = 1.62 * 1737400.0**2, 1737400.0 + born.height, 0.005
    x, y, vx, vy = 0.0, radius, born.forward, born.up
    tilt, rate = math.degrees(born.tilt), math.degrees(born.turning)
    coming = iter(written)
    write = next(coming, None)
    for half in range(round(seconds / dt)):
        while half % 2 == 0 and write is not None and write.cycle < (half // 2 + 1) * 2560 // 3:
            engines.take(write)
            write = next(coming, None)
        if not engines.is_flying:
            continue
        if half % 2 == 0:
            engines.look()
        push = engines.push(dt)
        angle = math.radians(tilt + rate * dt / 2) + math.atan2(x + vx * dt / 2, y + vy * dt / 2)
        tilt += (rate + 4.0 * engines.jets * dt / 2) * dt
        rate += 4.0 * engines.jets * dt
        ax, ay = push * math.sin(angle) - moon * x / radius**3, push * math.cos(angle) - moon * y / radius**3
        x, y = x + (vx + ax * dt / 2) * dt, y + (vy + ay * dt / 2) * dt
        vx, vy = vx + ax * dt, vy + ay * dt
        radius = math.hypot(x, y)
    return (vx * x + vy * y) / radius, (vx * y - vy * x) / radius, tilt, radius - 1737400.0


def flight(seed):
    """A flight and its replay: a line for the table, and what was not as it should be."""
    height, way, forward, down = start_of(seed)
    craft = example.Craft(height, way, forward, down, seed)
    near_gate = seed % 6 < 2
    script = os.path.join(scratch, f"flight-{seed}")
    writes, swing = [], 0.0  # swing: the greatest tilt of a hover from 30 s after the engine's start on
    with Machine() as machine:
        for now, written in example.fly(machine, craft):
            writes += written
            if now > 34 and seed % 6 == 2 and not craft.touched:
                swing = max(swing, abs(math.degrees(craft.tilt)))
        writes += machine.go(1000)
        panel, tables = machine.panel(), machine.tables(SPEC)
        alarms = {machine.word("FAILREG", n) for n in range(3)} - {0}
        text = machine.script()
        with open(script, "w") as file:
            file.write(text)
        cycle = machine.cycle
    events = len(text.splitlines())
    log = ran(agc, example.ROPE, script, "--limit", str(cycle), "--log", "--watch", SPEC).stdout.splitlines()
    wanted = [" ".join(pair) for pair in panel.items()]
    wrong = []
    up, forward_then, tilt, miss = craft.touched or (-99, 99, 99, 99)
    aborted = craft.in_orbit() and panel["PROG"] in ("70", "71") and 0o3004 in alarms and not near_gate
    reasons = {0o3003} if is_too_fast(way, forward) else set()
    reasons |= {0o521} if height - 10 * down > example.HIGHEST else set()  # it climbs to where the radar sees no ground
    late = craft.fuel() < 400 + 0.015 * example.LOADED  # of fuel: the alarm of low fuel may have come
    other = integrated((height, way, forward, down), seed, writes, now if aborted else now - 3)
    up, forward_then, tilt = (craft.up, craft.forward, math.degrees(craft.tilt)) if aborted else (up, forward_then, tilt)
    for what, right in (
        ("on the ground, or aborted by name", craft.touched is not None or aborted),
        ("down below 1.5 m/s", aborted or -1.5 < up <= 0),
        ("forward below 0.6 m/s", aborted or abs(forward_then) < 0.6),
        ("within 3 degrees", aborted or abs(tilt) < 3),
        ("in P68", aborted or panel["PROG"] == "68"),
        ("a hover is upright after 30 s", swing < 2),
        ("at the site from high gate", not near_gate or abs(miss) < 40),
        ("engine off", aborted or not craft.engine),
        ("fuel left", craft.fuel() > 0),
        ("at the site without alarm 3003", aborted or 0o3003 in alarms or abs(miss) < 100),
        ("no alarm from high gate", not alarms or not near_gate),
        ("a reason for an alarm", alarms <= reasons | ({0o3004} if late else set())),
        ("the other integration, up", abs(other[0] - up) < 0.08),
        ("the other integration, forward", abs(other[1] - forward_then) < 0.08),
        ("the other integration, tilt", abs(other[2] - tilt) < 0.15),
        ("fewer than 20,000 events from high gate", not near_gate or events < 20000),
        ("fewer than 60,000 events", events < 60000),
        ("the panel of agc", log[:8] == wanted),
        ("the count of writes of agc", log[8].endswith(f" WRITES {len(writes)}")),
        ("the writes of agc", log[9 : 9 + len(writes)] == [f"{w.cycle} {w.channel:03o} {w.value:05o}" for w in writes]),
        ("the tables of agc", log[9 + len(writes) :] == tables),
        ("display and writes of another emulator", log[: 9 + len(writes)] == emulated(script, cycle)),
    ):
        wrong.append((f"flight {seed} from {height:.0f} {way:.0f} {forward:.1f} {down:.1f}: {what}", right))
    line = (
        f"{seed:4d} {height:7.0f} {way:6.0f} {forward:8.1f} {down:5.1f} {now:8.1f} {up:7.2f} {forward_then:8.2f}"
        f" {tilt:6.2f} {miss:6.1f} {craft.fuel():6.0f} {events:7d}  {panel['PROG']}"
    )
    return line, wrong


def try_flights(flights):
    print("seed  height    way  forward  down  seconds      up  forward   tilt   miss   fuel  events  program")
    lines = flights.get()
    for line, wrong in lines:
        print(line)
        for what, right in wrong:
            judge(what, True, right)
    judge("flights", FLIGHTS, len(lines))


def ticked(craft):
    """Flies the craft by its instrument's ticks, as agc-web does; halfway it is saved, spoilt and restored. Returns what
    PROG shows after the ground."""
    instrument = example.Instrument(craft)
    keys = {round(100 * second): key for second, key in example.APPROACH.items()}
    landed = None
    with Console(example.ROPE, program=console) as agc:
        for step in range(1, 40001):
            agc.go_to(step * 2560 // 3)
            instrument.tick(agc, agc.cycle)
            if step == 9000:
                state = instrument.save()
                craft.height, craft.touched = 1.0, "spoilt"
                instrument.load(state)
            if step - 20 in keys and keys[step - 20] == "PRO":
                agc.pro(False)
            if step in keys:
                agc.pro(True) if keys[step] == "PRO" else agc.key(keys[step])
            landed = landed or (craft.touched and step)
            if landed and step == landed + 150:
                return agc.panel()["PROG"]


def try_instrument():
    """The craft as an instrument lands as it does by itself, and shows it."""
    craft = example.Craft(seed=1)
    with Console(example.ROPE, program=console) as agc:
        for _ in example.fly(agc, craft):
            pass
    up, forward, tilt, _ = craft.touched
    judge("the flight by itself lands", True, up > -1.5 and abs(forward) < 0.6 and abs(tilt) < 3)
    other = example.Craft(seed=1)
    judge("the program after a flight by ticks", "68", ticked(other))
    up, forward, tilt, _ = other.touched
    judge("the flight by ticks lands", True, up > -1.5 and abs(forward) < 0.6 and abs(tilt) < 3)
    view = example.Instrument(other).view()
    judge("the page shows the altitude", ["Altitude", f"{example.unsigned_zero(other.height, 1):.1f} m"], view["rows"][0])


def clicked(craft, clicks):
    """Flies the craft by its instrument's ticks, and clicks a button before each of some ticks, which goes up before the next.
    Returns the script and the machine's last words of program, way and rate."""
    instrument = example.Instrument(craft)
    keys = {round(100 * second): key for second, key in example.APPROACH.items()}
    with Machine() as machine:
        for step in range(1, max(clicks) + 200):
            machine.go_to(step * 2560 // 3)
            for name, down in ((clicks.get(step), True), (clicks.get(step - 1), False)):
                if name:
                    instrument.control(name, down)
            if step in clicks:
                instrument.load(instrument.save())  # a click that waits is not lost
            instrument.tick(machine, machine.cycle)
            if step in keys:
                example.press(machine, keys[step])
            if step - 20 in keys and keys[step - 20] == "PRO":
                machine.pro(False)
        return machine.script(), machine.panel()["PROG"], -machine.both("XN"), machine.word("RODCMD")


def try_buttons():
    """The page's buttons click the switches."""
    script, program, _, rate = clicked(example.Craft(300.0, 0.0, 0.0, 0.0), {1500: "rate-down", 1800: "rate-up", 1801: "rate-up"})
    words = [line.split()[1:] for line in script.splitlines()]
    judge("the switch", 3, words.count(["raise", "6"]))
    judge("it is released", 3, words.count(["input", "16", "00000"]))
    judge("P66", "66", program)
    _, _, _, before = clicked(example.Craft(300.0, 0.0, 0.0, 0.0), {1500: "rate-down"})
    judge("two clicks up after one down", 6, rate - before)
    script, program, way, _ = clicked(example.Craft(), {2000: "farther", 2001: "nearer", 2050: "farther"})
    _, _, without, _ = clicked(example.Craft(), {2050: "again"})
    judge("P64", "64", program)
    near("the site is farther by a 32nd of the way", 33 / 32 * without, way, 15)


# guidance and scaling, beside rows worked by hand


def try_mistakes():
    """A mistake in the command line ends the program in a sentence, before the flight."""
    kept = os.path.join(scratch, "kept")
    with open(kept, "w") as file:
        file.write("0 key 1\n")
    nowhere = os.path.join(scratch, "no", "file")
    for status, words, told in (
        (1, ["--web", "--port", "0", "--save", kept], f"craft: {kept}: has something in it: name another file"),
        (1, ["--web", "--port", "65536"], "craft: port: ports are 0 to 65535"),
        (1, ["--save", nowhere], f"craft: cannot write {nowhere}: No such file or directory"),
        (1, ["--rope", nowhere], "craft: agc-console: cannot read rope"),
        (2, ["--height", "nan"], "craft.py: error: argument --height: nan is not finite"),
        (2, ["--height", "20000"], "craft.py: error: argument --height: 20000 is outside 30 to 4000"),
        (2, ["--height", "-5"], "craft.py: error: argument --height: -5 is outside 30 to 4000"),
        (2, ["--way", "20000"], "craft.py: error: argument --way: 20000 is outside 0 to 15000"),
        (2, ["--forward", "300"], "craft.py: error: argument --forward: 300 is outside -20 to 180"),
        (2, ["--down", "101"], "craft.py: error: argument --down: 101 is outside -20 to 100"),
        (2, ["--braking", "--way", "7500"], "craft.py: error: argument --way: 7500 is outside 9000 to 15500"),
        (2, ["--orbit", "--way", "450000"], "craft.py: error: argument --way: 450000 is outside 470000 to 520000"),
        (2, ["--orbit", "--braking"], "craft.py: error: argument --braking: not allowed with argument --orbit"),
        (2, ["--orbit", "--fuel", "8300"], "craft.py: error: argument --fuel: 8300 is outside 0 to 8200"),
        (2, ["--seed", "-1"], "craft.py: error: argument --seed: -1 is outside 0 to 2147483645"),
        # 20 and 40 times ten, and 40 squared by 4
        (
            2,
            ["--height", "800", "--down", "40"],
            "craft.py: error: argument --down: from 800 m nobody stops 40 m/s: this needs 820 m",
        ),
        (
            2,
            ["--fault", "wing:3"],
            "craft.py: error: argument --fault: wing:3 names no fault: PART:SECOND[:SECONDS], as radar:60; "
            "parts are radar, forward-jet, back-jet, engine, ascent-engine",
        ),
        (2, ["--every", "inf"], "craft.py: error: argument --every: inf is not finite"),
        (2, ["--key", "60:PROG"], "craft.py: error: argument --key: 60:PROG names no key: SECOND:KEY, as 60:VERB"),
        (2, ["--key", "VERB"], "craft.py: error: argument --key: VERB names no key: SECOND:KEY, as 60:VERB"),
        (2, ["--key", "x:VERB"], "craft.py: error: argument --key: invalid key_at value: 'x:VERB'"),
    ):
        flight = subprocess.run(
            [sys.executable, "-B", example.__file__, "--program", console, *words], capture_output=True, text=True, timeout=300
        )
        lines = flight.stderr.splitlines() or [""]
        judge(f"craft.py {' '.join(words)}", (status, "", told), (flight.returncode, flight.stdout, lines[-1]))
    judge("the file is as it was", "0 key 1\n", read(kept))
    dying = os.path.join(scratch, "dying")
    with open(dying, "w") as file:
        file.write(
            "#!/usr/bin/env bash\n"
            f'while read -r line && ((lines++ < 9000)); do echo "$line"; done | "{console}" "$@" && kill -KILL $$\n'
        )
    os.chmod(dying, 0o755)
    saved = os.path.join(scratch, "saved")
    flight = ran(sys.executable, "-B", example.__file__, "--program", dying, "--save", saved)
    judge("the console dies", (1, "craft: the console ended with status -9\n"), (flight.returncode, flight.stderr))
    judge("the script is saved as far as it came", True, 3000 < len(read(saved).splitlines()) < 9000)
    words = [sys.executable, "-B", example.__file__, "--program", console]
    full = subprocess.run([*words, "--save", "/dev/full"], stdout=subprocess.DEVNULL, stderr=subprocess.PIPE, text=True)
    told = "craft: cannot write /dev/full: No space left on device\n"
    judge("the disk is full", (1, told), (full.returncode, full.stderr))
    with open("/dev/full", "w") as nowhere:
        full = subprocess.run(words, stdout=nowhere, stderr=subprocess.PIPE, text=True)
    judge("the table has no place", (1, "craft: cannot print: No space left on device\n"), (full.returncode, full.stderr))
    full = os.path.join(scratch, "full")
    with open(full, "w") as file:
        file.write("0 input 30 37777\n" * 65536)
    flight = ran(sys.executable, "-B", example.__file__, "--program", console, "--script", full)
    lines = flight.stderr.splitlines() or [""]
    judge("a full script", (0, True), (flight.returncode, lines[-1].startswith("craft: the flight ends at 0.00 s: a script has at most 65536 events")))


def place(machine, way, height, forward, up):
    machine.put_both("XN", -way)
    machine.put_both("ZN", height)
    machine.put_both("VX", 64 * forward)
    machine.put_both("VZ", 64 * up)


def guided(way, height, forward, up, degrees, mass, program=64):
    """The first guidance of P64 from a state, up to its throttle command."""
    machine = Machine()
    machine.go(40000)
    place(machine, way, height, forward, up)
    machine.put_both("MASS", mass)
    machine.poke(0, example.CDUY, round(degrees * example.DEGREE) % 32768)
    machine.press("VERB 3 7 ENTR 6 4 ENTR", 0.1)
    machine.seconds(0.5)
    machine.pro(True)
    machine.until(PLACES["SERVICER"])
    machine.put("DELT", 0)
    machine.put("MODREG", program)
    machine.until_write(example.THROTTLE)
    machine.step()
    return machine


# The state; then by hand: time to go 3 way/(speed + 4), the accelerations 6/T (2 way/T - (2 + speed)) and
# 6/T (2 (30 - height)/T - (-2 + rate)), the tilt wanted, and the thrust.
#   154 m/s: 22500/154 = 146.10;  6/146.10 = 0.041067;  15000/146.10 = 102.667, less 152: -49.333;
#   -4540/146.10 = -31.074, and 47: 15.926. Upward with gravity 2.2740; the tangent is -2.0260/2.2740 = -0.8909, and the
#   root of 4.1047 + 5.1711 is 3.0456.
#   59 m/s: 6000/59 = 101.69;  0.059000;  39.333 less 57: -17.667;  -11.210 and 18: 6.790; 2.0206; -0.5158; the root of
#   1.0864 + 4.0828 is 2.2736.
#   9 m/s: 180/9 = 20;  0.3;  6 less 7: -1;  -4 and 4.5: 0.5;  1.7700; -0.1695; the root of 0.0900 + 3.1329 is 1.7952.
#   154 m/s, from 3000 m: forward as above;  -5940/146.10 = -40.657, and 32: -8.657;  -0.3555 and 1.2645; the tangent of what
#   the tilt lacks to 90 degrees is 1.2645/2.0260 = 0.6241, for 31.97 degrees; the root of 4.1047 + 1.5990 is 2.3882.
ROWS = [
    ((7500, 2300, 150, -45, -40, 8500), (146.10, -2.0260, 0.6540, -41.70, 25888, 3.0456)),
    ((2000, 600, 55, -16, -30, 8100), (101.69, -1.0423, 0.4006, -27.29, 18416, 2.2736)),
    ((60, 70, 5, -2.5, -8, 7700), (20.00, -0.3000, 0.1500, -9.62, 13823, 1.7952)),
    ((7500, 3000, 150, -30, -60, 8500), (146.10, -2.0260, -0.3555, -58.03, 20300, 2.3882)),
]


def try_guidance():
    for state, (to_go, forward, up, tilt, thrust, wanted) in ROWS:
        with guided(*state) as machine:
            law = 6 / to_go * 3 / 64 + 0.002  # three units of the speeds, and two of the acceleration
            error = 1.5 * law + 0.004
            name = f"guidance from {state}"
            near(f"{name}: time to go", to_go, machine.word("TGO") / 64, 0.05)
            near(f"{name}: forward", forward, machine.word("AX") / 1024, law)
            near(f"{name}: up", up, machine.word("AZ") / 1024, law)
            near(f"{name}: upward with gravity", up + 1.62, machine.word("GZ") / 1024, law)
            near(f"{name}: tilt", tilt, machine.word("THETAD") / example.DEGREE, math.degrees(error / wanted) + 0.05)
            near(f"{name}: thrust", thrust, 4 * machine.word("FCMD"), state[5] * error + 32)
            judge(f"{name}: the throttle's channel", machine.word("FCMD"), machine.channel(example.THROTTLE))
    # From 4000 m at -20 m/s it wants 0.041067 (-54.346 + 22) = -1.328 up: -1.12 is the least, for 0.5 with gravity. Forward three
    # times as much is possible, -1.5; the root of 2.25 and 0.25 is 1.5811, the tilt that whose tangent is 3
    with guided(7500, 4000, 150, -20, -70, 8500) as machine:
        near("the steepest tilt: forward", -1.5, machine.word("AX") / 1024, 0.003)
        near("the steepest tilt", -71.57, machine.word("THETAD") / example.DEGREE, 0.1)
        near("the steepest tilt: thrust", 8500 * 1.5811, 4 * machine.word("FCMD"), 40)
    # P65 wants -1.2 forward at 60 m/s. At 100 m with 3 m/s up it wants more than 3 m/s/s down, so the upward part is 0.5, and
    # forward as much
    with guided(40, 100, 60, 3, -40, 7600, 65) as machine:
        near("P65: forward as much as up", -0.5, machine.word("AX") / 1024, 0.003)
        near("P65: 45 degrees", -45, machine.word("THETAD") / example.DEGREE, 0.1)
    # P65 at 20 m: the rate is to be -(0.8 + 20/32) = -1.425; (-1.425 + 3)/1.6 = 0.9844 up, -1/8 = -0.125 forward; with
    # gravity 2.6044; the root of 6.7828 + 0.0156 is 2.6074, the tangent -0.0480
    with guided(40, 20, 1, -3, 2, 7600, 65) as machine:
        near("P65: up", 0.9844, machine.word("AZ") / 1024, 0.015)
        near("P65: forward", -0.125, machine.word("AX") / 1024, 0.005)
        near("P65: tilt", -2.75, machine.word("THETAD") / example.DEGREE, 0.1)
        near("P65: thrust", 19816, 4 * machine.word("FCMD"), 150)
    # P66 with a rate of zero: 3/1.6 = 1.875 up
    with guided(40, 20, 1, -3, 2, 7600, 66) as machine:
        near("P66: up", 1.875, machine.word("AZ") / 1024, 0.015)


def try_low_gate():
    """With less than 12 s to go P65 begins. Only if the craft, moved on by 16 s at its speed, is 100 m from the site or more does
    alarm 3003 come, whatever the altitude."""
    for what, state, alarm in (
        ("80 m on from 30 m before the site, 400 m up", (30, 400, 5, -2), 0),
        ("144 m on from 30 m before the site", (30, 100, 9, -2), 0o3003),
        ("112 m back from the site", (0, 100, -7, -2), 0o3003),
        ("96 m back from the site", (0, 3000, -6, -2), 0),
    ):
        with guided(*state, -5, 7700) as machine:
            judge(f"low gate, {what}", (65, alarm), (machine.word("MODREG"), machine.word("FAILREG", 2)))


def ahead(way, height, forward, up, mass):
    """The mass after 75 eightieths of P64, a step each. The way of a step is that at the speed of its middle."""
    to_go = 3 * way / (forward + 4)
    step = to_go / 80
    for _ in range(75):
        along = 6 / to_go * (2 * way / to_go - (2 + forward))
        lift = 6 / to_go * (2 * (30 - height) / to_go - (-2 + up))
        way, height = way - (forward + along * step / 2) * step, height + (up + lift * step / 2) * step
        forward, up = forward + along * step, up + lift * step
        mass, to_go = mass * (1 - math.hypot(along, lift + 1.62) * step / 3050), to_go - step
    return mass


def try_scaling():
    """One second of SERVICER: pulses, gravity, way, radar and mass."""
    with guided(5000, 1500, 100, -30, -38, 8400) as machine:
        machine.until(PLACES["SERVICER"], within=200000)
        place(machine, 5000, 1500, 100, -30)
        machine.put_both("MASS", 8400)
        machine.put("DELVX", -32)
        machine.put("DELVZ", 41)
        machine.put("DELT", 100)
        machine.put("FCMD", 5000)  # 20,000 N
        machine.radar(5940)  # 1485 m
        machine.until(PLACES["GUIDE"])
        # -32 * 0.0585 = -1.872; 41 * 0.0585 - 1.62 = 0.7785
        forward, up = 98.128, -29.2215
        near("forward speed", forward, machine.both("VX") / 64, 0.002)
        near("the way of a second", 5000 - (100 + forward) / 2, -machine.both("XN"), 0.002)
        # 1500 - 29.61075 = 1470.38925; the radar's 1485 is 14.61 m more: a quarter of that, and 0.04 of it a second
        near("altitude", 1470.38925 + 14.61075 / 4, machine.both("ZN"), 0.07)
        near("altitude rate", up + 0.04 * 14.61075, machine.both("VZ") / 64, 0.012)
        near("radar less altitude", 14.61075, machine.word("DHM"), 1)
        # 20000/3050 = 6.557 kg; a unit of the thrust's share is 0.084 kg
        near("mass", 8400 - 6.557, machine.both("MASS"), 0.09)
        judge("the pulses are used up", [0, 0, 0], [abs(machine.word(name)) for name in ("DELVX", "DELVZ", "DELT")])
    # a radar that is 200 m and more off is left out
    with guided(5000, 1500, 100, -30, -38, 8400) as machine:
        machine.until(PLACES["SERVICER"], within=200000)
        machine.put_both("ZN", 1500)
        machine.put_both("VZ", 64 * -30)
        machine.put("DELVZ", 0)
        machine.put("DELT", 100)
        machine.radar(5000)
        machine.until(PLACES["GUIDE"])
        near("a radar that is far off", 1500 - 30.81, machine.both("ZN"), 0.01)
    # the way ahead, as `ahead` flies it
    with guided(7500, 2300, 150, -45, -40, 8500) as machine:
        machine.seconds(0.9)
        near("the mass at low gate", ahead(7500, 2300, 150, -45, 8500), machine.word("PMASS"), 20)


def after_radar(*words):
    """A second of SERVICER from 100 m/s forward, -30 m/s up and a tilt of -38 degrees, without pulses forward, with 28 up and
    these words of the radar. Returns both speeds, the difference of altitudes, and the lamps."""
    with guided(5000, 1500, 100, -30, -38, 8400) as machine:
        machine.until(PLACES["SERVICER"], within=200000)
        place(machine, 5000, 1500, 100, -30)
        machine.put("DELVX", 0)
        machine.put("DELVZ", 28)
        machine.put("DELT", 100)
        machine.radar(*words)
        machine.until(PLACES["GUIDE"])
        found = machine.both("VX") / 64, machine.both("VZ") / 64, machine.word("DHM")
        machine.put("AVEGFLG", 0)
        machine.seconds(0.5)
        return *found, [lamp for lamp in ("ALT", "VEL") if lamp in machine.shown().split()]


def try_radar():
    """The radar's speeds, along the craft's axes: forward and upward. Pulses and gravity leave 100 m/s forward and, by
    28 * 0.0585 - 1.62 = 0.018, -29.982 up, at 1470.009 m. The sine of -38 degrees is -0.61566, the cosine 0.78801.

    The craft flies 102 m/s forward and -29 up: 102 * 0.78801 - 29 * 0.61566 = 62.523 along its forward axis, and
    -102 * 0.61566 - 29 * 0.78801 = -85.650 along its upward axis. The state's -85.192 along the upward axis gets a quarter
    of -0.458, -0.1144: 0.0704 forward and -0.0901 up. Its 60.342 along the forward axis then gets a quarter of 2.181,
    0.5451: 0.4296 forward and 0.3356 up."""
    forward, up, _, lamps = after_radar(5880, round(64 * 62.523), round(64 * -85.650))
    near("both speeds: forward", 100.5000, forward, 0.02)
    near("both speeds: up", -29.7365, up, 0.02)
    judge("both speeds: the lamps", [], lamps)
    # 80 m/s along the forward axis are 19.66 too many; 3 and an eighth of 80 are 13. The other axis counts all the same.
    forward, up, _, lamps = after_radar(5880, 64 * 80, round(64 * -85.650))
    near("a speed that is far off: forward", 100.0704, forward, 0.02)
    near("a speed that is far off: up", -30.0721, up, 0.02)
    judge("a speed that is far off: the lamps", ["VEL"], lamps)
    forward, up, _, lamps = after_radar(5880)
    near("altitude alone: forward", 100, forward, 0.001)
    near("altitude alone: up", -29.982, up, 0.015)  # a quarter metre of the altitude brings 0.01 m/s
    judge("altitude alone: the lamps", ["VEL"], lamps)
    judge("no radar: the lamps", ["ALT", "VEL"], after_radar()[3])
    judge("an altitude that is far off: the lamps", ["ALT"], after_radar(5000, round(64 * 62.523), round(64 * -85.650))[3])


def try_wrong_speeds():
    """The load's speeds are wrong; the radar's words correct them within ten seconds."""
    seed = max(range(1, 40), key=lambda seed: abs(example.Craft(seed=seed).known_forward - 150))
    craft = example.Craft(seed=seed)
    judge("a load that is more than 1.5 m/s off", True, 1.5 < abs(craft.known_forward - 150) <= 2)
    errors, last = [], None
    with Machine() as machine:
        for now, _ in example.fly(machine, craft, seconds=25):
            state = machine.word("VX"), machine.word("VZ")
            if craft.flying and state != last:
                errors.append((now, state[0] / 64 - craft.forward, state[1] / 64 - craft.up))
            last = state
    judge("SERVICER ran each second", True, len(errors) > 15)
    # some hundredths of a second pass from the accelerometers to the state: at 2 m/s/s some 0.05 m/s
    settled = [error for error in errors if error[0] > errors[0][0] + 12]
    near("forward after ten seconds", 0, max(abs(forward) for _, forward, _ in settled), 0.4)
    near("up after ten seconds", 0, max(abs(up) for _, _, up in settled), 0.4)


DISPLAYS = [
    # noun, the registers of the state 7500 m, 2300 m, 150 m/s, -45 m/s, 8500 kg
    ("6 0", ("+01500", "-00450", "+02300")),
    ("6 1", ("+01461", "-07500", "+08500")),
    # the site is atan(2300/7500) = 17.05 degrees below the horizon, the craft's forward axis 40 above
    ("6 4", ("+00057", "-00450", "+02300")),
    ("6 9", ("+00000", "-07500", "+01461")),
    ("4 7", ("+08500", None, None)),
    ("6 6", ("+00000", "-00450", "+02300")),
    ("6 8", (None, "+01461", None)),
]


def try_displays():
    """What the nouns show of a state, with the second of its guidance left out: time stands for SERVICER."""
    for noun, wanted in DISPLAYS:
        with guided(7500, 2300, 150, -45, -40, 8500) as machine:
            machine.put("AVEGFLG", 0)
            machine.seconds(1.5)
            machine.put("MODREG", 64)
            machine.press(f"VERB 0 6 NOUN {noun} ENTR", 0.1)
            machine.seconds(0.4)
            panel = machine.panel()
            for register, text in zip(("R1", "R2", "R3"), wanted):
                if text:
                    judge(f"noun {noun}, {register}", text, panel[register])


def try_slant_range():
    """Verb 16 has the slant range of noun 68 computed: the root of 7500 and 2300, both squared, is 7844.7."""
    with guided(7500, 2300, 150, -45, -40, 8500) as machine:
        machine.put("AVEGFLG", 0)
        machine.press("VERB 1 6 NOUN 6 8 ENTR", 0.1)
        machine.seconds(1.5)
        near("the slant range", 7844.7, int(machine.panel()["R1"]), 1.5)


def try_redesignation():
    """The crew moves the site by 300 m in P64, forward or back: there the craft lands."""
    for sign, wanted in (("+", -300), ("-", 300)):
        craft = example.Craft()
        keys = dict(example.APPROACH)
        for place, key in enumerate(f"VERB 2 1 NOUN 6 9 ENTR {sign} 0 0 3 0 0 ENTR".split()):
            keys[60 + 0.1 * place] = key
        with Machine() as machine:
            for _ in example.fly(machine, craft, keys):
                pass
        judge(f"{sign}300 m: it lands", True, craft.landed())
        near(f"{sign}300 m: what was to go to the first site", wanted, craft.touched[3], 15)


def try_hand_controller():
    """Three clicks of the hand controller in P64 move the site by 3/32 of the way to it, less or more."""
    for key, sign in (("ACA+", -1), ("ACA-", 1)):
        craft = example.Craft()
        keys = {**example.APPROACH, 60.0: key, 60.1: key, 60.2: key}
        way = None
        with Machine() as machine:
            for now, _ in example.fly(machine, craft, keys):
                if way is None and now > 60.25:
                    way = craft.way
        judge(f"{key}: it lands", True, craft.landed())
        near(f"{key}: what was to go to the first site", sign * 3 / 32 * way, craft.touched[3], 15)


def try_rate_switch():
    """In P65 a click of the switch for the rate of descent begins P66, and each is 0.3 m/s; in P64 it does nothing."""
    craft = example.Craft(300.0, 0.0, 0.0, 0.0)
    keys = {**example.APPROACH, 30.0: "ROD-", 40.0: "ROD+", 40.5: "ROD+", 41.0: "ROD+", 50.0: "ROD-"}
    shown = {}
    with Machine() as machine:
        for now, _ in example.fly(machine, craft, keys, seconds=60):
            for when in (29.9, 32.0, 39.9, 49.9, 59.9):
                if abs(now - when) < 0.001:
                    shown[when] = machine.panel()["PROG"], machine.word("RODCMD") / 10, craft.up
    judge("before the first click", "65", shown[29.9][0])
    judge("P66 after it", "66", shown[32.0][0])
    near("a click down", shown[29.9][2] - 0.3, shown[32.0][1], 0.2)
    near("the craft's rate", shown[39.9][1], shown[39.9][2], 0.15)
    near("three clicks up", 0.9, shown[49.9][1] - shown[39.9][1], 0.01)
    near("the craft's rate then", shown[49.9][1], shown[49.9][2], 0.15)
    near("another click down", -0.3, shown[59.9][1] - shown[49.9][1], 0.01)
    keys = {**example.APPROACH, 20.0: "ROD-", 21.0: "ROD+"}
    with Machine() as machine:
        for _ in example.fly(machine, example.Craft(), keys, seconds=25):
            pass
        judge("clicks in P64 do nothing", "64", machine.panel()["PROG"])


def try_fast_switch():
    """The site is moved 1,362 m nearer at second 68, and at 85 a click begins P66 with 24 m/s forward and 9 m/s down, which it holds:
    as the craft is fast forward, it descends less, and lands within the limits all the same."""
    craft = example.Craft(2208.0, 7252.0, 153.5, 47.2, 10215)
    keys = {**example.APPROACH, 48.7: "ACA+", 85.2: "ROD-", 133.6: "ROD-"}
    for place, key in enumerate("VERB 2 1 NOUN 6 9 ENTR - 0 1 3 6 2 ENTR KEYREL".split()):
        keys[67.3 + 0.1 * place] = key
    programs = []
    with Machine() as machine:
        for now, _ in example.fly(machine, craft, keys):
            if round(100 * now) % 100 == 0 and machine.panel()["PROG"] not in programs:
                programs.append(machine.panel()["PROG"])
    judge("P65 and P66", True, programs[-3:] == ["65", "66", "68"])
    judge("within the limits", True, craft.landed())


def braked(seed):
    """A flight by P63: whether it landed, its programs and alarms, the way that was left, its events, and whether it is too fast."""
    chance = random.Random(4000 + seed)
    start = example.BEFORE_HIGH_GATE
    if seed:
        start = {name: chance.uniform(*span) for name, span in example.BRAKING_RANGES.items()}
    craft = example.Craft(**start, seed=seed)
    programs = []
    with Machine() as machine:
        for now, _ in example.fly(machine, craft, example.BRAKING):
            if abs(now % 1) < 0.005 and machine.panel()["PROG"] not in programs[-1:]:
                programs.append(machine.panel()["PROG"])
        programs.append(machine.panel()["PROG"])
        events = len(machine.script().splitlines())
        alarms = {machine.word("FAILREG", n) for n in range(3)} - {0}
        return craft.landed(), programs, alarms, (craft.touched or [99999])[-1], events, is_too_fast(start["way"], start["forward"])


def try_braking(flights):
    """P63 flies to high gate, P64 on from there to the site. Only if it is too fast it may be beside it, and says so."""
    for seed, (landed_well, programs, alarms, miss, events, too_fast) in enumerate(flights.get()):
        judge(f"braking {seed}: it lands", (True, "68"), (landed_well, programs[-1]))
        judge(f"braking {seed}: 50,000 events at most", True, events <= 50000)
        judge(f"braking {seed}: alarm 3003, or at the site", True, alarms == {0o3003} and too_fast or not alarms and abs(miss) < 100)
        if seed == 0:
            judge("P63 and P64", ["63", "64", "65"], [each for each in programs if each in ("63", "64", "65")])
            near("at the site", 0, miss, 40)


def descended(number):
    """A flight from orbit by P63, and its replay: a line for the table, and what was not as it should be."""
    chance = random.Random(6000 + number)
    start = list(example.IN_ORBIT.values())
    if number:
        start = [chance.uniform(*example.ORBIT_RANGES[name]) for name in example.IN_ORBIT]
    craft = craft_at(start, number + 1)
    writes, programs, nouns = [], [], {}
    with Machine() as machine:
        for now, written in example.fly(machine, craft, example.BRAKING):
            writes += written
            if round(100 * now) % 100 == 0:
                panel = machine.panel()
                programs += [panel["PROG"]] * (panel["PROG"] not in programs)
                nouns[panel["PROG"], machine.word("ORBNAV")] = [panel["NOUN"], panel["R1"], panel["R3"], craft.forward, craft.height]
        alarm, text, cycle = machine.word("FAILREG", 2), machine.script(), machine.cycle
    script = os.path.join(scratch, f"orbit-{number}")
    with open(script, "w") as file:
        file.write(text)
    log = ran(agc, example.ROPE, script, "--limit", str(cycle), "--log").stdout.splitlines()
    up, forward, tilt, miss = craft.touched or (-99, 99, 99, 99)
    other = integrated(start, number + 1, writes, now - 3)
    events = len(text.splitlines())
    far, close = nouns.get(("63", 1), ["", "0", "0", 0.0, 0.0]), nouns.get(("63", 0), ["", "0", "0", 0.0, 0.0])
    checks = [
        ("it lands", craft.landed()),
        ("the programs", programs == ["00", "63", "64", "65", "68"]),
        ("no alarm", alarm == 0),
        ("within 200 m of the site", abs(miss) < 200),
        ("fewer than 50,000 events", events < 50000),
        ("noun 63 far from the site, m/s and m", far[0] == "63" and abs(int(far[1]) - far[3]) < 8 and abs(int(far[2]) - far[4]) < 160),
        ("noun 63 near it, 0.1 m/s and m", close[0] == "63" and abs(int(close[1]) / 10 - close[3]) < 8 and abs(int(close[2]) - close[4]) < 120),
        ("the other integration, up", abs(other[0] - up) < 0.08),
        ("the other integration, forward", abs(other[1] - forward) < 0.08),
        ("the other integration, tilt", abs(other[2] - tilt) < 0.15),
        ("agc repeats it", log[9:] == [f"{w.cycle} {w.channel:03o} {w.value:05o}" for w in writes] and log[0] == "PROG 68"),
        ("so does another emulator", log == emulated(script, cycle)),
    ]
    line = (
        f"orbit {number} {start[0]:6.0f} {start[1]:7.0f} {start[2]:7.1f} {start[3]:5.1f}: {now:5.0f} s, {up:+.2f} {forward:+.2f} {tilt:+.2f},"
        f" {miss:+.0f} m, fuel {craft.fuel():.0f}, {events} events; other {other[0] - up:+.3f} {other[1] - forward:+.3f} {other[2] - tilt:+.3f}"
    )
    return line, [(f"orbit {number}: {what}", right) for what, right in checks]


def try_orbit(flights):
    """Landings from orbit: P63 from 500 km on."""
    for line, checks in flights.get():
        print(line)
        for what, right in checks:
            judge(what, True, right)


def far_machine(way, height, forward, up, degrees, mass, loaded=14000):
    """A machine with a state in the units of an orbit, in which P63 has begun, at its next SERVICER. The mass is another one than
    the load's, which must be that of a craft that can land."""
    machine = Machine()
    machine.go(40000)
    for name, value in (("XN", -way / 32), ("ZN", height / 32), ("VX", 2 * forward), ("VZ", 2 * up), ("MASS", loaded)):
        machine.put_both(name, value)
    machine.put("ORBNAV", 2)
    machine.poke(0, example.CDUY, round(degrees * example.DEGREE) % 32768)
    machine.press("VERB 3 7 ENTR 6 3 ENTR", 0.1)
    machine.seconds(0.5)
    machine.put_both("MASS", mass)
    return machine


def try_far_guidance():
    """P63 far from the site, beside a row worked by hand: 400 km, 13,000 m, 1500 m/s, -15 m/s, 14,000 kg.

    Time to go to 12.8 km and 190 m/s: 2 * 387,200/1690 = 458.22 s. Backward (1500 - 190)/458.22 = 2.8589. Up
    6 * (3500 - 13000)/458.22^2 + (4 * 15 + 2 * 45)/458.22 = -0.27147 + 0.32735 = 0.0559. Gravity 1.62 (1737.4/1750.4)^2 = 1.5960,
    less 1500^2/1,750,400 = 1.2854: 0.3106. With gravity 0.3665; the root of 8.1733 + 0.1343 is 2.8823, the angle whose tangent
    is 0.3665/2.8589 is 7.31 degrees, and 14,000 kg times 2.8823 are 40,352 N."""
    with far_machine(400000, 13000, 1500, -15, -82, 14000) as machine:
        panel = machine.panel()
        judge("before PRO: noun 61", ("63", "61", "+00000", "-04000", "+14000"), tuple(panel[name] for name in ("PROG", "NOUN", "R1", "R2", "R3")))
        judge("coarse pulses", 2, machine.channel(example.STAGING) & 2)
        machine.pro(True)
        machine.until(PLACES["SERVICER"])
        machine.put("DELT", 1)  # a hundredth of a second: 2 of 256 parts
        machine.until_write(example.THROTTLE)
        machine.step()
        near("time to go", 458.22, machine.word("ORBTGO") / 16, 0.2)
        near("forward", 2.8589, machine.word("AX") / 1024, 0.004)
        near("up with gravity", 0.3665, machine.word("GZ") / 1024, 0.006)
        near("tilt", -82.69, machine.word("THETAD") / example.DEGREE, 0.2)
        near("thrust", 40352, 4 * machine.word("FCMD"), 80)
        near("way", 400000 - 1500 * 2 / 256, -32 * machine.both("XN"), 0.1)
        machine.pro(False)
        machine.seconds(0.6)
        panel = machine.panel()
        # the speed rounded down, 0.01 s of gravity, 4582 tenths of a second
        judge("noun 63", ("63", "63"), (panel["PROG"], panel["NOUN"]))
        near("noun 63: speed, m/s", 1500, int(panel["R1"]), 1)
        near("noun 63: rate, 0.1 m/s", -150, int(panel["R2"]), 3)
        near("noun 63: altitude, m", 13000, int(panel["R3"]), 20)
        for keys, wait in (("VERB 3 7 ENTR 6 6 ENTR", 0.4), ("RSET VERB 0 6 NOUN 6 4 ENTR", 0.4)):
            machine.press(keys, 0.1)
            machine.seconds(wait)
            judge(f"far from the site {keys} is wrong", ("63", True), (machine.panel()["PROG"], "OPR ERR" in machine.panel()["LAMPS"]))
        machine.press("RSET VERB 1 6 NOUN 6 3 ENTR VERB 3 7 ENTR 7 0 ENTR", 0.1)
        machine.seconds(1.2)
        judge("P70 ends the crew's monitor of noun 63", ("70", "06", "94"), tuple(machine.panel()[name] for name in ("PROG", "VERB", "NOUN")))
        machine.press("VERB 0 6 NOUN 6 3 ENTR", 0.1)
        machine.seconds(0.4)
        judge("noun 63 is none in an abort", True, "OPR ERR" in machine.panel()["LAMPS"])
    for what, keys, state in (
        ("P64 with a load for P63", "VERB 3 7 ENTR 6 4 ENTR", (400000, 13000, 1500, -15, -82, 14000)),
        ("P63 from 17 km", "RSET", (400000, 17000, 1500, -15, -82, 14000)),
        ("P63 with 15,600 kg", "RSET", (400000, 13000, 1500, -15, -82, 15600, 15600)),
        ("P63 with 12,400 kg", "RSET", (400000, 13000, 1500, -15, -82, 12400, 12400)),
    ):
        with far_machine(*state) as machine:
            machine.press("VERB 3 4 ENTR", 0.1) if "P64" in what else None
            machine.press(keys, 0.1)
            machine.seconds(0.5)
            judge(f"{what}: a bad load", ("00", 0o3005), (machine.panel()["PROG"], machine.word("FAILREG", 2)))
    for mass in (12600, 15400):
        with far_machine(400000, 13000, 1500, -15, -82, mass, mass) as machine:
            judge(f"P63 with {mass} kg: a good load", ("63", 0), (machine.panel()["PROG"], machine.word("FAILREG", 2)))


def try_high_above():
    """Above 16,383 m P63 far from the site shows +16383, and flies on; above 163 km so does an abort."""
    with far_machine(300000, 16000, 1000, 40, -60, 10000) as machine:
        machine.pro(True)
        machine.seconds(0.3)
        machine.pro(False)
        machine.seconds(1)
        machine.put_both("ZN", 17000 / 32)
        machine.seconds(2.5)
        panel = machine.panel()
        judge("P63 at 17 km", ("63", "63", "+16383"), (panel["PROG"], panel["NOUN"], panel["R3"]))
        near("its altitude", 17000 / 32, machine.both("ZN"), 5)
        near("its way", 300000 - 3900, -32 * machine.both("XN"), 1000)
        machine.press("VERB 3 7 ENTR 7 0 ENTR", 0.1)
        machine.seconds(1.5)
        machine.put_both("ZN", 170000 / 32)
        machine.seconds(5)
        panel = machine.panel()
        judge("an abort at 170 km", ("94", "+16383"), (panel["NOUN"], panel["R3"]))
        judge("its engine is on", 1 << 12, machine.channel(example.LAMPS) & 1 << 12)


def try_near_units():
    """Eight seconds before its point P63 comes into the units of a landing; coarse pulses that are on their way count. From 14 km, 3800 m, 210 m/s and
    -45 m/s the time to go is 2 * 1200/400 = 6 s. Five pulses of 0.468 m/s back and three up leave 207.66 and -43.596 m/s."""
    with far_machine(14000, 3800, 210, -45, -64, 8800) as machine:
        machine.pro(True)
        machine.until(PLACES["SERVICER"])
        machine.put("DELT", 1)
        machine.poke(0, example.PIPAZ, 0o77777 - 5)
        machine.poke(0, example.PIPAX, 3)
        machine.until_write(example.STAGING)
        machine.seconds(0.01)
        judge("the units of a landing, fine pulses", (0, 0), (machine.word("ORBNAV"), machine.channel(example.STAGING) & 2))
        near("way", 14000 - 210 * 2 / 256, -machine.both("XN"), 0.1)
        near("forward", 207.66, machine.both("VX") / 64, 0.03)
        near("altitude", 3800 - 45 * 2 / 256, machine.both("ZN"), 0.1)
        near("rate", -43.596 - 1.595 * 2 / 256, machine.both("VZ") / 64, 0.03)
    # too fast: 300 m/s at 13.5 km
    with far_machine(13500, 3800, 300, -45, -64, 8800) as machine:
        machine.press("VERB 1 6 NOUN 6 3 ENTR", 0.05)
        machine.pro(True)
        machine.until(PLACES["SERVICER"])
        machine.put("DELT", 1)
        machine.seconds(0.9)
        judge("too fast for the site: P70, noun 94, alarm 3003", ("70", "94", 0o3003), (machine.panel()["PROG"], machine.panel()["NOUN"], machine.word("FAILREG")))


def stormy_orbit(seed):
    """A landing from orbit with an alarm 1202 or 1201 every 0.7 seconds or so; how it ends."""
    chance = random.Random(7000 + seed)
    craft = craft_at(list(example.IN_ORBIT.values()), seed)
    due = [6.0]

    def disturb(machine, now):
        if now >= due[0]:
            due[0] = now + chance.uniform(0.4, 1.0)
            if chance.random() < 0.5:
                for core in range(1, 8):
                    machine.put("PRIORITY", -0o1000, 12 * core)
            else:
                for area in range(1, 6):
                    machine.put(f"VAC{area}USE", 0)

    with Machine() as machine:
        for _ in example.fly(machine, craft, example.BRAKING, disturb=disturb):
            pass
        alarms = {machine.word("FAILREG", n) for n in range(3)}
        return seed, craft.landed(), machine.panel()["PROG"], alarms <= {0o1201, 0o1202} and 0 not in alarms


def try_stormy_orbit(flights):
    for seed, *came in flights.get():
        judge(f"from orbit with 1201 and 1202, {seed}", [True, "68", True], came)


ABORTS = [
    # what it is, the start, the program of the flight and of the abort, the second of its key, and a height in m below which it
    # comes instead
    ("at high gate", (2300.0, 7500.0, 150.0, 45.0), 64, 70, 5.0, 0),
    ("in the approach", (2300.0, 7500.0, 150.0, 45.0), 64, 70, 80.0, 0),
    ("in the approach, ascent stage", (2300.0, 7500.0, 150.0, 45.0), 64, 71, 80.0, 0),
    ("below low gate", (2300.0, 7500.0, 150.0, 45.0), 64, 70, 145.0, 0),
    ("at 20 m", (2300.0, 7500.0, 150.0, 45.0), 64, 70, 999.0, 20),
    ("at 20 m, ascent stage", (2300.0, 7500.0, 150.0, 45.0), 64, 71, 999.0, 20),
    ("at 2 m", (60.0, 0.0, 0.0, 0.0), 64, 70, 999.0, 2),
    ("before high gate", (3900.0, 15000.0, 200.0, 50.0), 63, 70, 12.0, 0),
    ("before high gate, ascent stage", (3900.0, 15000.0, 200.0, 50.0), 63, 71, 12.0, 0),
    ("as fast down as the range allows", (2000.0, 4000.0, 180.0, 70.0), 64, 70, 3.5, 0),
    ("backward", (30.0, 0.0, -15.0, 0.0), 64, 70, 3.5, 0),
    ("far from the site", (15000.0, 500000.0, 1692.0, 0.0), 63, 70, 300.0, 0),
    ("far from the site, ascent stage", (15000.0, 500000.0, 1692.0, 0.0), 63, 71, 430.0, 0),
    ("as P63 begins", (15000.0, 500000.0, 1692.0, 0.0), 63, 70, 3.5, 0),
    ("with no time to climb", (13000.0, 500000.0, 1660.0, 5.0), 63, 70, 4.0, 0),
    ("with no time to climb, ascent stage", (13000.0, 500000.0, 1660.0, -10.0), 63, 71, 19.0, 0),
]


def typed_at(second, program, gap=0.1):
    """The keys of V37E and a program, from a second on."""
    return {second + gap * n: key for n, key in enumerate(("VERB", "3", "7", "ENTR", *str(program), "ENTR"))}


def kepler(height, forward, up):
    """Apolune and perilune in km, from the eccentricity's two parts: up from the perilune, and across."""
    radius, moon = 1737.4 + height / 1000, 1.62e-3 * 1737.4**2
    along = radius * (forward / 1000) ** 2 / moon - 1
    eccentricity = math.hypot(along, radius * forward * up / 1e6 / moon)
    latus = radius * (1 + along)
    return latus / (1 - eccentricity) - 1737.4, latus / (1 + eccentricity) - 1737.4


def aborted(number, disturb=None, ascent_fuel=example.ASCENT_FUEL):
    """Flies an abort. Returns the craft, what is shown in the end, alarms, the writes, the script, the last cycle and second."""
    _, start, program, by, second, low = ABORTS[number]
    craft = craft_at(start, number + 1)
    craft.ascent_fuel = ascent_fuel
    keys = dict(example.BRAKING if program == 63 else example.APPROACH)
    keys.update({} if low else typed_at(second, by))
    presses = []

    def press(machine, now):
        if low and not presses and craft.height < low:
            presses.extend(sorted(typed_at(now + 0.01, by).items()))
            presses.append((1e9, ""))
        while presses and presses[0][0] <= now:
            machine.key(presses.pop(0)[1])
        if disturb and craft.flying:
            disturb(machine, now)

    writes = []
    with Machine() as machine:
        for now, written in example.fly(machine, craft, keys, disturb=press):
            writes += written
        alarms = [machine.word("FAILREG", n) for n in range(3)]
        return craft, machine.shown().split(), alarms, writes, machine.script(), machine.cycle, now


def abort_flight(number):
    """An abort, its replay and its second integration: what was not as it should be."""
    name, start = ABORTS[number][:2]
    craft, shown, alarms, writes, text, cycle, now = aborted(number)
    script = os.path.join(scratch, f"abort-{number}")
    with open(script, "w") as file:
        file.write(text)
    log = ran(agc, example.ROPE, script, "--limit", str(cycle), "--log").stdout.splitlines()
    other = integrated(start, number + 1, writes, now)
    high, low = kepler(craft.height, craft.forward, craft.up)
    registers = [int(each) / unit for each, unit in zip(shown[3:6], (10, 10, 1))] if shown[2] == "44" else [0.0, 0.0, 0.0]
    checks = [
        ("it is in orbit", craft.in_orbit() and not craft.touched),
        ("the perilune is above 10 km", low > 10),
        ("the apolune is below 120 km", low < high < 120),
        ("program and noun", shown[0] in ("70", "71") and shown[1:3] == ["06", "44"]),
        ("no alarm", set(alarms) <= ({0, 0o3003} if is_too_fast(start[1], start[2]) else {0})),
        ("the DSKY's apolune", abs(registers[0] - high) < 8),
        ("the DSKY's perilune", abs(registers[1] - low) < 1.5),
        ("the DSKY's speed", abs(registers[2] - craft.forward) < 2.5),
        ("the words", example.orbit_in_words(craft) == f"Aborted: orbit of {high:.0f} by {low:.0f} km"),
        ("the other integration, up", abs(other[0] - craft.up) < 0.08),
        ("the other integration, forward", abs(other[1] - craft.forward) < 0.08),
        ("the other integration, tilt", abs(other[2] - math.degrees(craft.tilt)) < 0.15),
        ("the other integration, height", abs(other[3] - craft.height) < 0.05 * now),
        ("events", len(text.splitlines()) < 50000),
        ("agc repeats it", log[9:] == [f"{w.cycle} {w.channel:03o} {w.value:05o}" for w in writes] and log[0] == f"PROG {shown[0]}"),
        ("so does another emulator", log == emulated(script, cycle)),
    ]
    line = (
        f"{name:34s} {high:6.1f} {low:5.1f} km, shown {shown[3]} {shown[4]} {shown[5]}, fuel {craft.fuel():5.0f}, {now:5.0f} s,"
        f" {len(text.splitlines())} events; other {other[0] - craft.up:+.3f} {other[1] - craft.forward:+.3f}"
        f" {other[2] - math.degrees(craft.tilt):+.3f} {other[3] - craft.height:+.2f}"
    )
    return line, [(f"abort {name}: {what}", right) for what, right in checks]


def try_aborts(flights):
    """Aborts from anywhere end in orbit, and the DSKY shows it."""
    for line, checks in flights.get():
        print(line)
        for what, right in checks:
            judge(what, True, right)


def stormy(number):
    """An abort with an alarm 1202 or 1201 every 0.7 seconds or so from its last key on; how it ends."""
    chance = random.Random(5000 + number)
    due = [ABORTS[number][4] + 0.65]

    def disturb(machine, now):
        if now >= due[0]:
            due[0] = now + chance.uniform(0.4, 1.0)
            if chance.random() < 0.5:
                for core in range(1, 8):
                    machine.put("PRIORITY", -0o1000, 12 * core)
            else:
                for area in range(1, 6):
                    machine.put(f"VAC{area}USE", 0)

    craft, shown, alarms, *_ = aborted(number, disturb)
    _, low = kepler(craft.height, craft.forward, craft.up)
    return number, (shown[:3], craft.in_orbit() and low > 10, set(alarms) <= {0o1201, 0o1202} and 0 not in alarms)


def try_stormy_aborts(flights):
    for number, came in flights.get():
        judge(f"abort {ABORTS[number][0]}, 1201 and 1202: program and noun", ["06", "44"], came[0][1:])
        judge(f"abort {ABORTS[number][0]}, 1201 and 1202: orbit, alarms", (True, True), came[1:])


def try_abort_keys():
    """In an abort nouns of the landing, its programs and P70 after P71 are wrong keys; P71 may follow P70. The crew's monitor
    of such a noun ends, and P00 puts the engine off. No other flight begins then."""
    craft = example.Craft()
    keys = {**example.APPROACH, **typed_at(30.0, 70), **typed_at(45.0, 66), **typed_at(60.0, 71), **typed_at(70.0, 70), **typed_at(80.0, 0)}
    for begun, text in ((20.0, "VERB 1 6 NOUN 6 8 ENTR"), (40.0, "VERB 0 6 NOUN 6 0 ENTR"), (43.0, "RSET KEYREL"), (50.0, "RSET KEYREL")):
        keys.update({begun + 0.1 * n: key for n, key in enumerate(text.split())})
    for begun, text in ((55.0, "VERB 1 6 NOUN 4 7 ENTR"), (75.0, "RSET KEYREL"), (79.0, "RSET"), (81.5, "VERB 3 7 ENTR 6 4 ENTR")):
        keys.update({begun + 0.1 * n: key for n, key in enumerate(text.split())})
    keys[80.4], keys[80.5] = "0", "0"
    keys[80.6] = "ENTR"
    seen, staged, mass = {}, {}, {}
    with Machine() as machine:
        for now, _ in example.fly(machine, craft, keys, seconds=85):
            for when in (25.0, 39.0, 42.0, 44.5, 48.0, 52.0, 58.0, 65.0, 73.0, 81.4, 84.5):
                if abs(now - when) < 0.001:
                    seen[when], staged[when], mass[when] = machine.shown().split(), craft.staged, machine.word("MASS")
        alarm = machine.word("FAILREG", 2)
    judge("before: the crew's monitor", ["64", "16", "68"], seen[25.0][:3])
    judge("P70 has the display", ["70", "06", "94"], seen[39.0][:3])
    judge("noun 60 is a wrong key", True, "OPR" in seen[42.0])
    judge("KEY REL: noun 94", ["70", "06", "94", "off"], seen[44.5][:3] + seen[44.5][6:7])
    judge("P66 is a wrong key", ("70", True), (seen[48.0][0], "OPR" in seen[48.0]))
    judge("noun 47 is none", ["70", "16", "47"], seen[58.0][:3])
    judge("P71 drops the stage", ("71", True, False), (seen[65.0][0], staged[65.0], staged[58.0]))
    near("the mass that is left, after four seconds", 4700 - 4 * 15600 / 3050, mass[65.0], 10)
    judge("P70 is a wrong key then", ("71", True), (seen[73.0][0], "OPR" in seen[73.0]))
    judge("P00: the engine is off", ("00", False), (seen[81.4][0], craft.engine))
    judge("P64 does not begin", ("00", 0o3005), (seen[84.5][0], alarm))


def try_abort_without_fuel():
    """The ascent stage runs dry: alarm 3002, and the flight ends by name."""
    craft, shown, alarms, *_ = aborted(2, ascent_fuel=500)
    judge("alarm 3002 in P71", ("71", 0o3002), (shown[0], alarms[2]))
    judge("no orbit", (False, True), (craft.in_orbit(), craft.mass == example.ASCENT_DRY))
    judge("the page's words", "Out of fuel", example.outcome(craft)["text"])
    verdict, last, status = flown_by("--ascent-fuel", "500", *(f"--key={when}:{key}" for when, key in typed_at(20.0, 71).items()))
    judge("craft.py's words", True, re.match(r"Aborted: out of fuel, \d+\.\d km high, [+-]\d+\.\d\d m/s up, \+\d+\.\d\d m/s forward$", verdict) is not None)
    judge("craft.py's end", ("program 71, alarm 03002", 0), (last, status))
    # without a descent engine P71 comes by itself, without either one the ground does
    keys = [f"--key={when}:{key}" for when, key in typed_at(20.0, 70).items()]
    verdict, last, _ = flown_by("--fault", "engine:15", *keys)
    judge("no descent engine", ("Aborted: orbit of", "program 71, alarm 03002"), (verdict[:17], last))
    verdict, last, _ = flown_by("--fault", "engine:15", "--fault", "ascent-engine:15", *keys)
    judge("no engine", ("on the ground: -", "OUTSIDE THE LIMITS", "program 69, alarm 03001"), (verdict[:16], verdict[-18:], last))
    # the descent stage runs dry: P71 by itself
    craft, shown, alarms, *_ = aborted(1)
    judge("P71 after P70, without an alarm", ("71", True, [0, 0, 0]), (shown[0], craft.staged, alarms))


# the keyboard


KEYS = [
    # keys, seconds to wait, what is shown then
    ("VERB 0 5 NOUN 0 9 ENTR", 0.3, "00 05 09 _00000 _00000 _00000 off"),
    ("VERB 0 6 NOUN 0 9 ENTR", 0.3, "00 06 09 _00000 _00000 _00000 off OPR ERR"),
    ("RSET", 0.3, "00 06 09 _00000 _00000 _00000 off"),
    ("VERB 9 9 ENTR", 0.3, "00 99 09 _00000 _00000 _00000 off OPR ERR"),
    ("RSET VERB 0 6 NOUN 1 2 ENTR", 0.3, "00 06 12 _00000 _00000 _00000 off OPR ERR"),
    ("RSET VERB", 0.3, "00 __ 12 _00000 _00000 _00000 off"),
    ("1 6 7 8", 0.3, "00 16 12 _00000 _00000 _00000 off"),
    ("VERB 2 1 NOUN 6 6 ENTR", 0.4, "00 21 66 ______ _00000 _00000 on"),
    ("- 0 0 0 1", 0.3, "00 21 66 -0001_ _00000 _00000 on"),
    ("CLR", 0.4, "00 21 66 ______ _00000 _00000 on"),
    ("- 0 0 0 1 5 9", 0.3, "00 21 66 -00015 _00000 _00000 on"),
    ("ENTR", 0.4, "00 21 66 -00015 _00000 _00000 off"),
    ("VERB 0 6 ENTR", 0.4, "00 06 66 -00015 +00000 +00000 off"),
    ("VERB 2 1 ENTR 1 2 8", 0.4, "00 21 66 _12___ +00000 +00000 on OPR ERR"),
    ("RSET ENTR", 0.4, "00 21 66 ______ +00000 +00000 on OPR ERR"),
    ("RSET + 1 2 ENTR", 0.4, "00 21 66 ______ +00000 +00000 on OPR ERR"),
    ("RSET VERB 2 2 ENTR", 0.4, "00 22 66 ______ +00000 +00000 off OPR ERR"),
    ("RSET VERB 2 4 NOUN 3 6 ENTR", 0.4, "00 21 36 ______ +00000 +00000 on"),
    ("+ 0 0 0 0 7 ENTR", 0.4, "00 22 36 +00007 ______ +00000 on"),
    ("CLR", 0.4, "00 21 36 ______ ______ +00000 on"),
    ("+ 0 0 0 0 8 ENTR + 0 0 0 5 9 ENTR", 0.4, "00 22 36 +00008 +00059 +00000 off"),
    ("VERB 2 3 NOUN 3 6 ENTR + 0 9 9 9 9 ENTR", 0.4, "00 23 36 +00008 +00059 +09999 off"),
    ("VERB 2 5 NOUN 3 6 ENTR", 0.4, "00 21 36 ______ +00059 +09999 on"),
    ("+ 0 0 0 1 2 ENTR", 0.4, "00 22 36 +00012 ______ +09999 on"),
    ("+ 0 0 0 3 4 ENTR", 0.4, "00 23 36 +00012 +00034 ______ on"),
    ("+ 0 0 0 0 0 ENTR", 0.1, "00 23 36 +00012 +00034 +00000 off"),
    ("VERB 3 3 ENTR", 0.3, "00 33 36 +00012 +00034 +00000 off OPR ERR"),
    ("RSET PRO", 0.3, "00 33 36 +00012 +00034 +00000 off OPR ERR"),
    ("RSET VERB 3 7 ENTR", 0.3, "00 37 __ +00012 +00034 +00000 on"),
    ("6 6 ENTR", 0.3, "00 37 66 +00012 +00034 +00000 off OPR ERR"),
    ("RSET VERB 3 7 ENTR 5 5 ENTR", 0.3, "00 37 55 +00012 +00034 +00000 off OPR ERR"),
    ("RSET VERB 3 7 ENTR 6 4 ENTR", 0.5, "64 06 61 +00000 -07500 +08500 on"),
    ("VERB 0 5 NOUN 0 9 ENTR", 0.4, "64 05 09 _00000 _00000 _00000 off KEY REL"),
    ("KEYREL", 0.5, "64 06 61 +00000 -07500 +08500 on"),
    ("VERB 3 4 ENTR", 0.4, "00 06 61 +00000 -07500 +08500 off"),
    ("VERB 3 6 ENTR", 0.5, "00 __ __ ______ ______ ______ off"),
]

ALL_LAMPS = "UPLINK ACTY NO ATT TEMP GIMBAL LOCK PROG KEY REL OPR ERR TRACKER ALT VEL ISS"


def try_keys():
    with Machine() as machine:
        machine.go(40000)
        machine.put_both("XN", -7500)
        machine.put_both("MASS", 8500)
        for keys, wait, wanted in KEYS:
            machine.press(keys)
            machine.seconds(wait)
            judge(f"keys {keys}", wanted, machine.shown())
        machine.press("VERB 3 5 ENTR")
        machine.seconds(0.5)
        judge("lamp test", "88 88 88 +88888 +88888 +88888 on " + ALL_LAMPS, machine.shown())
        machine.seconds(6)
        judge("after the lamp test", "00 35 __ ______ ______ ______ off", machine.shown())
        # the clock was set to 12:34:00 some way before; a monitor refreshes it each second, and stops while keys come
        machine.press("VERB 2 5 NOUN 3 6 ENTR + 0 0 0 1 2 ENTR + 0 0 0 3 4 ENTR + 0 0 0 0 0", 0.1)
        begun = machine.cycle
        machine.press("ENTR", 0.1)
        machine.press("VERB 1 6 NOUN 3 6 ENTR", 0.1)
        for second in range(1, 5):
            machine.seconds(1)
            panel = machine.panel()
            judge("the clock's hour and minute", ("+00012", "+00034"), (panel["R1"], panel["R2"]))
            near("the clock's seconds", (machine.cycle - begun) / SECOND, int(panel["R3"]) / 100, 1.3)
        before = machine.panel()["R3"]
        machine.press("VERB")
        machine.seconds(2.5)
        judge("a monitor waits while a verb is keyed", before[:4], machine.panel()["R3"][:4])
        machine.press("KEYREL")
        machine.seconds(1.5)
        judge("KEY REL: the monitor goes on", ("16", True), (machine.panel()["VERB"], machine.panel()["R3"] != before))
        machine.press("KEYREL")
        held = machine.panel()["R3"]
        machine.seconds(2.5)
        judge("KEY REL again ends it", held, machine.panel()["R3"])


def try_flight_keys():
    """In flight: KEY REL lights while the crew has the display; the clock is not to be set; noun 66 commands the rate."""
    craft = example.Craft()
    seen = {}
    keys = dict(example.APPROACH)
    at = [(20.0, "VERB 1 6 NOUN 6 8 ENTR"), (30.0, "KEYREL"), (140.0, "VERB 3 7 ENTR 6 6 ENTR")]
    at += [(40.0, "VERB 2 3 NOUN 3 6 ENTR + 0 0 0 0 0 ENTR"), (45.0, "RSET KEYREL"), (50.0, "VERB 3 7 ENTR 6 4 ENTR")]
    at += [(55.0, "RSET KEYREL")]
    at += [(143.0, "VERB 2 1 NOUN 6 6 ENTR - 0 0 0 2 0 ENTR")]
    for begun, text in at:
        for place, key in enumerate(text.split()):
            keys[begun + 0.1 * place] = key
    with Machine() as machine:
        for now, _ in example.fly(machine, craft, keys):
            for when in (19.5, 25.0, 32.5, 43.0, 53.0, 57.0, 142.0, 150.0, 153.0):
                if abs(now - when) < 0.001:
                    seen[when] = machine.shown().split(), craft.up, craft.forward
        end = machine.shown()
    judge("the program's display", ["64", "06", "64"], seen[19.5][0][:3])
    held = seen[25.0][0]
    judge("the crew's monitor lights KEY REL", ["64", "16", "68", "off", "KEY", "REL"], held[:3] + held[6:])
    judge("KEY REL gives the display back", ["64", "06", "64", "off"], seen[32.5][0][:3] + seen[32.5][0][6:])
    judge("the clock cannot be set in flight", True, "OPR" in seen[43.0][0])
    judge("nor can P64 begin again", True, "OPR" in seen[53.0][0])
    judge("and P64 goes on", ["64", "06", "64", "off"], seen[57.0][0][:3] + seen[57.0][0][6:])
    judge("P66 by keys", "66", seen[142.0][0][0])
    near("the rate that noun 66 commands", -2.0, seen[150.0][1], 0.15)
    near("and holds", -2.0, seen[153.0][1], 0.15)
    judge("on the ground", True, craft.touched is not None and end.startswith("68"))


def typed(seed):
    """Keys at random, right and wrong ones: afterwards the clock still runs on the display."""
    keys = "0 1 2 3 4 5 6 7 8 9 VERB NOUN ENTR CLR RSET KEYREL + - PRO".split()
    verbs = "05 06 16 21 22 23 24 25 33 34 35 36 37".split()
    nouns = "09 36 60 61 62 63 64 66 68 12".split()
    chance = random.Random(seed)
    with Machine() as machine:
        machine.go(100000)
        for _ in range(200):
            drawn = chance.random()
            if drawn < 0.35:
                text = [chance.choice(keys)]
            elif drawn < 0.7:
                text = ["VERB", *chance.choice(verbs), "NOUN", *chance.choice(nouns), "ENTR"]
            elif drawn < 0.85:
                text = [chance.choice("+-"), *(chance.choice("0123456789") for _ in range(5)), "ENTR"]
            else:
                text = ["VERB", "3", "7", "ENTR", *chance.choice(("64", "00")), "ENTR", chance.choice(("PRO", "RSET"))]
            for key in text:
                if key == "PRO":
                    machine.pro(True)
                    machine.go(3000)
                    machine.pro(False)
                else:
                    machine.key(key)
                machine.go(chance.choice((3000, 8533, 20000, 100000)))
        machine.seconds(10)
        machine.press("VERB 3 7 ENTR 0 0 ENTR VERB 1 6 NOUN 3 6 ENTR")
        machine.seconds(20)
        panel = machine.panel()
        before = panel["R3"]
        machine.seconds(1.5)
        return seed, (panel["PROG"], panel["VERB"], panel["NOUN"], before != machine.panel()["R3"], machine.stop)


def try_wrong_keys(typing):
    for seed, came in typing.get():
        judge(f"keys at random, {seed}", ("00", "16", "36", True, None), came)


# alarms


def landed(touched):
    """Whether a craft touched the ground slowly and upright."""
    return touched is not None and -1.5 < touched[0] <= 0 and abs(touched[1]) < 0.6 and abs(touched[2]) < 3


def alarm_flight(which):
    """A flight of examples/descent/alarm: what it shows, and its script."""
    keys = dict(example.APPROACH)
    for key in re.findall(r"([0-9.]+):(\w+)", read(os.path.join(folder, "alarm", "fly"))):
        keys[float(key[0])] = key[1]
    craft = example.Craft()
    seen, lit = {}, None
    with Machine(os.path.join(folder, "alarm", which)) as machine:
        for now, written in example.fly(machine, craft, keys):
            if lit is None and any(w.channel == 0o10 and w.value >> 11 == 12 and w.value & 0o400 for w in written):
                lit = now
            for when in (59.0, 75.0, 77.0, 79.0):
                if abs(now - when) < 0.001:
                    seen[when] = machine.shown()
        codes = [machine.word("FAILREG", n) for n in range(3)]
        end = machine.shown()
        script = os.path.join(scratch, "alarm-" + which)
        with open(script, "w") as file:
            file.write(machine.script())
        return seen, lit, codes, craft.touched, end, script, machine.cycle


def read(name):
    with open(name) as file:
        return file.read()


def profile(*words):
    """The lines of agc-study profile, by kind and name: times and cycles."""
    done = ran(study, "profile", *words, "--csv")
    if done.returncode != 0:
        return {}
    rows = list(csv.reader(io.StringIO(done.stdout)))[1:]
    return {(kind, name): (int(times), int(cycles), order) for kind, name, order, times, cycles, _ in rows}


def sets_in_use(script, begin, end):
    """The greatest number of core sets that are not free, by agc-study jobs, and when it comes first."""
    words = ["--limit", str(end + 1), "--watch", SPEC, "--from", str(begin), "--to", str(end)]
    busy, most = {}, (0, 0)
    for line in ran(study, "jobs", example.ROPE, script, *words).stdout.splitlines():
        cycle, kind, rest = line.split(" ", 2)
        if kind == "SET":
            which, state = rest.split(" ")[:2]
            busy[which] = state != "FREE"
            if sum(busy.values()) > most[0]:
                most = sum(busy.values()), int(cycle)
    return most


def servicers_left(script):
    """The VAC areas in use at the first two alarms of a flight."""
    left = []
    with Machine(script) as machine:
        while len(left) < 2:
            machine.until(PLACES["BAILOUT"], within=10_000_000)
            left.append(sum(machine.word(f"VAC{area}USE") == 0 for area in range(1, 6)))
            machine.go(100)
    return tuple(left)


def idle_of(found):
    """The cycles of the idle job's three orders."""
    place = int(PLACES["IDLE"].split(",")[1], 8)
    return sum(found.get(("word", f"02,{place + n:04o}"), (0, 0))[1] for n in range(3))


def alarmed(seed):
    """A flight with more pulses than the program has cycles to spare, from some second on."""
    chance = random.Random(2000 + seed)
    every, begin = chance.choice((4, 5, 6)), chance.uniform(10, 120)
    pulses = os.path.join(scratch, f"pulses-{seed}")
    with open(pulses, "w") as file:
        file.write(f"every {every} {round(begin * SECOND)} {round(begin * SECOND) + 40000 * every} pulse 36 pcdu\n")
    keys = dict(example.APPROACH)
    for place, key in enumerate("VERB 1 6 NOUN 6 8 ENTR".split()):
        keys[begin - 4 + 0.25 * place] = key
    craft = example.Craft(*start_of(6 * seed), seed)
    with Machine(pulses) as machine:
        for _ in example.fly(machine, craft, keys):
            pass
        return seed, machine.panel()["PROG"], machine.word("FAILREG"), craft.touched


def try_alarms(flights):
    for seed, program, code, touched in flights.get():
        judge(f"alarm {seed}", ("68", 0o1202), (program, code))
        judge(f"alarm {seed}: it lands", True, landed(touched))


def try_1202(flights):
    (seen, lit, codes, touched, end, script, cycle), calm = flights.get()
    judge("before: noun 68 by verb 16", "64 16 68", seen[59.0][:8])
    judge("PROG lights within 3 seconds", True, lit is not None and 60 < lit < 63)
    judge("V05N09: two alarms", "64 05 09 _01202 _01201 _01201 off PROG", seen[75.0].replace(" KEY REL", ""))
    judge("RSET", False, "PROG" in seen[77.0].split())
    judge("KEY REL: guidance goes on", "64 06 64", seen[79.0][:8])
    judge("the codes after RSET", [0, 0, 0o1201], codes)
    judge("it lands", True, landed(touched))
    judge("in P68", "68", end[:2])
    log = ran(agc, example.ROPE, script, "--limit", str(cycle), "--log").stdout.splitlines()
    judge("agc comes to the same end", "PROG 68", log[0])
    judge("so does another emulator, with all writes", (True, True), (len(log) > 5000, log == emulated(script, cycle)))
    judge("without pulses there is no alarm", ([0, 0, 0], None), (calm[2], calm[1]))
    judge("and it lands too", "68", calm[4][:2])
    # what our tools say: eight core sets in use with the pulses, seven at most without; the pulses' cycles
    begin, end = 5150000, round(lit * SECOND)  # the pulses begin, the first alarm lights
    judge("core sets in use, with pulses", 8, sets_in_use(script, begin, end)[0])
    judge("core sets in use, without", True, sets_in_use(calm[5], begin, end)[0] < 8)
    judge("SERVICERs that wait as 1202 comes, and as 1201 does", (3, 5), servicers_left(script))
    part = ["--limit", str(end), "--from", str(begin + 85334), "--to", str(begin + 85334 + 85332)]
    stolen, quiet = profile(example.ROPE, script, *part), profile(example.ROPE, calm[5], *part)
    # a pulse every thirteen cycles of 85,333 is 6564; the craft's own pulses come to 60 or so
    near("cycles taken by pulses", 6564 + quiet["all", "events"][1], stolen["all", "events"][1], 60)
    judge("idle time without pulses", True, idle_of(quiet) > 0.01 * 85333)
    judge("idle time with pulses", 0, idle_of(stolen))
    compared = ran(study, "compare", example.ROPE, calm[5], example.ROPE, script, "--limit", str(begin + 1000)).stdout
    judge("compare: they part at the first pulse", True, "event pulse 36 pcdu" in compared)


def try_1201():
    """All VAC areas in use: the next SERVICER finds none."""
    with guided(7500, 2300, 150, -45, -40, 8500) as machine:
        machine.seconds(0.9)
        for area in range(1, 6):
            machine.put(f"VAC{area}USE", 0)
        machine.seconds(0.6)
        judge("1201, and no other alarm", [0o1201, 0, 0o1201], [machine.word("FAILREG", n) for n in range(3)])
        machine.seconds(2)
        shown = machine.shown().split()
        # ALT and VEL: no radar answers
        judge("1201: PROG lights, and guidance goes on", "64 06 64 off PROG ALT VEL", " ".join(shown[:3] + shown[6:]))
        judge("1201: a VAC area is free again", True, machine.word("VAC5USE") > 0)
        words = machine.count_of_writes()
        machine.seconds(2)
        judge("1201: throttle commands go on", True, machine.count_of_writes() > words)
    # a phase that is not the complement of its complement: a fresh start
    with guided(7500, 2300, 150, -45, -40, 8500) as machine:
        machine.seconds(0.9)
        machine.put("NPHASE4", 5)
        for area in range(1, 6):
            machine.put(f"VAC{area}USE", 0)
        machine.seconds(0.6)
        came = machine.panel()["PROG"], machine.word("FAILREG", 2)
        judge("a phase at fault leads to a fresh start", ("00", 0o1107), came)


# flights that go wrong


def flown_by(*words):
    """The last two lines that craft.py prints, without the events and their cycle, and its status."""
    flight = ran(sys.executable, "-B", example.__file__, "--program", console, "--every", "1000", *words)
    verdict, last = flight.stdout.splitlines()[-2:]
    return verdict, last.partition(", ")[2], flight.returncode


def wrong_flight(words):
    return flown_by(*words)


WRONG = [
    # options, how the verdict begins and ends, and the end of the last line
    (["--fuel", "500"], "on the ground: -", ": OUTSIDE THE LIMITS", "program 69, alarm 03001"),
    (["--way", "2000"], "on the ground: -", ": within the limits", "program 68, alarm 03003"),
    (["--fault", "forward-jet:60"], "on the ground: -", ": OUTSIDE THE LIMITS", "program 69, alarm 03001"),
    (["--fault", "radar:60"], "on the ground: -", ": within the limits", "program 68, alarm 00521"),
    (["--fault", "engine:100:5"], "on the ground: -", ": within the limits", "program 68, alarm 03002"),
    (["--loaded-height", "2700"], "on the ground: -", ": OUTSIDE THE LIMITS", "program 69, alarm 03001"),
    (["--script", f"{folder}/alarm/vac"], "on the ground: -", ": within the limits", "program 68, alarm 01201"),
    (["--script", f"{folder}/alarm/waitlist"], "on the ground: -", ": within the limits", "program 68, alarm 01203"),
    (["--loaded-mass", "0"], "not on the ground", "", "program 00, alarm 03005"),
    (["--orbit", "--loaded-mass", "9000"], "not on the ground", "", "program 00, alarm 03005"),
    (["--orbit", "--fault", "engine:100:60"], "Aborted: orbit of ", " km", "program 71, alarm 03003"),
    # a long flight that uses up its fuel, and still has room for an orbit in its script
    ("--height 4000 --way 13000 --forward -13.451 --down 81.26 --seed 1700987576".split(), "Aborted: orbit of ", " km", "program 71, alarm 03004"),
    (["--loaded-mass", "6890"], "Aborted: orbit of ", " km", "program 71, alarm 03004"),
]


def try_wrong_flights(flights):
    for (words, begin, end, told), (verdict, last, status) in zip(WRONG, flights.get()):
        name = " ".join(words)
        judge(f"{name}: the verdict", True, verdict.startswith(begin) and verdict.endswith(end))
        judge(f"{name}: program and alarm", told, last)
        judge(f"{name}: the status", 0, status)


def try_downlink():
    """The downlink's interrupt comes each tenth of a second; each second once the craft has sent 48,000 events."""

    class Computer:
        raised: list = []

        def raise_interrupt(self, number):
            self.raised.append(number)

    for events, wanted in ((0, 30), (47969, 30), (48000, 3)):
        craft, computer = example.Craft(), Computer()
        craft.events, computer.raised = events, []
        for step in range(1, 301):
            example.report(computer, craft, step)
        judge(f"three seconds of the downlink after {events} events", [8] * wanted, computer.raised)
        judge("its events count", events + wanted, craft.events)


def try_engine():
    """Without fuel there is no thrust, and an alarm says so; the mass stays at that of the empty craft."""
    craft = example.Craft(fuel=300)
    least, seen = craft.mass, []
    with Machine() as machine:
        for now, _ in example.fly(machine, craft):
            least = min(least, craft.mass)
            if craft.mass == example.DRY and not craft.touched:
                seen.append((craft.thrust, machine.word("FAILREG")))
    judge("the fuel never goes below zero", example.DRY, least)
    judge("the thrust ends with it", {0.0}, {thrust for thrust, _ in seen})
    judge("alarm 3002 comes within five seconds", True, seen[500][1] == 0o3002)
    judge("a crash is no landing", (False, True), (craft.landed(), craft.touched is not None))


def try_touchdown():
    """All core sets are taken as a leg touches the ground: a restart, and P68 all the same."""
    craft = example.Craft(60.0, 0.0, 0.0, 0.0)
    taken = []

    def disturb(machine, now):
        if craft.contact and len(taken) < 30:
            taken.append(now)
            for core in range(1, 8):
                machine.put("PRIORITY", -0o1000, 12 * core)

    with Machine() as machine:
        for _ in example.fly(machine, craft, disturb=disturb):
            pass
        judge("1202 at touchdown", 0o1202, machine.word("FAILREG", 2))
        judge("P68 is shown", "68", machine.panel()["PROG"])
        machine.put("PRIORITY", -0o1000, 12)
        for core in range(2, 8):
            machine.put("PRIORITY", -0o1000, 12 * core)
        machine.seconds(1)
        judge("and after one more restart", "68", machine.panel()["PROG"])
    judge("the craft landed", True, craft.landed())


def try_waitlist():
    """A tenth task is an alarm. Three of nine places have the display's, guidance's and the radar's tasks; six more are taken."""
    with guided(7500, 2300, 150, -45, -40, 8500) as machine:
        machine.seconds(0.3)
        for task in range(3, 9):
            machine.put("LST2", 0o2000, 2 * task)
        machine.seconds(0.5)
        judge("nine tasks are no alarm", 0, machine.word("FAILREG"))
        machine.press("VERB 3 5 ENTR", 0.05)
        machine.seconds(0.2)
        judge("ten are", 0o1203, machine.word("FAILREG"))
        machine.seconds(1.5)
        judge("guidance goes on", (True, 0), (machine.word("DELT") < 100, machine.word("FAILREG", 1)))


def forced(seed):
    """A flight with an alarm 1202 every 0.7 seconds or so."""
    chance = random.Random(3000 + seed)
    craft = example.Craft(*start_of(seed), seed)
    due = [5.0]

    def disturb(machine, now):
        if now >= due[0]:
            due[0] = now + chance.uniform(0.4, 1.0)
            for core in range(1, 8):
                machine.put("PRIORITY", -0o1000, 12 * core)

    with Machine() as machine:
        for _ in example.fly(machine, craft, disturb=disturb):
            pass
        return seed, machine.panel()["PROG"], machine.word("FAILREG", 2), craft.landed()


def try_forced(flights):
    for seed, *came in flights.get():
        judge(f"1202 every 0.7 seconds, {seed}", ["68", 0o1202, True], came)


# arithmetic


def try_turning():
    """A jet turns the craft by rate t + 4 degrees/s/s t²/2: after a second at 0.3 degrees/s by 2.3 degrees, however long a step is."""
    craft = example.Craft()
    craft.flying, craft.jets, craft.tilt, craft.turning = True, 1, 0.0, 0.3 * example.RADIAN
    for _ in range(100):
        craft.step()
    near("the tilt after a second of a jet", 2.3, exact.degrees(craft.tilt), 1e-6)
    near("the rate", 4.3, exact.degrees(craft.turning), 1e-6)


def try_exact():
    """The craft's arithmetic: the published 10,000th state of the generator that begins with 1, and Python's own sine. A square
    root is rounded in one way, too."""
    noise = exact.Noise(0)
    noise.state = 1
    for _ in range(10000):
        noise.draw()
    judge("the generator", 1043618065, noise.state)
    worst = max(
        max(abs(sine - math.sin(angle)), abs(cosine - math.cos(angle)))
        for angle in (0.01 * n - 12 for n in range(2400))
        for sine, cosine in [exact.sine_and_cosine(angle)]
    )
    judge("sine and cosine", True, worst < 4e-15)
    calls = set(re.findall(r"\b(?:math|random)\.\w+", read(example.__file__) + read(exact.__file__)))
    judge("nothing else is taken from math", {"math.floor", "math.isfinite", "math.sqrt"}, calls)
    draws = [exact.Noise(5).normal(1.0) for _ in range(2)]
    judge("the same seed gives the same noise", draws[0], draws[1])


# the rope


def orders_of_source():
    """The places of the source's orders, by a count of its lines."""
    places, here = set(), ("02", 0o4000)
    one, two = {"OCT", "DEC", "VN", "ADRES", "-ADRES"}, {"2OCT", "2DEC", "2CADR"}
    for line in read(os.path.join(folder, "descent.agc")).splitlines():
        words = line.split("#")[0].split()
        if not words:
            continue
        if not line[0].isspace():
            words = words[1:]
        if not words or words[0] in ("EQUALS", "EBANK="):
            continue
        if words[0] == "SETLOC":
            address = int(words[1], 8)
            here = ("E" if address < 0o2000 else "02" if address < 0o6000 else "03"), address
            continue
        if words[0] == "BANK":
            here = words[1], 0o2000
            continue
        bank, address = here
        if words[0] == "ERASE":
            here = bank, address + 1 + int(words[1].lstrip("+"), 8) if len(words) > 1 else address + 1
            continue
        if words[0] not in one | two:
            places.add(f"{bank},{address:04o}")
        here = bank, address + 1 + (words[0] in two)
    return places


# Cells that hold the address to return to: TC of such a cell runs it as an order, as TC Q does.
RETURNS = "LAWQ SHOWQ".split()


def strays(found):
    """The words that ran as orders and are none of the program."""
    orders = orders_of_source()
    cells = {"0002"}
    for name in RETURNS:
        bank, offset = PLACES[name].split(",")
        cells.add(offset if bank in ("E0", "E1", "E2") else PLACES[name])
    ran_as_orders = [name for (kind, name), (times, _, _) in found.items() if kind == "word" and times]
    return sorted(name for name in ran_as_orders if name not in orders and name not in cells)


def hour(_):
    found = profile(example.ROPE, "/dev/null", "--limit", str(HOUR))
    part = ["--limit", str(HOUR), "--from", str(HOUR - 100000), "--only", "interrupts"]
    return strays(found), found, ran(study, "trace", example.ROPE, "/dev/null", *part)


def try_hour(running):
    astray, found, traced = running.get()[0]
    judge("no word outside the program runs in an hour", [], astray)
    judge("the whole hour is counted", HOUR, found["all", "boundaries"][1] // 100 * 100)
    # TIME4 carries each 20 ms and TIME5 each 100 ms of the hour's seconds, from the first steps on
    seconds = HOUR / SECOND
    near("T4RUPT", 50 * seconds, found["interrupt", "T4RUPT"][0], 3)
    near("T5RUPT", 10 * seconds, found["interrupt", "T5RUPT"][0], 3)
    lines = traced.stdout.splitlines()
    begun, ended = (sum(word in line for line in lines) for word in ("interrupt", "RESUME"))
    judge("services begin and end", True, abs(begun - ended) <= 1)
    judge("interrupts still come", True, len(lines) > 100)
    # the last steps of TIME4 and TIME5 are due 213 and 427 cycles before the end of the hour, and their services are short
    judge("no service fails to end", False, "has not ended" in traced.stderr)


def flown(_):
    """A whole flight, counted."""
    craft = example.Craft(2250, 7200, 155, 44, 77)
    keys = dict(example.APPROACH)
    for place, key in enumerate("VERB 1 6 NOUN 6 8 ENTR VERB 0 5 NOUN 0 9 ENTR VERB 3 5 ENTR KEYREL".split()):
        keys[20 + place] = key
    with Machine() as machine:
        for _ in example.fly(machine, craft, keys):
            pass
        script = os.path.join(scratch, "counted")
        with open(script, "w") as file:
            file.write(machine.script())
        cycle = machine.cycle
    limit = str(min(cycle, int(os.environ.get("COUNTED", cycle))))
    found = profile(example.ROPE, script, "--limit", limit)
    return strays(found), found


def try_flown(running):
    astray, found = running.get()[0]
    judge("no word outside the program runs in a flight", [], astray)
    judge("the word behind the superbank", True, any(n.startswith("40,") for k, n in found if k == "word"))


def try_rope():
    names = os.path.join(scratch, "names")
    woven = subprocess.run([study, "weave", os.path.join(folder, "descent.agc"), "--write-names", names], capture_output=True)
    with open(example.ROPE, "rb") as file:
        judge("the rope is that of its source", file.read(), woven.stdout)
    told = [line for line in read(os.path.join(folder, "names")).splitlines() if not line.startswith("#")]
    judge("the names are those of the source", read(names).splitlines(), told)
    commas = [line for line in read(os.path.join(folder, "descent.agc")).splitlines() if "SETLOC" in line and "," in line]
    judge("no SETLOC has a comma, which no listing has", [], commas)
    shut = [place for place in orders_of_source() if place == PLACES["ENGOFF"]]
    judge("ENGOFF names an order", [PLACES["ENGOFF"]], shut)


def try_assembler():
    """Another assembler weaves the source to the same words, and gives each name the same place."""
    again = assembler.Assembler(read(os.path.join(folder, "descent.agc")))
    with open(example.ROPE, "rb") as file:
        rope = file.read()
    words, found = ([part[n : n + 2].hex() for n in range(0, len(part), 2)] for part in (rope, again.rope()))
    places = [assembler.file_place(n) for n, pair in enumerate(zip(words, found)) if pair[0] != pair[1]]
    judge("another assembler weaves the same words", ([], len(words)), (places, len(found)))
    named = {name: place for name, place in again.places().items() if PLACES[name][0] != "C"}
    judge("and gives the names the same places", named, {name: PLACES[name] for name in named})
    channels = [name for name, place in PLACES.items() if place[0] == "C"]
    judge("all names have a place", sorted(PLACES), sorted([*named, *channels]))


def try_memory():
    """The page's tables of the memory: the words of each bank, by the other assembler, and the cells that have names."""
    page = read(os.path.join(folder, "README.md"))
    again = assembler.Assembler(read(os.path.join(folder, "descent.agc")))
    again.rope()
    counted: dict = {}
    for address in again.words:
        bank = (address - assembler.FIXED) // 0o2000
        counted[bank] = counted.get(bank, 0) + 1
    banks = page.partition("## The banks")[2].partition("\n## ")[0]
    judge("the words of each bank", counted, {int(bank, 8): int(words) for bank, words in re.findall(r"^\| (\d\d) \| (\d+) \|", banks, re.M)})
    cells = page.partition("## Erasable memory")[2].partition("\n## ")[0]
    spans = [(bank, int(low, 8), int(high, 8)) for bank, low, high in re.findall(r"^\| (E\d) (\d+)-(\d+) \|", cells, re.M)]
    named = {name: (bank, int(offset, 8)) for name, (bank, offset) in ((n, p.split(",")) for n, p in PLACES.items() if p[0] == "E")}
    judge("there are spans and cells", True, len(spans) > 6 and len(named) > 100)
    homeless = [name for name, (bank, cell) in named.items() if not any(bank == e and low <= cell <= high for e, low, high in spans)]
    judge("each cell with a name is in a span of the page", [], homeless)


def try_names():
    """Each name of ours in the page's table of names is one of the source, and so is each place that the page names."""
    page = read(os.path.join(folder, "README.md"))
    table = page.partition("## Our names and MIT's")[2].partition("\n## ")[0]
    ours = [name for row in re.findall(r"^\| ([^|]*) \|", table, re.M) for name in re.findall(r"`([A-Z0-9]+)`", row)]
    judge("the table has names", True, len(ours) >= 30)
    judge("each name of ours is in the source", [], [name for name in ours if name not in PLACES])


def main():
    def wanted(name):
        return len(sys.argv) == 1 or name in sys.argv[1:]

    compile_emulator(EMULATOR)
    with multiprocessing.Pool(JOBS) as pool:
        running = wanted("try_hour") and pool.map_async(hour, [0], 1)
        counted = wanted("try_flown") and pool.map_async(flown, [0], 1)
        alarms = wanted("try_1202") and pool.map_async(alarm_flight, ["radar", "none"], 1)
        flights = wanted("try_flights") and pool.map_async(flight, range(FLIGHTS), 1)
        wrong = wanted("try_wrong_flights") and pool.map_async(wrong_flight, [words for words, *_ in WRONG], 1)
        braking = wanted("try_braking") and pool.map_async(braked, range(5), 1)
        orbits = wanted("try_orbit") and pool.map_async(descended, range(ORBITS), 1)
        orbit_storms = wanted("try_stormy_orbit") and pool.map_async(stormy_orbit, range(1, 3), 1)
        aborts = wanted("try_aborts") and pool.map_async(abort_flight, range(len(ABORTS)), 1)
        storms = wanted("try_stormy_aborts") and pool.map_async(stormy, (0, 2, 7), 1)
        forcing = wanted("try_forced") and pool.map_async(forced, [6 * (n // 2) + n % 2 for n in range(FORCED)], 1)
        others = wanted("try_alarms") and pool.map_async(alarmed, range(6), 1)
        typing = wanted("try_wrong_keys") and pool.map_async(typed, range(8), 1)
        tries = [
            (try_rope,),
            (try_assembler,),
            (try_guidance,),
            (try_low_gate,),
            (try_scaling,),
            (try_displays,),
            (try_slant_range,),
            (try_radar,),
            (try_wrong_speeds,),
            (try_redesignation,),
            (try_hand_controller,),
            (try_rate_switch,),
            (try_fast_switch,),
            (try_braking, braking),
            (try_orbit, orbits),
            (try_far_guidance,),
            (try_near_units,),
            (try_high_above,),
            (try_stormy_orbit, orbit_storms),
            (try_aborts, aborts),
            (try_stormy_aborts, storms),
            (try_abort_keys,),
            (try_abort_without_fuel,),
            (try_names,),
            (try_memory,),
            (try_keys,),
            (try_uplink,),
            (try_flight_keys,),
            (try_1201,),
            (try_instrument,),
            (try_buttons,),
            (try_mistakes,),
            (try_turning,),
            (try_exact,),
            (try_downlink,),
            (try_engine,),
            (try_touchdown,),
            (try_waitlist,),
            (try_wrong_flights, wrong),
            (try_forced, forcing),
            (try_flights, flights),
            (try_1202, alarms),
            (try_alarms, others),
            (try_wrong_keys, typing),
            (try_flown, counted),
            (try_hour, running),
        ]
        for each, *words in tries:
            if not wanted(each.__name__):
                continue
            attempt(each, *words)
        pool.close()  # a worker that has just begun may miss the signal that ends it
        pool.join()
    finish()


if __name__ == "__main__":
    main()
