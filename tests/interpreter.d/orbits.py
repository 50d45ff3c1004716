"""Tries of the orbit's program: scripts of keys through `agc`, the panel against an integration in double arithmetic; the state's cells; what
is refused."""

import contextlib
import io
import math
import os
import re
import subprocess
from functools import lru_cache

import orbit
from agc import Console
from judge import AGC, CONSOLE, check, judge, near, scratch_folder
from orbit import KEY_CYCLES, MILE, SECOND
from weaving import read, woven_by_lines

HALVES = (("low", 5), ("high", 25))  # the half of the memory, and ORBJOB's bank
TIME2, TIME1 = 0o24, 0o25
FIRST_KEY, ANSWER = 60_000, 600_000  # the cycle of the first key; what a computation and its display take at most
WAIT = 900  # seconds from verb 82 to the burn
BURN = (-20.0, 3.0, 1.5)
BANK = "        BANK    5\n"

# Apolune and perilune in nautical miles, seconds since perilune, degrees of inclination, seconds until verb 82
ORBITS = (
    (60, 60, 0, 0, 600), (60.2, 59.8, 2000, 90, 7000), (60, 8.3, 3300, 5, 3000), (60, 8.3, 100, 175, 6500), (170, 60, 600, 10, 1800),
    (500, 20, 5000, 45, 4000), (1500, 30, 2000, 120, 9000), (4500, 60, 5000, 30, 20000), (9000, 60, 600, 20, 50000),
    (9500, 20, 3000, 60, 1000), (9900, 9, 4000, 80, 70000), (200, -5, 4000, 33, 2500),
)  # fmt: skip
scratch = scratch_folder()


@lru_cache(maxsize=None)
def ropes():
    """The rope of each half."""
    found = {}
    for half, bank in HALVES:
        folder = os.path.join(scratch, half)
        found[half] = woven_by_lines(folder, "orbit.agc", lambda source: source.replace(BANK, f"        BANK    {bank}\n"))
    return found


def accelerated(place):
    return [-orbit.MU * part / orbit.size(place) ** 3 for part in place]


@lru_cache(maxsize=None)
def integrated(place, speed, seconds, step=10.0):
    """The state some seconds later, by Runge and Kutta's steps of fourth order."""
    steps = max(1, round(abs(seconds) / step))
    step = seconds / steps
    for _ in range(steps):
        slopes, at = [], (place, speed)
        for part in (0.5, 0.5, 1, 0):
            slopes.append((at[1], accelerated(at[0])))
            at = tuple([old + part * step * slope for old, slope in zip(one, more)] for one, more in zip((place, speed), slopes[-1]))
        place, speed = (
            tuple(old + step / 6 * (a + 2 * b + 2 * c + d) for old, a, b, c, d in zip(one, *(slope[n] for slope in slopes)))
            for n, one in enumerate((place, speed)))  # fmt: skip
    return place, speed


def begun(apolune, perilune, since, inclination):
    """The state of an orbit as it is keyed: to 0.1 km and 0.1 m/s."""
    place, speed = orbit.state(apolune * MILE, perilune * MILE, since, math.radians(inclination))
    return tuple(orbit.keyed(place, 100)), tuple(orbit.keyed(speed, 0.1))


class Script:
    """A script of keys at cycles, and runs of it by `agc`."""

    def __init__(self, rope):
        self.rope, self.lines, self.cycle = rope, [], FIRST_KEY

    def keys(self, keys):
        for key in keys:
            if key == "P":
                self.lines += [f"{self.cycle} pro down", f"{self.cycle + 3 * KEY_CYCLES} pro up"]
                self.cycle += 3 * KEY_CYCLES
            else:
                self.lines.append(f"{self.cycle} key {orbit.KEYS.get(key, key)}")
            self.cycle += KEY_CYCLES

    def clock(self, seconds):
        """Sets the clock."""
        hundredths = round(100 * seconds)
        self.lines += [f"{self.cycle} poke 0 {place:o} {word:05o}" for place, word in ((TIME2, hundredths >> 14), (TIME1, hundredths & 0o37777))]
        self.cycle += KEY_CYCLES

    def panel(self, wait=ANSWER):
        """The panel some cycles later."""
        self.cycle += wait
        path = os.path.join(scratch, "script")
        with open(path, "w") as file:
            file.write("\n".join(self.lines) + "\n")
        done = subprocess.run([AGC, self.rope, path, "--limit", str(self.cycle)], capture_output=True, text=True)
        judge("agc's end", (0, ""), (done.returncode, done.stderr))
        return dict(line.split(" ", 1) for line in done.stdout.splitlines())


def miles(text):
    """What R1 or R2 shows, in metres."""
    return int(text) * MILE / 10


def check_orbit(title, panel, place, speed):
    """Checks R1 and R2 of a panel: a tenth of a nautical mile."""
    far, low, _, _ = orbit.elements(place, speed)
    near(f"{title}: apolune", far, miles(panel["R1"]), 0.1 * MILE)
    near(f"{title}: perilune", low, miles(panel["R2"]), 0.1 * MILE)


def check_shown(panel, *wanted):
    judge("the panel", list(wanted), [panel[name] for name in ("PROG", "VERB", "NOUN", "FLASH", "LAMPS")])


def fly(title, rope, apolune, perilune, since, inclination, step):
    """Loads an orbit by keys, shows it by verb 82, plans a burn by program 30, and shows the orbit after it."""
    place, speed = begun(apolune, perilune, since, inclination)
    script = Script(rope)
    script.keys(orbit.keyed_state(place, speed, 0))
    script.cycle += ANSWER
    script.clock(step)
    began = script.cycle - KEY_CYCLES
    script.keys("V82E")
    panel = script.panel()
    check_shown(panel, "00", "16", "44", "off", "none")
    check_orbit(f"{title}, verb 82", panel, *integrated(place, speed, step))
    script.keys("V06N32E")
    at = step + (script.cycle - KEY_CYCLES - began) / SECOND
    check_time(f"{title}, noun 32", script.panel(), place, speed, at)
    script.keys(orbit.keyed_burn(step + WAIT, BURN))
    panel = script.panel()
    check_shown(panel, "30", "06", "42", "on", "none")
    there, fast = integrated(*integrated(place, speed, step), WAIT)
    fast = orbit.burnt(there, fast, BURN)
    check_orbit(f"{title}, noun 42", panel, there, fast)
    judge(f"{title}: the burn", round(10 * orbit.size(BURN)), int(panel["R3"]))
    script.keys("P")
    script.clock(step + WAIT - 3)
    script.cycle += round(4 * SECOND)
    script.keys("V82E")
    check_orbit(f"{title}, after the burn", script.panel(), there, fast)


def check_time(title, panel, place, speed, at):
    """Checks hours, minutes and hundredths to perilune. That of a circle has no meaning."""
    far, low, left, period = orbit.elements(place, speed)
    hours, minutes, hundredths = (int(panel[name]) for name in ("R1", "R2", "R3"))
    off = (3600 * hours + 60 * minutes + hundredths / 100 - (left - at)) % period
    if far - low > 10_000:
        near(title, 0, min(off, period - off), 1)


def try_verb_82():
    """Verb 82, program 30 and the burn, by scripts of keys through `agc`, with ORBJOB in each half of the memory."""
    for half, _ in HALVES:
        for each in ORBITS:
            fly(f"{half}, {each}", ropes()[half], *each)


def console(half="low"):
    rope = ropes()[half]
    return orbit.Orbit(rope, rope + ".names", program=[CONSOLE])


def set_clock(agc, seconds):
    hundredths = round(100 * seconds)
    agc.poke(0, TIME2, hundredths >> 14)
    agc.poke(0, TIME1, hundredths & 0o37777)


def worst(wanted, found):
    return max(abs(one - other) for one, other in zip(wanted, found))


def try_states():
    """Place and speed in the cells behind verb 82, as exactly as the page says."""
    for half, _ in HALVES:
        with console(half) as agc:
            for each in ORBITS:
                check_state(f"{half}, {each}", agc, *each)


def check_state(title, agc, apolune, perilune, since, inclination, step):
    place, speed = begun(apolune, perilune, since, inclination)
    set_clock(agc, 0)
    agc.show(orbit.keyed_state(place, speed, 0))
    set_clock(agc, step)
    agc.show("V82E")
    place, speed = integrated(place, speed, agc.seconds("TSTATE"))
    near(f"{title}: the place", 0, worst(place, agc.vector("RVEC", orbit.PLACE)), 20 if apolune < 5000 else 100)
    near(f"{title}: the speed", 0, worst(speed, agc.vector("VVEC", orbit.SPEED)), 0.03)


def orbit_of(panel):
    return [panel[name] for name in ("VERB", "NOUN", "R1", "R2")]


def wrong(agc, keys):
    """Presses keys. Returns whether OPR ERR lights, and puts it out by RSET."""
    lit = "OPR ERR" in agc.show(keys)["LAMPS"]
    return lit and "OPR ERR" not in agc.show("R")["LAMPS"]


def try_wrong_keys():
    """What cannot be done lights OPR ERR, and changes nothing."""
    with console() as agc:
        first = orbit_of(agc.show("V82E"))
        for keys in ("V99E", "V06N99E", "V25N99E", "V25N44E", "V25N36E", "V21N33E", "V37E31E", "V33E", "P", "V25N95E5"):
            check(f"{keys}: OPR ERR", wrong(agc, keys))
            judge(f"{keys}, KEY REL, V82E", first, orbit_of(agc.show("KV82E")))
        check("61 minutes", wrong(agc, "V25N33E+00001E+00061E+00000E"))
        check("minus hours", wrong(agc, "+00001E+00059E+00000EV25N33E-00001E+00000E+00000E"))
        agc.show("+00002E+00059E+05999EV06N33E")
        judge("the time of ignition", ["+00002", "+00059", "+05999"], [agc.panel()[name] for name in ("R1", "R2", "R3")])
        agc.show("V25N81E+12345E-99999E+00000EV22N81E+00001EV06N81E")
        judge("noun 81", ["+12345", "+00001", "+00000"], [agc.panel()[name] for name in ("R1", "R2", "R3")])


def try_no_orbit():
    """A load that is no orbit is refused, and the old one stays."""
    still = (1838090.0, 0.0, 0.0)
    states = (
        (still, (0.0, 2400.0, 0.0)), (still, (0.0, 5000.0, 0.0)), ((9000e3, 0.0, 0.0), (0.0, 2000.0, 0.0)), (still, (1000.0, 0.0, 0.0)),
        ((0.0, 0.0, 0.0), (0.0, 1600.0, 0.0)), (still, (0.0, 2275.0, 0.0)), ((2100e3, 0.0, 0.0), (0.0, 4095.0, 0.0)), (still, (0.0, 10.0, 0.0)),
    )  # fmt: skip
    with console() as agc:
        first = orbit_of(agc.show("V82E"))
        for place, speed in states:
            check(f"{place}, {speed}: OPR ERR", wrong(agc, orbit.keyed_state(place, speed, 0)))
            judge(f"{place}, {speed}: the old orbit", first, orbit_of(agc.show("V82E")))


def try_countdown():
    """Noun 40 counts down to ignition; the burn comes at its time, and once."""
    with console() as agc:
        agc.show(orbit.keyed_burn(60, (12.3, 0, 0)))
        agc.type("P")
        for seconds in (-40, -20, -3):
            agc.go_to(round((60 + seconds + 0.9) * SECOND))
            wanted = [f"-00_{-seconds - 1:02d}", "+00123", "+00000"]
            judge(f"noun 40, {seconds} s", wanted, [agc.panel()[name] for name in ("R1", "R2", "R3")])
        check("the burn's job", agc.until("DOBURN", round(10 * SECOND)).came)
        near("the time of the burn", 60, agc.cycle / SECOND, 0.02)
        agc.computed()
        judge("after the burn", ["+00000", "+00123"], [agc.panel()[name] for name in ("R2", "R3")])
        check("it comes once", not agc.until("DOBURN", round(20 * SECOND)).came)
    with console() as agc:
        agc.show(orbit.keyed_burn(60, (12.3, 0, 0)))
        agc.type("PV37E00E")
        check("program 00 calls it off", not agc.until("DOBURN", round(70 * SECOND)).came)


def try_plans():
    """A plan that is too late or leads to no orbit does not begin."""
    with console() as agc:
        agc.show(orbit.keyed_burn(1, (1, 0, 0)))
        check("too late", wrong(agc, "P"))
        judge("noun 33 again", "33", agc.panel()["NOUN"])
        check("no orbit", wrong(agc, "V37E00E" + orbit.keyed_burn(600, (900, 0, 0))))
        agc.show("P")
        judge("noun 81 again", ("81", "on"), (agc.panel()["NOUN"], agc.panel()["FLASH"]))
        before = agc.vector("RVEC", orbit.PLACE), agc.vector("VVEC", orbit.SPEED)
        agc.show("R" + orbit.keyed_burn(600, (50, 0, 0))[len("V37E30E"):])
        judge("a plan leaves the state alone", before, (agc.vector("RVEC", orbit.PLACE), agc.vector("VVEC", orbit.SPEED)))


def try_fresh_start():
    """A fresh start while ORBJOB plans, loads or burns leaves the state as it was."""
    wrong_state = orbit.keyed_state((1838090.0, 0.0, 0.0), (0.0, 2400.0, 0.0), 0)
    for what, keys in (("a plan", orbit.keyed_burn(3000, (50, 0, 0))), ("a load", wrong_state)):
        with console() as agc:
            for phase in range(8):
                before = agc.cells("RVEC", 14)
                agc.type(keys)
                agc.go(11_000 * phase)
                panel = agc.show("V36E")
                judge(f"{what}, phase {phase}: the state", before, agc.cells("RVEC", 14))
                judge(f"{what}, phase {phase}: the lamps", "none", panel["LAMPS"])


def try_busy():
    """Keys that are pressed while ORBJOB computes find the program listening, and do not change what is computed."""
    place, speed = begun(170, 60, 600, 10)
    with console() as agc:
        agc.type(orbit.keyed_state(place, speed, 0) + "V82E" + "V35E" * 2 + "V06N81E" * 4 + "KV16N44E" * 3)
        panel = agc.show("V36EV82E")
        judge("the lamps", "none", panel["LAMPS"])
        check_orbit("after many keys", panel, place, speed)
        gave_way = 0
        for _ in range(5):
            agc.type("V82E")
            gave_way += agc.until("CHANGE", round(0.3 * SECOND)).came and agc.cell("LOC") >= 0o40000
            agc.computed()
        check("ORBJOB gives way to others", gave_way > 0)


def try_orbit_page():
    """What the page shows of orbit.py is what it prints."""
    shown = re.findall(r"^    \$ examples/interpreter/orbit\.py(.*)\n((?:    .*\n)+)", read("ORBIT.md"), re.M)
    check("the page has runs of it", len(shown) > 0)
    for words, output in shown:
        with contextlib.redirect_stdout(io.StringIO()) as printed:
            orbit.fly(orbit.arguments(words.split()), program=[CONSOLE])
        judge(f"orbit.py{words}", [each[4:].rstrip() for each in output.splitlines()], printed.getvalue().splitlines())


def try_view():
    """The instrument draws the orbit, goes back, and sends nothing."""
    import orbit_view

    instrument = orbit_view.Instrument()
    with Console(orbit.ROPE, names=orbit.NAMES, program=[CONSOLE]) as agc:
        agc.go(round(3 * SECOND))
        for _ in range(orbit_view.TICKS):
            instrument.tick(agc, agc.cycle)
        view, kept = instrument.view(), instrument.save()
        rows = dict(view["rows"])
        near("the height", 100, float(rows["Height"].split()[0]), 0.1)
        near("the speed", 1633.2, float(rows["Speed"].split()[0]), 0.1)
        circle = next(each for each in view["drawing"]["shapes"] if each["shape"] == "circle")
        near("the Moon", orbit.RADIUS, circle["radius"], 1)
        path = next(each for each in view["drawing"]["shapes"] if each["shape"] == "path")
        check("the orbit", all(abs(math.hypot(x, y) - 1838090) < 1000 for x, y in path["points"]))
        agc.go(round(600 * SECOND))
        for _ in range(orbit_view.TICKS):
            instrument.tick(agc, agc.cycle)
        check("the craft moves", instrument.view() != view)
        instrument.load(kept)
        judge("it goes back", view, instrument.view())


def try_exercise():
    """The page's exercise: its lines and its script of keys show the period."""
    page = read("ORBIT.md").partition("## Exercise")[2]
    added, keys = re.findall(r"^\n((?:        .+\n)+)", page, re.M)
    judge("where the lines go", 1, read("display.agc").count("        OCT     0\n"))
    change = lambda source: source.replace("        OCT     0\n", added + "        OCT     0\n")
    script = Script(woven_by_lines(os.path.join(scratch, "exercise"), "orbit.agc", change))
    script.lines = [each.strip() for each in keys.splitlines()]
    limit = re.search(r"period --limit (\d+)", page)
    panel = script.panel(int(limit[1]) - script.cycle)
    judge("the period", re.findall(r"\+\d{5}", page), [panel[name] for name in ("R1", "R2", "R3")])
    near("the period in double arithmetic", orbit.elements((1838090.0, 0, 0), (0, 1633.2, 0))[3], 3600 + 57 * 60 + int(panel["R3"]) / 100, 0.01)


def guides():
    """The steps of each guide: its keys, the key PRO as P, and what it waits for."""
    found, names = [], {name: key for key, name in orbit.KEYS.items()}
    for line in read("orbit.rope.guide").splitlines():
        what, _, rest = line.partition(" ")
        if what == "guide":
            found.append((rest, []))
        elif what == "step":
            found[-1][1].append(["", []])
        elif what == "click" and rest.startswith("keys "):
            found[-1][1][-1][0] += "".join(names.get(key, key) for key in rest.split()[1:])
        elif what == "until" and rest != "running":
            found[-1][1][-1][1] += [each.strip().split(" ") for each in rest.split(",")]
    return found


def try_guides():
    """A machine that follows the guides shows what each step waits for, and not before its keys."""
    judge("guides", 2, len(guides()))
    for title, steps in guides():
        with console() as agc:
            agc.quiet()
            for number, (keys, wanted) in enumerate(steps, 1):
                shows = lambda: all(agc.panel()[name] == value for name, value in wanted)
                check(f"{title}, step {number}: it is not there yet", not wanted or not shows())
                agc.show(keys)
                for _ in range(400):
                    if not shows():
                        agc.go(round(SECOND / 2))
                check(f"{title}, step {number}: {wanted}, found {agc.panel()}", shows())


TRIES = (try_verb_82, try_states, try_wrong_keys, try_no_orbit, try_countdown, try_plans, try_fresh_start, try_busy, try_orbit_page, try_exercise, try_guides, try_view)
