#!/usr/bin/env python3
"""Types an orbit around the Moon and a burn into orbit.rope, and prints what the DSKY shows beside double arithmetic."""

import argparse
import math
import os
import sys

here = os.path.dirname(os.path.realpath(__file__))
sys.path.append(os.path.join(here, "..", "..", "clients", "python"))
from agc import Console, Error  # noqa: E402

ROPE, NAMES = os.path.join(here, "orbit.rope"), os.path.join(here, "orbit.names")
MU = 4.902778e12  # m3/s2
RADIUS = 1738090.0  # m, where heights begin
MILE = 1852.0  # m, a nautical mile
PLACE, SPEED = 25, 12  # the scales of the program: a number is a fraction of this power of two
SECOND = 256000 / 3  # cycles
KEY_CYCLES = 9000  # from a key to the next one
COMPUTING = 400_000  # cycles that ORBJOB takes at most after a key
REFRESH = 80_000  # cycles until the display has it: half a second to DISPJOB, a quarter for the rows
KEYS = {"V": "VERB", "N": "NOUN", "E": "ENTR", "P": "PRO", "C": "CLR", "K": "KEYREL", "R": "RSET"}


def cross(a, b):
    return [a[1] * b[2] - a[2] * b[1], a[2] * b[0] - a[0] * b[2], a[0] * b[1] - a[1] * b[0]]


def dot(a, b):
    return sum(one * two for one, two in zip(a, b))


def size(a):
    return math.sqrt(dot(a, a))


def state(apolune, perilune, since, inclination):
    """The place and the speed on an orbit between two heights in m, some seconds after perilune."""
    far, near = apolune + RADIUS, perilune + RADIUS
    axis, e = (far + near) / 2, (far - near) / (far + near)
    mean = since * math.sqrt(MU / axis**3)
    angle = mean
    for _ in range(200):
        angle -= (angle - e * math.sin(angle) - mean) / (1 - e * math.cos(angle))
    root, rate = math.sqrt(1 - e * e), math.sqrt(MU / axis) / (1 - e * math.cos(angle))
    across = [0.0, math.cos(inclination), math.sin(inclination)]
    x, y = axis * (math.cos(angle) - e), axis * root * math.sin(angle)
    u, v = -rate * math.sin(angle), rate * root * math.cos(angle)
    return [x * p + y * q for p, q in zip((1, 0, 0), across)], [u * p + v * q for p, q in zip((1, 0, 0), across)]


def elements(place, speed):
    """The heights of apolune and perilune in m, the seconds to the next perilune, and the period."""
    axis = 1 / (2 / size(place) - dot(speed, speed) / MU)
    across, along = 1 - size(place) / axis, dot(place, speed) / math.sqrt(MU * axis)
    e, angle = math.hypot(across, along), math.atan2(along, across)
    rate = math.sqrt(MU / axis**3)
    left = -(angle - along) % (2 * math.pi) / rate
    return axis * (1 + e) - RADIUS, axis * (1 - e) - RADIUS, left, 2 * math.pi / rate


def later(place, speed, seconds):
    """The state some seconds later, on the orbit."""
    axis = 1 / (2 / size(place) - dot(speed, speed) / MU)
    rate = math.sqrt(MU / axis**3)
    across, along = 1 - size(place) / axis, dot(place, speed) / math.sqrt(MU * axis)
    turn = angle = rate * seconds
    for _ in range(200):  # Kepler's equation for the angle from here
        miss = angle - across * math.sin(angle) + along * (1 - math.cos(angle)) - turn
        angle -= miss / (1 - across * math.cos(angle) + along * math.sin(angle))
    radius = axis * (1 - across * math.cos(angle) + along * math.sin(angle))
    f = 1 - axis / size(place) * (1 - math.cos(angle))
    g = seconds - (angle - math.sin(angle)) / rate
    fdot = -math.sqrt(MU * axis) * math.sin(angle) / (radius * size(place))
    gdot = 1 - axis / radius * (1 - math.cos(angle))
    return [f * x + g * v for x, v in zip(place, speed)], [fdot * x + gdot * v for x, v in zip(place, speed)]


def burnt(place, speed, burn):
    """The speed after a burn: forward, to the right, down."""
    down = [-part / size(place) for part in place]
    right = [-part / size(cross(place, speed)) for part in cross(place, speed)]
    forward = cross(right, down)
    return [old + dot(burn, axes) for old, axes in zip(speed, zip(forward, right, down))]


def number(value):
    """A number as it is keyed: a sign and five digits."""
    whole = round(value)
    if abs(whole) > 99999:
        raise ValueError(f"{value:.0f} has no place in five digits")
    return f"{whole:+06d}"


def three(values, unit):
    return "".join(number(value / unit) + "E" for value in values)


def time(seconds):
    """A time as it is keyed: hours, minutes, hundredths of a second."""
    minutes, hundredths = divmod(round(seconds * 100), 6000)
    return three((*divmod(minutes, 60), hundredths), 1)


def keyed_state(place, speed, seconds):
    """The keys that load a state and its time: nouns 95, 96 and 38."""
    return "V25N95E" + three(place, 100) + "V25N96E" + three(speed, 0.1) + "V25N38E" + time(seconds)


def keyed_burn(seconds, burn):
    """The keys of program 30 up to the planned orbit: nouns 33 and 81."""
    return "V37E30E" + "V25N33E" + time(seconds) + "P" + "V25N81E" + three(burn, 0.1) + "P"


def keyed(values, unit):
    """Numbers as the program gets them."""
    return [round(value / unit) * unit for value in values]


class Orbit(Console):
    """A console that runs the program, with its cells by name."""

    def __init__(self, rope=ROPE, names=NAMES, **options):
        super().__init__(rope, names=names, **options)
        self.go(round(0.5 * SECOND))
        self.computed()

    def type(self, keys):
        """Presses keys, ten a second: V, N, E (ENTR), P (PRO), C (CLR), K (KEY REL), R (RSET), digits and signs."""
        commands = []
        for key in keys:
            if key == "P":
                commands += ["pro down", f"go {3 * KEY_CYCLES}", "pro up"]
            else:
                commands.append(f"key {KEYS.get(key, key)}")
            commands.append(f"go {KEY_CYCLES}")
        self.say_all(commands)

    def computed(self):
        """Waits until what was asked is computed and shown."""
        end = self.cycle + COMPUTING
        while self.cell("ORBON"):
            if self.cycle > end:
                raise Error("the program does not end its computation")
            self.go(KEY_CYCLES)
        self.go(REFRESH)

    def show(self, keys):
        """Presses keys, waits, and returns the panel."""
        self.type(keys)
        self.computed()
        return self.panel()

    def value(self, name, scale, beyond=0):
        high, low = self.cells(f"{name}+{beyond}" if beyond else name, 2)
        parts = [part if part < 0o40000 else part - 0o77777 for part in (high, low)]
        return (parts[0] * 2.0**-14 + parts[1] * 2.0**-28) * 2.0**scale

    def vector(self, name, scale):
        return [self.value(name, scale, beyond) for beyond in (0, 2, 4)]

    def seconds(self, name):
        """A time of the program in seconds."""
        return self.value(name, 28) / 100


def line(title, panel, place, speed, wait=None):
    """Prints what is shown and what Python computes."""
    far, near, left, _ = elements(place, speed)
    shown = " ".join(panel[name] for name in ("VERB", "NOUN", "R1", "R2", "R3"))
    to_go = "" if wait is None else "{:8.0f}:{:04.1f}".format(*divmod((left - wait) % elements(place, speed)[3], 60))
    print(f"{title:12} {shown}    {far / MILE:8.2f} {near / MILE:8.2f} {to_go}".rstrip())


def arguments(words=None):
    parser = argparse.ArgumentParser(description=__doc__)
    parser.add_argument("--apolune", type=float, default=170.0, help="nautical miles (default 170)")
    parser.add_argument("--perilune", type=float, default=60.0, help="nautical miles (default 60)")
    parser.add_argument("--since", type=float, default=600.0, help="seconds since perilune (default 600)")
    parser.add_argument("--inclination", type=float, default=10.0, help="degrees (default 10)")
    parser.add_argument("--step", type=float, default=1800.0, help="seconds until the burn (default 1800)")
    parser.add_argument("--burn", type=float, nargs=3, default=[-30.0, 0.0, 0.0], metavar=("FORWARD", "RIGHT", "DOWN"), help="m/s (default -30 0 0)")
    parser.add_argument("--web", action="store_true", help="show DSKY and orbit in a browser; you press the keys")
    parser.add_argument("--port", type=int, help="the port of --web (8437, or a free one)")
    return parser.parse_args(words)


def show_in_browser(port):
    """Shows DSKY and orbit in a browser until Control-C."""
    import agc_web
    import orbit_view
    from agc_web.beside import texts_of

    texts = texts_of({}, ROPE, lambda text: print(f"orbit.py: {text}", file=sys.stderr))
    with Console(ROPE, names=NAMES, detached=True) as console:
        try:
            agc_web.serve(console, [orbit_view.Instrument()], port=port, names=NAMES, **texts)
        except OSError as error:
            sys.exit(f"orbit.py: {'port' if error.filename is None else error.filename}: {error.strerror}")


def fly(given, **options):
    """Loads, plans, waits for the burn, and prints a line each."""
    place, speed = state(given.apolune * MILE, given.perilune * MILE, given.since, math.radians(given.inclination))
    keys, burn = keyed_state(place, speed, 0), keyed(given.burn, 0.1)
    place, speed = keyed(place, 100), keyed(speed, 0.1)
    with Orbit(**options) as orbit:
        print(f"{'':12} V  N  R1     R2     R3        {'apolune':>8} {'perilune':>8} {'min:sec':>11}")
        panel = orbit.show(keys + "V82E")
        if "OPR ERR" in panel["LAMPS"]:
            raise Error("OPR ERR: the program cannot compute this orbit")
        line("loaded", panel, place, speed, orbit.cycle / SECOND)
        there, fast = later(place, speed, given.step)
        faster = burnt(there, fast, burn)
        panel = orbit.show(keyed_burn(given.step, burn))
        if "OPR ERR" in panel["LAMPS"]:
            raise Error("OPR ERR: the program cannot compute this orbit")
        line("planned", panel, there, faster)
        orbit.type("P")
        orbit.quiet()
        orbit.go_to(round((given.step + 2) * SECOND))
        panel = orbit.show("V82E")
        line("burnt", panel, there, faster, orbit.cycle / SECOND - given.step)
        there, _ = later(there, faster, orbit.seconds("TSTATE") - given.step)
        off = max(abs(one - two) for one, two in zip(orbit.vector("RVEC", PLACE), there))
        print(f"at the end the place is off by {off:.1f} m at most")


def main():
    given = arguments()
    if given.web:
        show_in_browser(given.port)
    else:
        fly(given)


if __name__ == "__main__":
    try:
        main()
    except (Error, ValueError) as error:
        sys.exit(f"orbit.py: {error}")
