#!/usr/bin/env python3
"""A spacecraft in a loop with agc-console: the rope beside this file holds its angle by two jets.

Every hundredth of a second of machine time the craft takes the jets that channel 5 commands, turns, and sends what it
has turned to the counter CDUX. Machine and craft go in lockstep: neither looks at a clock, and each run is the same.
"""

import argparse
import math
import os
import sys

here = os.path.dirname(os.path.realpath(__file__))
sys.path.append(os.path.join(here, "..", "..", "clients", "python"))
from agc import Console, Ended, Refused  # noqa: E402

ROPE = os.path.join(here, "rope")
STEP = 853  # cycles: a hundredth of a second, but for a third of a cycle
CDUX, WANTED, CHANNEL = 0o32, 0o100, 5
UP, DOWN = 1, 2  # the jets of the channel
PARTS = 64  # of a pulse; in a step a jet makes the turning one of them a step faster: 1.7 degrees a second, each second
TURN = 32768  # the pulses of CDUX
DEGREE = TURN / 360


class Craft:
    """What turns: its angle, and by how much it turns in a step, in parts of a pulse."""

    def __init__(self, degrees=10.0, degrees_a_second=1.0):
        self.angle = round(degrees * DEGREE) * PARTS
        self.turning = round(degrees_a_second * DEGREE * PARTS / 100)
        self.jets = 0

    def pulses(self):
        return self.angle // PARTS

    def step(self):
        """Turns for a step, and returns how many pulses CDUX is to count for it."""
        before = self.pulses()
        self.turning += bool(self.jets & UP) - bool(self.jets & DOWN)
        self.angle += self.turning
        return self.pulses() - before


def fly(agc, craft, steps):
    """Takes this many steps, and yields after each one what the machine has written in it."""
    agc.poke(0, CDUX, craft.pulses() % TURN)
    for step in range(1, steps + 1):
        writes = agc.go_to(step * STEP)
        for write in writes:
            if write.channel == CHANNEL:
                craft.jets = write.value
        turned = craft.step()
        for _ in range(abs(turned)):
            agc.pulse(CDUX, "pcdu" if turned > 0 else "mcdu")
        yield writes


class Instrument:
    """The craft as an instrument of agc-web: its pilot turns the angle that the machine is to hold."""

    RATE = 6  # degrees a second, while a button is held
    EVERY = 10  # ticks between two words that the machine gets: an event each

    def __init__(self, craft):
        self.craft = craft
        self.wanted = 0
        self.ticks = 0
        self.turn = 0

    def tick(self, agc, cycle):
        """Turns for a hundredth of a second, as the jets burn, and counts it on CDUX."""
        if self.ticks == 0:
            agc.poke(0, CDUX, self.craft.pulses() % TURN)
        self.craft.jets = agc.channel(CHANNEL)
        turned = self.craft.step()
        for _ in range(abs(turned)):
            agc.pulse(CDUX, "pcdu" if turned > 0 else "mcdu")
        if self.turn and self.ticks % self.EVERY == 0:
            self.wanted += round(self.turn * self.RATE * DEGREE * self.EVERY / 100)
            agc.poke(0, WANTED, self.wanted % TURN)
        self.ticks += 1

    def control(self, name, down):
        """Turns the wanted angle, as long as a button is held."""
        self.turn = {"left": -1, "right": 1}[name] if down else 0

    def view(self):
        """Returns what the page shows."""
        angle, wanted = self.craft.pulses() / DEGREE, self.wanted / DEGREE
        jets = [name for jet, name in ((UP, "left"), (DOWN, "right")) if self.craft.jets & jet]
        return {
            "title": "Craft",
            "dial": {"angle": round(angle, 2), "wanted": round(wanted, 2), "jets": jets},
            "rows": [
                ["Angle", f"{angle:+.2f}°"],
                ["Held angle", f"{wanted:+.2f}°"],
                ["Turning", f"{100 * self.craft.turning / PARTS / DEGREE:+.2f}° a second"],
                ["Jet", {"left": "up", "right": "down"}.get(jets[0]) if jets else "none"],
            ],
            "controls": [
                {"name": "left", "label": "◀ Turn down", "key": "ArrowLeft"},
                {"name": "right", "label": "Turn up ▶", "key": "ArrowRight"},
            ],
        }

    def save(self):
        """Returns all that changes, so that the craft goes back in time with the machine."""
        return self.craft.angle, self.craft.turning, self.craft.jets, self.wanted, self.ticks

    def load(self, state):
        """Takes up a state that was saved."""
        self.craft.angle, self.craft.turning, self.craft.jets, self.wanted, self.ticks = state


def show_in_browser(words):
    """Serves the page, with the craft beside the DSKY, until Control-C."""
    import agc_web

    with Console(ROPE, program=words.program, detached=True) as agc:
        craft = Instrument(Craft(words.angle, words.turning))
        try:
            agc_web.serve(agc, [craft], port=words.port, save=words.save)
        except OSError as error:
            sys.exit(f"craft: {'port' if error.filename is None else error.filename}: {error.strerror}")


def line_of(degrees):
    """A star where the angle is, from -12 to +12 degrees, and the two edges of the dead band."""
    line = [" "] * 49
    line[22] = line[26] = "|"
    line[max(0, min(48, 24 + round(2 * degrees)))] = "*"
    return "".join(line).rstrip()


def finite(text):
    """Returns the number that a word of the command line names; infinity and nan are refused."""
    number = float(text)
    if not math.isfinite(number):
        raise argparse.ArgumentTypeError(f"{text} is not finite")
    return number


def opened(path):
    """Opens a new file for the script, or an empty one, before the flight: a flight that cannot be saved is not made."""
    try:
        file = open(path, "a")
    except OSError as error:
        sys.exit(f"craft: cannot write {path}: {error.strerror}")
    if os.fstat(file.fileno()).st_size:
        sys.exit(f"craft: {path} exists and is not empty: name a new file")
    return file


def save(script, file):
    """Writes the script and closes its file."""
    try:
        with file:
            file.write(script)
    except OSError as error:
        sys.exit(f"craft: cannot write {file.name}: {error.strerror}")


def draw(angles, file):
    """The angle over time, where matplotlib is there."""
    try:
        from matplotlib.figure import Figure
    except ImportError:
        sys.exit("no picture is drawn: there is no matplotlib")
    figure = Figure(figsize=(8, 3), layout="tight")
    axes = figure.subplots()
    axes.axhspan(-91 / DEGREE, 91 / DEGREE, alpha=0.2)
    axes.plot([step / 100 for step in range(len(angles))], angles)
    axes.set(xlabel="seconds", ylabel="degrees")
    try:
        figure.savefig(file)
    except (OSError, ValueError) as error:
        sys.exit(f"craft: cannot draw {file}: {error}")


def asked():
    words = argparse.ArgumentParser(description="Flies a craft whose angle the rope beside this file holds.")
    words.add_argument("--seconds", type=int, default=120, help="how long, in machine time (120)")
    words.add_argument("--angle", type=finite, default=10.0, help="where it begins, in degrees (10)")
    words.add_argument("--turning", type=finite, default=1.0, help="how it turns then, in degrees a second (1)")
    words.add_argument("--save", metavar="FILE", help="write the script that repeats the flight")
    words.add_argument("--png", metavar="FILE", help="draw the angle over time, by matplotlib")
    words.add_argument("--web", action="store_true", help="show craft and DSKY in a browser, and fly by its buttons")
    words.add_argument("--port", type=int, help="the port of --web (8437, or a free one)")
    words.add_argument("--program", help="another agc-console")
    return words.parse_args()


def main():
    words = asked()
    if words.web:
        show_in_browser(words)
        return
    saved = opened(words.save) if words.save is not None else None
    craft = Craft(words.angle, words.turning)
    angles, writes = [craft.pulses() / DEGREE], 0
    with Console(ROPE, program=words.program) as agc:
        try:
            for step, written in enumerate(fly(agc, craft, 100 * words.seconds), 1):
                angles.append(craft.pulses() / DEGREE)
                writes += len(written)
                if step % (5 * words.seconds) == 0:
                    print(f"{step / 100:6.1f} s {angles[-1]:+7.2f} degrees {line_of(angles[-1])}")
        except Refused as refused:
            print(f"craft: the flight ends after {(len(angles) - 1) / 100} s: {refused}", file=sys.stderr)
        print(f"{writes} writes by cycle {agc.cycle}, CDUX is {agc.cell('32'):05o}")
        if saved:
            save(agc.script(), saved)
    if words.png:
        draw(angles, words.png)


if __name__ == "__main__":
    try:
        main()
    except Ended as ended:
        sys.exit(f"craft: {ended}")
