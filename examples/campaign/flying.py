"""A landing of examples/descent for a row of a table, and its row of results.

A row of the table holds what craft.py takes as options, and the restarts. A worker flies it, on this machine or another.
"""

import argparse
import functools
import hashlib
import os
import subprocess

from agc import Console, Refused
from craft import (
    ASCENT_FUEL, JETS, LAMPS, RADAR, STAGING, THROTTLE, abort_has_ended, begins, craft_of, fault_at, finite, fly, key_at, refusal,
)

INPUTS = [
    "seed", "height", "way", "forward", "down", "braking", "orbit", "fuel", "ascent_fuel", "loaded_height", "loaded_mass", "faults", "keys",
    "restarts",
]
"""The columns of a table of flights."""

OUTPUTS = [
    "end", "program", "alarms", "up", "forward_then", "tilt", "miss", "fuel_left", "seconds", "cycles", "events", "script",
    "came", "restart_cycle", "restart_place", "restart_height", "restart_program", "speeds",
]
"""The columns of the results, after the number of the flight and its inputs."""

MARKS = [4000, 3000, 2300, 2000, 1500, 1000, 700, 500, 300, 200, 150, 100, 70, 50, 30, 20, 10, 5]
"""The heights in metres at which the speeds of a flight are kept."""

CORE_SETS = 7  # the Executive has these besides set 0
CORE_SET_WORDS = 12
TAKEN = 0o76777  # a priority that is not that of a free set
MOST_RESTARTS = 4000  # in a flight: a script has room for 65,536 events

COMMANDS = (JETS, THROTTLE, RADAR)  # the channels that command the craft at regular times,
HEARD = (*COMMANDS, LAMPS, STAGING)  # and all that it takes
AUTOPILOT, GUIDANCE = 10, 100  # steps from one pass of the program's autopilot or guidance to the next
SETTLED = 300  # steps from the start, or a surprise, until both have their times
TRIES = 4  # flights ahead, before one step by step


def number(text):
    """Returns the number of a cell."""
    try:
        return finite(text)
    except (ValueError, argparse.ArgumentTypeError):
        raise ValueError(f"{text!r} is no number") from None


def whole(text):
    """Returns the whole number of a cell."""
    if not text.isdigit():
        raise ValueError(f"{text!r} is no whole number")
    return int(text)


def yes_or_no(text):
    """Returns whether a cell says yes."""
    if text not in ("yes", "no"):
        raise ValueError(f"{text!r} is neither yes nor no")
    return text == "yes"


def listed(read):
    """Returns what reads several words with spaces between."""

    def read_all(text):
        try:
            return [read(word) for word in text.split()]
        except (ValueError, argparse.ArgumentTypeError) as error:
            raise ValueError(str(error)) from None

    return read_all


def restarts_of(text):
    """Returns the first cycle, the step and the last cycle of FIRST, or FIRST:EVERY:LAST."""
    parts = text.split(":")
    if len(parts) not in (1, 3) or not all(part.isdigit() for part in parts):
        raise ValueError(f"{text!r} names no restarts: FIRST, or FIRST:EVERY:LAST, in cycles")
    first, every, last = (int(part) for part in (parts if len(parts) == 3 else (text, "1", text)))
    if every < 1 or not first <= last <= 10**12:
        raise ValueError(f"{text!r}: EVERY is 1 or more, and LAST is not before FIRST")
    if (last - first) // every >= MOST_RESTARTS:
        raise ValueError(f"{text!r}: a flight has room for {MOST_RESTARTS} restarts")
    return first, every, last


READERS = {
    **{name: number for name in ("height", "way", "forward", "down", "fuel", "ascent_fuel", "loaded_height", "loaded_mass")},
    "seed": whole, "braking": yes_or_no, "orbit": yes_or_no, "faults": listed(fault_at), "keys": listed(key_at), "restarts": restarts_of,
}


def flight_of(row):
    """Returns a row's flight with the names of craft.py's options; an empty cell is that option's default. A faulty cell is a
    ValueError that begins with its column."""
    flight = argparse.Namespace(**{name: None for name in INPUTS})
    for name, text in row.items():
        try:
            if text:
                setattr(flight, name, READERS[name](text))
        except ValueError as error:
            raise ValueError(f"{name}: {error}") from None
    defaults = {"seed": 1, "ascent_fuel": ASCENT_FUEL, "faults": [], "keys": []}
    for name, value in {**begins(flight)[0], **defaults}.items():
        if getattr(flight, name) is None:
            setattr(flight, name, value)
    wrong = refusal(flight)
    if wrong:
        name, _, why = wrong[len("argument --") :].partition(":")
        raise ValueError(f"{name.replace('-', '_')}:{why}")
    flight.fault = flight.faults
    return flight


def restart_script(restarts, names):
    """Returns the script that takes all core sets at each cycle of the restarts: the program's next call of NOVAC or FINDVAC
    finds none, and its alarm 1202 restarts it."""
    if restarts is None:
        return ""
    first, every, last = restarts
    priority = int(place_of("PRIORITY", names).split(",")[1], 8)
    cells = [priority + CORE_SET_WORDS * core for core in range(1, CORE_SETS + 1)]
    return "".join(f"every {every} {first} {last} poke 0 {cell:o} {TAKEN:o}\n" for cell in cells)


def place_of(name, names):
    """Returns the place of a name in a text of names."""
    return next(line.split()[0] for line in names.splitlines() if line.split()[1:] == [name])


class Witness(Console):
    """A console that stops on its way where a restart begins, and keeps what was interrupted."""

    def __init__(self, restarts, *words, **options):
        super().__init__(*words, **options)
        self.coming = list(range(restarts[0], restarts[2] + 1, restarts[1])) if restarts else []
        self.count = 0
        self.last = ("", "")
        self.came = False

    def go_to(self, cycle):
        """As the console's, with a stop at each call of BAILOUT that a restart has brought."""
        if not self.coming:
            return super().go_to(cycle)
        writes = []
        while self.coming and self.coming[0] < cycle:
            if self.cycle < self.coming[0]:
                writes += super().go_to(self.coming[0])
            found = self.until("BAILOUT", within=cycle - self.cycle) if self.cycle < cycle else None
            if found is None:
                break
            writes += found.writes
            if not found.came:
                break
            self.count += 1
            self.last, self.came = (str(self.cycle), self.interrupted()), True
            self.coming = [due for due in self.coming if due > self.cycle]
        return writes + super().go_to(cycle)

    def settle(self, refused):
        """Ends a flight, in which an event may have been refused."""

    def interrupted(self):
        """Returns the place of the order that the restart drops: the interrupted one, if a service has called it."""
        where = self.where()
        place = where.interrupted or where.order
        return place.name or place.place


class Surprise(Exception):
    """The program commanded the craft in a step in which nothing was expected; or, without a step, an event was refused."""

    def __init__(self, step=None):
        super().__init__()
        self.step = step


class Ahead(Witness):
    """A console that takes several steps in one exchange, as long as no command to the craft is expected: one is, a period
    after a write to the same channels. If one comes all the same, the craft has flown without it, and that is a Surprise."""

    def __init__(self, craft, begins, *words, **options):
        super().__init__(None, *words, **options)
        self.craft = craft
        self.begins = begins  # the steps from which on there may be commands at other times
        self.step, self.settled = 0, SETTLED
        self.written = set()  # the steps with a write to a channel of COMMANDS

    def go_to(self, cycle):
        step, written = self.step + 1, self.written
        self.step = step
        if step in self.begins:
            self.settled = step + SETTLED
        if step > self.settled and step - AUTOPILOT not in written and step - GUIDANCE not in written:
            self.go_later(cycle)
            writes = []
        else:
            writes = Console.go_to(self, cycle)
        if self.passed:
            self.check()
        for write in writes:
            if write.channel in COMMANDS:
                written.add(step)
        return writes

    def check(self):
        """Gives the craft the writes of the steps that were put off, which must not change it."""
        craft = self.craft
        commanded = craft.commanded()
        for write in self.passed:
            if write.channel not in HEARD:
                continue
            step = 1 + write.cycle * 3 // 2560  # or the next one, at its first cycle
            craft.take(write)
            if craft.commanded() != commanded:
                raise Surprise(step)
            if write.channel in COMMANDS:
                self.written.add(step)
        self.passed.clear()

    def settle(self, refused):
        """As the witness's, but a refused event came with others that should not have been sent."""
        if refused:
            raise Surprise from refused
        self.check()


class Track:
    """The speeds of a flight as it falls below each mark: forward and up."""

    def __init__(self, craft):
        self.marks = [mark for mark in MARKS if mark < craft.height]
        self.found = []

    def look(self, craft):
        while self.marks and craft.height < self.marks[0]:
            self.found.append(f"{self.marks.pop(0)}:{craft.forward:.2f}:{craft.up:.2f}")


def end_of(agc, craft, refused):
    """Returns how a flight has ended, in one word."""
    if craft.touched:
        return "landed" if craft.landed() else "crashed"
    if refused:
        return "refused"
    return "aborted" if craft.in_orbit() and abort_has_ended(agc, craft) else "unfinished"


def flown(flight, rope, names, program, script):
    """Flies, and returns the results as texts, and the script that repeats the flight. The files are paths. Without restarts
    it flies ahead: again after a surprise, which is expected then, and after some of them step by step."""
    files = {"rope": rope, "script": script, "names": names, "program": program}
    surprises = set()
    for _ in range(TRIES if flight.restarts is None else 0):
        craft = craft_of(flight)
        try:
            with Ahead(craft, surprises, **files) as agc:
                return results_of(flight, craft, agc)
        except Surprise as surprise:
            if surprise.step is None:
                break
            surprises.add(surprise.step)
    with Witness(flight.restarts, **files) as agc:
        return results_of(flight, craft_of(flight), agc)


def results_of(flight, craft, agc):
    """Flies to the end, and returns what flown does."""
    keys = {**begins(flight)[2], **dict(flight.keys)}
    track, refused, seconds, at = Track(craft), None, 0.0, ("", "")
    try:
        for seconds, _ in fly(agc, craft, keys):
            track.look(craft)
            if agc.came:
                agc.came, at = False, (f"{craft.height:.0f}", agc.panel()["PROG"])
    except Refused as error:
        refused = error
    agc.settle(refused)
    text = agc.script()
    alarms = [f"{code:05o}" for code in agc.cells("FAILREG", 3) if code]
    results = [end_of(agc, craft, refused), agc.panel()["PROG"], " ".join(alarms), *touchdown_of(craft)]
    results += [f"{craft.fuel():.1f}", f"{seconds:.2f}", str(agc.cycle), str(len(text.splitlines()))]
    results += [hashlib.sha256(text.encode()).hexdigest()[:12], str(agc.count), *agc.last, *at, " ".join(track.found)]
    return results, text


def touchdown_of(craft):
    """Returns the touchdown's speeds up and forward, the tilt, and how far it is behind the site; empty texts without one."""
    if not craft.touched:
        return ["", "", "", ""]
    up, forward, tilt, way = craft.touched
    return [f"{up:.3f}", f"{forward:.3f}", f"{tilt:.3f}", f"{-way:.2f}"]


@functools.lru_cache(maxsize=None)
def program_behind(program):
    """Returns the program that a launcher of this repository starts, because the launcher takes longer than the program. It is
    looked for once in each process."""
    finder = os.path.join(os.path.dirname(program), "launch", "build")
    if not os.access(program, os.X_OK) or not os.path.exists(finder):
        return program
    found = subprocess.run([finder, os.path.basename(program)], stdout=subprocess.PIPE, stderr=subprocess.PIPE, text=True)
    if found.returncode:
        raise RuntimeError(found.stderr.strip() or f"{program} does not start")
    return found.stdout.strip()


def fly_row(row, files, program, folder):
    """Flies a row of the table, and returns its results and the script. `files` has the bytes of the rope and of its names."""
    flight = flight_of(row)
    contents = {**files, "script": restart_script(flight.restarts, files["names"].decode()).encode()}
    paths = {name: os.path.join(folder, name) for name in contents}
    for name, data in contents.items():
        with open(paths[name], "wb") as file:
            file.write(data)
    return flown(flight, paths["rope"], paths["names"], program, paths["script"])
