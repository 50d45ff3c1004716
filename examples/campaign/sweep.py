#!/usr/bin/env python3
"""Flights from everywhere in the range of examples/descent, with keys, alarms, loads and faults: those of the table in its README.

As a table of `flights` it has 964 rows. `sweep.py RESULTS.csv` counts how they ended, as lines of that table.
"""

import collections
import csv
import pathlib
import sys

sys.path.append(str(pathlib.Path(__file__).resolve().parents[1] / "descent"))
from craft import BRAKING_RANGES, FAULTS, KEYS, ORBIT_RANGES, RANGES, height_to_stop  # noqa: E402

FUEL_SHORT = {"height": (3600, 4000), "way": (13000, 15000), "forward": (-20, 0), "down": (80, 100)}
HOVER = {"height": (30, 4000), "way": (0, 0), "forward": (0, 0), "down": (0, 0)}
SECOND = 85_333  # cycles


def between(chance, span):
    """Returns a number of the span."""
    return round(chance.uniform(*span), 2)


def start(chance, ranges=RANGES, draw=between):
    """Returns a start from which the craft can stop; `draw` takes a number from a span."""
    while True:
        found = {name: draw(chance, span) for name, span in ranges.items()}
        if found["height"] >= height_to_stop(found["down"]):
            return found


def braking(chance, draw=between):
    return {"braking": True, **start(chance, BRAKING_RANGES, draw)}


def orbit(chance, draw=between):
    return {"orbit": True, **start(chance, ORBIT_RANGES, draw)}


def anywhere(chance):
    """Returns a start of any of the three kinds, one in six of them in orbit."""
    return chance.choice((start, start, start, braking, braking, orbit))(chance)


def rim(chance):
    """Returns a start at the rim: each number is an end of its span in two of three cases."""

    def draw(chance, span):
        return chance.choice((*map(float, span), between(chance, span)))

    kind = chance.choice((start, start, braking, orbit))
    return kind(chance, draw=draw)


def duration(row):
    """Returns some seconds that a flight from this start lasts."""
    return 720 if "orbit" in row else 230 if "braking" in row else 180


def second(chance, row):
    """Returns a second of the flight, after its engine's start."""
    return round(chance.uniform(4, duration(row)), 2)


def alarmed(chance):
    """Returns a flight with an alarm 1202 each 0.4 to 1 seconds."""
    row = anywhere(chance)
    every = round(chance.uniform(0.4, 1) * SECOND)
    first = 5 * SECOND + chance.randrange(every)
    return {**row, "restarts": f"{first}:{every}:{first + duration(row) * 3 // 2 * SECOND // every * every}"}


def typed(begin, keys, gap=0.25):
    """Returns keys, pressed one after the other from a second on."""
    return [f"{begin + gap * place:.2f}:{key}" for place, key in enumerate(keys)]


def program(name):
    return ["VERB", "3", "7", "ENTR", *name, "ENTR"]


def abort(chance):
    """Returns a flight with V37E70E or V37E71E at any second."""
    row = anywhere(chance)
    return {**row, "keys": typed(second(chance, row), program(chance.choice(("70", "71"))))}


def crew(chance):
    """Returns a flight with keys, switches and redesignations of the crew at up to six seconds."""
    row = anywhere(chance)
    entries = [
        ["ROD+"] * chance.randint(1, 4), ["ROD-"] * chance.randint(1, 4), ["ACA+"] * chance.randint(1, 3), ["ACA-"] * chance.randint(1, 3),
        program("66"), program("65"), ["VERB", "2", "1", "NOUN", "6", "6", "ENTR", "-", *f"{chance.randint(0, 25):05d}", "ENTR"],
        ["VERB", "1", "6", "NOUN", "6", chance.choice("01348"), "ENTR"], ["VERB", "3", "5", "ENTR"], ["RSET", "KEYREL"],
        [chance.choice(KEYS) for _ in range(chance.randint(1, 6))],
    ]
    begins = sorted(second(chance, row) for _ in range(chance.randint(1, 6)))
    return {**row, "keys": [key for begin in begins for key in typed(begin, chance.choice(entries))]}


def load(chance):
    """Returns a flight with a wrong load, with less fuel, or an abort with less fuel in the ascent stage."""
    row = anywhere(chance)
    kind = chance.choice(("height", "mass", "fuel", "ascent"))
    if kind == "height":
        known = chance.choice((chance.gauss(row["height"], 300), chance.uniform(-16000, 16000)))
        return {**row, "loaded_height": min(16000, round(known))}
    if kind == "mass":
        right = 14700 if "orbit" in row else 8500
        return {**row, "loaded_mass": round(chance.choice((chance.gauss(right, right / 20), chance.uniform(0, 16000))))}
    if kind == "fuel":
        return {**row, "fuel": round(chance.uniform(0, 8200 if "orbit" in row else 2000))}
    return {**row, "ascent_fuel": round(chance.uniform(0, 2350)), "keys": typed(second(chance, row), program("71"))}


def fault(chance):
    """Returns a flight with a part at fault from any second on, for ever or for some seconds."""
    row = anywhere(chance)
    seconds = chance.choice(("", f":{chance.uniform(1, 30):.1f}"))
    return {**row, "faults": f"{chance.choice(FAULTS)}:{second(chance, row)}{seconds}"}


GROUPS = [
    (120, "by P64, anywhere in the range", start),
    (119, "with `--braking`, anywhere", braking),
    (59, "with `--orbit`, anywhere", orbit),
    (119, "at the rim of a range", rim),
    (118, "hovers, 30 to 4000 m up", lambda chance: start(chance, HOVER)),
    (60, "by P64, 13 to 15 km before the site, backward and fast down: the fuel is short", lambda chance: start(chance, FUEL_SHORT)),
    (60, "an alarm 1202 each 0.4 to 1 seconds", alarmed),
    (67, "V37E70E or V37E71E at any second", abort),
    (67, "the crew's keys, switches and redesignations at any second", crew),
    (108, "a wrong load, less fuel or less ascent fuel", load),
    (67, "a part at fault from any second on", fault),
]
"""How many flights each kind has, what they are, and what makes one. They are numbered in this order, from 1 on."""


def group_of(number):
    """Returns the words and the maker of a flight's group; the last one has all numbers beyond."""
    last = 0
    for count, words, make in GROUPS:
        last += count
        if number <= last:
            break
    return words, make


def flight(number, chance):
    """Returns the row of a flight; `chance` is a random.Random of its own."""
    return {"seed": number, **group_of(number)[1](chance)}


def print_counts(path):
    """Prints how the flights of each group ended."""
    ends = collections.defaultdict(collections.Counter)
    with open(path, newline="", encoding="utf-8") as file:
        for row in csv.DictReader(line for line in file if not line.startswith("#")):
            words, _ = group_of(int(row["flight"]))
            ends[words][row["end"] if row["end"] in ("landed", "aborted") else f"{row['end']} in P{row['program']}"] += 1
    for _, words, _ in GROUPS:
        came = ends[words]
        others = ", ".join(f"{count} {end}" for end, count in came.most_common() if end not in ("landed", "aborted"))
        print(f"| {words} | {sum(came.values())} | {came['landed']} | {came['aborted'] or ''} | {others} |")


if __name__ == "__main__":
    print_counts(sys.argv[1])
