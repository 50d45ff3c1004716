#!/usr/bin/env python3
"""Weaves a program of this folder, runs it to STAY, and prints numbers that it has left.

    run.py FILE NAME[:SCALE][:v] ..

A number is a fraction of 2 to the power of its scale, 0 if none is named; `:v` is a vector.
"""

import argparse
import os
import subprocess
import sys
import tempfile

here = os.path.dirname(os.path.realpath(__file__))
top = os.path.join(here, "..", "..")
sys.path.append(os.path.join(top, "clients", "python"))
from agc import Console, Error  # noqa: E402

MOST = 10_000_000  # cycles, two minutes


def number(high, low, scale):
    """The number of two words."""
    parts = [word if word < 0o40000 else word - 0o77777 for word in (high, low)]
    return (parts[0] * 2.0**-14 + parts[1] * 2.0**-28) * 2.0**scale


def shown(console, wanted):
    """A line for NAME:SCALE:v."""
    name, *options = wanted.split(":")
    scale = sum(int(option) for option in options if option != "v")
    words = console.cells(name, 6 if "v" in options else 2)
    parts = [f"{number(*words[n:n + 2], scale):.9g}" for n in range(0, len(words), 2)]
    return f"{name} = {', '.join(parts)}"


def lines(rope, names, wanted, **options):
    """Runs a rope to STAY. Returns the lines for the wanted numbers."""
    with Console(rope, names=names, **options) as console:
        if not console.until("STAY", MOST).came:
            code, place = console.cell("CODE"), console.cell("LOC")
            raise Error(f"the program does not reach STAY; CODE is {code:03o} and LOC {place:04o}")
        cycles = console.cycle
        overflow = [] if console.cell("OVFIND") in (0, 0o77777) else ["OVFIND is set"]
        return [shown(console, each) for each in wanted] + overflow + [f"STAY at cycle {cycles}"]


def main():
    parser = argparse.ArgumentParser(description=__doc__, formatter_class=argparse.RawDescriptionHelpFormatter)
    parser.add_argument("file")
    parser.add_argument("name", nargs="*")
    given = parser.parse_args()
    with tempfile.TemporaryDirectory() as folder:
        rope, names = os.path.join(folder, "rope"), os.path.join(folder, "names")
        with open(rope, "wb") as file:
            woven = subprocess.run([os.path.join(top, "agc-study"), "weave", given.file, "--write-names", names], stdout=file)
        if woven.returncode:
            sys.exit(woven.returncode)
        print("\n".join(lines(rope, names, given.name)))


if __name__ == "__main__":
    try:
        main()
    except Error as error:
        sys.exit(f"run.py: {error}")
