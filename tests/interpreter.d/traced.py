"""The operations of a run, found in another way than by `trace --interpretive`: from a table of the interpreter's cells at each of its
orders that counts, which `sample` prints, and the words of the rope's file.
"""

import csv
import os
import re
import subprocess
from fractions import Fraction

import language
from judge import STUDY
from model import whole

ORDERS = ("NEXTOP", "FETCH", "OPJUMP")
CELLS = ("LOC", "MODE", "MPAC", "PUSHLOC")
SPEC = ",".join(ORDERS + CELLS)
COLUMNS = {"z": "0005", "fb": "0004", "loc": "LOC", "mode": "MODE", **{f"m{n}": f"MPAC+{n}" for n in range(7)}, "push": "PUSHLOC"}


def _names_by_codes():
    """The names of each code: a general shift and a switch have several."""
    found = {}
    for name, (code, operands) in language.OPERATIONS.items():
        if operands != "s" or code == 0o115 or name.endswith("*"):
            found.setdefault(code, set()).add(name)
    return found


def _names_in(names, mode):
    """Those of a code's names that are right for MODE: some codes have a name for a scalar and one for a vector."""
    is_vector = whole(mode) < 0
    return {name for name in names if bool(VECTOR.fullmatch(name)) == is_vector} or names


NAMES = _names_by_codes()
VECTOR = re.compile(r"VCOMP|ABVAL|VS[LR][1-8*]?")
STORES = {0: "STORE", 1: "STORE", 2: "STORE", 3: "STODL", 4: "STODL*", 5: "STOVL", 6: "STOVL*", 7: "STCALL"}


def words_of(rope):
    """The words of a rope's file by their places; banks 02 and 03 come first."""
    with open(rope, "rb") as file:
        data = file.read()
    order = [2, 3, 0, 1, *range(4, 36)]
    return {order[at // 2048] * 0o2000 + at % 2048 // 2: int.from_bytes(data[at:at + 2], "big") >> 1 for at in range(0, len(data), 2)}


def rows_of(rope, limit, folder):
    """The cells at each order from NEXTOP to OPJUMP."""
    path = os.path.join(folder, "cells")
    with open(path, "w") as file:
        file.writelines(f"{name} {place} octal 15-1\n" for name, place in COLUMNS.items())
    words = [STUDY, "sample", rope, os.devnull, "--limit", str(limit), "--names", rope + ".names", "--quantities", path, "--at", "NEXTOP-OPJUMP"]
    with subprocess.Popen(words, stdout=subprocess.PIPE, text=True) as process:
        for row in csv.DictReader(process.stdout):
            yield {name: int(row[name], 10 if name == "cycle" else 8) for name in ("cycle", *COLUMNS)}


def addresses(rope):
    """The addresses of the interpreter's places; Z is one more when an order is the next."""
    with open(rope + ".names") as file:
        places = {name: place for place, name in map(str.split, file)}
    return {int(places[name].split(",")[1], 8) + 1: name for name in ORDERS}


def held(row):
    """What the accumulator holds."""
    words = [whole(row[f"m{n}"]) for n in range(7)]
    number = lambda *parts: sum((Fraction(part, 1 << 14 * n) for n, part in enumerate(parts, 1)), Fraction())
    if whole(row["mode"]) == 0:
        return [(number(*words[:2]), 28)]
    if whole(row["mode"]) > 0:
        return [(number(*words[:3]), 42)]
    return [(number(*words[n:n + 2]), 28) for n in (0, 3, 5)]


def operations(rope, limit, folder):
    """Yields the operations of a run: cycle, place, names that it may have, what was held before and after, and the push-down list."""
    words, at = words_of(rope), addresses(rope)
    begun = waiting = None
    is_left = False
    for row in rows_of(rope, limit, folder):
        name = at.get(row["z"])
        if name is None or name == "OPJUMP" and (is_left or waiting is None):
            is_left = is_left and name is None
            continue
        if begun:
            yield (*begun[:4], held(row), begun[4])
            begun = None
        if name == "NEXTOP":
            continue
        if name == "FETCH":
            place = row["loc"] if row["loc"] >= 0o4000 else (row["fb"] >> 10) * 0o2000 + row["loc"] % 0o2000
            word = words[place]
            is_left = word >= 0o40000
            if is_left:
                right, left = divmod(language.LAST - word, 0o200)
                waiting = NAMES[right - 1] if right else None
                names = NAMES[left - 1]
            else:
                waiting, names = None, {STORES[word >> 11]}
        else:
            names, waiting = waiting, None
        begun = row["cycle"], place, _names_in(names, row["mode"]), held(row), row["push"]
        if names == {"EXIT"}:
            yield (*begun[:4], held(row), begun[4])
            begun = None
    if begun:
        yield (*begun[:4], None, begun[4])


def printed(rope, limit, *more):
    """The lines of `trace --interpretive`."""
    words = [STUDY, "trace", rope, os.devnull, "--limit", str(limit), "--names", rope + ".names", "--interpretive", SPEC, *more]
    return subprocess.run(words, capture_output=True, text=True, check=True).stdout.splitlines()


def is_near(text, wanted):
    """Whether a text has these numbers, each as a decimal that tells it from its neighbours."""
    if wanted is None or text == "-":
        return wanted is None and text == "-"
    parts = text.split(",")
    return len(parts) == len(wanted) and all(abs(Fraction(part) - value) * 2 < Fraction(1, 1 << bits) for part, (value, bits) in zip(parts, wanted))


def is_line_of(line, operation):
    """Whether a line says what an operation is."""
    cycle, place, names, before, after, push = operation
    where, values, pushed = line.split(" | ")
    was, _, became = values.partition(" > ")
    first, printed_place, name = where.split(" ")[:3]
    bank, _, address = printed_place.rpartition(",")
    shown = (int(bank, 8) if bank else int(address, 8) // 0o2000) * 0o2000 + int(address, 8) % 0o2000
    return int(first) == cycle and shown == place and name in names and is_near(was, before) and is_near(became, after) and int(pushed, 8) == push
