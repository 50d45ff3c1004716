"""Compares what `agc-study jobs` prints with tables that it does not print itself.

Of random parts of runs, with and without names, these are the tables that `agc --watch` prints at stops: what is shown at the
cycle of a stop are the last lines up to then, each over the one before it with the same name; no line is printed that was
shown already. Of a machine that waits while a script writes into the tables, they are made here, line by line. The name of a
place is looked for slowly.
"""
import os
import random
import re
import subprocess
from pathlib import Path

from judge import AGC, STUDY, TOP, check, finish, judge, scratch_folder

RUNS = [[Path(TOP, "examples", name, file) for file in ("rope", "script")] for name in ("pinball", "timers", "count-4", "lander")]
CYCLES = 20000
TRIES = int(os.environ.get("JOBS_TRIES", 20))


def printed(*words):
    return subprocess.run(words, capture_output=True, text=True, check=True).stdout.splitlines()


def name_of(line):
    """SET 3, LST1 or LST2 3."""
    return re.match(r"LST1|(SET|LST2) \d+", line)[0]


def spec(chance):
    """Tables somewhere, of which none ends past the last cell."""
    sets = chance.choice([0, 1, 7, 8, 16])
    core = chance.randrange(2048 - 12 * sets)
    places = [core, chance.randrange(2048 - 8), chance.randrange(2048 - 18)]
    words = [f"{place // 256:o},{place % 256:o}" for place in places]
    return f"{words[0]},{sets:o},{words[1]},{words[2]}"


def place_in(address, banks):
    """The memory and the number of the place of an address, with banks as BB has them and the superbank in bit 7."""
    if address > 0o7777:
        return None
    if address < 0o1400:
        return "E", address
    if address < 0o2000:
        return "E", 0o400 * (banks & 7) + address - 0o1400
    if address >= 0o4000:
        return "F", address
    bank = banks >> 10
    return "F", 0o2000 * (bank + 8 if bank >= 0o30 and banks & 0o100 else bank) + address - 0o2000


def named(line, names):
    """A line with the name of its place: the nearest at or below it in its bank, up to 64 words away."""
    job = re.search(r"LOC (\d{5}) BANKSET (\d{5})$", line)
    task = re.search(r"(?:^| )LST2 \d+ (\d{5}) (\d{5})$", line)
    found = job or task
    place = place_in(*(int(word, 8) for word in found.groups())) if found else None
    if not place:
        return line
    size = 0o2000 if place[0] == "F" else 0o400
    near = [(place[1] - at, index, name) for index, (kind, at, name) in enumerate(names)
            if kind == place[0] and at // size == place[1] // size and 0 <= place[1] - at <= 64]
    if not near:
        return line
    offset, _, name = min(near)
    return f"{line} {name} +{offset}" if offset else f"{line} {name}"


def names_in(chance, folder):
    """A file of many names, and the names."""
    names, lines = [], []
    for index in range(600):
        if index % 3 == 0:
            kind, at = "E", chance.randrange(0o4000)
            text = f"{at:04o}" if at < 0o1400 else f"E{at // 0o400},{0o1400 + at % 0o400:04o}"
        else:
            # The first word of each bank, at address 2000, has a name too.
            kind, at = "F", 0o2000 * (index // 3) if index < 108 else chance.randrange(36 * 0o2000)
            bank = at // 0o2000
            text = f"{bank:02o},{at if bank in (2, 3) else 0o2000 + at % 0o2000:04o}"
        names.append((kind, at, f"N{index}"))
        lines.append(f"{text} N{index}\n")
    file = Path(folder) / "names"
    file.write_text("".join(lines))
    return file, names


def job_line(number, words):
    """The line of a core set."""
    priority = words[11]
    if priority == 0o77777:
        return f"SET {number} FREE"
    state, size = ("ASLEEP", 0o77777 - priority) if priority >= 0o40000 else ("READY", priority)
    return f"SET {number} {state} {size >> 9:02o} LOC {words[8]:05o} BANKSET {words[9]:05o}"


def tables_of(cells, tables):
    """The lines of the tables of these cells."""
    core, sets, lst1, lst2 = tables
    lines = [job_line(number, cells[core + 12 * number:core + 12 * number + 12]) for number in range(sets)]
    lines.append("LST1" + "".join(f" {word:05o}" for word in cells[lst1:lst1 + 8]))
    return lines + [f"LST2 {number} {cells[lst2 + 2 * number]:05o} {cells[lst2 + 2 * number + 1]:05o}" for number in range(9)]


def some_word(chance, place):
    """A word for a place of a table: an address, banks, or a priority, more often than any."""
    address = chance.choice((0o2000, 0o2000 + chance.randrange(0o2000), 0o3777, 0o4000 + chance.randrange(0o4000), 0o1400 + chance.randrange(0o400),
                             chance.randrange(0o1400), 0o10000))
    banks = chance.randrange(0o40) << 10 | chance.choice((0, 0o100)) | chance.randrange(8)
    priority = chance.choice((0o77777, 0, chance.randrange(1, 0o40) << 9, 0o77777 - (chance.randrange(1, 0o40) << 9)))
    return chance.choice((address, address, banks, priority, chance.randrange(0o100000)) if place is None else {8: (address,), 9: (banks,), 11: (priority,)}.get(place, (0,)))


def pokes(chance, tables):
    """Writes into the tables, by cycle: the cell and the word."""
    core, sets, lst1, lst2 = tables
    writes = []
    for cycle in sorted(chance.sample(range(10, 2000), 120)):
        if sets and chance.random() < 0.6:
            place = chance.choice((8, 9, 11, 8, 9, 11, 3))
            writes.append((cycle, core + 12 * chance.randrange(sets) + place, some_word(chance, place)))
        else:
            writes.append((cycle, chance.choice((lst1 + chance.randrange(8), lst2 + chance.randrange(18))), some_word(chance, None)))
    return writes


def lines_of(writes, tables, first, last):
    """The lines of these writes from a cycle up to another one, without names."""
    cells, shown, lines = [0] * 2048, None, []
    for cycle, cell, word in [*writes, (last + 1, 0, 0)]:
        if shown is None and cycle >= first:
            shown = tables_of(cells, tables)
            lines += [f"{first} {line}" for line in shown]
        if cycle > last:
            break
        cells[cell] = word
        if shown is not None:
            after = tables_of(cells, tables)
            lines += [f"{cycle} {line}" for line, before in zip(after, shown) if line != before]
            shown = after
    return lines


def has_both(lines):
    """Whether a set of the lines has address 2000, and one the superbank."""
    return any("LOC 02000" in line for line in lines) and any(re.search(r"LOC 0[23]\d{3} BANKSET [67]\d[1357]\d\d", line) for line in lines)


def try_pokes(chance, folder):
    """A machine that waits, while a script writes into tables that lie side by side. Returns the lines."""
    sets = chance.choice((0, 1, 7, 16))
    core = 0o100 + chance.randrange(1024)
    tables = (core, sets, core + 12 * sets, core + 12 * sets + 8 + chance.randrange(400))
    places = [f"{place // 256:o},{place % 256:o}" for place in (tables[0], tables[2], tables[3])]
    writes, script = pokes(chance, tables), Path(folder, "script")
    script.write_text("".join(f"{cycle} poke {cell // 256:o} {cell % 256:o} {word:o}\n" for cycle, cell, word in writes))
    file, names = names_in(chance, folder)
    first, last = chance.choice(((0, 2500), (500, 1500), (0, 1000)))
    words = [STUDY, "jobs", Path(TOP, "examples", "watch", "rope"), script, "--watch", f"{places[0]},{sets:o},{places[1]},{places[2]}",
             "--limit", "2500", "--from", str(first), "--to", str(last)]
    wanted = lines_of(writes, tables, first, last)
    judge(f"{words}: the lines", wanted, printed(*words))
    judge(f"{words}: the lines with names", [named(line, names) for line in wanted], printed(*words, "--names", str(file)))
    return wanted


def try_part(chance, rope, script, folder):
    tables = spec(chance)
    file, names = names_in(chance, folder)
    first = chance.choice([0, chance.randrange(CYCLES)])
    words = [rope, script, "--watch", tables]
    told = printed(STUDY, "jobs", *words, "--limit", str(CYCLES), "--from", str(first), "--names", str(file))
    what = f"{rope} {tables} from {first}"
    shown, entries, later = {}, [], True
    for line in told:
        cycle, text = line.split(" ", 1)
        later = later and shown.get(name_of(text)) != text and (not entries or entries[-1][0] <= int(cycle))
        shown[name_of(text)] = text
        entries.append((int(cycle), text))
    check(f"{what}: a line is told again, or before another one", later and bool(entries) and entries[0][0] >= first)
    for _ in range(4):
        limit = chance.randrange(entries[0][0], CYCLES) + 1
        stop = printed(AGC, *words, "--limit", str(limit))
        cycle = int(next(line for line in stop if line.startswith("STOP ")).split()[3])
        shown = {name_of(text): text for at, text in entries if at <= cycle}
        judge(f"{what}: the tables at {cycle}", [named(line, names) for line in stop[9:]], list(shown.values()))


scratch, poked = scratch_folder(), []
for seed in range(TRIES):
    for rope, script in RUNS:
        try_part(random.Random(f"{seed} {rope}"), rope, script, scratch)
    poked += try_pokes(random.Random(f"pokes {seed}"), scratch)
check("sets with address 2000, and with the superbank", has_both(poked))
finish()
