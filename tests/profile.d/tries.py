"""Compares what `agc-study profile` prints with a profile that is made here, line by line: a slow count over the lines of the
plain trace, with the orders of `list`, and with names a slow sum over its words."""

import os
import random
import subprocess
from collections import defaultdict
from pathlib import Path

from judge import STUDY, TOP, check, finish, judge, scratch_folder

EXAMPLES = Path(TOP, "examples")
TRIES = int(os.environ.get("PROFILE_TRIES", 60))
RUNS = [("keys", 300), ("timers", 3000), ("division", 100), ("downlink", 400), ("verbs", 60000)]
BANKED = int(os.environ.get("PROFILE_BANKED", 8))
SEED = 20
HEADING = "         times          cycles          data  of what"
ALL = ("boundaries", "orders", "timers", "events", "interrupts", "in services", "under INHINT")
INTERRUPTS = ("T6RUPT", "T5RUPT", "T3RUPT", "T4RUPT", "KEYRUPT1", "KEYRUPT2", "UPRUPT", "DOWNRUPT", "RADARUPT", "RUPT10")
BASICS = "TC RELINT INHINT EXTEND CCS TCF DAS LXCH INCR ADS CA CS INDEX RESUME DXCH TS XCH AD MASK".split()
EXTRAS = "READ WRITE RAND WAND ROR WOR RXOR EDRUPT DV BZF MSU QXCH AUG DIM DCA DCS INDEX SU BZMF MP".split()
# the words before which an order is an extracode
CHANNELS = {"READ", "WRITE", "RAND", "WAND", "ROR", "WOR", "RXOR", "EDRUPT"}
EXTRACODES = CHANNELS | {"DV", "BZF", "MSU", "QXCH", "AUG", "DIM", "DCA", "DCS", "SU", "BZMF", "MP"}
# the orders that read a word at an address of ten bits or of twelve, and those that read the word before it too
SHORT = {"CCS", "LXCH", "INCR", "ADS", "XCH", "DV", "MSU", "QXCH", "AUG", "DIM", "SU"}
LONG = {"CA", "CS", "AD", "MASK", "MP"}
SHORT_PAIRS, LONG_PAIRS = {"DAS", "DXCH"}, {"DCA", "DCS"}


def run(words):
    """What the program prints."""
    return subprocess.run([STUDY, *words], capture_output=True, check=True).stdout.decode()


def place_of(text):
    """The place of an order's line, as a count prints it."""
    bank, _, address = text.rpartition(",")
    number = int(address, 8)
    if number < 0o1400:
        return f"{number:04o}"
    if number < 0o2000:
        cell = 0o400 * int(bank[1:], 8) + number % 0o400
        return f"{cell:04o}" if cell < 0o1400 else f"E{cell // 0o400:o},{number:04o}"
    if number >= 0o4000:
        return f"{number // 0o2000:02o},{number:04o}"
    if bank in ("02", "03"):
        return f"{bank},{0o2000 * int(bank, 8) + number % 0o2000:04o}"
    return text


def bank_of(place):
    """The bank of a place that a count prints."""
    bank, _, address = place.rpartition(",")
    return bank or f"E{int(address, 8) // 0o400:o}"


def read_by(word, name, extracode, banks):
    """The places whose words an order reads as data, by the erasable bank, FB's bank and the superbank before it."""
    if name in SHORT | SHORT_PAIRS or (name == "INDEX" and not extracode):
        size = 0o2000
    elif name in LONG | LONG_PAIRS or name == "INDEX":
        size = 0o10000
    else:
        return []
    address = word % size
    addresses = [address, (address - 1) % size] if name in SHORT_PAIRS | LONG_PAIRS else [address]
    erasable, fixed, is_super = banks
    bank = fixed + 0o10 if is_super and fixed >= 0o30 else fixed
    return [place_of(f"E{erasable:o},{each:04o}" if each < 0o2000 else f"{bank:02o},{each:04o}") for each in addresses]


def told_by(rope, script, limit, first, last):
    """The tallies that the lines of a trace give, and how often places were read, of the boundaries in a span."""
    tallies, reads = defaultdict(lambda: [0, 0]), defaultdict(int)
    halves = [line.split(" | ") for line in run(["trace", rope, script, "--limit", str(limit)]).splitlines()]
    lines, registers = [half[0].split(" ") for half in halves], [half[1].split(" ") for half in halves]
    service, inhibited, extended, banks = None, False, False, (0, 0, False)
    for line, later, after in zip(lines, lines[1:], registers):
        cycle, cycles = int(line[0]), int(later[0]) - int(line[0])
        things, before = [("all", "boundaries")], inhibited
        if line[1] == "-":
            kind = line[2]
            things.append(("all", kind + "s"))
            if kind == "interrupt":
                service = line[3]
        else:
            place, name = place_of(line[1]), line[3]
            extracode = name in EXTRACODES or (name == "INDEX" and extended)
            things += [("all", "orders"), ("word", place), ("bank", bank_of(place))]
            things.append(("extracode" if extracode else "order", name))
            if first <= cycle <= last:
                for read in read_by(int(line[2], 8), name, extracode, banks):
                    reads[read] += 1
            extended = name == "EXTEND" or (name == "INDEX" and extended)
            inhibited = {"INHINT": True, "RELINT": False}.get(name, inhibited)
        if service:
            things.append(("all", "in services"))
        if before:
            things.append(("all", "under INHINT"))
        if first <= cycle <= last:
            for thing in things:
                tallies[thing][0] += 1
                tallies[thing][1] += cycles
            if service:
                tallies["interrupt", service][0] += line[1:3] == ["-", "interrupt"]
                tallies["interrupt", service][1] += cycles
        if line[1] != "-" and line[3] == "RESUME":
            service = None
        written = line.index(">") if ">" in line else None
        is_super = int(line[-1], 8) & 0o100 != 0 if written and line[written + 1] == "007" else banks[2]
        banks = (int(after[after.index("EB") + 1], 8), int(after[after.index("FB") + 1], 8), is_super)
    return {thing: tuple(tally) for thing, tally in tallies.items() if any(tally)}, dict(reads)


def place_of_rope(place):
    """Whether a place of fixed memory is in a bank that a rope has."""
    memory, number = location_of(place)
    return memory == "F" and number < 36 * 0o2000


def rows_of(rope, script, limit, first, last, whole=False):
    """The rows of a profile: what a count over the trace gives, in the order of docs/study/profile.md."""
    tallies, reads = told_by(rope, script, limit, first, last)
    orders = dict(line.split(" ", 1) for line in run(["list", rope]).splitlines())
    names = [("all", name) for name in ALL]
    names += [("interrupt", name) for name in INTERRUPTS] + [("order", name) for name in BASICS] + [("extracode", name) for name in EXTRAS]
    names += [("bank", f"E{bank:o}") for bank in range(8)] + [("bank", f"{bank:02o}") for bank in range(0o50)]
    rows = [row_of(kind, name, "", tallies.get((kind, name), (0, 0)), "") for kind, name in names
            if kind == "all" or any(tallies.get((kind, name), ()))]
    unknown = {thing for thing in tallies if thing[0] != "word"} - set(names)
    check(f"{rope}: counted, and of no kind: {unknown}", not unknown)
    words = {name for kind, name in tallies if kind == "word"} | set(reads) | (set(orders) if whole else set())
    for place in sorted(words, key=location_of):
        order = orders.get(place, "00000 TC 0000") if place_of_rope(place) else ""
        rows.append(row_of("word", place, order, tallies.get(("word", place), (0, 0)), str(reads.get(place, 0))))
    return rows


def row_of(kind, name, order, tally, data):
    return {"kind": kind, "name": name, "order": order, "times": str(tally[0]), "cycles": str(tally[1]), "data": data}


def value_of(row):
    """The line of a row as comma-separated values."""
    name = row["name"].replace('"', '""')
    return ",".join([row["kind"], f'"{name}"', row["order"], row["times"], row["cycles"], row["data"]])


def written(folder, chance):
    """A random rope of banks 02 and 03, mostly of orders that stay near, and a random script."""
    words = [chance.choice((0o30000, 0o50000, 0o54000, 0o60000, 0o24000, 0o14000, 0o10000)) + chance.randrange(0o2000)
             for _ in range(0o4000)]
    for at in chance.sample(range(0o4000), 0o1000):
        words[at] = chance.choice((3, 4, 6, 6, 6, 0o50017, chance.randrange(0o100000)))
    rope = folder / "rope"
    rope.write_bytes(b"".join((2 * word).to_bytes(2, "big") for word in words))
    script = folder / "script"
    cycles = sorted(chance.randrange(1500) for _ in range(8))
    script.write_text("".join(f"{cycle} raise {chance.randrange(1, 11)}\n" for cycle in cycles))
    return rope, script


def check_profile(what, words, rows):
    """Checks both forms of a profile, whole."""
    judge(f"{what}: values", ["kind,name,order,times,cycles,data", *map(value_of, rows)], run([*words, "--csv"]).splitlines())
    judge(f"{what}: columns", [HEADING, *(column_of(row, "--names" in words) for row in rows)], run(words).splitlines())


def check_counts(rope, script, limit, first, last, whole=False):
    """Checks a profile without names."""
    words = ["profile", rope, script, "--limit", str(limit), "--from", str(first), "--to", str(last)] + ["--rope"] * whole
    check_profile(f"counts: {rope} {script} {limit} {first} {last} {whole}", words, rows_of(rope, script, limit, first, last, whole))


def banked(folder, chance):
    """A rope that runs random orders in each of the 36 banks, and a script with interrupts. Of each bank a subroutine is
    called, with EBANK, FBANK and the superbank of chance: the code is at 4060, its data at 6000."""
    words = {(bank, at): chance.randrange(0o100000) for bank in range(36) for at in range(0o2000)}
    code, data = [], []

    def take(word):
        data.append(word)
        return 0o30000 + 0o6000 + len(data) - 1

    for bank in chance.sample([bank for bank in range(36) if bank not in (2, 3)], 34):
        start = chance.randrange(0o1700)
        is_super = bank >= 0o40
        code += [take(chance.randrange(8) << 8), 0o54003, take(0o100 * is_super), 6, 0o01007, take((bank - 8 * is_super) << 10), 0o54004, 0o02000 + start]
        for at, order in enumerate([*straight(chance), 2]):
            words[bank, start + at] = order
    code.append(0o10000 + 0o4060)
    words.update({(2, at): 0o50017 for at in range(0o60)})
    words[2, 0] = 0o10000 + 0o4060
    words.update({(2, 0o60 + at): word for at, word in enumerate(code)})
    words.update({(3, at): word for at, word in enumerate(data)})
    rope = folder / "rope"
    rope.write_bytes(b"".join((2 * words[bank, at]).to_bytes(2, "big") for bank in (2, 3, 0, 1, *range(4, 36)) for at in range(0o2000)))
    script = folder / "script"
    script.write_text("".join(f"{cycle} raise {chance.randrange(1, 11)}\n" for cycle in sorted(chance.sample(range(2000), 8))))
    return rope, script


def straight(chance):
    """Orders that go on to the next one: with cells, with words of their own bank, with extracodes."""
    for _ in range(chance.randrange(4, 12)):
        cell, own = chance.choice((0o100, 0o1400)) + chance.randrange(0o300), 0o2000 + chance.randrange(0o2000)
        yield from chance.choice((
            [0o30000 + own], [0o40000 + own], [0o60000 + own], [0o70000 + own], [6, 0o30000 + own], [6, 0o70000 + own],
            [0o30000 + cell], [0o56000 + cell], [0o24000 + cell], [6, 0o40000 + cell], [0o22000 + cell], [6, 0o26000 + cell],
        ))


def location_of(place):
    """The memory of a place that a count prints, and its number there: a word of the rope, or a cell."""
    bank, _, address = place.rpartition(",")
    number = int(address, 8)
    if not bank:
        return "E", number
    if bank[0] == "E":
        return "E", 0o400 * int(bank[1:], 8) + number % 0o400
    return "F", 0o2000 * int(bank, 8) + number % 0o2000


def shown(memory, number):
    """The place with this number, as a count prints it."""
    if memory == "E":
        return f"{number:04o}" if number < 0o1400 else f"E{number // 0o400:o},{0o1400 + number % 0o400:04o}"
    bank = number // 0o2000
    return f"{bank:02o},{number if bank in (2, 3) else 0o2000 + number % 0o2000:04o}"


def size_of(memory):
    return 0o400 if memory == "E" else 0o2000


def name_of(names, memory, number):
    """The nearest name at or below a place in its bank, up to 64 words away; of a register or counter only its own."""
    near = [(number - at, index, name) for index, (kind, at, name) in enumerate(names)
            if kind == memory and at // size_of(memory) == number // size_of(memory) and 0 <= number - at <= 64]
    if not near:
        return ""
    offset, _, name = min(near)
    if memory == "E" and number < 0o61 and offset:
        return ""
    return f"{name} +{offset}" if offset else name


def routine_of(names, memory, number):
    """The number at which the routine of a place begins, and what a count prints of it."""
    bank = number // size_of(memory)
    starts = [at for kind, at, _ in names if kind == memory and at // size_of(memory) == bank and at <= number]
    if not starts:
        return size_of(memory) * bank, f"E{bank:o}" if memory == "E" else f"{bank:02o}"
    return max(starts), f"{shown(memory, max(starts))} {name_of(names, memory, max(starts))}"


def with_names(rows, names):
    """The rows of a count with names, from those without."""
    sums, total = {}, next(int(row["cycles"]) for row in rows if row["name"] == "orders")
    for row in rows:
        if row["kind"] == "word" and (int(row["times"]) or int(row["cycles"])):
            memory, number = location_of(row["name"])
            first, name = routine_of(names, memory, number)
            before = sums.get((memory, first, name), (0, 0))
            sums[memory, first, name] = before[0] + int(row["times"]), before[1] + int(row["cycles"])
    routines = []
    for (memory, first, name), (times, cycles) in sorted(sums.items()):
        tenths = 1000 * cycles // total if total else 0
        share = f"{tenths // 10}.{tenths % 10}%"
        routines.append({"kind": "routine", "name": name, "order": share, "times": str(times), "cycles": str(cycles), "data": ""})
    words = []
    for row in rows:
        if row["kind"] == "word":
            words.append({**row, "name": f"{row['name']} {name_of(names, *location_of(row['name']))}".rstrip()})
    return [row for row in rows if row["kind"] != "word"] + routines + words


def column_of(row, is_named):
    """The line of a row in columns. With names that of a word with an order is padded to twelve characters."""
    label = row["name"]
    if is_named and row["kind"] == "word" and row["order"]:
        place, _, name = label.partition(" ")
        label = f"{place} {name:12}"
    return f"{row['times']:>14}{row['cycles']:>16}{row['data'] or '-':>14}  {row['kind']} {label} {row['order']}".rstrip(" ")


def some_names(rows, chance):
    """Names at some of the places that ran, near them, and anywhere, a few of them twice."""
    places = [location_of(row["name"]) for row in rows if row["kind"] == "word"]
    names = []
    for index in range(chance.randrange(1, 12)):
        memory, number = chance.choice(places) if places and index % 4 else ("FE"[index % 2], chance.randrange(0o4000))
        number = max(0, number + chance.choice((0, 0, -1, 1, -3, -70)))
        names.append((memory, min(number, 0o3777 if memory == "E" else 0o107777), chance.choice((f"N{index}", f'A"{index}', "SAME", "-X-Y"))))
    return names


def check_names(rope, script, limit, first, last, folder, chance):
    """Checks names after places, and sums by routine."""
    rows = rows_of(rope, script, limit, first, last)
    names = some_names(rows, chance)
    file = folder / "names"
    file.write_text("".join(f"{shown(memory, at)} {name}\n" for memory, at, name in names))
    words = ["profile", rope, script, "--limit", str(limit), "--from", str(first), "--to", str(last), "--names", str(file)]
    check_profile(f"names: {rope} {script} {limit} {first} {last} {names}", words, with_names(rows, names))


def main():
    chance = random.Random(SEED)
    for name, limit in RUNS:
        for first, last in ((0, limit), (limit // 3, limit // 2), (100, 100)):
            check_counts(EXAMPLES / name / "rope", EXAMPLES / name / "script", limit, first, last, first > 0)
    scratch = Path(scratch_folder())
    for name, limit in RUNS:
        files = EXAMPLES / name / "rope", EXAMPLES / name / "script"
        for first, last in ((0, limit), (limit // 3, limit // 2)):
            check_names(*files, limit, first, last, scratch, chance)
    for _ in range(BANKED):
        rope, script = banked(scratch, chance)
        check_counts(rope, script, 2000, 0, 2000)
        check_names(rope, script, 2000, 0, 2000, scratch, chance)
    for _ in range(TRIES):
        rope, script = written(scratch, chance)
        first = chance.choice((0, 0, chance.randrange(1000)))
        check_counts(rope, script, 2000, first, chance.choice((2000, first + chance.randrange(800))))
        check_names(rope, script, 2000, first, 2000, scratch, chance)


main()
finish()
