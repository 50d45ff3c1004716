"""Compares what is told of many changed ropes with the writes that `agc --log` prints, and the panels of these."""

import subprocess
from pathlib import Path

from judge import AGC, STUDY, TOP, check, finish, scratch_folder

EXAMPLES = Path(TOP, "examples")
ROPE, SCRIPT = EXAMPLES / "verbs/rope", EXAMPLES / "verbs/script"
LIMIT = "60000"
FIRST, LAST = 0o4000, 0o4307
KEPT = 5
DIGITS = {0o00: "_", 0o25: "0", 0o03: "1", 0o31: "2", 0o33: "3", 0o17: "4", 0o36: "5", 0o34: "6", 0o23: "7", 0o35: "8", 0o37: "9"}
# Of each relay row: where its sign goes, its left digit and its right one.
ROWS = {
    11: (None, ("PROG", 0), ("PROG", 1)),
    10: (None, ("VERB", 0), ("VERB", 1)),
    9: (None, ("NOUN", 0), ("NOUN", 1)),
    8: (None, None, ("R1", 0)),
    7: ("R1+", ("R1", 1), ("R1", 2)),
    6: ("R1-", ("R1", 3), ("R1", 4)),
    5: ("R2+", ("R2", 0), ("R2", 1)),
    4: ("R2-", ("R2", 2), ("R2", 3)),
    3: (None, ("R2", 4), ("R3", 0)),
    2: ("R3+", ("R3", 1), ("R3", 2)),
    1: ("R3-", ("R3", 3), ("R3", 4)),
}
# Of each lamp, in the order of print: its channel and bit, or its bit of the lamps' relay word.
LAMPS = [
    ("COMP ACTY", 0o11, 2),
    ("UPLINK ACTY", 0o11, 3),
    ("NO ATT", 12, 4),
    ("TEMP", 0o11, 4),
    ("GIMBAL LOCK", 12, 6),
    ("PROG", 12, 9),
    ("KEY REL", 0o11, 5),
    ("OPR ERR", 0o11, 7),
    ("TRACKER", 12, 8),
    ("ALT", 12, 5),
    ("VEL", 12, 3),
    ("ISS", 0o11, 1),
]


class Display:
    """The panel, as it stands after some writes."""

    def __init__(self):
        self.digits = {name: ["_"] * count for name, count in [("PROG", 2), ("VERB", 2), ("NOUN", 2), ("R1", 5), ("R2", 5), ("R3", 5)]}
        self.signs, self.row_12, self.channel_11 = set(), 0, 0

    def take(self, channel, word):
        """Takes a write."""
        if channel == 0o11:
            self.channel_11 = word
        elif channel == 0o10 and word >> 11 == 12:
            self.row_12 = word
        elif channel == 0o10 and word >> 11 in ROWS:
            sign, left, right = ROWS[word >> 11]
            for place, code in [(left, word >> 5 & 31), (right, word & 31)]:
                if place:
                    self.digits[place[0]][place[1]] = DIGITS.get(code, "?")
            if sign:
                (self.signs.add if word >> 10 & 1 else self.signs.discard)(sign)

    def lines(self):
        """Its eight lines."""
        for name, digits in self.digits.items():
            sign = ""
            if len(digits) == 5:
                sign = "+" if name + "+" in self.signs else "-" if name + "-" in self.signs else "_"
            yield f"{name} {sign}{''.join(digits)}"
        yield f"FLASH {'on' if self.channel_11 >> 5 & 1 else 'off'}"
        words = {12: self.row_12, 0o11: self.channel_11}
        lit = [name for name, source, bit in LAMPS if words[source] >> (bit - 1) & 1]
        yield f"LAMPS {', '.join(lit) or 'none'}"


def run(rope):
    """The writes of a run as cycle, channel and word; its last panel must be the one that `agc` prints."""
    command = [AGC, rope, SCRIPT, "--limit", LIMIT, "--log"]
    lines = subprocess.run(command, capture_output=True, check=True).stdout.decode().splitlines()
    writes = [(int(cycle), channel, word) for cycle, channel, word in (line.split() for line in lines[9:])]
    display = Display()
    for _, channel, word in writes:
        display.take(int(channel, 8), int(word, 8))
    assert lines[:8] == list(display.lines()), rope
    return writes


def shown(writes, what):
    """What these writes show, each with its cycle."""
    if what == "panels":
        display, things = Display(), []
        for cycle, channel, word in writes:
            before = list(display.lines())
            display.take(int(channel, 8), int(word, 8))
            if list(display.lines()) != before:
                things.append((cycle, " ".join(display.lines())))
        return things
    return [(cycle, f"{channel} {word}") for cycle, channel, word in writes if what == "writes" or int(channel, 8) == int(what.removeprefix('channel='), 8)]


def told(left, right, what):
    """The report of two runs, and its one line."""
    item = {"w": "write", "c": "word", "p": "panel"}[what[0]]
    pairs, place = list(zip(left, right)), 0
    while place < len(pairs) and pairs[place][0][1] == pairs[place][1][1]:
        place += 1
    drift = max((abs(one[0] - other[0]) for one, other in pairs[:place]), default=0)
    if place == len(left) == len(right):
        return f"The runs show the same: {counted(place, item)}, and their clocks are never more than {counted(drift, 'cycle')} apart\n", "same"
    lines = [f"The runs part at {item} {place + 1}:"]
    lines += [f"  {one[0]} {other[0]} {one[1]}" for one, other in pairs[max(0, place - KEPT) : place]]
    here = [things[place] if place < len(things) else None for things in (left, right)]
    lines += [mark + (" {} {}".format(*thing) if thing else " -") for mark, thing in zip("<>", here)]
    lines += [f"Before that their clocks are never more than {counted(drift, 'cycle')} apart"]
    return "\n".join(lines) + "\n", f"parts at cycle {(here[0] or here[1])[0]}, {item} {place + 1}"


def counted(number, noun):
    """A number with its noun, in the plural unless it is 1."""
    return f"{number} {noun}{'' if number == 1 else 's'}"


def compare(left, right, words):
    """What `agc-study compare` prints, and its status."""
    command = [STUDY, "compare", left, SCRIPT, right, SCRIPT, "--limit", LIMIT, *words]
    done = subprocess.run(command, capture_output=True, check=False)
    return done.stdout.decode(), done.returncode


def main():
    folder = scratch_folder()
    subprocess.run([EXAMPLES / "many/change", ROPE, f"{FIRST:o}", f"{LAST:o}", folder], check=True)
    whole = run(ROPE)
    runs = {place: run(Path(folder) / f"{place:04o}") for place in range(FIRST, LAST + 1)}
    lines = [f"{place:04o} {told(shown(whole, 'panels'), shown(writes, 'panels'), 'panels')[1]}" for place, writes in runs.items()]
    same = sum(line.endswith("same") for line in lines)
    lines.append(f"{len(runs)} ropes, of which the display does not show {same}")
    printed = subprocess.run([EXAMPLES / "many/run"], capture_output=True, check=True).stdout.decode().splitlines()
    for number, line in enumerate(lines):
        check(f"examples/many: line {number + 1} should be {line}", number < len(printed) and printed[number] == line)
    if len(printed) != len(lines):
        check(f"examples/many: {len(printed)} lines, and should be {len(lines)}", False)
    for place, writes in runs.items():
        if writes == whole:
            continue
        for what in ["writes", "panels", "channel=010", "channel=11", "channel=12"]:
            left, right = shown(writes, what), shown(whole, what)
            report, line = told(left, right, what)
            status = 0 if line == "same" else 1
            for words, wanted in [([], report), (["--brief"], line + "\n")]:
                words = ["--by", what, *words]
                check(f"compare {place:04o} {' '.join(words)}", compare(Path(folder) / f"{place:04o}", ROPE, words) == (wanted, status))


main()
finish()
