"""Compares runs that skip the turns of idle loops with the same runs boundary by boundary.

A rope has loops of one to twenty orders or so, which an interrupt, a key, an input or a pulse may leave. Of each rope
`agc-study trace` gives every boundary, with the registers after it. From these lines follow, for any cycle, the first
boundary there, and so what `agc --log` has to print for a limit or a stop address, and what `agc-console` has to show
after `go to`.
"""

import os
import random
import re
import subprocess
import sys
from pathlib import Path

from judge import AGC, CONSOLE, STUDY, check, finish, scratch_folder

TRIES = int(os.environ.get("TRIES", "60"))
SEED = int(os.environ.get("SEED", "1969"))
LIMIT = 6000
START, BODY, DATA = 0o4000, 0o4100, 0o4700
EXTEND, RESUME, INHINT, RELINT = 0o6, 0o50017, 0o4, 0o3
# The cells that loops look at: TIME1, TIME3, TIME5, CYR, CDUX and three of their own.
CELLS = [0o25, 0o26, 0o30, 0o20, 0o32, 0o100, 0o101, 0o102]
CHANNELS = [1, 2, 3, 4, 0o15, 0o30, 0o32, 0o33]


def still(chance, here):
    """Some words that only read: an order, or EXTEND and an extracode."""
    cell, channel = chance.choice(CELLS[5:]), chance.choice(CHANNELS[:2] + CHANNELS[4:])
    fixed = DATA + chance.randrange(8)
    return chance.choice([
        [0o30000 + cell], [0o40000 + cell], [0o60000 + cell], [0o70000 + fixed], [0o30000 + fixed], [0o40000 + fixed],
        [0o50000 + 0o107, 0o30000 + cell], [0o10000 + here + 1], [0o40000], [INHINT], [RELINT], [INHINT, RELINT],
        [EXTEND, channel], [EXTEND, 0o2000 + channel], [EXTEND, 0o4000 + channel], [EXTEND, 0o6000 + channel],
        [EXTEND, 0o20000 + cell], [EXTEND, 0o60000 + cell], [EXTEND, 0o70000 + fixed],
        [EXTEND, 0o50000 + 0o107, 0o30000 + cell], [here + 1],
    ])


def moving(chance):
    """Some words that change a cell or a channel, or read what changes by itself."""
    cell = chance.choice(CELLS[3:])
    return chance.choice([
        [0o54000 + cell], [0o24000 + cell], [0o56000 + cell], [0o26000 + cell], [0o20000 + 0o101], [0o22000 + cell],
        [0o52000 + 0o102], [0o30020], [0o40021], [0o60022], [0o10020], [EXTEND, 0o3], [EXTEND, 0o4],
        [EXTEND, 0o2004], [EXTEND, 0o1005], [EXTEND, 0o3006], [EXTEND, 0o24000 + cell], [EXTEND, 0o30101],
        [EXTEND, 0o22000 + cell], [0o30000 + chance.choice(CELLS[:3])],
    ])


def loop(chance, first, kind):
    """A loop at this address: some orders, an exit that a cell or a channel opens by its kind, and the way back."""
    words = []
    for _ in range(chance.choice([0, 0, 0, 1, 1, 2, 3, 8, 13, 15])):
        words += moving(chance) if chance.random() < 0.05 else still(chance, first + len(words))
    back, mask = 0o10000 + first, 0o70000 + DATA + chance.randrange(8)
    if kind < 3:
        # CCS: at +0 and -0 go back, otherwise leave
        leave = 0o10000 + first + len(words) + 5
        words += [0o10000 + chance.choice(CELLS[3:]), leave, back, leave, back]
    elif kind < 5:
        words += [0o30000 + chance.choice(CELLS), mask, EXTEND, back]
    elif kind < 8:
        # the scaler's third bit: the next step of a timer comes when it is 0
        words += [EXTEND, 4, 0o70000 + DATA + 8, EXTEND, back]
    elif kind < 10:
        words += [0o30020, mask, EXTEND, back]
    elif kind < 11:
        words += [EXTEND, chance.choice(CHANNELS), mask, EXTEND, back]
    elif kind < 12:
        words += [0o30000 + chance.choice(CELLS), EXTEND, 0o60000 + first]
    else:
        words += [back]
    return words


def rope(chance):
    """The words from 4000 octal on: vectors with short services, loops one after another, and constants."""
    words = [0] * 0o1000
    words[0:2] = [0o10000 + BODY] * 2
    for vector in range(4, 0o54, 4):
        service = [RESUME]
        if chance.random() < 0.7:
            service = [0o24000 + chance.choice(CELLS[5:]), RESUME]
        if chance.random() < 0.2:
            service = [0o52010, 0o24100, 0o52010, RESUME]
        words[vector:vector + len(service)] = service
    at, kinds = BODY - START, [chance.randrange(13) for _ in range(2)]
    while at < DATA - START - 0o100:
        if chance.random() < 0.5:
            words[at:at + 2] = [0o30000 + DATA + chance.randrange(8), 0o54020]
            at += 2
        found = loop(chance, START + at, chance.choice(kinds))
        words[at:at + len(found)] = found
        at += len(found)
        if chance.random() < 0.7:
            words[at:at + 2] = [EXTEND, 0o1000 + chance.choice([5, 6, 0o10, 0o11, 0o13])]
            at += 2
    words[at] = 0o10000 + BODY
    for place in range(8):
        words[DATA - START + place] = chance.choice([0, 1, 0o400, 0o10, 0o20, 0o40, 0o100, chance.randrange(0o100000)])
    words[DATA - START + 8] = 4
    return b"".join((2 * word).to_bytes(2, "big") for word in words)


def script(chance):
    """Events at random cycles."""
    lines, cycle = [], 0
    while True:
        cycle += chance.choice([chance.randrange(40), chance.randrange(400), chance.randrange(4000)])
        if cycle >= LIMIT:
            return "".join(lines)
        what = chance.choice([
            f"raise {chance.randrange(1, 11)}", "key 7", "pro down", "pro up",
            f"input {chance.choice(['030', '032', '033'])} {chance.randrange(0o100000):05o}",
            f"pulse 32 {chance.choice(['pcdu', 'mcdu'])}", f"poke 0 {chance.choice([0o100, 0o101, 0o102]):o} {chance.randrange(4):o}",
        ])
        lines.append(f"{cycle} {what}\n")


def said(command, text=""):
    """What a program prints."""
    done = subprocess.run(command, input=text.encode(), capture_output=True, check=False)
    if done.returncode:
        sys.exit(f"waiting: {command}: {done.returncode}, {done.stderr.decode()}")
    return done.stdout.decode()


class Traced:
    """A run boundary by boundary: the cycle at which each begins, and the registers after it."""

    def __init__(self, rope, script):
        self.starts, self.registers, self.places, self.writes = [], [], [], []
        for line in said([STUDY, "trace", rope, script, "--limit", str(LIMIT)]).splitlines():
            told, _, registers = line.partition(" | ")
            told, _, write = told.partition(" > ")
            cycle, place = told.split(" ")[:2]
            self.starts.append(int(cycle))
            self.registers.append(registers)
            self.places.append(place)
            self.writes += [f"{cycle} {write}"] if write else []
        self.stop = self.starts.pop()

    def before(self, cycle):
        """The boundaries that begin before a cycle."""
        return sum(start < cycle for start in self.starts)

    def at(self, boundaries):
        """The cycle after this many boundaries."""
        return self.starts[boundaries] if boundaries < len(self.starts) else self.stop


def answers(rope, script, commands):
    """What the console answers to some commands, a list of lines for each."""
    found, lines = [], []
    for line in said([CONSOLE, rope, script, "--limit", str(LIMIT)], "\n".join(commands) + "\n").splitlines():
        lines.append(line)
        if re.match("at |stop |error: ", line):
            found.append(lines)
            lines = []
    return found


LOOKS = ["registers", "cell 0010 120", "next", *[f"channel {h:o}" for h in (3, 4, 5, 6, 0o10, 0o11, 0o13, 0o15, 0o30, 0o32, 0o33)]]


def tried(chance, rope, script):
    """What is wrong with the runs of one rope."""
    traced = Traced(rope, script)
    cycles = sorted(chance.sample(range(1, LIMIT), 4))
    counts = [traced.before(cycle) for cycle in cycles]
    went = answers(rope, script, [c for cycle in cycles for c in [f"go to {cycle}", *LOOKS]])
    steps = [b - a for a, b in zip([0] + counts, counts)]
    stepped = answers(rope, script, [c for step in steps for c in [f"step {step}" if step else "next", *LOOKS]])
    each = len(LOOKS) + 1
    for i, (cycle, count) in enumerate(zip(cycles, counts)):
        one, two = went[i * each:(i + 1) * each], stepped[i * each:(i + 1) * each]
        if one[1:] != two[1:]:
            yield f"go to {cycle}: {[(a, b) for a, b in zip(one, two) if a != b][-1]}"
        if count and not one[1][0].startswith(traced.registers[count - 1]):
            yield f"go to {cycle}: registers {one[1]}, traced {traced.registers[count - 1]}"
        if one[0][-1] != f"at {traced.at(count)}":
            yield f"go to {cycle}: {one[0][-1]}, traced {traced.at(count)}"
    for limit in cycles + [LIMIT]:
        lines = said([AGC, rope, script, "--limit", str(limit), "--log"]).splitlines()
        if f"STOP Limit CYCLE {traced.at(traced.before(limit))} WRITES" not in "\n".join(lines):
            yield f"--limit {limit}: {lines[8:9]}"
        wanted = [write for write in traced.writes if int(write.split(" ")[0]) < limit]
        if lines[9:] != wanted:
            yield f"--limit {limit}: the writes {lines[9:]}, traced {wanted}"
    place = chance.choice(traced.places)
    if place != "-":
        first = traced.starts[traced.places.index(place)]
        lines = said([AGC, rope, script, "--limit", str(LIMIT), "--until", f"2,{place}"])
        if f"STOP Reached CYCLE {first} " not in lines:
            yield f"--until {place}: {lines.splitlines()[-1]}, traced {first}"


def main():
    chance = random.Random(SEED)
    folder = scratch_folder()
    files = Path(folder, "rope"), Path(folder, "script")
    for number in range(TRIES):
        files[0].write_bytes(rope(chance))
        files[1].write_text(script(chance))
        wrong = list(tried(chance, *files))
        check(f"rope {number} of seed {SEED}: {'; '.join(wrong[:3])}", not wrong)


main()
finish()
