"""Compares what `agc-study trace` answers to questions with a slow filter over the lines of the plain trace.

What a boundary changes of a cell is judged by what `agc-console` says of the cells after each step, and of A and Q, which
have sixteen bits in a trace, by the registers of the plain trace.
"""

import functools
import itertools
import subprocess
from pathlib import Path

from judge import CONSOLE, STUDY, TOP, check, finish

EXAMPLES = Path(TOP, "examples")
RUNS = [("keys", 300), ("timers", 3000), ("division", 100), ("study/trace-jumps", 16), ("study/trace-timer", 2000)]
ONLY = [None, "writes", "interrupts", "jumps"]
AT = [[], ["4000"], ["02,4060-4074"], ["4000-4003", "4060", "4024"]]
ORDERS = [[], ["TCF"], ["READ", "WRITE", "RESUME"], ["AD", "INDEX"]]
CHANNELS = [[], ["10"], ["15", "010"]]
CELLS = [("0000",), ("0100-0101", "0027"), ("0001-0005", "0002"), ("0012-0377",)]
LAST = [None, 2, 1000]
TOUCHING = {"READ", "WRITE", "RAND", "WAND", "ROR", "WOR", "RXOR"}


def files(name):
    """The rope and the script of an example."""
    folder = EXAMPLES / name
    if (folder / "rope").exists():
        rope = folder / "rope"
    else:
        rope = folder / (folder / "args").read_text().split()[1]
    return rope, folder / "script"


def trace(run, words):
    """The lines of a run, as these words ask for them."""
    rope, script = files(run[0])
    command = [STUDY, "trace", rope, script, "--limit", str(run[1]), *words]
    return subprocess.run(command, capture_output=True, check=True).stdout.decode().splitlines()


@functools.cache
def fixed(place):
    """The place of an address from 2000 octal on, as a bank and an offset."""
    bank, _, address = place.rpartition(",")
    number = int(address, 8)
    return (number // 0o2000, number % 0o2000) if number >= 0o4000 else (int(bank, 8), number % 0o2000)


@functools.cache
def stands(place, asked):
    """A line's place is one of those that are asked for."""
    if place.startswith("E") or (len(place) == 4 and int(place, 8) < 0o2000):
        return False
    first, _, last = asked.partition("-")
    return fixed(first) <= fixed(place) <= fixed(last or first)


@functools.cache
def parts(line):
    """The cycle, the place, the words, the order and the operand of a line, as far as it has them."""
    return line.split(" | ")[0].split(" ")


def keeps(line, at, orders, channels):
    """A line answers these questions, or is the stop's."""
    told = parts(line)
    if told[1] == "-":
        return told[2] == "stop" or not (at or orders or channels)
    place, name, operand = told[1], told[3], told[4] if len(told) > 4 else ""
    return (
        (not at or any(stands(place, asked) for asked in at))
        and (not orders or name in orders)
        and (not channels or (name in TOUCHING and int(operand, 8) in [int(c, 8) for c in channels]))
    )


def words_of_cells(run, steps):
    """The words of the cells of the first erasable bank, before a run's first step and after each."""
    rope, script = files(run[0])
    commands = "cell 0000 256\n" + "step 1\ncell 0000 256\n" * steps
    command = [CONSOLE, rope, script, "--limit", str(run[1])]
    said = subprocess.run(command, capture_output=True, check=True, input=commands.encode()).stdout.decode()
    words = [line.split(" ")[2] for line in said.splitlines() if line.startswith("cell ")]
    return [words[at : at + 256] for at in range(0, len(words), 256)]


def words_told(run, plain):
    """The same as traces tell them: A and Q with sixteen bits."""
    told = words_of_cells(run, len(plain))
    assert len(told) == len(plain) + 1
    told[0][0] = told[0][2] = "000000"
    for words, line in zip(told[1:], plain):
        registers = line.split(" | ")[1].split(" ")
        words[0], words[2] = registers[1], registers[5]
    return told


@functools.cache
def asked_cells(cells):
    """The numbers of the cells that are asked for, each once and in their order."""
    stretches = [(int(first, 8), int(last or first, 8)) for first, _, last in (text.partition("-") for text in cells)]
    return [cell for cell in range(256) if any(first <= cell <= last for first, last in stretches)]


def changed(before, after, cells):
    """What a boundary has changed of the cells, as its line tells it."""
    return "".join(
        f" | {cell:04o} {before[cell]} to {after[cell]}" for cell in asked_cells(cells) if before[cell] != after[cell]
    )


def with_cells(plain, told, cells):
    """The lines that have changed one of the cells, with what they have changed, and the stop's; None for the others."""
    lines = [line + changed(before, after, cells) for line, before, after in zip(plain, told, told[1:])]
    return [line if line != old or " - stop " in old else None for line, old in zip(lines, plain)]


def check_answer(run, words, wanted):
    """Checks the lines that a question is answered with."""
    check(" ".join([run[0], *words]), trace(run, words) == wanted)


def cell_tries():
    """Checks the answers to questions about cells."""
    for run in RUNS:
        plain = trace(run, [])
        told = words_told(run, plain)
        for cells, only in itertools.product(CELLS, ONLY):
            kind = ["--only", only] if only else []
            left = trace(run, kind)
            lines = []
            for line, old in zip(with_cells(plain, told, cells), plain):
                if left and left[0] == old:
                    left.pop(0)
                    lines += [line] if line else []
            for at, orders, last in itertools.product(AT[:2], ORDERS[:2], LAST):
                words = [w for value in cells for w in ("--cell", value)] + [w for value in at for w in ("--at", value)]
                words += [w for value in orders for w in ("--order", value)] + (["--last", str(last)] if last else [])
                wanted = [line for line in lines if keeps(line, at, orders, [])]
                check_answer(run, kind + words, wanted[-last:] if last else wanted)


def main():
    cell_tries()
    for run, only in itertools.product(RUNS, ONLY):
        kind = ["--only", only] if only else []
        plain = trace(run, kind)
        for at, orders, channels, last in itertools.product(AT, ORDERS, CHANNELS, LAST):
            words = [w for value in at for w in ("--at", value)] + [w for value in orders for w in ("--order", value)]
            words += [w for value in channels for w in ("--channel", value)] + (["--last", str(last)] if last else [])
            wanted = [line for line in plain if keeps(line, at, orders, channels)]
            check_answer(run, kind + words, wanted[-last:] if last else wanted)


main()
finish()
