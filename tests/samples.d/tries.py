"""Compares what `agc-study sample` prints of random runs with what a slow filter over the trace says, and tries its faults."""

import os
import random
import resource
import subprocess
import sys
import time
from fractions import Fraction
from pathlib import Path
from typing import Dict, List, NamedTuple, Optional, Tuple

from clients import try_client
from faults import CASES
from judge import STUDY, check, finish, judge, scratch_folder, slowness
from links import try_lists, try_uplink
from quantities import BITS, FIXED, SIZES, Quantity, cell_of, heading, names_of, read, row, signed
from runs import EXAMPLES, ROPES, Lively, Run, State, every, in_span, lively, states_of, text_of, words_at, write_script
from scales import try_abort, try_flags, try_landing, try_orbit, try_places

TRIES = int(os.environ.get("SAMPLES_TRIES", 300))
SEED = int(os.environ.get("SAMPLES_SEED", 79))
CYCLES = 4000
TIMERS = [str(EXAMPLES / "timers" / name) for name in ("rope", "script")]
ROWS, MOST_GROWTH = 1_000_000, 4096  # KiB that a million rows may need more than a thousand
PACE, LEAST = 20e6, 4e6  # cycles a second of `--every 853`: on a usual machine, and less than which is a fault
CHOICES: List[List[str]] = [
    [], ["--every", "5", "--changes"], ["--every", "5", "--at", "4000"], ["--at", "4000", "--changes"], ["--every", "0"], ["--every", "x"],
    ["--at", "nowhere"], ["--at", "0100-"],
]
"""Words that choose no rows."""


class When(NamedTuple):
    """What chooses the rows, and the option for it: every `value` cycles, an order at one of the `value` places from
    `place` on, or changes."""

    kind: str
    value: int
    place: Tuple[int, int]
    first: int
    last: int
    zeros: bool

    @property
    def words(self) -> List[str]:
        bank, offset = self.place
        last = min(offset + self.value - 1, 0o1777)
        places = f"{bank:02o},{text_of(bank, offset)}" + (f"-{bank:02o},{text_of(bank, last)}" if self.value > 1 else "")
        schedule = {"every": ["--every", str(self.value)], "changes": ["--changes"], "at": ["--at", places]}[self.kind]
        span = (["--from", str(self.first)] if self.first else []) + (["--to", str(self.last)] if self.last < CYCLES * 9 else [])
        return schedule + span + ["--zeros"] * self.zeros

    def is_at(self, place: Optional[Tuple[int, int]]) -> bool:
        """Whether a place is one of those of --at."""
        return place is not None and place[0] == self.place[0] and 0 <= place[1] - self.place[1] < self.value


def sampled(run: Run, file: Path, words: List[str]) -> "subprocess.CompletedProcess[str]":
    """What the program prints."""
    names = ["--names", str(run.names)] if run.names else []
    return subprocess.run([STUDY, "sample", *run.words, "--quantities", str(file), *words, *names], capture_output=True, text=True, timeout=300)


def wanted_rows(when: When, quantities: List[Quantity], start: Dict[int, int], states: List[State]) -> List[str]:
    """The rows of these states."""
    begin, end = in_span(states, when.first, when.last)
    chosen = {begin + number for number in every(states[begin:end], when.value)} if when.kind == "every" else set()
    cells = cells_of(quantities)
    rows, last = [], None
    for number, words in enumerate(words_at(start, states)):
        if not begin <= number < end:
            continue
        now = [words[cell] for cell in cells]
        if when.kind == "changes" and now != last or when.kind == "at" and when.is_at(states[number].place) or number in chosen:
            rows.append(row(states[number].cycle, quantities, words, when.zeros))
            last = now
    return rows


def cells_of(quantities: List[Quantity]) -> List[int]:
    """The cells of quantities, in order, some perhaps twice."""
    return [each.cell + place for each in quantities for place in range(each.size)]


def some_scale(chance: random.Random, kind: str) -> str:
    """A scale for a kind."""
    if kind in BITS:
        high = chance.randint(1, 15)
        return chance.choice((str(high), f"{high}-{chance.randint(1, high)}"))
    if chance.random() < 0.6:
        return f"B{chance.choice((chance.randint(-60, 60), chance.randint(-9, 30)))}"
    digits = str(chance.randrange(1, 10 ** chance.choice((1, 3, 5, 15))))
    point = chance.randint(1, len(digits))
    return digits if point == len(digits) else f"{digits[:point]}.{digits[point:]}"


def some_place(chance: random.Random, cell: int, names: Dict[str, int]) -> str:
    """A text for a cell."""
    near = [f"{name}+{cell - at}" if cell > at else name for name, at in names.items()
            if 0 <= cell - at < 9 and cell // 0o400 == at // 0o400 and at != FIXED]
    near = [text for text in near if cell_of(text, names) == cell]  # a listing has names like Q+2
    if near and chance.random() < 0.6:
        return chance.choice(near)
    banked = f"E{cell // 0o400},{0o1400 + cell % 0o400:o}"
    return banked if cell >= 0o1400 else chance.choice((f"{cell:04o}", banked))


def some_file(chance: random.Random, cells: List[int], names: Dict[str, int]) -> str:
    """A file of quantities."""
    lines = []
    for number in range(chance.choice((1, 1, 2, 3, 8))):
        kind = chance.choice(list(SIZES))
        near = chance.choice(cells) if chance.random() < 0.8 else chance.randrange(0o4000)
        cell = max(0, near - chance.choice((0, 0, SIZES[kind] - 1)))
        if cell % 0o400 + SIZES[kind] > 0o400:
            cell = near - near % 0o400
        unit = chance.choice(("", "", "m", "m/s", "A!#"[:2]))
        fields = [f"{chance.choice('aQz')}{number}{chance.choice(('', '.x', '_-'))}", some_place(chance, cell, names), kind,
                  some_scale(chance, kind), unit]
        lines.append(chance.choice((" ", "\t", "   ")).join(fields).strip() + chance.choice(("", "", "  # a comment", "\r")))
        lines += [chance.choice(("# a comment", "", "   "))] * chance.choice((0, 0, 1))
    return "\n".join(lines) + chance.choice(("\n", ""))


def some_when(chance: random.Random, states: List[State]) -> When:
    """A choice of rows of a run."""
    last = states[-1].cycle
    places = [state.place for state in states if state.place]
    kind = chance.choice(("every", "changes", "at") if places else ("every", "changes"))
    first = chance.choice((0, 0, chance.randint(0, last)))
    return When(
        kind, chance.choice((1, 1, 7, 100) if kind == "at" else (1, 7, 100, 853, 10 * last + 1)), chance.choice(places) if places else (2, 0),
        first, chance.choice((CYCLES * 9, CYCLES * 9, chance.randint(first, last))), chance.random() < 0.3,
    )


def try_run(number: int, folder: Path, seen: Dict[str, Lively]) -> Tuple[int, Optional[str]]:
    """Compares a random run. Returns how many rows it had, and which choice of rows it was if there were some."""
    chance = random.Random(f"{SEED} {number}")
    name = chance.choice(list(ROPES))
    named = ROPES[name]
    limit = chance.randint(1, CYCLES)
    until = chance.choice(seen[name].places) if chance.random() < 0.1 else ""
    run = Run(EXAMPLES / name, folder / "script", limit, EXAMPLES / named if named else None, until)
    names = names_of(run.names.read_text()) if run.names else {}
    file = folder / "quantities"
    text = some_file(chance, seen[name].cells, names)
    file.write_bytes(text.encode())
    quantities = read(text, names)
    cells = seen[name].cells + 2 * cells_of(quantities)
    write_script(chance, run.script, (EXAMPLES / name).parent / "script", cells, limit)
    start, states = states_of(run, cells_of(quantities))
    when = some_when(chance, states)
    wanted = wanted_rows(when, quantities, start, states)
    done = sampled(run, file, when.words)
    what = f"run {number}, {' '.join([name, *run.words[2:]])}: sample {' '.join(when.words)} of {text!r}"
    judge(f"{what}: status", 0, done.returncode)
    lines = done.stdout.split("\n")
    judge(f"{what}: heading", heading(quantities), lines[0])
    differs = [pair for pair in zip(wanted + [""], lines[1:] + [""]) if pair[0] != pair[1]]
    check(f"{what}: {len(wanted)} rows wanted, {len(lines) - 2} found; wanted and found first: {differs[:1]}", not differs and len(lines) == len(wanted) + 2)
    return len(wanted), when.kind if len(wanted) > 1 else None


def try_runs() -> None:
    """Compares the random runs, and checks that they tried much."""
    folder = Path(scratch_folder())
    seen = {name: lively(name, 40000) for name in ROPES}
    found = [try_run(number, folder, seen) for number in range(1, TRIES + 1)]
    rows = sum(count for count, _ in found)
    kinds = {kind: sum(1 for _, each in found if each == kind) for kind in ("every", "changes", "at")}
    print(f"{TRIES} runs, {rows} rows; with more than one row: {kinds}")
    check(f"each choice of rows has runs with many: {kinds}", TRIES < 100 or min(kinds.values()) >= TRIES // 10)


def try_numbers() -> None:
    """Checks this judge's own numbers against some that were worked out by hand."""
    quantity = Quantity("a", 0, "double", Fraction(2**14), (0, 0), "")
    judge("a double of unlike signs", ["0.99994"], quantity.texts([1, 0o77776]))
    judge("and the other way", ["-0.99994"], quantity.texts([0o77776, 1]))
    judge("a word of ones", -0, signed(0o77777))
    judge("minus zero", ["-0"], quantity.texts([0o77777, 0], True))
    judge("a third of a turn", ["120"], Quantity("a", 0, "unsigned", Fraction(360), (0, 0), "").texts([0o25253]))
    judge("a large step", ["384"], Quantity("a", 0, "single", Fraction(2**20), (0, 0), "").texts([6]))
    judge("bits", ["5"], Quantity("a", 0, "bits", Fraction(1), (12, 10), "").texts([0o5000]))
    judge("an alarm's code", ["01202"], Quantity("a", 0, "octal", Fraction(1), (15, 1), "").texts([0o1202]))
    judge("four bits in octal", ["05"], Quantity("a", 0, "octal", Fraction(1), (6, 3), "").texts([0o24]))


def try_faults() -> None:
    """Tries each fault of a file: the status, nothing on standard output, and the line in the sentence."""
    folder = Path(scratch_folder())
    file = folder / "quantities"
    run = Run(EXAMPLES / "waitlist/rope", EXAMPLES / "waitlist/script", 1000, EXAMPLES / "waitlist/names")
    for what, text, line, word in CASES:
        file.write_bytes(text if isinstance(text, bytes) else text.encode())
        done = sampled(run, file, ["--every", "100"])
        if line is None:
            judge(f"{what}: taken", (0, ""), (done.returncode, done.stderr))
            continue
        judge(f"{what}: status and output", (2, ""), (done.returncode, done.stdout))
        check(f"{what}: line {line} is not named: {done.stderr!r}", line == 0 or f"line {line}: " in done.stderr)
        check(f"{what}: {word!r} is not in {done.stderr!r}", word in done.stderr)
    file.unlink()
    done = sampled(run, file, ["--every", "100"])
    judge("no file: status and output", (2, ""), (done.returncode, done.stdout))
    check(f"no file: it is not named: {done.stderr!r}", str(file) in done.stderr)
    try_options(run, file)


def try_options(run: Run, file: Path) -> None:
    """Tries the choice of rows: exactly one."""
    file.write_text("a 0100 single B14\n")
    for words in CHOICES:
        done = sampled(run, file, words)
        judge(f"sample {' '.join(words)}: status and output", (2, ""), (done.returncode, done.stdout))
        check(f"sample {' '.join(words)}: a sentence", bool(done.stderr.strip()))


def try_full_disk() -> None:
    """Tries a disk without room."""
    file = Path(scratch_folder(), "quantities")
    file.write_text("a TIME4 single B14\nb 0100 double B0\n")
    for words in (["--every", "1"], ["--every", "100000"]):
        with open("/dev/full", "w") as full:
            done = subprocess.run([STUDY, "sample", *TIMERS, "--limit", "30000", "--quantities", str(file), *words], stdout=full)
        judge(f"a full disk, {' '.join(words)}", 3, done.returncode)


def measured(words: List[str]) -> Tuple[int, int, float]:
    """Runs the program, and returns how many lines it printed, the most memory that it had in KiB, and its seconds of a
    processor."""
    read_end, write_end = os.pipe()
    child = subprocess.Popen([STUDY, "sample", *words], stdout=write_end)
    os.close(write_end)
    lines = 0
    with open(read_end, "rb", buffering=0) as output:
        while block := output.read(1 << 16):
            lines += block.count(b"\n")
    _, status, used = os.wait4(child.pid, 0)
    child.returncode = os.waitstatus_to_exitcode(status)
    judge(f"{' '.join(words)}: status", 0, child.returncode)
    return lines, used.ru_maxrss, used.ru_utime + used.ru_stime


def try_million() -> None:
    """Measures the memory of a million rows."""
    file = Path(scratch_folder(), "quantities")
    file.write_text("a TIME4 single B14\n")
    common = [*TIMERS, "--quantities", str(file), "--every", "1", "--limit"]
    few, little, _ = measured([*common, "2000"])
    many, much, seconds = measured([*common, str(2 * ROWS)])
    print(f"{many - 1} rows: {much} KiB, {seconds:.2f} s of a processor; {few - 1} rows: {little} KiB")
    check(f"{many - 1} rows are a million or more", many > ROWS)
    check(f"memory grew from {little} to {much} KiB", much - little < MOST_GROWTH)


def try_pace() -> None:
    """Measures the pace of `--every 853`."""
    file = Path(scratch_folder(), "quantities")
    file.write_text("a TIME4 single B14\nb 0100 double B-6 m\n")
    cycles, slow = 30_000_000, slowness()
    lines, _, seconds = measured([*TIMERS, "--quantities", str(file), "--every", "853", "--limit", str(cycles)])
    pace = cycles / seconds
    print(f"--every 853: {pace / 1e6:.1f} million cycles a second of a processor ({PACE / 1e6:g} wanted on a usual machine)")
    judge("a row each 853 cycles", cycles // 853 + 2, lines)
    check(f"--every 853 is slow: {pace / 1e6:.1f} million cycles a second", pace * slow > LEAST)


TRIED = (
    try_numbers, try_places, try_flags, try_runs, try_faults, try_full_disk, try_client, try_landing, try_abort, try_orbit, try_uplink,
    try_lists, try_million, try_pace,
)


def main() -> None:
    began = time.monotonic()
    for each in TRIED:
        if each.__name__ in sys.argv[1:] or not sys.argv[1:]:
            each()
    used = resource.getrusage(resource.RUSAGE_SELF), resource.getrusage(resource.RUSAGE_CHILDREN)
    print(f"{time.monotonic() - began:.0f} s, {sum(each.ru_utime + each.ru_stime for each in used):.0f} s of a processor")


main()
finish()
