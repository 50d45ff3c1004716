"""Random runs of examples, and their states: what the lines of `agc-study trace` say of each."""

import random
import subprocess
from pathlib import Path
from typing import Dict, Iterator, List, NamedTuple, Optional, Tuple

from judge import STUDY, TOP

EXAMPLES = Path(TOP, "examples")
ROPES = {
    "keys/rope": "", "timers/rope": "", "pinball/rope": "", "lander/rope": "", "verbs/rope": "", "waitlist/rope": "waitlist/names",
    "count-4/rope": "count-4/names", "descent/rope": "descent/names", "interpreter/orbit.rope": "interpreter/orbit.names",
}
"""Ropes, each with its file of names."""
CELLS = [word for first, last in (("0000", "0377"), ("0400", "0777"), ("1000", "1377")) for word in ("--cell", f"{first}-{last}")] + [
    word for bank in range(3, 8) for word in ("--cell", f"E{bank},1400-E{bank},1777")
]
Z, FIRST_Z = 5, 0o4001
WIDE = (0, 2)  # A and Q have sixteen bits in a trace


class State(NamedTuple):
    """A state of a run: its cycle, the place of the order that runs next, if that comes next, and the cells that the boundary
    before it has changed."""

    cycle: int
    place: Optional[Tuple[int, int]]
    changes: Dict[int, int]


class Run(NamedTuple):
    """A rope with a script, up to a limit."""

    rope: Path
    script: Path
    limit: int
    names: Optional[Path]
    until: str = ""

    @property
    def words(self) -> List[str]:
        """How a command names it."""
        return [str(self.rope), str(self.script), "--limit", str(self.limit), *(["--until", self.until] if self.until else [])]


def lines_of(words: List[str]) -> List[str]:
    """The lines of a trace."""
    return subprocess.run([STUDY, "trace", *words], capture_output=True, text=True, check=True).stdout.splitlines()


def number_of(cell: str) -> int:
    """The number of a cell that a trace prints."""
    bank, _, address = cell.rpartition(",")
    return int(address, 8) - 0o1400 + 0o400 * int(bank[1:]) if bank else int(address, 8)


def narrow(cell: int, word: str) -> int:
    """A cell's word as other tools see it: with overflow corrected."""
    number = int(word, 8)
    return (number >> 15) << 14 | number & 0o37777 if cell in WIDE else number


def place_of(text: str) -> Optional[Tuple[int, int]]:
    """The bank and the offset of an order's place in fixed memory."""
    bank, _, address = text.rpartition(",")
    number = int(address, 8)
    if number < 0o2000:
        return None
    return divmod(number, 0o2000) if number >= 0o4000 else (int(bank, 8), number % 0o2000)


def changes_of(line: str, whole: str) -> Dict[int, Tuple[int, int]]:
    """The cells that a line of a trace with cells says were changed, each with its word before and after."""
    found = {}
    for part in line[len(whole) + 3:].split(" | "):
        cell, before, _, after = part.split(" ")
        number = number_of(cell)
        found[number] = (narrow(number, before), narrow(number, after))
    return found


def first_words(changed: List[str]) -> Dict[int, int]:
    """The words that cells have before the first of these lines."""
    words: Dict[int, int] = {}
    for line in changed:
        fields = line.split(" | ")
        for cell, (before, _) in changes_of(line, " | ".join(fields[:2])).items() if len(fields) > 2 else ():
            words.setdefault(cell, before)
    return words


def states_of(run: Run, cells: List[int]) -> Tuple[Dict[int, int], List[State]]:
    """The words of these cells at the start of a run, and its states in order: that before each line of the trace."""
    asked = [word for cell in sorted(set(cells)) for word in ("--cell", f"E{cell // 0o400},{0o1400 + cell % 0o400:04o}" if cell >= 0o1400 else f"{cell:04o}")]
    whole, changed = lines_of(run.words), lines_of([*run.words, *asked])
    start = {Z: FIRST_Z, **first_words(changed)}
    now, found, left, before = dict(start), [], iter(changed), {}
    line = next(left, "")
    for each in whole:
        fields = each.split(" ")
        found.append(State(int(fields[0]), None if fields[1] == "-" else place_of(fields[1]), before))
        before = {}
        if line == each or line.startswith(each + " | "):
            changes = changes_of(line, each) if line != each else {}
            if all(now.get(cell, 0) == was for cell, (was, _) in changes.items()):
                before = {cell: word for cell, (_, word) in changes.items()}
                now.update(before)
                line = next(left, "")
    assert not line, f"{run}: no line of the trace is the one of the cells: {line}"
    return start, found


def some_word(chance: random.Random) -> int:
    """A word: one at an edge of the numbers more often than any."""
    return chance.choice((chance.choice((0, 1, 2, 0o37777, 0o40000, 0o77776, 0o77777, 0o77777, 0o77777, 0o77777)), chance.randrange(0o100000)))


def some_event(chance: random.Random, cells: List[int]) -> str:
    """A command of a script."""
    cell = chance.choice([cell for cell in cells if cell >= 0o10] or [0o100])
    return chance.choice((
        f"poke {cell // 256:o} {cell % 256:o} {some_word(chance):o}",
        f"poke {cell // 256:o} {cell % 256:o} {some_word(chance):o}",
        f"pulse {chance.randrange(0o24, 0o61):o} {chance.choice(('pinc', 'minc', 'pcdu', 'mcdu', 'shinc', 'shanc'))}",
        f"key {chance.choice('0 1 2 3 4 5 6 7 8 9 VERB NOUN ENTR CLR RSET + -'.split())}",
        f"input {chance.choice((0o15, 0o16, 0o30, 0o31, 0o32, 0o33)):o} {some_word(chance):o}",
        f"raise {chance.choice((3, 4, 5, 8))}",
    ))


def write_script(chance: random.Random, path: Path, own: Path, cells: List[int], limit: int) -> None:
    """Writes the script of a random run: random events, and often those of the example's own script."""
    lines = own.read_text().splitlines() if own.exists() and chance.random() < 0.5 else []
    events = [(int(line.split()[0]), line) for line in lines if line.strip() and line.split()[0].isdigit()]
    for _ in range(chance.choice((0, 10, 60))):
        cycle = chance.choice((0, chance.randrange(limit), chance.randrange(limit)))
        events += [(cycle, f"{cycle} {some_event(chance, cells)}")] * chance.choice((1, 1, 2))
    path.write_text("".join(line + "\n" for _, line in sorted(events, key=lambda event: event[0])))


def every(states: List[State], cycles: int) -> Iterator[int]:
    """The numbers of the states with a row of `--every`."""
    due = 0
    for number, state in enumerate(states):
        if state.cycle >= due:
            yield number
            due = (state.cycle // cycles + 1) * cycles


def words_at(start: Dict[int, int], states: List[State]) -> Iterator[Dict[int, int]]:
    """The words of the cells at each state: one dict, which changes."""
    words = dict.fromkeys(range(0o4000), 0)
    words.update(start)
    for state in states:
        words.update(state.changes)
        yield words


def in_span(states: List[State], first: int, last: int) -> Tuple[int, int]:
    """The numbers of the first state from a cycle on, and behind the last one up to another cycle."""
    begin = next((number for number, state in enumerate(states) if state.cycle >= first), len(states))
    end = next((number for number, state in enumerate(states) if state.cycle > last), len(states))
    return begin, max(begin, end)


class Lively(NamedTuple):
    """What a run of an example does: the cells that it changes, but not Z, and the places of its orders, as --until names them."""

    cells: List[int]
    places: List[str]


def lively(name: str, limit: int) -> Lively:
    """Runs an example."""
    script = EXAMPLES / Path(name).parent / "script"
    run = [str(EXAMPLES / name), str(script if script.exists() else "/dev/null"), "--limit", str(limit)]
    lines = lines_of([*run, *CELLS])
    changed = {number_of(part.split(" ")[0]) for line in lines for part in line.split(" | ")[2:]} - {Z}
    places = {place_of(line.split(" ")[1]) for line in lines if " - " not in line}
    return Lively(sorted(changed), [f"{bank:o},{text_of(bank, offset)}" for bank, offset in sorted(place for place in places if place)])


def text_of(bank: int, offset: int) -> str:
    """The address of a place in fixed memory: banks 02 and 03 have their own."""
    return f"{0o2000 * bank + offset if bank in (2, 3) else 0o2000 + offset:04o}"
