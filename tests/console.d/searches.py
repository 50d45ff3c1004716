"""Random sessions with breakpoints, ways back and events, each laid beside the traces that agc-study makes of its
scripts. A slow filter over the lines of a trace decides where each command should end, and what it should print."""

import functools
import itertools
import os
import re
import subprocess
import tempfile
from typing import NamedTuple, Optional, Tuple

from calls import JOB, Calls, calling_rope
from judge import judge
from session import Session, meaning
from walks import whole_place

LINE = re.compile(r"(\d+) (\S+) (.*?)(?: > (\d{3}) (\d{5}))? \| A (\d{6}) L (\d{5}) Q (\d{6}) Z (\d{4}) EB (\d) FB (\d\d)")
CHANGE = re.compile(r" \| (\S+) \d+ to (\d+)")
EVENTS = ("key ", "pro ", "input ", "pulse ", "raise ", "poke ")
CELLS = ("0000", "0001", "0002", "0015", "0017", "0027", "0100", "0101", "0102", "E3,1400")
INTERRUPTS = "T6RUPT T5RUPT T3RUPT T4RUPT KEYRUPT1 KEYRUPT2 UPRUPT DOWNRUPT RADARUPT RUPT10".split()
MOST = 64

DIGITS = {0: "_", 0o25: "0", 3: "1", 0o31: "2", 0o33: "3", 0o17: "4", 0o36: "5", 0o34: "6", 0o23: "7", 0o35: "8", 0o37: "9"}
LAMPS = "COMP ACTY,UPLINK ACTY,NO ATT,TEMP,GIMBAL LOCK,PROG,KEY REL,OPR ERR,TRACKER,ALT,VEL,ISS".split(",")
# of a relay row: what its bit 11 sets, and its two digits
ROWS = {
    11: (None, "M0", "M1"), 10: (None, "V0", "V1"), 9: (None, "N0", "N1"), 8: (None, None, "10"),
    7: ("1+", "11", "12"), 6: ("1-", "13", "14"), 5: ("2+", "20", "21"), 4: ("2-", "22", "23"),
    3: (None, "24", "30"), 2: ("3+", "31", "32"), 1: ("3-", "33", "34"),
}
RELAYS = {3: "VEL", 4: "NO ATT", 5: "ALT", 6: "GIMBAL LOCK", 8: "TRACKER", 9: "PROG"}
DIRECT = {1: "ISS", 2: "COMP ACTY", 3: "UPLINK ACTY", 4: "TEMP", 5: "KEY REL", 6: "flash", 7: "OPR ERR"}


def bit(word, number):
    return word >> (number - 1) & 1


def after_write(fields, channel, word):
    """The fields of the panel after a channel write: those that the word names, and the others as they were."""
    fields = dict(fields)
    row = word >> 11
    if channel == 0o11:
        fields.update((name, bit(word, number)) for number, name in DIRECT.items())
    elif channel == 0o10 and row == 12:
        fields.update((name, bit(word, number)) for number, name in RELAYS.items())
    elif channel == 0o10 and row in ROWS:
        sign, left, right = ROWS[row]
        fields.update({sign: bit(word, 11), left: word >> 5 & 0o37, right: word & 0o37})
    return fields


def panel_of(fields):
    """The eight lines of the panel."""
    def digits(*names):
        return "".join(DIGITS.get(fields.get(name, 0), "?") for name in names)

    lines = [f"{name} {digits(name_of + '0', name_of + '1')}" for name, name_of in (("PROG", "M"), ("VERB", "V"), ("NOUN", "N"))]
    for row in "123":
        sign = "+" if fields.get(row + "+") else "-" if fields.get(row + "-") else "_"
        lines.append(f"R{row} {sign}{digits(*(row + place for place in '01234'))}")
    lit = ", ".join(name for name in LAMPS if fields.get(name))
    return (*lines, f"FLASH {'on' if fields.get('flash') else 'off'}", f"LAMPS {lit or 'none'}")


def shows(panel, words):
    """Whether the panel shows a line; for the lamps, whether this one is lit."""
    text = " ".join(words)
    if words[0] == "LAMPS":
        return text[len("LAMPS ") :] in panel[-1][len("LAMPS ") :].split(", ")
    return text in panel


def corrected(word):
    """A word of sixteen bits without its overflow."""
    return word >> 1 & 0o40000 | word & 0o37777


def compared(text):
    """The word to compare with that an octal number or a decimal one with its sign writes."""
    if text[0] not in "+-":
        return int(text, 8)
    return 0o77777 - int(text[1:]) if text[0] == "-" else int(text[1:])


def signed(word):
    """The number that a word of fifteen bits stands for; both zeros are 0."""
    return word - 0o77777 if word & 0o40000 else word


def holds(word, sign, text):
    """Whether a comparison of a word holds: by its bits, or by the numbers."""
    other = compared(text)
    if sign in ("<", ">"):
        return signed(word) < signed(other) if sign == "<" else signed(word) > signed(other)
    return (word == other) == (sign == "=")


class Line(NamedTuple):
    """A line of a trace: a boundary, or the stop."""

    text: str
    cycle: int
    place: Optional[int]
    name: str
    write: Optional[Tuple[int, int]]
    # A, L and Q after it, overflow corrected
    registers: Tuple[int, int, int]
    # Z, EB and FB after it
    control: Tuple[int, int, int]

    @property
    def stop(self):
        return self.name[len("stop ") :] if self.name.startswith("stop ") else None

    @property
    def is_event(self):
        return self.name.startswith("event ")


@functools.lru_cache(maxsize=20000)  # the traces of a session begin with the same lines
def line_of(text):
    found = LINE.match(text)
    write = (int(found[4], 8), int(found[5], 8)) if found[4] else None
    registers = (corrected(int(found[6], 8)), int(found[7], 8), corrected(int(found[8], 8)))
    control = (int(found[9], 8), int(found[10], 8), int(found[11], 8))
    return Line(text, int(found[1]), whole_place(found[2]), found[3], write, registers, control)


class Trace:
    """The trace of a script's plain run, and what the cells and the panel held before each of its lines."""

    def __init__(self, study, words):
        self.words = [study, "trace", *words]
        self.lines = [line_of(text) for text in self.printed()]
        self.cells = {}
        self.panels = None
        self.calls = Calls(self, words[0])

    def printed(self, *options):
        # a file takes the lines faster than a pipe
        with tempfile.TemporaryFile("w+") as lines:
            subprocess.run([*self.words, *options], stdout=lines, stderr=subprocess.DEVNULL, check=True)
            lines.seek(0)
            return lines.read().splitlines()

    def cell(self, place, at):
        """The word of a cell before a line."""
        place = f"{place:0>4}"
        if place in ("0000", "0001", "0002"):
            return self.lines[at - 1].registers[int(place)] if at else 0
        if not self.cells:
            self.read_cells()
        return self.cells[place][at]

    def read_cells(self):
        changes = {place: {} for place in CELLS}
        at = 0
        for text in self.printed(*(word for place in CELLS[3:] for word in ("--cell", place))):
            while not text.startswith(self.lines[at].text):
                at += 1
            for place, word in CHANGE.findall(text[len(self.lines[at].text) :]):
                changes[place][at + 1] = int(word, 8)
            at += 1
        for place, changed in changes.items():
            words = [0]
            for at in range(1, len(self.lines)):
                words.append(changed.get(at, words[-1]))
            self.cells[place] = words

    def serves(self, at):
        """Whether a service runs before a line."""
        for line in reversed(self.lines[:at]):
            if line.name.startswith("interrupt ") or line.name.endswith(" RESUME"):
                return line.name.startswith("interrupt ")
        return False

    def place_before(self, z, at):
        """The place of the order one before an address, as a trace prints it with the banks before a line."""
        return address_text((z - 1) % 0o10000, *(self.lines[at - 1].control[1:] if at else (0, 0)))

    def panel(self, at):
        """The lines of the panel before a line."""
        if self.panels is None:
            fields, panel = {}, panel_of({})
            self.panels = [panel]
            for line in self.lines:
                if line.write and line.write[0] in (0o10, 0o11):
                    fields = after_write(fields, *line.write)
                    panel = panel_of(fields)
                self.panels.append(panel)
        return self.panels[at]


class Reference:
    """A slow console: it stands before a line of a trace."""

    def __init__(self, trace):
        self.trace = trace
        self.at = 0
        self.stop = None
        self.breaks = {}
        self.last = 0
        self.quiet = False
        self.writes = []

    @property
    def next(self):
        return self.trace.lines[self.at]

    @property
    def cycle(self):
        return self.next.cycle

    def step(self):
        """Takes a boundary, or stops."""
        line = self.next
        if line.stop:
            self.stop = line.stop
            return line
        self.at += 1
        if self.next.stop not in (None, "Limit"):
            self.stop = self.next.stop
        if line.write and not self.quiet:
            self.writes.append(f"write {line.cycle} {line.write[0]:03o} {line.write[1]:05o}")
        return line

    def hits(self, what, at):
        """Whether the boundary of a line hits a breakpoint: an order by its place and what a cell holds before it, an
        interrupt by what it is, a write by what it writes, a cell or the panel by its change, a line of the panel if it is shown after it and was not before."""
        trace, kind = self.trace, what[0]
        if kind == "boundary":
            return True
        if kind == "caller":
            return trace.calls.hits(what, at)
        if kind == "order":
            comes = trace.lines[at].place == whole_place(what[1])
            return comes and (not what[2:] or holds(trace.cell(what[3], at), *what[4:]))
        if kind == "interrupt":
            return trace.lines[at].name.split()[: len(what)] == what
        if kind == "write":
            write = trace.lines[at].write
            return write is not None and [int(word, 8) for word in what[1:]] in (list(write), [write[0]])
        if kind == "panel" and what[1:]:
            return shows(trace.panel(at + 1), what[1:]) and not shows(trace.panel(at), what[1:])
        if kind == "panel":
            return trace.panel(at) != trace.panel(at + 1)
        return trace.cell(what[1], at) != trace.cell(what[1], at + 1)

    def is_hit(self, what):
        """Whether a run stops here: an order and an interrupt come next, the others have come."""
        return self.hits(what, self.at if what[0] in ("order", "interrupt", "caller") else self.at - 1)

    def run(self, breakpoints, within, ignored=0, stops=False):
        """Runs to the first boundary that hits a breakpoint after so many ignored ones that do, and returns the breakpoint's number.
        With `stops` the step that finds the limit may hit, too."""
        end = self.cycle + within
        while self.stop is None and self.cycle < end:
            if self.step().stop and not stops:
                break
            hit = next((number for number, what in sorted(breakpoints.items()) if self.is_hit(what)), None)
            if hit is not None and not ignored:
                return hit
            ignored -= hit is not None
        return None

    def back(self, cycle):
        """Goes back to the first line at a cycle or later."""
        self.stop = None
        self.at = next(at for at, line in enumerate(self.trace.lines) if line.cycle >= cycle)

    def back_to(self, at):
        """Goes back to the first line of the cycle at which this one begins, if there is such a line."""
        if at is None or at < 0:
            return "NotHit"
        self.back(self.trace.lines[at].cycle)
        return []

    def back_until(self, what, ignored=0):
        """Goes back to the last line before now that hits, after so many ignored ones that do."""
        hits = (at for at in reversed(range(self.at)) if self.hits(what, at))
        return self.back_to(next(itertools.islice(hits, ignored, None), None))

    def back_steps(self, count):
        """Goes back by so many boundaries. The step that only found the limit is one, too."""
        return self.back_to(self.at + (self.stop == "Limit") - count)

    def text_of(self, what):
        """A breakpoint as the console prints it."""
        if what[0] == "order":
            order = f"order {place_text(whole_place(what[1]))}"
            return f"{order} if {place_text(whole_place(what[3]))} {what[4]} {compared(what[5]):05o}" if what[2:] else order
        if what[0] == "cell":
            return f"cell {place_text(whole_place(what[1]))}"
        if what[0] == "write":
            return " ".join(["write", f"{int(what[1], 8):03o}", *(f"{int(word, 8):05o}" for word in what[2:])])
        return " ".join(what)

    def answer(self, words):
        """The lines with which a command is to be answered, but for the last one; an error's name in place of them."""
        self.writes = []
        rest, within = without_number(words[1:], "within", 1_000_000)
        rest, ignored = without_number(rest, "ignore", 0)
        first = words[0]
        if first == "step":
            return self.steps(int(rest[0]) if rest else 1, *rest[2:])
        if first == "go":
            self.go(self.cycle + int(rest[0]))
            return self.writes
        if first == "until":
            what = rest if rest[0] in ("write", "cell") else ["order", *rest]
            came = self.run({1: what}, within, ignored)
            return [*self.writes, "came yes" if came else "came no"]
        if first in ("over", "finish"):
            came = self.run({1: self.trace.calls.ahead(first, self.at, "job" in rest)}, within, stops=True)
            return [*self.writes, "came yes" if came else "came no"]
        if first == "continue":
            number = self.run(self.breaks, within, ignored)
            return [*self.writes, "hit none" if number is None else f"hit {number} {self.text_of(self.breaks[number])}"]
        if first in ("break", "watch"):
            return self.set_break(kind_of(words))
        if first == "breaks":
            return [f"break {number} {self.text_of(what)}" for number, what in sorted(self.breaks.items())]
        if first == "delete":
            return [] if self.breaks.pop(int(rest[0]), None) else "NoBreakpoint"
        if first == "quiet":
            self.quiet = not rest
            return []
        if first == "print":
            return self.numbers(rest[0])
        if first == "panel":
            return list(self.trace.panel(self.at))
        if first == "next":
            return [f"next {self.next.text.split()[1]} {self.next.name}"]
        if first == "where":
            return self.where()
        if first == "back":
            return self.go_back(rest, ignored)
        raise ValueError(words)

    def go_back(self, words, ignored):
        if words[0] == "until":
            return self.back_until(kind_of(words), ignored)
        if words[0] in ("over", "finish"):
            what = self.trace.calls.back(words[0], self.at, "job" in words)
            return self.back_steps(1) if what == ["boundary"] else self.back_until(what)
        if words[0] == "step":
            return self.back_steps(int(words[1]) if words[1:] else 1)
        self.back(int(words[0]))
        return []

    def steps(self, count, place=None):
        """The lines of so many boundaries, but of none after the stop; with a place, of those that change the cell, each with the cell."""
        lines, line = [], None
        while count and not (line and self.next.stop and self.stop and line.text == self.next.text):
            before = self.at
            line, count = self.step(), count - 1
            if place is None:
                lines.append(line.text)
            elif self.trace.cell(place, before) != self.trace.cell(place, self.at):
                lines += [line.text, f"cell {place_text(whole_place(place))} {self.trace.cell(place, self.at):05o}"]
        return lines

    def go(self, cycle):
        while self.stop is None and self.cycle < cycle:
            self.step()

    def set_break(self, what):
        if len(self.breaks) == MOST:
            return "TooManyBreakpoints"
        self.last += 1
        self.breaks[self.last] = what
        return [f"break {self.last} {self.text_of(what)}"]

    def where(self):
        """Where the order in hand is: Z is one beyond it. Within a service ZRUPT is one beyond the order that goes on."""
        trace, at = self.trace, self.at
        lines = [f"where {trace.place_before(trace.lines[at - 1].control[0] if at else 0o4001, at)}"]
        if not trace.serves(at):
            return lines
        address = (trace.cell("15", at) - 1) % 0o10000
        unknown = " (its bank is not known)" if 0o1400 <= address < 0o4000 else ""
        return [*lines, f"service interrupted {address:04o}{unknown}"]

    def numbers(self, place):
        word = self.trace.cell(place, self.at)
        decimal = f"-{0o77777 - word}" if word & 0o40000 else str(word)
        return [f"print {place_text(whole_place(place))} {word:05o} {decimal}"]


def without_number(words, name, number):
    """The words without this name and the number behind it at their end, and that number, or this one if there is none."""
    return (words[:-2], int(words[-1])) if words[-2:-1] == [name] else (words, number)


def place_text(number):
    """A place by its bank, as the console prints it; whole_place has its number."""
    if number >= 0o10000:
        bank = (number - 0o10000) // 0o2000
        return f"{bank:02o},{(0o2000 * bank if bank in (2, 3) else 0o2000) + number % 0o2000:04o}"
    return f"{number:04o}" if number < 0o1400 else f"E{number // 0o400},{0o1400 + number % 0o400:04o}"


def address_text(address, erasable_bank, fixed_bank):
    """An address as a trace prints it: with the bank that it is seen in through a window."""
    if 0o1400 <= address < 0o2000:
        return f"E{erasable_bank},{address:04o}"
    return f"{fixed_bank:02o},{address:04o}" if 0o2000 <= address < 0o4000 else f"{address:04o}"


def kind_of(words):
    """What a command that sets a breakpoint or goes back names: order, write, cell, interrupt or panel, and its words."""
    if words[0] == "watch":
        return ["cell", *words[1:]]
    return words[1:] if words[1] in ("write", "cell", "interrupt", "panel") else ["order", *words[1:]]


def busy_rope(dice):
    """A rope that counts, complements and shows random digits in a loop; some of its services count too."""
    words = [0] * 0o200
    words[0] = 0o14060
    for vector in range(0o4, 0o54, 4):
        service = dice.choice([[0o50017], [0o24102, 0o50017], [0o26102, 0o50017]])
        words[vector : vector + len(service)] = service
    loop = []
    while len(loop) < 0o40:
        cell, other = 0o100 + dice.randrange(3), 0o100 + dice.randrange(3)
        relay = 0o34140 + dice.randrange(0o20)
        loop += dice.choice([
            [0o24000 + cell], [0o40000 + cell, 0o54000 + other], [0o26000 + cell], [0o30000 + cell, 0o60000 + other, 0o54000 + cell],
            [relay, 0o00006, 0o01010], [0o30000 + cell, 0o00006, 0o01011], [0o00006, 0o24000 + cell], [0o00006, 0o26000 + cell],
        ])
    words[0o60 : 0o60 + len(loop) + 1] = [*loop, 0o14060]
    for place in range(0o140, 0o160):
        left, right = dice.choices(sorted(DIGITS), k=2)
        words[place] = dice.choice([*ROWS, 12]) << 11 | dice.randrange(2) << 10 | left << 5 | right
    return b"".join((word << 1).to_bytes(2, "big") for word in words)


class Choices:
    """What a session tries: mostly what happens in the run of its rope."""

    def __init__(self, dice, trace, by_calls):
        self.dice = dice
        self.by_calls = by_calls
        self.places = [line.text.split()[1] for line in trace.lines if line.place is not None]
        self.writes = sorted({line.write for line in trace.lines if line.write}) or [(0o10, 0o44017)]
        self.interrupts = sorted({line.name for line in trace.lines if line.name.startswith("interrupt ")}) or ["interrupt T4RUPT"]
        panels = {trace.panel(at) for at in range(len(trace.lines))}
        self.shown = sorted({line for panel in panels for line in panel[:-1]})
        self.lamps = sorted({lamp for panel in panels for lamp in LAMPS if shows(panel, ["LAMPS", lamp])}) or LAMPS
        self.cells = [place for place in CELLS if len({trace.cell(place, at) for at in range(len(trace.lines))}) > 1] or CELLS

        self.words = {place: sorted({trace.cell(place, at) for at in range(len(trace.lines))}) for place in CELLS}

    def mostly(self, seen, others):
        return self.dice.choice(seen if self.dice.random() < 0.8 else others)

    def a_place(self):
        return self.mostly(self.places, ["4000", "10,2000", "0100"])

    def a_cell(self):
        return self.mostly(self.cells, CELLS)

    def an_order(self):
        """A place, and as often as not a comparison that holds at some time, but not always."""
        if self.dice.random() < 0.5:
            return self.a_place()
        cell = self.a_cell()
        word = self.mostly(self.words[cell], [0, 1, 0o37777, 0o40000, 0o77776, 0o77777])
        decimal = f"-{0o77777 - word}" if word & 0o40000 else f"+{word}"
        return f"{self.a_place()} if {cell} {self.dice.choice(['<', '>', '=', '!='])} " + self.dice.choice([f"{word:o}", f"{word:05o}", decimal])

    def a_write(self):
        channel, word = self.mostly(self.writes, [(5, 0), (7, 1), (0o13, 0o40000)])
        return f"write {channel:o}" + self.dice.choice(["", f" {word:o}", f" {word:05o}"])

    def an_interrupt(self):
        return self.mostly(self.interrupts, [f"interrupt {name}" for name in INTERRUPTS])

    def a_breakpoint(self):
        cell = f"cell {self.a_cell()}"
        return self.dice.choice([self.an_order(), self.an_order(), self.a_write(), cell, self.an_interrupt()])

    def a_panel(self):
        """A change of the panel, or a line that it shows at some time."""
        line = self.mostly(self.shown, ["PROG 12", "R1 +00012", "FLASH on"])
        return self.dice.choice(["panel", f"panel {line}", f"panel {line}", f"panel LAMPS {self.mostly(self.lamps, LAMPS)}"])

    def sets_break(self):
        what = self.a_panel() if self.dice.random() < 0.3 else self.a_breakpoint()
        is_watch = what.startswith("cell ") and self.dice.random() < 0.5
        return f"watch {what[len('cell ') :]}" if is_watch else f"break {what}"

    def a_call_step(self):
        return self.dice.choice(["over", "over", "finish"]) + self.dice.choice(["", f" job {JOB}"])

    def ignored(self):
        return self.dice.choice(["", "", f"ignore {self.dice.choice([0, 1, 2, 5, 20])} "])

    def a_run(self):
        """A command that runs the machine forwards."""
        within = f"within {self.dice.choice([0, 1, 10, 100, 800, 800])}"
        limits = f"{self.ignored()}{within}"
        if self.by_calls and self.dice.random() < 0.7:
            return f"{self.a_call_step()} {self.dice.choice([within, 'within 800'])}"
        commands = [
            f"go {self.dice.choice([0, 1, 2, 13, 200, 853])}", "step", f"step {self.dice.randrange(30)}", f"step {self.dice.randrange(300)} cell {self.a_cell()}",
            f"until {self.an_order()} {limits}", f"until {' '.join(self.a_write().split()[:2])} {limits}", f"until cell {self.a_cell()} {limits}",
        ]
        return self.dice.choice(commands) if self.dice.random() < 0.5 else f"continue {limits}"

    def a_search(self, cycle):
        """A command that goes back."""
        kind = self.dice.randrange(10)
        if self.by_calls and self.dice.random() < 0.7:
            return f"back {self.a_call_step()}"
        if kind < 6:
            what = self.mostly([self.a_breakpoint()], ["interrupt", "panel", "panel"])
            return f"back until {what} {self.ignored()}".rstrip()
        steps = self.dice.choice(["", f" {self.dice.randrange(1, 60)}", f" {self.dice.randrange(1, 2 * cycle + 2)}"])
        return f"back step{steps}" if kind < 8 else f"back {self.dice.randrange(cycle + 1)}"

    def a_look(self):
        cell = f"print {self.a_cell()}"
        return self.dice.choice([cell, cell, "breaks", "panel", "next", "where", "where"])

    def a_command(self, session, an_event):
        kind = self.dice.randrange(20)
        if session.stop and kind < 10:
            return self.a_search(session.cycle)
        if kind < 9:
            return self.a_run()
        if kind < 11:
            return self.sets_break()
        if kind == 11:
            return self.dice.choice([f"delete {self.dice.randrange(1, 6)}", "quiet", "quiet off"])
        if kind < 14:
            return an_odd_event(self.dice, an_event)
        return self.a_look() if kind < 16 else self.a_search(session.cycle)


class Said(NamedTuple):
    """A command, its answer without the last line, or an error's name, and where the machine stood then."""

    command: str
    answer: object
    cycle: int
    stop: Optional[str]


class Part(NamedTuple):
    """The commands of a session that were answered while it had this script."""

    script: list
    commands: list


def an_odd_event(dice, an_event):
    """An event, now and then one that makes a cell -0."""
    return dice.choice(["poke 0 100 77777", "poke 0 101 77777"]) if dice.random() < 0.2 else an_event(dice)


def parts_of(session, choices, dice, an_event):
    """Says random commands, and returns them by the scripts that the session had."""
    parts = [Part(session.say("script"), [])]
    for number in range(dice.randrange(10, 40)):
        command = choices.sets_break() if number < 2 else choices.a_command(session, an_event)
        answer = session.say(command)
        if answer is None:
            answer = session.error.split(":")[0]
            session.say("")
        said = Said(command, answer, session.cycle, session.stop)
        happens = command.startswith(EVENTS) and answer == []
        if happens:
            parts.append(Part(session.say("script"), []))
        parts[-1].commands.append(said)
        if command.startswith("back ") and session.say("script") != parts[-1].script:
            parts.append(Part(session.say("script"), []))
    return parts


def take_event(reference, said):
    """An event happens at the boundary after those of the script that are due. It is refused at a stop and at the limit."""
    if said.answer != []:
        while reference.next.is_event:
            reference.step()
        return "Stopped" if reference.next.stop else "it is not refused"
    event, found = meaning(said.command), None
    begins = said.cycle - (event[0] == "pulse")
    for at in range(reference.at, len(reference.trace.lines)):
        line = reference.trace.lines[at]
        if not line.is_event or line.cycle > begins:
            break
        if meaning(line.name[len("event ") :]) == event:
            found = at
    while found is not None and reference.at <= found:
        reference.step()
    return [] if found is not None else "it does not come"


def search(console, study, rope, script, dice, an_event, scratch, by_calls=False):
    """Says random commands to a console, and follows them along the traces of its scripts. With `by_calls` most of them step by
    calls."""
    if by_calls or dice.random() < 0.5:
        rope, script = os.path.join(scratch, "search.rope"), os.path.join(scratch, "search.script")
        with open(rope, "wb") as file:
            file.write(calling_rope(dice) if by_calls else busy_rope(dice))
        with open(script, "w") as file:
            file.write(f"every {dice.randrange(20, 300)} {dice.randrange(100)} 4000 raise {dice.randrange(1, 11)}\n")
    limit = dice.choice([None, None, 1000])
    session = Session(console, [rope, script, *(["--limit", str(limit)] if limit else [])])
    choices = Choices(dice, Trace(study, [rope, script, "--limit", "1500"]), by_calls)
    parts = parts_of(session, choices, dice, an_event)
    judge("a search ends", (b"", 0), session.close())
    reference = Reference(None)
    cycle = 0
    for part in parts:
        name = os.path.join(scratch, "search")
        with open(name, "w") as file:
            file.writelines(line + "\n" for line in part.script)
        cycle = max([cycle, *(said.cycle for said in part.commands)])
        reference.trace = Trace(study, [rope, name, "--limit", str(min(limit or cycle + 300, cycle + 300))])
        for said in part.commands:
            takes = take_event(reference, said) if said.command.startswith(EVENTS) else reference.answer(said.command.split())
            wanted = Said(said.command, takes, reference.cycle, reference.stop)
            judge(f"{said.command} of a search", wanted, said)
            if wanted != said:
                return
        cycle = reference.cycle
