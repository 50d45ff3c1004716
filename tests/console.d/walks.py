"""Walks of agc-console, each laid beside the trace that agc-study makes of the script that it tells: boundary by
boundary, where each command should have ended, and what it should have told on the way."""

import os
import re
import subprocess
from typing import NamedTuple, Optional

from judge import judge
from session import Session, meaning

LINE = re.compile(r"(\d+) (\S+) (.*?)(?: > (\d{3} \d{5}))? \| A \d{6} L (\d{5}) ")


class Line(NamedTuple):
    """A line of a trace."""

    text: str
    cycle: int
    place: Optional[int]
    name: str
    write: Optional[str]
    lower: str


def traced(study, rope, script, limit):
    """The lines of the trace of a script's plain run."""
    words = [study, "trace", rope, script, "--limit", str(limit)]
    lines = subprocess.run(words, capture_output=True, text=True, check=True).stdout.splitlines()
    found = [(line, LINE.match(line)) for line in lines]
    return [Line(line, int(part[1]), whole_place(part[2]), part[3], part[4], part[5]) for line, part in found]


def whole_place(name):
    """A place as a number that is the same for all of its names: a cell and a word may be seen through a window too."""
    if name == "-":
        return None
    bank, _, address = name.rpartition(",")
    address = int(address, 8)
    if bank.startswith("E"):
        return 0o400 * int(bank[1:]) + address - 0o1400
    if bank:
        return 0o10000 + 0o2000 * int(bank, 8) + address - 0o2000
    return address if address < 0o1400 else 0o10000 + address


class Way:
    """A walk along the lines of a trace: at which line it stands, and what was written on the way."""

    def __init__(self, lines):
        self.lines = lines
        self.at = 0
        self.writes = []

    def next(self):
        return self.lines[self.at]

    def step(self):
        line = self.next()
        self.at += 1
        if line.write:
            self.writes.append(f"write {line.cycle} {line.write}")
        return line

    def lower(self):
        return self.lines[self.at - 1].lower if self.at else "00000"

    def go(self, cycle):
        while self.next().cycle < cycle:
            self.step()

    def until(self, what, within):
        """Whether it comes: the order at a place, a write to a channel, or another word in L."""
        end = self.next().cycle + within
        lower = self.lower()
        while self.next().cycle < end:
            line = self.step()
            if what[0] == "write":
                came = line.write and int(line.write.split()[0], 8) == int(what[1], 8)
            elif what[0] == "cell":
                came = line.lower != lower
            else:
                came = self.next().place == whole_place(what[0])
            if came:
                return True
        return False

    def answer(self, words):
        """What the command of these words is to be answered, but for the cycle."""
        self.writes = []
        if words[0] == "step":
            return [self.step().text for _ in range(int(words[1]))]
        if words[0] == "go":
            self.go(self.next().cycle + int(words[1]))
            return self.writes
        if words[0] == "until":
            came = self.until(words[1:-2], int(words[-1]))
            return [*self.writes, "came yes" if came else "came no"]
        event = self.step()
        happened = event.name.startswith("event ") and meaning(event.name[len("event ") :])
        judge(f"{words} has happened", meaning(" ".join(words)), happened)
        return []


def a_command(dice, an_event):
    """A command that goes on, or an event."""
    kind = dice.randrange(6)
    within = f"within {dice.choice([0, 1, 10, 100, 3000])}"
    if kind == 0:
        return f"go {dice.choice([0, 1, 2, 13, 853, 4000])}"
    if kind == 1:
        return f"step {dice.randrange(40)}"
    if kind == 2:
        return f"until {dice.choice(['4000', '4054', '4060', '4100', '4101', '0100', '0000', '4024'])} {within}"
    if kind == 3:
        return f"until write {dice.choice(['10', '11', '005', '7', '013'])} {within}"
    if kind == 4:
        return f"until cell 1 {within}"
    return an_event(dice)


def walk(console, study, rope, dice, an_event, scratch):
    """Says random commands, and follows them along the trace, as far as the machine has not stopped."""
    session = Session(console, [rope, os.devnull])
    said = []
    answer = []
    for _ in range(dice.randrange(5, 40)):
        # An event after an order has come would come before it in the trace.
        command = "step 1" if answer[-1:] == ["came yes"] else a_command(dice, an_event)
        answer = session.say(command)
        if session.stop:
            break
        said.append((command, answer, session.cycle))
    script = os.path.join(scratch, "walk")
    with open(script, "w") as file:
        file.writelines(line + "\n" for line in session.say("script"))
    judge("a walk ends", (b"", 0), session.close())
    way = Way(traced(study, rope, script, session.cycle + 1000))
    for command, answer, cycle in said:
        judge(f"{command} of a walk", (way.answer(command.split()), way.next().cycle), (answer, cycle))
