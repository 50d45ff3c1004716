"""Random sessions of agc-console on many ropes. Each prints a script, which agc and an emulator in C replay to the same end.

The emulator is tests/descent.d/emulator.c, which shares no code with agc. The console and the emulator must agree on panel, stop,
channel writes with their cycles, registers and all erasable cells; agc on all but the last two, of which it shows windows.
"""

import itertools
import os
import random
import subprocess
from collections import Counter
from typing import NamedTuple

from calls import calling_rope
from emulator import compile_emulator
from judge import AGC, CONSOLE, TOP, check, judge, scratch_folder
from ropes import mixing_rope, wild_rope
from searches import INTERRUPTS, busy_rope, line_of
from session import Session

REPLAYS = 88  # the first seeds, of which each has such a session
LAST_CYCLE = 1_000_000_000_000
CELLS = 0o4000
VIEWS = 2  # runs of agc for a session: each shows two windows of memory

# The ropes of examples, each with the cycles of a long run: then its keys, timers or jobs have done something.
STRIDES = {
    "count-4/rope": 3000, "debugging/rope": 30000, "division/rope": 20, "downlink/rope": 100, "keys/rope": 100, "timers/rope": 3000,
    "pinball/rope": 2000, "verbs/rope": 12000, "watch/rope": 20, "lander/rope": 9000, "waitlist/rope": 60000, "descent/rope": 60000,
    "interpreter/rope": 3000, "interpreter/orbit.rope": 60000,
}
TYPED = [
    "VERB 3 5 ENTR", "VERB 1 6 NOUN 3 6 ENTR", "VERB 2 1 NOUN 0 1 ENTR + 1 2 4 ENTR", "VERB 3 7 ENTR 6 4 ENTR", "VERB 8 2 ENTR",
    "VERB 9 9 ENTR RSET", "NOUN 0 9 VERB 0 5 ENTR", "VERB 2 5 NOUN 0 2 ENTR + 1 2 3 4 5 ENTR - 6 7 8 CLR 9", "KEYREL",
]
WORDS = ["0", "1", "37777", "40000", "77777", "-3", "+12"]
REFUSALS = {"NotHit", "Stopped", "NoBreakpoint"}
KINDS = [
    "go", "step", "ahead", "over", "finish", "until", "continue", "break", "watch", "delete", "back", "back step", "back over",
    "back finish", "back until", "key", "pro", "pulse", "input", "raise", "poke",
]

scratch = scratch_folder()
emulator = os.path.join(scratch, "emulator")
tally: Counter = Counter()  # how often the sessions used each kind of command, and met each stop


class Ground(NamedTuple):
    """A rope, the script that a session begins with, and the cycles of a long run."""

    rope: str
    script: str
    stride: int


class End(NamedTuple):
    """How a run has ended: the panel, agc's line for the stop, its log, the registers and the erasable cells."""

    panel: list
    stop: list
    writes: list
    registers: list
    memory: list


def file_with(name, data):
    """Writes a file, and returns its path."""
    path = os.path.join(scratch, name)
    with open(path, "wb") as file:
        file.write(data)
    return path


def random_script(dice, stride, an_event):
    """The lines of a script; some events come again and again."""
    lines, cycle = [], 0
    for _ in range(dice.choice([0, 3, 12])):
        cycle += dice.randrange(stride)
        every = f"every {dice.randrange(1, 500)} {cycle} {cycle + dice.randrange(3000)}"
        lines.append(f"{dice.choice([cycle, cycle, every])} {an_event(dice)}\n")
    return "".join(lines).encode()


def ground_of(dice, seed, random_rope, an_event):
    """The rope and the script of a seed: of eight in 22 seeds the rope is random."""
    ropes = [*STRIDES, random_rope, busy_rope, calling_rope, wild_rope, mixing_rope, mixing_rope, mixing_rope, mixing_rope]
    rope = ropes[seed % len(ropes)]
    if callable(rope):
        script = file_with("replay.script", random_script(dice, 2000, an_event))
        return Ground(file_with("replay.rope", rope(dice)), script, 3000)
    path, stride = os.path.join(TOP, "examples", rope), STRIDES[rope]
    script = os.path.join(os.path.dirname(path), "script")
    if not os.path.exists(script) or dice.random() < 0.3:
        script = file_with("replay.script", random_script(dice, stride, an_event))
    return Ground(path, script, stride)


def kind_of(command):
    """What a command does, by its words."""
    words = command.replace("list ", "").split()
    return " ".join(words[: 1 + (words[0] == "back" and not words[1].isdigit())])


class Play:
    """A session that says random commands, most of them about places and cells that it has met. It keeps the channel writes."""

    def __init__(self, dice, session, ground, an_event):
        self.dice, self.session, self.ground, self.an_event = dice, session, ground, an_event
        self.places, self.cells, self.channels = ["4000", "4060"], ["0000", "0001", "0027", "0100"], ["10"]
        self.writes = []

    def say(self, command):
        """Says a command. Returns the lines of its answer, or None if it is refused."""
        lines = self.session.say(command)
        if lines is None:
            judge(f"{command} may be refused", True, self.session.error.split(":")[0] in REFUSALS)
            self.session.say("")
            return None
        tally[kind_of(command)] += 1
        if command.startswith("back"):
            self.writes = [write for write in self.writes if int(write.split()[0]) < self.session.cycle]
        elif command.startswith(("step", "ahead")):
            self.see([line_of(text) for text in lines], command.startswith("step"))
        else:
            self.writes += [line[len("write ") :] for line in lines if line.startswith("write ")]
        return lines

    def see(self, lines, were_run):
        """Keeps the places, cells and channels of these lines of a trace, and their channel writes if they were run."""
        for line in lines:
            operand = line.name.split()[-1]
            if line.place is not None:
                self.places.append(line.text.split()[1])
                self.cells += [operand] if len(operand) == 4 and operand.isdigit() and int(operand, 8) < 0o1400 else []
            if line.write:
                self.channels.append(f"{line.write[0]:o}")
                self.writes += [f"{line.cycle} {line.write[0]:03o} {line.write[1]:05o}"] if were_run else []

    # Words of commands

    def a_cell(self):
        return self.dice.choice(self.cells)

    def an_order(self):
        """A place, and as often as not a condition."""
        condition = f" if {self.a_cell()} {self.dice.choice(['<', '>', '=', '!='])} {self.dice.choice(WORDS)}"
        return self.dice.choice(self.places) + self.dice.choice(["", condition])

    def a_job(self):
        return self.dice.choice(["", "", f" job {self.a_cell()}"])

    def a_hit(self):
        """What `break` and `back until` take."""
        return self.dice.choice([
            self.an_order(), self.an_order(), f"write {self.dice.choice(self.channels)}", f"cell {self.a_cell()}",
            f"interrupt {self.dice.choice(INTERRUPTS)}", "panel",
        ])

    # What a session does

    def run(self):
        """Runs the machine, or looks ahead."""
        dice, stride, cycle = self.dice, self.ground.stride, self.session.cycle
        within = f"within {dice.choice([0, 10, 300, stride, stride])}"
        self.say(dice.choice([
            f"go {dice.choice([0, 1, 13, 300, stride])}", f"go to {cycle + dice.randrange(stride)}", f"step {dice.randrange(40)}", "step",
            f"ahead {dice.randrange(40)}", f"over{self.a_job()} {within}", f"over{self.a_job()} {within}",
            f"finish{self.a_job()} {within}", f"until {self.an_order()} {within}", f"until cell {self.a_cell()} {within}",
            f"until write {dice.choice(self.channels)} {within}", *[f"continue {within}"] * 3,
        ]))

    def inject(self):
        """Injects one event, or two at the same cycle."""
        for _ in range(self.dice.choice([1, 1, 2])):
            self.say(self.an_event(self.dice))

    def set_break(self):
        """Sets a breakpoint, or deletes one."""
        hit = self.dice.choice([self.a_hit(), self.an_order()])
        self.say(self.dice.choice([f"break {hit}", f"break {hit}", f"watch {self.a_cell()}", f"delete {self.dice.randrange(1, 4)}"]))

    def a_cycle_back(self):
        """A cycle before now, mostly not long before."""
        most = self.dice.choice([10, self.ground.stride, self.ground.stride, LAST_CYCLE])
        return self.session.cycle - self.dice.randrange(min(most, self.session.cycle) + 1)

    def go_back(self):
        """Goes back in one of the ways."""
        steps = self.dice.choice(["", f" {self.dice.randrange(1, 60)}"])
        self.say(self.dice.choice(["back ", "back list "]) + self.dice.choice([
            str(self.a_cycle_back()), f"step{steps}", f"over{self.a_job()}", f"finish{self.a_job()}", f"until {self.a_hit()}",
            f"until {self.a_hit()}",
        ]))

    def edit(self):
        """Goes back, and injects what was dropped again, some of it later, other or not at all."""
        for line in self.say(f"back list {self.a_cycle_back()}"):
            cycle, event = line.split(" ", 1)
            choice = self.dice.randrange(6)
            self.say(f"go to {int(cycle) + (self.dice.randrange(60) if choice == 0 else 0)}")
            if choice != 1:
                self.say(self.an_event(self.dice) if choice == 2 else event)

    def type_keys(self):
        """Types keys as fast as an operator, or too fast. Now and then PRO is pressed, too."""
        pace = self.dice.choice([0, 200, self.ground.stride // 4])
        for key in self.dice.choice(TYPED).split():
            self.say(f"key {key}")
            self.say(f"go {pace}")
        for way in self.dice.choice([[], ["down", "up"], ["up", "down"]]):
            self.say(f"pro {way}")
            self.say(f"go {pace}")

    def send_uplink(self):
        """Shifts a word of sixteen bits into INLINK. Its first bit is a one, which leaves at the last shift: UPRUPT comes. Now and
        then it goes into another counter, which requests nothing."""
        word, pace = self.dice.randrange(0o100000) | 0o100000, self.dice.choice([0, 5, 40])
        counter = self.dice.choice([0o45, 0o45, 0o45, self.dice.randrange(0o24, 0o61)])
        for bit in reversed(range(16)):
            self.say(f"pulse {counter:o} {'shanc' if word >> bit & 1 else 'shinc'}")
            self.say(f"go {pace}")

    def set_clock(self):
        """Sets a timer so that it carries soon: an interrupt comes, or TIME2 counts. TIME6 is switched on."""
        dice = self.dice
        timer, word = dice.choice([
            (0o31, dice.choice([0, 0o77777, dice.randrange(12), 0o77777 - dice.randrange(12)])), (dice.randrange(0o25, 0o31), 0o37777),
        ])
        self.say(f"poke 0 {timer:o} {word:o}")
        if timer == 0o31:
            self.say("input 13 40000")
        self.say(f"go {dice.randrange(900)}")

    def go_on(self):
        """Plays for some time. What was injected last has happened at the end."""
        self.say(f"go {self.dice.randrange(3 * self.ground.stride)}")
        self.say("ahead 60")
        ways = [self.run] * 8 + [self.inject] * 3 + [self.set_break] * 3 + [self.go_back] * 4 + [self.type_keys, self.send_uplink]
        for _ in range(self.dice.randrange(15, 45)):
            self.dice.choice([*ways, self.set_clock, self.edit])()
        self.say("go 1")

    def end(self):
        """The end of the session."""
        session = self.session
        panel, count, registers, cells = (session.say(command) for command in ("panel", "writes", "registers", f"cell 0000 {CELLS}"))
        stop = f"STOP {session.stop or 'Limit'} CYCLE {session.cycle} WRITES {count[0].split()[1]}"
        return End(panel, [stop], self.writes, registers, [line.split()[-1] for line in cells])


def emulated(rope, script, limit):
    """The end of a script's run on the emulator."""
    done = subprocess.run([emulator, rope, script, str(limit), "memory"], capture_output=True, text=True)
    judge("a script on the emulator", (0, ""), (done.returncode, done.stderr))
    lines = done.stdout.splitlines()
    after = 9 + int(lines[8].split()[-1])
    return End(lines[:8], lines[8:9], lines[9:after], lines[after : after + 1], lines[after + 1 :])


def windows_of(dice, memory):
    """Where LST1 and LST2 of agc's --watch are to begin, to show registers and words other than +0: 8 words and 18."""
    taken = [at for at, word in enumerate(memory) if at > 7 and word != "00000"] or [0o100]
    places = [min(dice.choice(taken), len(memory) - 18) for _ in range(2 * VIEWS - 1)]
    return zip([0, *places[::2]], places[1::2])


def words_shown(lines):
    """The words of LST1 and those of LST2 in the lines of --watch."""
    return lines[0].split()[1:], [word for line in lines[1:] for word in line.split()[2:]]


def try_agc(what, dice, words, end):
    """The plain run of agc has an emulator's panel, stop, log and windows of memory."""
    wanted = [*end.panel, *end.stop, *end.writes]
    for first, second in windows_of(dice, end.memory):
        spec = f"0,0,0,{first >> 8:o},{first & 0o377:o},{second >> 8:o},{second & 0o377:o}"
        lines = subprocess.run([AGC, *words, "--log", "--watch", spec], capture_output=True, text=True).stdout.splitlines()
        same(f"{what}: agc and the emulator", lines[: len(wanted)], wanted)
        window = end.memory[first : first + 8], end.memory[second : second + 18]
        judge(f"{what}: --watch {spec} and the emulator", window, words_shown(lines[len(wanted) :]))


def same(what, found, wanted):
    """Checks that two lists are the same; else reports where they part."""
    pairs = enumerate(itertools.zip_longest(found, wanted))
    at = next((at for at, (one, other) in pairs if one != other), 0)
    judge(f"{what}, from line {at} on", wanted[at : at + 3], found[at : at + 3])


def try_replay(seed, random_rope, an_event):
    """A session, and the runs of what it prints as its script."""
    dice = random.Random(f"replay {seed}")
    if not os.path.exists(emulator):
        compile_emulator(emulator)
    ground = ground_of(dice, seed, random_rope, an_event)
    limit = dice.choice([LAST_CYCLE, LAST_CYCLE, LAST_CYCLE, 3 * ground.stride])
    play = Play(dice, Session(CONSOLE, [ground.rope, ground.script, "--limit", str(limit)]), ground, an_event)
    play.go_on()
    told, stop, cycle = play.end(), play.session.stop, play.session.cycle
    script = file_with("replay.told", "".join(f"{line}\n" for line in play.session.say("script")).encode())
    what = f"replay {seed} of {ground.rope}"
    judge(f"{what}: the end", (b"", 0), play.session.close())
    tally[f"stop {stop}"] += 1
    # A machine that has stopped at a cycle has a limit above it, unless the limit was the stop.
    end = limit if stop == "Limit" else cycle + (stop is not None)
    other = emulated(ground.rope, script, end)
    for name, found, wanted in zip(End._fields, told, other):
        same(f"{what}: {name} of console and emulator", found, wanted)
    try_agc(what, dice, [ground.rope, script, "--limit", str(end)], other)


def try_kinds():
    """The sessions used each kind of command many times, and met each stop."""
    for kind in KINDS:
        check(f"only {tally[kind]} times {kind}", tally[kind] >= 20)
    for stop in (None, "Limit", "DivisionUndefined", "Edrupt"):
        check(f"no session ended by {stop}", tally[f"stop {stop}"] > 0)
