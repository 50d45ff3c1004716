"""Flights of the craft of examples/lander.

Where the craft is after each step follows from the law alone, which `law` states, and from the cycles of the looks:
TIME5 steps first at pulse 5120 and each 10240 pulses from there, twelve pulses a cycle, and each tenth step carries.
The step takes a cycle and the interrupt three; the order that reads CDUX begins 9 cycles after the step, and the write
56 cycles after it where the jet for down is to burn, 58 for up and 60 for none (examples/lander/words).
"""

import importlib.util
import os
import subprocess
import sys

import craft as example
from agc import Console
from judge import AGC, CONSOLE, attempt, finish, judge, scratch_folder

agc, console, scratch = AGC, CONSOLE, scratch_folder()

EDGE = 91
WRITTEN_AFTER = {2: 56, 1: 58, 0: 60}


def law(angle, turned):
    """The jets at a look: the angle of half a turn at most, and what the craft has turned since the look before."""
    to_come = angle + 16 * turned
    return 2 if to_come > EDGE else 1 if to_come < -EDGE else 0


def within_half_a_turn(pulses):
    return (pulses + 16384) % 32768 - 16384


def carry_of(look):
    """The cycle at which the step of TIME5 that brings a look is due: the next whole one."""
    return -((5120 - 102400 * look) // 12)


def by_the_law(parts, turning, steps):
    """The pulses after each step of a craft that begins so, in parts of one, and the look and jets of each write."""
    angles, writes = [], []
    seen = parts // 64
    jets = commanded = 0
    look, written = 1, 0
    for step in range(1, steps + 1):
        now = 853 * step
        while carry_of(look) + 9 < now:
            wanted = law(within_half_a_turn(parts // 64), parts // 64 - seen)
            seen = parts // 64
            if wanted != commanded:
                commanded, written = wanted, carry_of(look) + WRITTEN_AFTER[wanted]
                writes.append((look, wanted))
            look += 1
        if written < now:
            jets = commanded
        turning += {2: -1, 1: 1, 0: 0}[jets]
        parts += turning
        angles.append(parts // 64)
    return angles, writes


def looks_of(writes):
    """The look and the jets of each write, which comes within 60 cycles of the look's step and some pulses."""
    found = [((12 * write.cycle + 5120) // 102400, write.value) for write in writes]
    late = [write for write in writes if (12 * write.cycle + 5120) % 102400 > 12 * 200]
    judge("each write belongs to a look", [], late)
    return found


def logged(script, cycle):
    """The writes of the plain run of a script, as the log of agc has them."""
    words = [agc, example.ROPE, script, "--limit", str(cycle), "--log"]
    return subprocess.run(words, capture_output=True, text=True, check=True).stdout.splitlines()[9:]


def flight(degrees, degrees_a_second, seconds):
    """Flies, lays the flight beside the law and its script before agc, and returns the pulses after each step."""
    name = f"{degrees} degrees, {degrees_a_second} a second"
    craft = example.Craft(degrees, degrees_a_second)
    begun = craft.angle, craft.turning, 100 * seconds
    angles, writes = [], []
    with Console(example.ROPE, program=[console]) as machine:
        for written in example.fly(machine, craft, 100 * seconds):
            angles.append(craft.pulses())
            writes += written
        judge(f"{name}: CDUX", craft.pulses() % 32768, machine.cell("32"))
        script = os.path.join(scratch, "told")
        with open(script, "w") as file:
            file.write(machine.script())
        log = logged(script, machine.cycle)
    wanted_angles, wanted_writes = by_the_law(*begun)
    judge(f"{name}: the writes of the law", wanted_writes, looks_of(writes))
    judge(f"{name}: the angles of the law", wanted_angles, angles)
    judge(f"{name}: the log", [f"{write.cycle} {write.channel:03o} {write.value:05o}" for write in writes], log)
    return angles


def try_ten_degrees():
    """From 10 degrees, which are 910 pulses, turning away by a degree, 91 pulses, a second: 58 parts a step.

    In looks, which are ten steps, that is 9.06 pulses a look; and a jet makes it 1.5625 more or less in each look, 10
    times 10 by 64. So in 3.2 seconds the craft comes no nearer than 910 + 9.06 * 32 - 0.78 * 32 * 32 = 400 pulses. The
    jet for down burns until 910 + 9.06 t - 0.78 t t + 16 * (9.06 - 1.56 (t - 0.5)) is 91: 27 looks, to 585 pulses and
    33.1 a look back. Five looks without a jet bring 419 pulses and what is to come below -91. The jet for up then
    burns some 16 looks, to 89 pulses and 8.1 a look: in the band after 49 looks. For what the parts of a pulse and the
    steps leave open, 6 seconds are allowed.

    There it stays. A craft that turns by a pulse a look or more towards an edge has the jet burn 15 pulses before it,
    and stops within half a square of its turning by 1.5625, less than these up to 40 pulses a look. A slower one is
    seen at 92 at the latest, and turns by less than one pulse more: 1 * 1 / 3.125, and a tenth for the step until the
    jet burns. So 93 is the most.
    """
    craft = example.Craft()
    judge("how the craft begins", (64 * 910, 58), (craft.angle, craft.turning))
    angles = flight(10, 1, 60)
    judge("10 degrees: outside for 3.2 seconds", True, min(angles[:320]) > EDGE)
    judge("10 degrees: within after 6 seconds", True, max(map(abs, angles[600:])) <= EDGE + 2)


def try_others():
    """At rest, beginning within the band, from far away, and across the place where the angle wraps."""
    for degrees, degrees_a_second in ((10, 0), (0, 3), (-25, -1), (179, 4), (-0.5, 0.02)):
        angles = flight(degrees, degrees_a_second, 20)
        judge(f"{degrees} degrees: a flight of 20 seconds", 2000, len(angles))


def try_program():
    """The program itself: twenty lines and one more, the script that it saves, and the picture."""
    name, again, picture = (os.path.join(scratch, name) for name in ("saved", "again", "picture.png"))
    words = [sys.executable, "-B", example.__file__, "--seconds", "20", "--program", console]
    first = subprocess.run([*words, "--save", name], capture_output=True, text=True)
    second = subprocess.run([*words, "--save", again, "--png", picture], capture_output=True, text=True)
    judge("a flight is told", (0, "", 21), (first.returncode, first.stderr, len(first.stdout.splitlines())))
    judge("the first line", "   1.0 s", first.stdout[:8])
    judge("each flight is the same", (first.stdout, read(name)), (second.stdout, read(again)))
    writes, cycle = first.stdout.splitlines()[-1].split(" writes by cycle ")
    judge("agc makes as many writes", int(writes), len(logged(name, cycle.split(",")[0])))
    if importlib.util.find_spec("matplotlib"):
        judge("a picture", (0, b"\x89PNG"), (second.returncode, read(picture)[:4]))
    else:
        told = "no picture is drawn: there is no matplotlib\n"
        judge("no picture", (1, told), (second.returncode, second.stderr))


def refused(name, words, told):
    """A flight that is not made: its status, and the last line that it says."""
    program = [sys.executable, "-B", example.__file__, "--seconds", "1", "--program", console]
    flight = subprocess.run([*program, *words], capture_output=True, text=True, timeout=300)
    lines = flight.stderr.splitlines() or [""]
    judge(name, (told[0], "", told[1]), (flight.returncode, flight.stdout, lines[-1]))


def try_refusals():
    """What cannot be flown or saved is named by a sentence, before the flight."""
    folder, kept = os.path.join(scratch, "folder"), os.path.join(scratch, "kept")
    os.mkdir(folder)
    with open(kept, "w") as file:
        file.write("0 key 1\n")
    nowhere = os.path.join(folder, "no", "file")
    refused("--save in no folder", ["--save", nowhere], (1, f"craft: cannot write {nowhere}: No such file or directory"))
    refused("--save of a folder", ["--save", folder], (1, f"craft: cannot write {folder}: Is a directory"))
    refused("--save without a name", ["--save", ""], (1, "craft: cannot write : No such file or directory"))
    refused("--save of a script", ["--save", kept], (1, f"craft: {kept} exists and is not empty: name a new file"))
    judge("it stays as it was", b"0 key 1\n", read(kept))
    for option in ("--angle", "--turning"):
        for word in ("nan", "inf", "-inf"):
            told = f"craft.py: error: argument {option}: {word} is not finite"
            refused(f"{option} {word}", [f"{option}={word}"], (2, told))
    web = ["--web", "--port", "0"]
    refused("--web, --save of a script", [*web, "--save", kept], (1, f"craft: {kept}: has something in it: name another file"))
    judge("--web leaves it, too", b"0 key 1\n", read(kept))
    refused("--web at no port", ["--web", "--port", "65536"], (1, "craft: port: ports are 0 to 65535"))
    program = os.path.join(folder, "program")
    refused("no such console", ["--program", program], (1, f"craft: {program}: No such file or directory"))


def try_full():
    """A script that finds no room is named by a sentence, after the flight."""
    if not os.path.exists("/dev/full"):
        return
    words = [sys.executable, "-B", example.__file__, "--seconds", "1", "--program", console, "--save", "/dev/full"]
    flight = subprocess.run(words, capture_output=True, text=True)
    told = "craft: cannot write /dev/full: No space left on device\n"
    judge("--save where there is no room", (1, told), (flight.returncode, flight.stderr))


def read(name):
    with open(name, "rb") as file:
        return file.read()


for each in (try_ten_degrees, try_others, try_program, try_refusals, try_full):
    attempt(each)
finish()
