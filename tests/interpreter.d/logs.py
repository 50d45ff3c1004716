"""Logs of another AGC (other_agc.py), stored in the folder `logs`: the channel writes of a run, and erasable bank 3 at its end.

    tests/interpreter logs     makes them anew, once a rope has changed
"""

import hashlib
import os
import subprocess

from agc import Console
from judge import AGC, CONSOLE, judge, scratch_folder
from other_agc import Machine
from weaving import EXAMPLE, HERE, read

VERB_82 = "".join(f"{300_000 + 20_000 * n} key {key}\n" for n, key in enumerate(("VERB", "8", "2", "ENTR")))
RUNS = {"main": ("rope", "", 4400), "orbit": ("orbit.rope", VERB_82, 800_000)}  # the rope, the script, the limit
BANK, ROW = 3, 8  # words in a line
scratch = scratch_folder()


def digest(rope):
    return f"rope {hashlib.sha256(read(rope, 'rb')).hexdigest()}"


def rows(words):
    return [f"E{BANK},{0o1400 + n:o} " + " ".join(f"{word:05o}" for word in words[n:n + ROW]) for n in range(0, len(words), ROW)]


def make():
    """Runs the other machine, and stores what it did."""
    for name, (rope, script, limit) in RUNS.items():
        machine = Machine(read(rope, "rb"), script)
        machine.run(limit)
        writes = [f"{cycle} {channel:03o} {word:05o}" for cycle, channel, word in machine.log]
        with open(os.path.join(HERE, "logs", name), "w") as file:
            file.write("\n".join([digest(rope), *writes, f"{machine.cycle} end", *rows(machine.cells[BANK])]) + "\n")


def try_logs():
    """The emulator's writes and cells are those of the other machine."""
    for name, (rope, script, limit) in RUNS.items():
        path = os.path.join(scratch, name)
        with open(path, "w") as file:
            file.write(script)
        with open(os.path.join(HERE, "logs", name)) as file:
            first, *stored = file.read().splitlines()
        judge(f"{rope} is that of the stored log (else: tests/interpreter logs)", first, digest(rope))
        done = subprocess.run([AGC, os.path.join(EXAMPLE, rope), path, "--limit", str(limit), "--log"], capture_output=True, text=True)
        writes = [line for line in done.stdout.splitlines() if line[:1].isdigit()]
        with Console(os.path.join(EXAMPLE, rope), path, program=[CONSOLE]) as console:
            console.go_to(limit)
            cells = [word for n in range(0, 256, 64) for word in console.cells(f"E{BANK},{0o1400 + n:o}", 64)]
            judge(f"{name}: the other machine's run", stored, [*writes, f"{console.cycle} end", *rows(cells)])
