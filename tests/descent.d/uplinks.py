"""Keys from the ground: pulses of INLINK, which the landing's program takes as it takes those of the keyboard."""

import os
import subprocess

import craft as example
from judge import AGC, judge, scratch_folder

CODES = {str(digit): digit or 0o20 for digit in range(10)}
CODES.update(VERB=0o21, NOUN=0o37, ENTR=0o34, CLR=0o36, KEYREL=0o31, RSET=0o22)
CODES.update({"+": 0o32, "-": 0o33})
BIT, KEY, FIRST, LIMIT = 427, 8533, 200_000, 600_000  # cycles
SENT = [
    "VERB 3 5 ENTR", "VERB 1 6 NOUN 3 6 ENTR", "VERB 1 6 NOUN 3 6 ENTR KEYREL", "VERB 3 7 ENTR 7 1", "VERB 2 1 NOUN 0 1 ENTR + 1 2 4",
    "VERB 2 5 NOUN 0 2 ENTR + 1 2 3 4 5 ENTR - 6 7 8 CLR 9", "VERB 9 9 ENTR RSET", "NOUN 0 9 VERB 0 5 ENTR",
]


def word_of(key):
    """Returns the sixteen bits of a key: a one, its code, the complement and the code again."""
    code = CODES[key]
    return 1 << 15 | code << 10 | (31 - code) << 5 | code


def pulses_of(words):
    """Returns the lines that shift words into INLINK."""
    return [(FIRST + number * KEY + (bit - 15) * BIT, f"pulse 45 {'shanc' if word >> 15 - bit & 1 else 'shinc'}")
            for number, word in enumerate(words) for bit in range(16)]


def panel_after(events):
    """Returns the panel after these events, with the landing's erasable load."""
    with open(os.path.join(os.path.dirname(example.ROPE), "script")) as file:
        load = [line for line in file.read().splitlines() if " poke " in line]
    script = os.path.join(scratch_folder(), "uplinked")
    with open(script, "w") as file:
        file.write("\n".join(load + [f"{cycle} {command}" for cycle, command in events]) + "\n")
    done = subprocess.run([AGC, example.ROPE, script, "--limit", str(LIMIT)], capture_output=True, text=True)
    return done.stdout.split("STOP")[0], done.stderr


def try_uplink():
    """Keys from the ground do what the same keys of the keyboard do; a word whose copies differ is no key."""
    nothing = panel_after([])
    for keys in SENT:
        typed = [(FIRST + number * KEY, f"key {key}") for number, key in enumerate(keys.split())]
        wanted = panel_after(typed)
        judge(f"uplink {keys}: the keys show something", True, wanted != nothing and not wanted[1])
        judge(f"uplink {keys}", wanted, panel_after(pulses_of(map(word_of, keys.split()))))
    for key in ("VERB", "1", "NOUN"):
        taken = [bit for bit in range(15) if panel_after(pulses_of([word_of(key) ^ 1 << bit])) != nothing]
        judge(f"uplink of {key}: a wrong bit is refused", [], taken)
        twice = [(high, low) for low, high in ((0, 5), (0, 10), (5, 10)) if panel_after(pulses_of([word_of(key) ^ 1 << low ^ 1 << high])) != nothing]
        judge(f"uplink of {key}: so are two", [], twice)
    judge("the key after a refused one is taken", panel_after([(FIRST + KEY, "key VERB")]), panel_after(pulses_of([word_of("1") ^ 1, word_of("VERB")])))
