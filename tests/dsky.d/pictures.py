"""The pictures of the DSKY's whole screen in the folder `pictures`: the letters, and below them the colours.

What a picture shows is worked out by hand here, from docs/DSKY.md and docs/SPECIFICATION.md, and painter.py draws it. The
program has no part in it: started by itself, this file draws the pictures anew.
"""

import os
import sys

from painter import KEYS, LONG_HINT, SHORT_HINT, Picture, below, picture_of
from screen import LAMPS

FOLDER = os.path.join(os.path.dirname(os.path.abspath(__file__)), "pictures")
LARGE, SMALL, HIGH = (24, 80), (14, 60), (28, 80)
COLOURS = "colours: g green, d dim, W on white, Y on yellow"

ALL_LAMPS, NO_LAMPS = ", ".join(LAMPS), "none"
BLANK = {"PROG": "__", "VERB": "__", "NOUN": "__", "R1": "______", "R2": "______", "R3": "______", "LAMPS": NO_LAMPS}
# What the ropes of relay words show: each digit, blank, no digit's code, each sign; all lamps, no lamp, six of them.
ALL = {"PROG": "01", "VERB": "23", "NOUN": "45", "R1": "+67890", "R2": "-12345", "R3": "_?8_79", "LAMPS": ALL_LAMPS}
NONE = {"PROG": "98", "VERB": "76", "NOUN": "54", "R1": "-3_210", "R2": "______", "R3": "+24680", "LAMPS": NO_LAMPS}
HALF = {**NONE, "LAMPS": "COMP ACTY, TEMP, NO ATT, ALT, GIMBAL LOCK, TRACKER"}
DARK = {"VERB": "__", "NOUN": "__"}
# The rope SENDS has written PROG 12 twice, and jumps to itself.
SENT = {**BLANK, "PROG": "12"}
REGISTERS = "A 154171 L 00000 Q 000000 Z 5006 EB 0 FB 00"
# Its last boundaries, with names, before it stops at cycle 11: two turns of the loop are one line. 5020 is 13 octal beyond 5005.
LAST = [
    " 0 4000 START        15000 TCF SEND | A 000000 L 00000 Q 000000 Z 5001 EB 0 FB 00",
    " 1 5000 SEND         35020 CA IDLE +11 | A 154171 L 00000 Q 000000 Z 5002 EB 0 FB 00",
    " 3 5001 SEND +1      00006 EXTEND | A 154171 L 00000 Q 000000 Z 5003 EB 0 FB 00",
    " 4 5002 SEND +2      01010 WRITE 010 > 010 54171 | A 154171 L 00000 Q 000000 Z 5004 EB 0 FB 00",
    " 6 5003 SEND +3      00006 EXTEND | A 154171 L 00000 Q 000000 Z 5005 EB 0 FB 00",
    f" 7 5004 SEND +4      01010 WRITE 010 > 010 54171 | {REGISTERS}",
    f" 10 5005 IDLE         15005 TCF IDLE x 2 | {REGISTERS}",
    f" 11 - stop Limit | {REGISTERS}",
]
INSPECTOR = [*LAST, f" {REGISTERS} BB 00000", " next - stop Limit"]
# The tables of the places in WATCH, after these pokes: bits 14 to 10 of 20000 are 20, those of 77777 less 46777 are 31.
WATCH = "0,100,2,0,130,0,140"
POKES = [(0o110, 0o2345), (0o111, 0o60101), (0o113, 0o20000), (0o124, 0o4000), (0o127, 0o46777), (0o130, 0o144), (0o137, 0o77775),
         (0o140, 0o4321), (0o141, 0o10103), (0o160, 0o5003)]
TABLES = [
    "SET 0 READY 20 LOC 02345 BANKSET 60101",
    "SET 1 ASLEEP 31 LOC 04000 BANKSET 00000",
    "LST1 00144 00000 00000 00000 00000 00000 00000 77775",
    "LST2 0 04321 10103",
    *(f"LST2 {number} 00000 00000" for number in range(1, 8)),
    "LST2 8 05003 00000",
]


def stopped(limit, hint):
    """The lines below the keys of a machine that has stopped at its limit."""
    return below(limit, "max", hint, " STOP Limit")


def with_lines(lines, size, hint):
    """Those of the machine that has stopped at cycle 11, with lines in between, each up to the last column but one."""
    cycle, speed, last = stopped(11, hint)
    return [cycle, *(line[:size[1] - 1].rstrip() for line in lines), speed, last]


def too_small(size):
    """A terminal without room."""
    picture = Picture(*size)
    picture.put(0, 0, "terminal too small:")
    picture.put(1, 0, f"{size[1]} x {size[0]}, need 58 x 14")
    return picture


def pictures():
    """The pictures by their names, with all lines."""
    drawn = {}
    for size, name, hint in ((LARGE, "large", LONG_HINT), (SMALL, "small", SHORT_HINT)):
        lines, is_large = stopped(100000, hint), size == LARGE
        drawn[f"all-{name}"] = picture_of(ALL, size, lines, is_large)
        drawn[f"all-{name}-dark"] = picture_of({**ALL, **DARK}, size, lines, is_large)
        drawn[f"none-{name}"] = picture_of(NONE, size, lines, is_large)
        drawn[f"half-{name}"] = picture_of(HALF, size, lines, is_large)
    drawn["inspector"] = picture_of(SENT, LARGE, with_lines(INSPECTOR, LARGE, LONG_HINT), False)
    drawn["no-room"] = picture_of(SENT, SMALL, stopped(11, " 2 more lines: enlarge the terminal"), False)
    drawn["tables"] = picture_of(SENT, HIGH, with_lines(TABLES, HIGH, LONG_HINT), False)
    drawn["found"] = picture_of(BLANK, LARGE, below(4, "max", " found: just before a change of the panel"), True)
    drawn["key"] = picture_of(BLANK, LARGE, below(4, "max", LONG_HINT), True)
    drawn["key"].put(18, 0, KEYS[0].replace("  VERB ", " [VERB]"))
    drawn["key"].put(22, 0, below(4, "max", "")[1] + "  KEYS WAITING 2")
    drawn["too-small"] = too_small((13, 80))
    drawn["too-narrow"] = too_small((24, 57))
    return drawn


def stored_text(picture, is_coloured=True):
    """The text of a picture's file, from a painted picture or a screen."""
    colours = picture.colour_text() if is_coloured else ""
    return f"{picture.text()}\n{COLOURS}\n{colours}\n"


def main():
    for name, picture in pictures().items():
        with open(os.path.join(FOLDER, name), "w", encoding="utf-8") as file:
            file.write(stored_text(picture))


if __name__ == "__main__":
    sys.exit(main())
