"""Paints the whole screen that agc-dsky should show, from a panel as agc prints it: docs/DSKY.md in two sizes, with colours.

Digits are made of the segments that screen.py reads them by. All places are columns of a terminal, from 0 on.
"""

from screen import DIGITS, DIM, GREEN, LAMPS, MEETING, WAYS, WHITE, YELLOW, visible

CHARS = {"".join(sorted(ways)): char for char, ways in WAYS.items()}
PLUS, MINUS = [" ╻ ", "╺╋╸", " ╹ "], ["   ", "╺━╸", "   "]
KEYS = [
    "  VERB  +  7  8  9  CLR     ENTR",
    "  NOUN  -  4  5  6  PRO     RSET",
    "        0  1  2  3  KEYREL",
]
LONG_HINT = " v n c k r p Enter 0-9+-  space . Backspace < >  u w d b U W D B  i t s  q quit"
SHORT_HINT = " v n c k r p Enter 0-9+- space . < > u w d b i t s q quit"
# Where the digits are: line and column of the names and of the first digit, in the large picture and in the small one.
LARGE_PAIRS = {"PROG": (0, 46, 1, 46), "VERB": (4, 30, 5, 30), "NOUN": (4, 46, 5, 46)}
LARGE_REGISTERS = {"R1": (8, 30), "R2": (11, 30), "R3": (14, 30)}
SMALL_FIELDS = {"PROG": (0, 46), "VERB": (2, 30), "NOUN": (2, 46), "R1": (4, 30), "R2": (5, 30), "R3": (6, 30)}
# The lamps that are cautions, and the columns of a lamp: its mark, the longest words, a space.
CAUTIONS = {"TEMP", "GIMBAL LOCK", "PROG", "TRACKER", "ALT", "VEL"}
LAMP_COLUMNS = 13


def glyph(digit):
    """The three lines of a digit or a sign."""
    if digit in "+-":
        return PLUS if digit == "+" else MINUS
    lit = DIGITS[digit]
    return ["".join(CHARS["".join(sorted(way for way, segment in place.items() if segment in lit))] for place in row) for row in MEETING]


class Picture:
    """A screen to paint on."""

    def __init__(self, lines, columns):
        self.rows = [[" "] * columns for _ in range(lines)]
        self.colours = [[""] * columns for _ in range(lines)]

    def put(self, y, x, text, colour=""):
        self.rows[y][x:x + len(text)] = text
        self.colours[y][x:x + len(text)] = [colour] * len(text)

    def put_digits(self, y, x, digits):
        for at, digit in enumerate(digits):
            for row, text in enumerate(glyph(digit)):
                self.put(y + row, x + 4 * at, text, GREEN)

    def text(self):
        return "\n".join("".join(row).rstrip() for row in self.rows)

    def colour_text(self):
        return visible(self.rows, self.colours)


def picture_of(panel, size, below, is_large):
    """The screen of a panel; `below` is what stands below the keys: the cycle, then the other lines."""
    picture = Picture(*size)
    for name, (large, small, x) in LAMPS.items():
        is_on = name in panel["LAMPS"].split(", ")
        colour = (YELLOW if name in CAUTIONS else WHITE) if is_on else DIM
        picture.put(large if is_large else small, x, (("*" if is_on else " ") + name).ljust(LAMP_COLUMNS), colour)
    if is_large:
        for name, (y, x, first, left) in LARGE_PAIRS.items():
            picture.put(y, x, name)
            picture.put_digits(first, left, panel[name])
        for name, (y, x) in LARGE_REGISTERS.items():
            picture.put_digits(y, x, panel[name])
    else:
        for name, (y, x) in SMALL_FIELDS.items():
            picture.put(y, x, f"{name} ")
            picture.put(y, x + len(name) + 1, panel[name], GREEN)
    first = 18 if is_large else 8
    for at, row in enumerate([*KEYS, *below]):
        picture.put(first + at, 0, row)
    return picture


def painted(panel, size, below, is_large):
    """The letters of that screen."""
    return picture_of(panel, size, below, is_large).text()


def below(cycle, speed, hint, why=""):
    """The lines below the keys while time is stopped; `why` is why the machine has stopped."""
    tenths = cycle * 12 // 102400
    return [f" CYCLE {cycle}{why}", f" TIME {tenths // 10}.{tenths % 10} s  SPEED {speed}  PAUSED", hint]
