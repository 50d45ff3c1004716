"""The screen of a terminal, of just the sequences that agc-dsky sends, and what a reader sees on it.

Any other sequence or control byte is kept as a fault. Where ?7 is set a line that is too long goes on in the next one, and
the screen rolls up, as a terminal does it; both are counted as `overruns`. Where it is not, such a line ends at the edge.
A drawing ends with a sequence J; `at_frame` is called at each.
"""

import re

# The segments of a digit: a above, b upper right, c lower right, d below, e lower left, f upper left, g in the middle.
DIGITS = {
    "_": "",
    "0": "abcdef",
    "1": "bc",
    "2": "abdeg",
    "3": "abcdg",
    "4": "bcfg",
    "5": "acdfg",
    "6": "acdefg",
    "7": "abc",
    "8": "abcdefg",
    "9": "abcdfg",
    "?": "abeg",
}

# Which ways a bar goes from the middle of its place: up, down, left, right.
WAYS = {
    " ": "", "╻": "d", "╹": "u", "┃": "ud", "╺": "r", "╸": "l", "━": "lr", "┏": "dr", "┓": "dl", "┗": "ur", "┛": "ul",
    "┣": "udr", "┫": "udl", "╋": "udlr",
}

# The places of a digit, three lines of three: the segments that meet there, by the way that they go from it. A bar
# that goes where no segment is fits no digit.
MEETING = [
    [{"d": "f", "r": "a"}, {"l": "a", "r": "a"}, {"d": "b", "l": "a"}],
    [{"u": "f", "d": "e", "r": "g"}, {"l": "g", "r": "g"}, {"u": "b", "d": "c", "l": "g"}],
    [{"u": "e", "r": "d"}, {"l": "d", "r": "d"}, {"u": "c", "l": "d"}],
]

# Lamps as the panel of agc lists them, and where they stand: on the large picture, on the small one, and the column.
LAMPS = {
    "COMP ACTY": (0, 0, 30),
    "UPLINK ACTY": (0, 0, 1),
    "NO ATT": (2, 1, 1),
    "TEMP": (0, 0, 14),
    "GIMBAL LOCK": (2, 1, 14),
    "PROG": (4, 2, 14),
    "KEY REL": (6, 3, 1),
    "OPR ERR": (8, 4, 1),
    "TRACKER": (8, 4, 14),
    "ALT": (10, 5, 14),
    "VEL": (12, 6, 14),
    "ISS": (12, 6, 1),
}

# The colours of a digit and of lamps that are on, cautions and others, or off, as sequences and as letters of a picture.
GREEN, WHITE, YELLOW, DIM = "1;32", "30;47", "30;43", "2"
INKS = {"": " ", GREEN: "g", WHITE: "W", YELLOW: "Y", DIM: "d"}

SEQUENCE = re.compile(r"\x1b\[(\??[0-9;]*)([A-Za-z])")
BEGUN_SEQUENCE = re.compile(r"\x1b(\[\??[0-9;]*)?\Z")


class Screen:
    """A terminal of this many lines and columns. What is written beside the alternate screen is kept as `plain` text."""

    def __init__(self, lines, columns):
        self.modes = {"?7", "?25"}
        self.colour = ""
        self.faults, self.colours, self.replies, self.plain = [], set(), b"", ""
        self.held = b""
        self.at_frame, self.overruns = None, 0
        self.sized(lines, columns)

    def sized(self, lines, columns):
        """Of another size from here on, with nothing on it."""
        self.lines, self.columns = lines, columns
        self.cells = [self.empty() for _ in range(lines)]
        self.y = self.x = 0

    def empty(self):
        return [(" ", "")] * self.columns

    def feed(self, data):
        """Takes what was written. The begin of a sequence, or of a letter, waits for its end."""
        self.held += data
        text = self.held.decode("utf-8", "replace") if len(self.held) > 1 << 20 else decoded(self.held)
        at = 0
        while at < len(text):
            if text[at] != "\x1b":
                self.put(text[at])
                at += 1
                continue
            found = SEQUENCE.match(text, at)
            if found:
                self.obey(found[1], found[2])
                at = found.end()
            elif BEGUN_SEQUENCE.match(text, at):
                break
            else:
                self.faults.append(repr(text[at : at + 8]))
                at += 1
        self.held = self.held[len(text[:at].encode()) :]

    def put(self, letter):
        if "?1049" not in self.modes:
            self.plain += letter
        elif letter == "\r":
            self.x = 0
        elif letter == "\n":
            self.down()
        elif letter < " " or letter == "\x7f":
            self.faults.append(repr(letter))
        else:
            if self.x == self.columns and "?7" not in self.modes:
                self.x -= 1
            if self.x == self.columns:
                self.overruns += 1
                self.x = 0
                self.down()
            self.cells[self.y][self.x] = (letter, self.colour)
            self.x += 1

    def down(self):
        if self.y < self.lines - 1:
            self.y += 1
        else:
            self.overruns += 1
            self.cells = self.cells[1:] + [self.empty()]

    def obey(self, words, kind):
        if kind == "m":
            self.colours.add(words)
            self.colour = "" if words in ("", "0") else words
        elif kind == "H":
            line, column = (int(word) for word in words.split(";")) if words else (1, 1)
            self.y, self.x = min(line, self.lines) - 1, min(column, self.columns) - 1
        elif kind == "K" and words == "":
            self.erase(self.y, self.x)
        elif kind == "J" and words in ("", "2"):
            if words == "":
                self.erase(self.y, self.x)
            for y in range(self.y + 1 if words == "" else 0, self.lines):
                self.cells[y] = self.empty()
            if self.at_frame:
                self.at_frame()
        elif kind == "n" and words == "6":
            self.replies += f"\x1b[{self.y + 1};{min(self.x, self.columns - 1) + 1}R".encode()
        elif kind in "hl" and words in ("?7", "?25", "?1049"):
            (self.modes.add if kind == "h" else self.modes.discard)(words)
        else:
            self.faults.append(f"CSI {words}{kind}")

    def erase(self, y, x):
        # Behind the last column a terminal's cursor still stands on it.
        for column in range(min(x, self.columns - 1), self.columns):
            self.cells[y][column] = (" ", "")

    def row(self, y):
        return "".join(letter for letter, _ in self.cells[y])

    def text(self):
        return "\n".join(self.row(y).rstrip() for y in range(self.lines))

    def colour_text(self):
        """The colours of all places, a letter each."""
        return visible(([letter for letter, _ in row] for row in self.cells), ([colour for _, colour in row] for row in self.cells))

    def colours_at(self, y, x, width):
        """The colours of some places of a line."""
        return {colour for _, colour in self.cells[y][x : x + width]}

    def is_large(self):
        return self.row(4)[30:].startswith("VERB            NOUN")

    def is_small(self):
        return self.row(2)[30:].startswith("VERB ") and self.row(4)[30:].startswith("R1 ")

    def pair(self, y, x):
        return self.digit(y, x) + self.digit(y, x + 4)

    def digit(self, y, x):
        """The digit, three lines high, whose first place is here; ! where the bars make none."""
        segments = set()
        for line, meeting in zip(range(y, y + 3), MEETING):
            for column, meets in zip(range(x, x + 3), meeting):
                for way in WAYS.get(self.cells[line][column][0], "none"):
                    segments.add(meets.get(way, "none"))
        return next((digit for digit, lit in DIGITS.items() if segments == set(lit)), "!")

    def sign(self, y, x):
        """The sign, three lines high, whose first place is here."""
        bars = "/".join(self.row(line)[x : x + 3] for line in range(y, y + 3))
        return {" ╻ /╺╋╸/ ╹ ": "+", "   /╺━╸/   ": "-", "   /   /   ": "_"}.get(bars, "!")

    def register(self, y, x):
        return self.sign(y, x) + "".join(self.digit(y, x + 4 * place) for place in range(1, 6))

    def fields(self):
        """The digits that are seen, in the form of agc's panel, or None without a picture."""
        if self.is_large():
            pairs = {"PROG": self.pair(1, 46), "VERB": self.pair(5, 30), "NOUN": self.pair(5, 46)}
            registers = {f"R{number}": self.register(5 + 3 * number, 30) for number in (1, 2, 3)}
            return {**pairs, **registers}
        if self.is_small():
            places = {"PROG": (0, 46, 2), "VERB": (2, 30, 2), "NOUN": (2, 46, 2), "R1": (4, 30, 6), "R2": (5, 30, 6), "R3": (6, 30, 6)}
            return {name: self.named(name, *place) for name, place in places.items()}
        return None

    def named(self, name, y, x, width):
        """What stands behind a name."""
        wanted = x + len(name) + 1
        return self.row(y)[wanted : wanted + width] if self.row(y)[x:wanted] == name + " " else "!"

    def lamps(self):
        """The lamps with a mark, those without words where they should stand as !."""
        lit = set()
        for name, (large, small, x) in LAMPS.items():
            row = self.row(large if self.is_large() else small)
            if row[x + 1 : x + 13] != f"{name:<12}":
                lit.add("!" + name)
            elif row[x] != " ":
                lit.add(name if row[x] == "*" else "!" + name)
        return lit

    def lamp_colours(self, name):
        large, small, x = LAMPS[name]
        return self.colours_at(large if self.is_large() else small, x, 12)

    def number(self, name):
        """The number behind a word of the picture, or None."""
        found = re.search(rf"(?m)\b{name} (\d+)", self.text())
        return int(found[1]) if found else None

    def cycle(self):
        found = re.search(r"(?m)^ CYCLE (\d+)(?: STOP \w+)?$", self.text())
        return int(found[1]) if found else None


def visible(rows, colours):
    """Lines of colours, a letter for each place. One without a background is not seen where no letter is."""
    lines = []
    for letters, row in zip(rows, colours):
        inks = [" " if letter == " " and colour in (GREEN, DIM) else INKS.get(colour, "!") for letter, colour in zip(letters, row)]
        lines.append("".join(inks).rstrip())
    return "\n".join(lines)


def decoded(data):
    """The text of bytes that may end within a letter."""
    for cut in range(4):
        try:
            return data[: len(data) - cut].decode("utf-8")
        except UnicodeDecodeError:
            pass
    return data.decode("utf-8", "replace")
