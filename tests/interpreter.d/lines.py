"""Another weaver of interpretive lines: it writes OCT for each, with the words of tests/interpretive.d's encoder, so that a weaver
of basic code alone makes the rope. The first time all these words are zeros, and the names of that rope then give the
places.
"""

import language

BASIC = ("SETLOC", "BANK", "EQUALS", "ERASE", "OCT", "2OCT", "DEC", "2DEC", "ADRES", "CADR", "BBCON", "TC", "TCF", "CA", "EXTEND")


def parts(line):
    """A line's label, its words, and the column of the first one."""
    text = line.split("#")[0].rstrip()
    words = text.split()
    label = words.pop(0) if text[:1].strip() else ""
    return label, words, len(text) - len(text[len(label):].lstrip()) if words else 0


def kinds(names):
    return [(name, kind) for name in names for kind in language.OPERATIONS[name][1]]


def due(words):
    """The operands that lines behind a line of operations bring, or None if it is none of these."""
    if words and words[0] in language.STORES:
        loaded = {"STORE": "", "STCALL": "b"}.get(words[0], "n" if words[0].endswith("*") else "a")
        return [(words[0], kind) for kind in loaded]
    if words and all(word in language.OPERATIONS for word in words):
        return kinds(words)
    return None


class Places:
    """The places of names: a cell's address, or a fixed place."""

    def __init__(self, names):
        self.cells, self.fixed = {}, {}
        for line in names.splitlines():
            place, name = line.split()
            bank, _, offset = place.rpartition(",")
            address = int(offset, 8) if place[0] != "C" else 0
            if bank.startswith("E"):
                self.cells[name] = address if address < 0o1400 else int(bank[1:]) * 0o400 + address - 0o1400
            elif place[0] != "C":
                self.fixed[name] = int(bank, 8) * 0o2000 + address % 0o2000 if address < 0o4000 else address

    def find(self, words):
        """The place that an operand names, whether it is in fixed memory, and its index register."""
        text, _, index = "".join(words).partition(",")
        name, sign, more = text.partition("+") if "+" in text[1:] else (text, "+", "0")
        if "-" in text[1:]:
            name, sign, more = text.partition("-")
        offset = number(more) * (1 if sign == "+" else -1)
        if name in self.fixed:
            return self.fixed[name] + offset, True, int(index or 0)
        return (self.cells[name] if name in self.cells else number(name)) + offset, False, int(index or 0)


def number(text):
    return int(text[:-1]) if text.endswith("D") else int(text, 8)


def operand(kind, name, place, fixed, index):
    if kind in "and":
        return language.address(place, fixed, index)
    if kind == "s":
        return language.shift(name, place, index)
    if kind == "w":
        return language.switch(name, place)
    if kind == "k":
        return language.constant(place)
    return language.cadr(place)


def woven(text, places=None):
    """The text with OCT for its interpretive lines."""
    lines, wanted, is_complement = [], [], False
    for line in text.splitlines():
        label, words, column = parts(line)
        more = due(words)
        if wanted and words and (column >= 24 or more is None and words[0] not in BASIC):
            (name, kind), word = wanted.pop(0), 0
            if places:
                word = operand(kind, name, *places.find(words))
        elif more is not None:
            wanted, word = more, 0
            if words[0] in language.STORES:
                if places:
                    cell, _, index = places.find(words[1:])
                    word = language.store(words[0], cell, index) ^ (0o77777 if is_complement else 0)
                is_complement = False
            else:
                word, is_complement = language.pair(*words), words[-1] == "STADR"
        else:
            lines.append(line)
            continue
        lines.append(f"{label:8} OCT    {word:05o}")
    return "\n".join(lines) + "\n"
