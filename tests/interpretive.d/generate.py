"""Random lines of the interpretive language from a seed, with their words by `language`.

    generate.py SEED [PAIRS] [BANK]     prints a page and, as comments behind it, its places and words

A page begins with names for places that its lines use. Each line is (text, word): a line has one word, or none.
"""

import random
import sys

import language
from language import LAST, OPERATIONS, STORES

LINES_OF_A_BANK = 0o1700


class Writer:
    """Writes lines of one bank of fixed memory."""

    def __init__(self, seed, bank):
        self.random = random.Random(seed)
        self.is_high = bank >= 0o20
        first = 0o22 if self.is_high else 0o04
        last = 0o43 if self.is_high else 0o17
        self.names = {}
        for bank_of_name in range(first, last + 1):
            self.names[f"K{bank_of_name:02o}"] = 0o2000 * bank_of_name + self.random.randrange(0o1777)
        self.targets = {f"T{each:02o}": 0o2000 * each + self.random.randrange(0o2000) for each in range(0o02, 0o44)}
        self.lines = []

    def header(self):
        """The names of places: fixed bank b begins at 10000 + 2000 b."""
        return [(f"{name}\t\tEQUALS\t{0o10000 + place:o}", None) for name, place in {**self.names, **self.targets}.items()]

    def add(self, operation, operand, word):
        comment = self.random.choice(["", "", "", "\t# SO", "#"])
        self.lines.append((f"\t\t{operation}\t{operand}{comment}".rstrip("\t"), word))
        if self.random.randrange(9) == 0:
            self.lines.append((self.random.choice(["", "# A COMMENT, AND NO OPERAND", "\t\t\t# SO"]), None))

    def cell(self):
        cell = self.random.choice([self.random.randrange(0o55), self.random.randrange(0o100, 0o4000)])
        return self.random.choice([f"{cell:o}", f"{cell}D"]), cell

    def place(self, index):
        """An address: the operand's text and word."""
        if self.random.randrange(2):
            text, cell = self.cell()
            word = language.address(cell, False, index)
        else:
            text = self.random.choice(list(self.names))
            word = language.address(language.cadr(self.names[text]), True, index)
        return text + (f",{index}" if index else ""), word

    def operand(self, kind, name):
        index = self.random.choice([1, 2]) if name.endswith("*") and kind in "ans" else 0
        if kind in "and":
            return self.place(index)
        if kind == "s":
            places = self.random.randrange(-9, 30) if index else self.random.randrange(30)
            text = f"{places}D" if places >= 0 else f"0 -{-places}D"
            return text + (f",{index}" if index else ""), language.shift(name, places, index)
        if kind == "w":
            number = self.random.randrange(180)
            return f"{number}D", language.switch(name, number)
        if kind == "k":
            number = self.random.randrange(-0o400, 0o4000)
            return (f"{number:o}" if number >= 0 else f"-{-number}D"), language.constant(number)
        if kind == "e" or (kind == "b" and self.random.randrange(4) == 0):
            return self.cell()
        text = self.random.choice(list(self.targets))
        return text, language.cadr(self.targets[text])

    def operands(self, names, may_miss):
        """Writes the operands of operations; the last addresses may be left out."""
        wanted = [(kind, name) for name in names for kind in OPERATIONS[name][1]]
        written = len(wanted)
        while may_miss and written and wanted[written - 1][0] == "a" and self.random.randrange(3) == 0:
            written -= 1
        for kind, name in wanted[:written]:
            text, word = self.operand(kind, name)
            self.add("", text, word)
        return written < len(wanted)

    def pair(self, may_miss):
        """Writes a line of operations; returns whether one pops its operand."""
        plain = [name for name in OPERATIONS if name != "STADR"]
        names = [self.random.choice(plain) for _ in range(self.random.choice([1, 2, 2]))]
        self.add(names[0], names[1] if len(names) > 1 else "", language.pair(*names))
        return self.operands(names, may_miss)

    def store(self, is_complement):
        name = self.random.choice(list(STORES))
        text, cell = self.cell()
        index = self.random.choice([0, 1, 2]) if name == "STORE" else 0
        if name == "STCALL":  # its last cell is out of reach
            text, cell = f"{cell % 0o3777:o}", cell % 0o3777
        word = language.store(name, cell, index)
        self.add(name, text + (f",{index}" if index else ""), LAST - word if is_complement else word)
        if name == "STCALL":
            kind = "b"
        elif name == "STORE":
            return
        else:
            kind = "n" if name.endswith("*") else "a"
        text, word = self.operand(kind, name)
        self.add("", text, word)

    def stadr(self):
        left = self.random.choice(["", "DAD", "DMP", "VAD", "UNIT"])
        if left:
            self.add(left, "STADR", language.pair(left, "STADR"))
        else:
            self.add("STADR", "", language.pair("STADR"))
        self.store(True)


def lines(seed, pairs, bank):
    """The lines of a page of one bank, each with its word or None; the first sets the place."""
    writer = Writer(seed, bank)
    popped = False
    for _ in range(pairs):
        if sum(word is not None for _, word in writer.lines) > LINES_OF_A_BANK:
            break
        choice = writer.random.randrange(6)
        if choice == 0 and not popped:
            writer.store(False)
        elif choice == 1:
            writer.stadr()
            popped = False
        else:
            popped = writer.pair(True)
    writer.add("EXIT", "", language.pair("EXIT"))
    return writer.header() + [(f"\t\tSETLOC\t{0o10000 + 0o2000 * bank:o}", None)] + writer.lines


def main():
    seed = sys.argv[1]
    pairs = int(sys.argv[2]) if len(sys.argv) > 2 else 100
    bank = int(sys.argv[3], 8) if len(sys.argv) > 3 else 0o12
    page = lines(seed, pairs, bank)
    for text, _ in page:
        print(text)
    place = 0o2000
    for _, word in page:
        if word is not None:
            print(f"# {bank:02o},{place:04o} {word:05o}")
            place += 1


if __name__ == "__main__":
    main()
