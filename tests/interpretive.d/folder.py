"""A flight program's size: a folder of 90 files and 60,000 lines from a seed, half of its words interpretive, with their words.

    folder.py SEED FOLDER     writes the files main.agc and B02.agc .. there, and prints the places and words

The interpretive words come from `language`, the basic ones from the table here.
"""

import random
import sys
from pathlib import Path

import generate

SEED = 11
LINES = 60_000
FILES = 90
BANKS = range(0o04, 0o44)
BASIC_WORDS = 500  # of a bank
PAIRS = 190  # of a bank, with their operands some as many words
CELL, PLACE = "cell", "place"
ORDERS = {
    "TC": (0o00000, PLACE), "TCF": (0o10000, PLACE), "CA": (0o30000, PLACE), "CS": (0o40000, PLACE), "AD": (0o60000, PLACE),
    "MASK": (0o70000, PLACE), "LXCH": (0o22000, CELL), "INCR": (0o24000, CELL), "ADS": (0o26000, CELL), "TS": (0o54000, CELL),
    "XCH": (0o56000, CELL),
}
"""Basic orders: the word without its address, and what they take."""


def basic(chance, bank):
    """Returns the basic lines of a bank from its place 2000 on, each with its word or None: every word has a label."""
    lines = []
    for at in range(BASIC_WORDS):
        label = f"L{bank:02o}/{at}"
        if chance.randrange(8) == 0:
            word = chance.randrange(0o100000)
            text = f"OCT\t{word:05o}"
        else:
            name, (word, kind) = chance.choice(list(ORDERS.items()))
            target = chance.randrange(BASIC_WORDS)
            cell = chance.randrange(0o60, 0o1400)
            text = f"{name}\t" + (f"L{bank:02o}/{target}" if kind == PLACE else f"{cell:o}")
            word += 0o2000 + target if kind == PLACE else cell
        lines.append((f"{label}\t\t{text}" + chance.choice(["", "\t# SO"]), word))
    return lines


def of_bank(seed, bank):
    """Returns the lines of a bank in two parts: basic and interpretive."""
    names, place, *words = split(generate.lines(seed + bank, PAIRS, bank))
    own = [(text.replace("K", f"K{bank:02o}", 1) if text[:1] == "K" else text.replace("T", f"T{bank:02o}", 1), word) for text, word in names]
    return [(f"\t\tBANK\t{bank:02o}", None), *basic(random.Random(seed + bank), bank)], [*own, *renamed(words, bank)]


def split(lines):
    """Returns the names of a page, the line of its place, and the others."""
    count = next(at for at, (text, _) in enumerate(lines) if "SETLOC" in text)
    return lines[:count], lines[count], *lines[count + 1:]


def renamed(lines, bank):
    """Returns the lines with the bank's own names as operands."""
    found = []
    for text, word in lines:
        fields = text.split("\t")
        if len(fields) > 3 and fields[3][:1] in ("K", "T") and fields[3][1:3].isdigit():
            fields[3] = f"{fields[3][0]}{bank:02o}{fields[3][1:]}"
        found.append(("\t".join(fields), word))
    return found


def write(seed, folder):
    """Writes the files, and returns each place with its word."""
    parts = [(f"B{bank:02o}{part}", lines) for bank in BANKS for part, lines in zip("AB", of_bank(seed, bank))]
    parts += [(f"NOTES{count}", []) for count in range(FILES - 1 - len(parts))]
    words = {}
    for bank, first in zip(BANKS, range(0, len(parts), 2)):
        woven = [word for _, lines in parts[first:first + 2] for _, word in lines if word is not None]
        words.update({f"{bank:02o},{0o2000 + at:04o}": f"{word:05o}" for at, word in enumerate(woven)})
    main = [f"${name}.agc\t# PART" for name, _ in parts]
    missing = LINES - len(main) - sum(len(lines) for _, lines in parts)
    comments, more = divmod(missing, len(parts))
    for count, (name, lines) in enumerate(parts):
        text = [f"# {name}, LINE {each}" for each in range(comments + (count < more))]
        Path(folder, f"{name}.agc").write_text("\n".join([*text, *(line for line, _ in lines)]) + "\n", "ascii")
    Path(folder, "main.agc").write_text("\n".join(main) + "\n", "ascii")
    return words


if __name__ == "__main__":
    for place, word in write(int(sys.argv[1]), sys.argv[2]).items():
        print(place, word)
