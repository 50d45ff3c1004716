"""Reads a file of quantities and evaluates words by it: exactly, by fractions.

Written from the rules of docs/study/sample.md alone, for the judges. The words of cells come from elsewhere.
"""

import functools
import re
from fractions import Fraction
from typing import Dict, List, NamedTuple, Optional, Tuple

SIZES = {"single": 1, "double": 2, "triple": 3, "vector": 6, "unsigned": 1, "bits": 1, "octal": 1}
BITS = ("bits", "octal")  # kinds that take some bits of a word
BANK = 0o400
FIXED = -1  # of a name in fixed memory
OWN_NAMES = {
    "A": 0, "L": 1, "Q": 2, "EB": 3, "FB": 4, "Z": 5, "BB": 6, "CYR": 0o20, "SR": 0o21, "CYL": 0o22, "EDOP": 0o23,
    "TIME2": 0o24, "TIME1": 0o25, "TIME3": 0o26, "TIME4": 0o27, "TIME5": 0o30, "TIME6": 0o31, "CDUX": 0o32, "CDUY": 0o33, "CDUZ": 0o34,
    "PIPAX": 0o37, "PIPAY": 0o40, "PIPAZ": 0o41, "INLINK": 0o45, "RNRAD": 0o46,
}


class Quantity(NamedTuple):
    """A quantity: its name, its first cell, its kind, and the value of a full word, or the bits that count."""

    name: str
    cell: int
    kind: str
    full: Fraction
    bits: Tuple[int, int]
    unit: str

    @property
    def size(self) -> int:
        return SIZES[self.kind]

    @property
    def columns(self) -> List[str]:
        """The names of its columns."""
        return [f"{self.name}.{axis}" for axis in "xyz"] if self.kind == "vector" else [self.name]

    def texts(self, words: List[int], zeros: bool = False) -> List[str]:
        """Returns what its columns print for its words."""
        if self.kind == "vector":
            return [fraction_text(*worth(words[at:at + 2], self.full), is_minus_zero(words[at], zeros)) for at in (0, 2, 4)]
        if self.kind in BITS:
            high, low = self.bits
            number = words[0] // 2 ** (low - 1) % 2 ** (high - low + 1)
            return [f"{number:0{(high - low) // 3 + 1}o}" if self.kind == "octal" else str(number)]
        if self.kind == "unsigned":
            return [fraction_text(words[0] * self.full / 2**15, self.full / 2**15)]
        return [fraction_text(*worth(words, self.full), is_minus_zero(words[0], zeros))]


def is_minus_zero(word: int, zeros: bool) -> bool:
    """Whether a value of zero with this first word prints as -0."""
    return zeros and word == 0o77777


def signed(word: int) -> int:
    """Returns the number of a word in ones' complement."""
    return word - 0o77777 if word >= 0o40000 else word


def worth(words: List[int], full: Fraction) -> Tuple[Fraction, Fraction]:
    """Returns the value of one to three words, upper word first, and what the last place of the lowest one is worth."""
    value, place = Fraction(0), full
    for word in words:
        place /= 2**14
        value += signed(word) * place
    return value, place


def fraction_text(value: Fraction, step: Fraction, minus_zero: bool = False) -> str:
    """Returns the shortest decimal that is less than half a step away from a value."""
    if value == 0:
        return "-0" if minus_zero else "0"
    size, half, digits = abs(value), step / 2, 0
    while True:
        below = size * 10**digits // 1
        under = size - Fraction(below, 10**digits)
        distance, number = min((under, below), (Fraction(1, 10**digits) - under, below + 1))
        if distance < half:
            text = str(number).rjust(digits + 1, "0")
            whole = f"{text[:-digits]}.{text[-digits:]}" if digits else text
            return f"-{whole}" if value < 0 else whole
        digits += 1


def seconds_text(cycle: int) -> str:
    """Returns the seconds of a cycle as their column prints them."""
    return fraction_text(Fraction(3 * cycle, 256000), Fraction(3, 256000))


def cell_of(place: str, names: Dict[str, int]) -> Optional[int]:
    """Returns the erasable cell of a place: a name, a name and words after it, or octal; None if it is none."""
    if re.fullmatch(r"[0-7]{1,4}", place) and int(place, 8) < 0o1400:
        return int(place, 8)
    banked = re.fullmatch(r"E([0-7]),([0-7]{1,4})", place)
    if banked:
        address = int(banked[2], 8)
        return BANK * int(banked[1]) + address - 0o1400 if 0o1400 <= address < 0o2000 else None
    if place in names or place in OWN_NAMES:
        cell = names.get(place, OWN_NAMES.get(place))
        return None if cell == FIXED else cell
    counted = re.fullmatch(r"(.+)([+-][0-9]+)", place)
    return names[counted[1]] + int(counted[2]) if counted and names.get(counted[1], FIXED) != FIXED else None


def scale_of(kind: str, text: str) -> Tuple[Fraction, Tuple[int, int]]:
    """Returns the value of a full word, or the bits, that a scale names."""
    if kind in BITS:
        high, _, low = text.partition("-")
        return Fraction(1), (int(high), int(low or high))
    return (Fraction(2) ** int(text[1:]) if text[0] == "B" else Fraction(text)), (0, 0)


def read(text: str, names: Dict[str, int]) -> List[Quantity]:
    """Returns the quantities of a file without faults."""
    found = []
    for line in text.splitlines():
        fields = line.partition("#")[0].split()
        if fields:
            name, place, kind, scale, *unit = fields
            cell = cell_of(place, names)
            assert cell is not None, line
            found.append(Quantity(name, cell, kind, *scale_of(kind, scale), "".join(unit)))
    return found


def heading(quantities: List[Quantity]) -> str:
    """Returns the first line."""
    return ",".join(["cycle", "seconds", *(column for each in quantities for column in each.columns)])


def row(cycle: int, quantities: List[Quantity], words: Dict[int, int], zeros: bool) -> str:
    """Returns the line of a state with these words of cells."""
    texts = [text for each in quantities for text in known_texts(each, tuple(words[each.cell + n] for n in range(each.size)), zeros)]
    return ",".join([str(cycle), seconds_text(cycle), *texts])


@functools.lru_cache(maxsize=None)
def known_texts(quantity: Quantity, words: Tuple[int, ...], zeros: bool) -> List[str]:
    """Returns what a quantity's columns print for its words. Cells change seldom."""
    return quantity.texts(list(words), zeros)


def names_of(text: str) -> Dict[str, int]:
    """Returns the erasable cells of a file of names, and FIXED for other places."""
    found: Dict[str, int] = {}
    for line in text.splitlines():
        fields = line.partition("#")[0].split()
        if len(fields) == 2:
            banked = re.fullmatch(r"E([0-7]),([0-7]{4})", fields[0])
            if banked:
                address = int(banked[2], 8)
                cell = BANK * int(banked[1]) + address - 0o1400 if address >= 0o1400 else address
                found.setdefault(fields[1], cell)
            elif re.fullmatch(r"0[0-7]{3}|1[0-3][0-7]{2}", fields[0]):
                found.setdefault(fields[1], int(fields[0], 8))
            elif fields[0][0] != "C":
                found.setdefault(fields[1], FIXED)
    return found
