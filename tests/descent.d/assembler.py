"""A second assembler for descent.agc, in two passes. It shares no table and no code with agc-study: its order codes are those
of the published instruction set of the Block II computer.

It knows the directives that the source uses. Numbers are octal but for those of DEC, 2DEC and VN. An address is counted
as in the listings: 0 to 3777 are the erasable banks, and the offset o of fixed bank b is at 10000 + 2000 b + o; fixed
banks 2 and 3 are also at 4000 and 6000.
"""

from fractions import Fraction

FIXED = 0o10000
FILE_BANKS = [2, 3, 0, 1, *range(4, 36)]  # the order of the banks in a rope file

# The word of each order with address 0, and what its address may be: any of twelve bits, an erasable one of ten, a fixed
# one, a channel, or none. DAS, DXCH, DCA and DCS have the address after that of the listing.
ANY, ERASABLE, IN_FIXED, CHANNEL, NOTHING = range(5)
BASIC = {
    "TC": (0o00000, ANY), "CCS": (0o10000, ERASABLE), "TCF": (0o10000, IN_FIXED), "DAS": (0o20001, ERASABLE),
    "LXCH": (0o22000, ERASABLE), "INCR": (0o24000, ERASABLE), "ADS": (0o26000, ERASABLE), "CA": (0o30000, ANY),
    "CS": (0o40000, ANY), "INDEX": (0o50000, ERASABLE), "DXCH": (0o52001, ERASABLE), "TS": (0o54000, ERASABLE),
    "XCH": (0o56000, ERASABLE), "AD": (0o60000, ANY), "MASK": (0o70000, ANY), "RELINT": (0o00003, NOTHING),
    "INHINT": (0o00004, NOTHING), "EXTEND": (0o00006, NOTHING), "RESUME": (0o50017, NOTHING),
    "COM": (0o40000, NOTHING), "DOUBLE": (0o60000, NOTHING), "DDOUBL": (0o20001, NOTHING), "ZL": (0o22007, NOTHING),
    "DTCB": (0o52006, NOTHING),
}  # fmt: skip
EXTRA = {
    "READ": (0o00000, CHANNEL), "WRITE": (0o01000, CHANNEL), "RAND": (0o02000, CHANNEL), "WAND": (0o03000, CHANNEL),
    "ROR": (0o04000, CHANNEL), "WOR": (0o05000, CHANNEL), "RXOR": (0o06000, CHANNEL), "DV": (0o10000, ERASABLE),
    "BZF": (0o10000, IN_FIXED), "MSU": (0o20000, ERASABLE), "QXCH": (0o22000, ERASABLE), "AUG": (0o24000, ERASABLE),
    "DIM": (0o26000, ERASABLE), "DCA": (0o30001, ANY), "DCS": (0o40001, ANY), "INDEX": (0o50000, ANY),
    "SU": (0o60000, ERASABLE), "BZMF": (0o60000, IN_FIXED), "MP": (0o70000, ANY), "DCOM": (0o40001, NOTHING),
    "SQUARE": (0o70000, NOTHING),
}  # fmt: skip
CELLS = {
    "A": 0o0, "L": 0o1, "Q": 0o2, "EBANK": 0o3, "FBANK": 0o4, "Z": 0o5, "BBANK": 0o6, "ZERO": 0o7, "ARUPT": 0o10,
    "LRUPT": 0o11, "QRUPT": 0o12, "ZRUPT": 0o15, "BBRUPT": 0o16, "BRUPT": 0o17, "CYR": 0o20, "SR": 0o21, "CYL": 0o22,
    "EDOP": 0o23, "TIME2": 0o24, "TIME1": 0o25, "TIME3": 0o26, "TIME4": 0o27, "TIME5": 0o30, "TIME6": 0o31, "CDUX": 0o32,
    "CDUY": 0o33, "CDUZ": 0o34, "PIPAX": 0o37, "PIPAY": 0o40, "PIPAZ": 0o41, "INLINK": 0o45, "RNRAD": 0o46,
}  # fmt: skip
TWO_WORDS = {"2OCT", "2DEC", "2CADR"}
WITHOUT_WORDS = {"EQUALS", "EBANK=", "SETLOC", "BANK", "ERASE"}


class Fault(Exception):
    """A line that the assembler does not take."""


def field(address):
    """Returns the twelve bits by which an order names an address, and the bank that must be switched on: None, E or F and its
    number."""
    if address >= FIXED:
        bank, offset = divmod(address - FIXED, 0o2000)
        return (bank * 0o2000 + offset, None) if bank in (2, 3) else (0o2000 + offset, f"F{bank:o}")
    if address >= 0o4000 or address < 0o1400:
        return address, None
    return 0o1400 + address % 0o400, f"E{address // 0o400:o}"


def place_of(address):
    """Returns a place in the form BANK,ADDRESS."""
    if address >= FIXED:
        return f"{(address - FIXED) // 0o2000:02o},{field(address)[0]:04o}"
    return f"E{address // 0o400:o},{field(address)[0]:04o}"


def file_place(number):
    """Returns the place of a word of a rope file."""
    return place_of(FIXED + 0o2000 * FILE_BANKS[number // 0o2000] + number % 0o2000)


def octal(text):
    """Returns an octal number."""
    if not text or set(text) - set("01234567"):
        raise Fault(f"{text} is no octal number")
    return int(text, 8)


def scaled(text, digits):
    """Returns a decimal number as its sign and its magnitude of some binary digits: a whole number, or with a point a fraction."""
    value = Fraction(text)
    magnitude = abs(value) * 2**digits + Fraction(1, 2) if "." in text else abs(value)
    return value < 0, int(magnitude)


class Assembler:
    """One source: its symbols after the first pass, its words after the second."""

    def __init__(self, source):
        self.lines = [parsed for parsed in map(split, source.splitlines()) if parsed[1]]
        self.symbols = dict(CELLS)
        self.words = {}  # the words by their addresses
        self.erasable_bank = 0
        self.ends = {}  # the address behind the last word of each fixed bank
        self.place = 0
        self.extracode = False
        for label, order, operands in self.lines:
            self.name(label, order, operands)
            self.move(order, operands)
        self.ends, self.place = {}, 0
        for _, order, operands in self.lines:
            for more, word in enumerate(self.woven(order, operands)):
                if self.place + more in self.words:
                    raise Fault(f"{self.place + more:o} has two words")
                self.words[self.place + more] = word
            self.move(order, operands)

    def name(self, label, order, operands):
        """Enters a label into the symbols."""
        if not label:
            return
        if label in self.symbols:
            raise Fault(f"{label} is defined twice")
        self.symbols[label] = ("later", operands) if order == "EQUALS" else self.place

    def move(self, order, operands):
        """Moves the place behind a line."""
        if order == "SETLOC":
            self.place = octal(operands[0])
            if 0o4000 <= self.place < 0o10000:
                self.place += FIXED
        elif order == "BANK":
            bank = octal(operands[0])
            self.place = self.ends.get(bank, FIXED + 0o2000 * bank)
        elif order == "ERASE":
            self.place += 1 + (octal(operands[0].lstrip("+")) if operands else 0)
        elif order not in WITHOUT_WORDS:
            self.place += 1 + (order in TWO_WORDS)
            self.ends[(self.place - 1 - FIXED) // 0o2000] = self.place

    def address(self, operands):
        """Returns the address that operands name."""
        if not operands or len(operands) > 2:
            raise Fault(f"operands {operands}")
        first, more = operands[0], operands[1:]
        if first in self.symbols:
            value = self.symbols[first]
            value = self.address(value[1]) if isinstance(value, tuple) else value
        elif first[0] in "+-":
            value, more = self.place, [first]
        else:
            value = octal(first)
        for offset in more:
            value += octal(offset[1:]) * (1 if offset[0] == "+" else -1)
        return value

    def woven(self, order, operands):
        """Returns the words of a line."""
        if order in WITHOUT_WORDS:
            if order == "EBANK=":
                self.erasable_bank = self.address(operands) // 0o400
            return []
        if order in BASIC or order in EXTRA:
            return [self.order(order, operands)]
        if self.extracode:
            raise Fault(f"{order} after EXTEND")
        return self.constant(order, operands)

    def order(self, order, operands):
        """Returns the word of an order."""
        table = EXTRA if self.extracode else BASIC
        if order not in table:
            raise Fault(f"{order} {'after' if self.extracode else 'without'} EXTEND")
        self.extracode = order == "EXTEND" or self.extracode and order == "INDEX"
        word, kind = table[order]
        if kind == NOTHING:
            return word
        address = self.address(operands)
        if kind == CHANNEL:
            if address >= 0o1000:
                raise Fault(f"channel {address:o}")
            return word + address
        bits, bank = field(address)
        here = field(self.place)[1]
        if bank is not None and bank not in (here, f"E{self.erasable_bank:o}"):
            raise Fault(f"{order} {operands} is of bank {bank}, here is {here}")
        if kind == ERASABLE and bits >= 0o2000 or kind == IN_FIXED and bits < 0o2000:
            raise Fault(f"{order} {operands} is in the wrong memory")
        return word + bits

    def constant(self, order, operands):
        """Returns the words of a constant."""
        if order == "OCT":
            return [octal(operands[0])]
        if order == "2OCT":
            return [octal(operands[0][:5]), octal(operands[0][5:])]
        if order == "VN":
            verb, noun = divmod(int(operands[0]), 100)
            return [verb * 128 + noun]
        if order in ("DEC", "2DEC"):
            digits = 14 * (1 + (order == "2DEC"))
            minus, magnitude = scaled(operands[0], digits)
            parts = [magnitude] if order == "DEC" else [magnitude >> 14, magnitude & 0o37777]
            return [part ^ 0o77777 if minus else part for part in parts]
        address = self.address(operands)
        bits = field(address)[0]
        bank, offset = divmod(address - FIXED, 0o2000)
        if order == "ADRES":
            return [bits]
        if order == "-ADRES":
            return [bits ^ 0o77777]
        if order == "CADR":
            return [bank * 0o2000 + offset]
        if order == "2CADR":
            # the superbank is 4 for banks 40 to 43, and they have FB 30 to 33; it is 3 for banks 30 to 37
            superbank = 0 if bank < 0o30 else 3 if bank < 0o40 else 4
            return [bits, (bank - 8 * (bank >= 0o40)) * 0o2000 + superbank * 0o20 + self.erasable_bank]
        raise Fault(f"{order} is unknown")

    def places(self):
        """Returns the place of each name, as a names file has it."""
        places = {}
        for name in self.symbols:
            if name not in CELLS:
                places[name] = place_of(self.address([name]))
        return places

    def rope(self):
        """Returns the bytes of the rope file: the upper fifteen bits of each word are its data."""
        words = []
        for bank in FILE_BANKS:
            words += [self.words.get(FIXED + 0o2000 * bank + offset, 0) for offset in range(0o2000)]
        while words and words[-1] == 0:
            words.pop()
        return b"".join((2 * word).to_bytes(2, "big") for word in words)


def split(line):
    """Returns a line's label, order and operands."""
    words = line.split("#")[0].split()
    label = words.pop(0) if line[:1].strip() and words else ""
    return label, words[0] if words else "", words[1:]
