"""Programs in the interpretive language, as statements, and a rope that runs many of them.

A statement is Line (one or two operations and their operands), Store, or a label. Words are those of tests/interpretive.d's
encoder. An operand is a Number (a constant of the program), a cell's address, a label, or an int, as its operation wants.
"""

import language

FIRST, LAST_OF_BANK = 0o2000, 0o3700
LOW_BANKS, HIGH_BANKS = range(0o04, 0o20), range(0o22, 0o40)


class Number:
    """A constant in fixed memory, a list of single words."""

    def __init__(self, *words):
        self.words = words

    def __repr__(self):
        return "Number" + repr(tuple(f"{word:05o}" for word in self.words))


class Labels(Number):
    """A list of CADRs, for CGOTO and CCALL."""

    def __init__(self, *labels):
        super().__init__(*[0 for _ in labels])
        self.labels = labels


class At:
    """An operand with an index register, 1 or 2."""

    def __init__(self, place, index):
        self.place, self.index = place, index

    def __repr__(self):
        return f"{self.place},{self.index}"


class Line:
    """One or two operations, and their operands in order. None is an operand that is left out."""

    def __init__(self, names, *operands):
        self.names, self.operands = names.split(), operands

    def __repr__(self):
        return f"{' '.join(self.names)} {list(self.operands)}"


class Store:
    """A store, its address, and the operand that is loaded next."""

    def __init__(self, name, cell, *operands, complement=False):
        self.name, self.cell, self.operands, self.complement = name, cell, operands, complement

    def __repr__(self):
        return f"{self.name} {self.cell} {list(self.operands)}"


class Program:
    """A program: its statements, strings are labels, and what is to be looked at behind it."""

    def __init__(self, name, *statements):
        self.name, self.statements = name, [*statements, Line("EXIT")]

    def __repr__(self):
        return f"{self.name}: {self.statements}"


def pair_of(words):
    """A number of 28 digits, as its two words."""
    minus, size = words < 0, abs(words)
    parts = [size >> 14, size & 0o37777]
    return [part ^ 0o77777 if minus else part for part in parts]


def scalar(value):
    """A constant of two words: the nearest one."""
    return Number(*pair_of(round(value * 2**28)))


def triple(value):
    """A constant of three words."""
    number = round(value * 2**42)
    size = abs(number)
    parts = [size >> 28, size >> 14 & 0o37777, size & 0o37777]
    return Number(*[part ^ 0o77777 if number < 0 else part for part in parts])


def vector(*values):
    """A constant vector."""
    return Number(*[word for value in values for word in pair_of(round(value * 2**28))])


def matrix(*rows):
    """A constant matrix, row by row."""
    return vector(*[value for row in rows for value in row])


class Encoder:
    """The words of one program at a place."""

    def __init__(self, program, bank, offset):
        self.program, self.bank, self.offset = program, bank, offset
        self.numbers, self.labels = {}, {}
        self.words = self.woven()  # the first time for the places of labels and numbers
        place = self.place(len(self.words) + 1)  # behind the words and TC INTPRET
        for number in list(self.numbers):
            self.numbers[number] = place
            place += len(number.words)
        self.words = self.woven()
        self.tail = [word for number in self.numbers for word in self.constant(number)]

    def place(self, words):
        """The place of the program's word, counted behind TC INTPRET, in fixed memory."""
        return 0o2000 * self.bank + self.offset - FIRST + 1 + words

    def constant(self, number):
        return [self.labels[label] for label in number.labels] if isinstance(number, Labels) else number.words

    def woven(self):
        words = []
        for statement in self.program.statements:
            if isinstance(statement, str):
                self.labels[statement] = self.place(len(words))
            elif isinstance(statement, Store):
                words += self.store(statement)
            else:
                words.append(language.pair(*statement.names))
                operands = iter(statement.operands)
                for name in statement.names:
                    for kind in language.OPERATIONS[name][1]:
                        words += self.operand(kind, name, next(operands, None))
        return words

    def store(self, store):
        cell, index = (store.cell.place, store.cell.index) if isinstance(store.cell, At) else (store.cell, 0)
        word = language.store(store.name, cell, index)
        words = [0o77777 - word if store.complement else word]
        if store.name == "STCALL":
            return words + self.operand("b", "CALL", store.operands[0])
        if store.name != "STORE":
            words += self.operand("n" if store.name.endswith("*") else "a", store.name, store.operands[0])
        return words

    def operand(self, kind, name, operand):
        if operand is None:
            return []
        place, index = (operand.place, operand.index) if isinstance(operand, At) else (operand, 0)
        if kind in "and":
            if isinstance(place, int):
                return [language.address(place, False, index)]
            return [language.address(self.numbers.setdefault(place, 0), True, index)]
        if kind == "s":
            return [language.shift(name, place, index)]
        if kind == "w":
            return [language.switch(name, place)]
        if kind == "k":
            return [language.constant(place)]
        if isinstance(place, str):
            return [language.cadr(self.labels.get(place, 0o4000))]
        if isinstance(place, Number):
            return [language.cadr(self.numbers.setdefault(place, 0))]
        return [place]


def banks_full(programs, banks):
    """Puts programs into banks, one behind the other. Returns the place and the encoder of each."""
    placed, bank, offset = [], 0, FIRST
    for program in programs:
        encoder = Encoder(program, banks[bank], offset)
        if offset + len(encoder.words) + len(encoder.tail) + 2 > LAST_OF_BANK:
            bank, offset = bank + 1, FIRST
            encoder = Encoder(program, banks[bank], offset)
        placed.append(encoder)
        offset += len(encoder.words) + len(encoder.tail) + 2
    return placed


def text(placed):
    """The source of a rope's programs: the list of their places, and their words."""
    lines = ["        SETLOC  00,2200"]
    lines += [f"        OCT     {0o2000 * each.bank + each.offset - FIRST:05o}" for each in placed]
    lines[1] = "LIST" + lines[1][4:]
    lines.append("        OCT     0")
    for each in placed:
        place = f"{each.offset + 0o4000:o}" if each.bank == 3 else f"{each.bank:02o},{each.offset:04o}"
        lines.append(f"        SETLOC  {place}")
        lines.append("        TC      INTPRET")
        lines += [f"        OCT     {word:05o}" for word in each.words]
        lines.append("        TCF     DONE")
        lines += [f"        OCT     {word:05o}" for word in each.tail]
    return "\n".join(lines) + "\n"


FIXED_FIXED = 0o3500  # behind the interpreter, in bank 03


def always_in_reach(programs):
    """Puts programs into bank 03, to be entered by their addresses from 6000 on. Returns their encoders, and the source with a
    way to each in bank 04."""
    encoders, offset = [], FIXED_FIXED
    for program in programs:
        encoders.append(Encoder(program, 0o03, offset))
        offset += len(encoders[-1].words) + len(encoders[-1].tail) + 2
    assert offset <= LAST_OF_BANK + 0o77
    source = text(encoders).splitlines()
    for n, encoder in enumerate(encoders):
        source[1 + n] = f"{'LIST' if n == 0 else '':8}OCT     {0o4 * 0o2000 + n:05o}"
    source += ["        SETLOC  04,2000", *[f"        TCF     {encoder.offset + 0o4000:o}" for encoder in encoders]]
    return encoders, "\n".join(source) + "\n"
