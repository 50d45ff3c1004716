"""Steps by calls, by the lines of a trace: where `over` and `finish`, forward and back, should end. And ropes that call."""

RETURNS = 3
FIXED = 0o2000  # the address at which fixed memory begins
PLACES = 0o10000  # added to a place in fixed memory, so that it differs from a cell
JOB = "0102"  # the cell by which these sessions tell jobs apart


def is_tc(word):
    """TC to fixed memory."""
    return FIXED <= word < 0o10000


def place_of(address, erasable_bank, fixed_bank):
    """The place of an address by the banks, as searches.whole_place numbers it."""
    if address < 0o1400:
        return address
    if address < 0o2000:
        return 0o400 * erasable_bank + address - 0o1400
    return PLACES + (0o2000 * fixed_bank + address - 0o2000 if address < 0o4000 else address)


class Calls:
    """What a trace says of calls."""

    def __init__(self, trace, rope):
        self.trace = trace
        with open(rope, "rb") as file:
            data = file.read()
        self.words = [int.from_bytes(data[at : at + 2], "big") >> 1 for at in range(0, len(data) - 1, 2)]
        self.serving = [False]
        for line in trace.lines:
            begins, ends = line.name.startswith("interrupt "), line.name.endswith(" RESUME")
            self.serving.append(begins or self.serving[-1] and not ends)

    def word(self, place):
        """A word of the rope, whose file has the banks 2, 3, 0, 1, 4 and so on."""
        bank, offset = divmod(place - PLACES, 0o2000)
        at = 0o2000 * {2: 0, 3: 1, 0: 2, 1: 3}.get(bank, bank) + offset
        return self.words[at] if at < len(self.words) else 0

    def state(self, at):
        """Z, EB, FB and Q before a line."""
        if at == 0:
            return 0o4001, 0, 0, 0
        line = self.trace.lines[at - 1]
        return (*line.control, line.registers[2] % 0o10000)

    def caller(self, at, job, first, count):
        """The places in a row, in the job and on the side of interrupts of a line."""
        return ["caller", first, first + count, self.serving[at], self.trace.cell(JOB, at) if job else None]

    def hits(self, what, at):
        _, first, end, serving, job = what
        line = self.trace.lines[at]
        comes = line.place is not None and first <= line.place < end and self.serving[at] == serving
        return comes and (job is None or self.trace.cell(JOB, at) == job)

    def is_call(self, at):
        line = self.trace.lines[at]
        if line.place is None or line.place < PLACES or line.name.split()[1] != "TC":
            return False
        word, returns_to = int(line.name.split()[0], 8), self.state(at)[3]
        return is_tc(word) and not returns_to <= word < returns_to + RETURNS

    def ahead(self, step, at, job):
        """The condition at which a step ends."""
        z, *banks, returns_to = self.state(at)
        if step == "finish":
            return self.caller(at, job, place_of(returns_to, *banks), RETURNS)
        if self.is_call(at):
            return self.caller(at, job, place_of(z, *banks), RETURNS)
        if self.trace.lines[at].name.startswith("interrupt "):
            return self.caller(at, job, place_of((z - 1) % 0o10000, *banks), 1)
        return ["boundary"]

    def back(self, step, at, job):
        """The condition at which a step back ends."""
        z, *banks, returns_to = self.state(at)
        address = returns_to if step == "finish" else (z - 1) % 0o10000
        place = place_of(address, *banks)
        follows = address >= FIXED and any(is_tc(self.word(place_of(address - before, *banks))) for before in (1, 2, 3))
        if step == "over" and not follows:
            return ["boundary"]
        part = PLACES if place >= PLACES else 0
        first = part + max(place - part - RETURNS, 0)
        return self.caller(at, job, first, place - first)


def calling_rope(dice):
    """A rope whose loop calls routines that call others, or jump. They return behind the call or skip a word or two, by Q, by
    INDEX or through a cell. Now and then a routine never returns to its call. Services count, or call too."""
    words = [0] * 0o400
    words[0] = 0o14060
    for vector in range(0o4, 0o54, 4):
        words[vector : vector + 2] = dice.choice([[0o50017, 0], [0o24102, 0o50017], [0o14056, 0]])
    # a service that calls keeps Q in QRUPT: EXTEND, QXCH 12, TC, EXTEND, QXCH 12, RESUME
    words[0o54:0o60] = [0o14350, 0, 0o14350, 0]
    words[0o350:0o356] = [0o00006, 0o22012, 0o04300, 0o00006, 0o22012, 0o50017]
    routines = [0o4140 + 0o40 * number for number in range(4)]
    words[0o60 : 0o60 + 0o50] = code(dice, routines, 0o40) + [0o14060] * 8
    for number, routine in enumerate(routines):
        keep = 0o110 + number
        body = code(dice, routines[number + 1 :], dice.randrange(1, 0o14)) if routines[number + 1 :] else [0o24100]
        words[routine - 0o4000 : routine - 0o4000 + 0o40] = ended(dice, [0o00006, 0o22000 + keep, *body], keep)
    words[0o300 : 0o303] = [0o24101, 0o00002, 0]
    return b"".join((word << 1).to_bytes(2, "big") for word in words)


def code(dice, routines, length):
    """Orders, calls among them, behind which a returning routine may skip up to two."""
    found = []
    while len(found) < length:
        plain = [0o24000 + 0o100 + dice.randrange(2)]
        call = [dice.choice(routines)] if routines else plain
        found += dice.choice([plain, plain, [*call], [*call, 0o24100, 0o24101], [0o30100, 0o54000 + dice.choice([0o101, 0o102])]])
    return found[:length]


def ended(dice, words, keep):
    """The words of a routine with its return, in 40 octal words: through the cell that keeps Q, or by Q, which takes one or two more."""
    back = [0o00006, 0o22000 + keep]
    ways = [
        [keep], [keep], [0o24000 + keep, keep], [0o24000 + keep, 0o24000 + keep, keep],
        [*back, 0o00002], [*back, 0o24002, 0o00002], [*back, 0o50002, 0o00000], [*back, 0o50002, 0o00001],
        [*back, 0o14060],
    ]
    words = [*words, *dice.choice(ways)]
    return [*words, *[0o14060] * (0o40 - len(words))]
