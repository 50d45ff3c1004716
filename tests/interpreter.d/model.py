"""What the programs should do, in double arithmetic of Python. It shares nothing with the interpreter: it goes by the names of the
operations. Each number has a bound of its error, which says how far the machine's result may be off, in units of the last place
of two words (2**-28). A product is cut off where it is stored, so a store may cost one unit; a quotient, a shift to the
right and a rounding cost one unit, too."""

import math
import re

from language import SWITCHES
from programs import At, Line, Number, Store

UNIT = 2.0**-28
REST = 2.0**-40  # what three words leave out
COMPLEMENT = 0o2000  # the place of the driver's routine for RTB and BOVB
X, S = 0o46, 0o50  # the first index register, and its step


class Value:
    """A number, and the bound of its error."""

    def __init__(self, number, error=0.0):
        self.number, self.error = number, error

    def __repr__(self):
        return f"{self.number:.9f}+-{self.error / UNIT:.2f}"

    def __add__(self, other):
        return Value(self.number + other.number, self.error + other.error)

    def __sub__(self, other):
        return Value(self.number - other.number, self.error + other.error)

    def __neg__(self):
        return Value(-self.number, self.error)

    def __mul__(self, other):
        error = abs(self.number) * other.error + abs(other.number) * self.error + self.error * other.error + REST
        return Value(self.number * other.number, error)

    def __truediv__(self, other):
        assert abs(other.number) > 2 * other.error, f"{other} may be a zero"
        quotient = self.number / other.number
        return Value(quotient, (self.error + abs(quotient) * other.error) / (abs(other.number) - other.error) + UNIT)

    def over(self, error):
        """The same number with another error."""
        return Value(self.number, error)

    def cut(self, units=1):
        """The number with its rest cut off."""
        return Value(self.number, self.error + units * UNIT)


ZERO = Value(0.0)


def whole(word):
    """A word as a signed number."""
    return word if word < 0o40000 else word - 0o77777


class Model:
    """A machine on which a program runs."""

    def __init__(self):
        self.memory = {}
        self.mode, self.mpac = 0, ZERO
        self.words = {X + n: 0 for n in range(4)}  # the cells that have single words: index registers, steps, and others
        self.returns = {}  # the cells that have the place of a statement
        self.switches = set()
        self.overflow = False
        self.top = 0
        self.qpret = None
        self.at = 0
        self.labels = {}

    # where operands are

    def resolve(self, operand):
        """The space of an operand, and a place in it. A cell's space is None."""
        if isinstance(operand, At):
            space, place = self.resolve(operand.place)
            return space, place - self.words[X - 1 + operand.index]
        return (operand, 0) if isinstance(operand, Number) else (None, operand)

    def load(self, place, words=2):
        space, offset = place
        if space is None:
            value, stored = self.memory.get(offset, (ZERO, words))
            return value.cut() if stored > words else value
        parts = [whole(word) for word in space.words[offset:offset + words]]
        return Value(sum(part * 2.0 ** (-14 * (n + 1)) for n, part in enumerate(parts)))

    def load_vector(self, place):
        return [self.load((place[0], place[1] + 2 * n)) for n in range(3)]

    def put(self, offset):
        """Stores MPAC in cells; returns the number of words."""
        words = {-1: 6, 0: 2, 1: 3}[self.mode]
        for other in [each for each, (_, size) in self.memory.items() if offset - size < each < offset + words]:
            del self.memory[other]
        if self.mode < 0:
            for n, part in enumerate(self.mpac):
                self.memory[offset + 2 * n] = part.cut(), 2
            return 6
        self.memory[offset] = self.mpac if self.mode else self.mpac.cut(), words
        return words

    def set(self, value):
        self.mode, self.mpac = (-1 if isinstance(value, list) else 0), value

    def push(self):
        self.top += self.put(self.top)

    def popped(self, words):
        self.top -= words
        return None, self.top

    def fit(self, value):
        """Takes a result into MPAC; a part that is 1 or more is an overflow."""
        parts = [self.within(part) for part in (value if isinstance(value, list) else [value])]
        self.mpac = parts if isinstance(value, list) else parts[0]

    def within(self, part):
        assert abs(abs(part.number) - 1) > 2 * part.error or abs(part.number) < 1 and part.error < UNIT, f"{part} is too near to 1"
        if abs(part.number) < 1:
            return part
        self.overflow = True
        return Value(part.number - (1 if part.number > 0 else -1), part.error)

    # the program

    def run(self, program):
        statements = program.statements
        labels = {each: n for n, each in enumerate(statements) if isinstance(each, str)}
        self.labels = labels
        for _ in range(1000):
            statement = statements[self.at]
            self.at += 1
            if isinstance(statement, str):
                continue
            if isinstance(statement, Line) and statement.names == ["EXIT"]:
                return self
            target = self.store(statement) if isinstance(statement, Store) else self.line(statement)
            if target is not None:
                self.at = labels[target] if isinstance(target, str) else target
        raise RuntimeError(f"{program.name} does not end")

    def store(self, store):
        self.put(self.resolve(store.cell)[1])
        if store.name == "STORE":
            return None
        name = {"STODL": "DLOAD", "STOVL": "VLOAD", "STCALL": "CALL"}[store.name.rstrip("*")]
        return self.operation(name, iter(store.operands))

    def line(self, line):
        operands = iter(line.operands)
        for name in line.names:
            target = self.operation(name, operands)
            if target is not None:
                return target
        return None

    def operation(self, name, operands):
        plain, _, register = name.rstrip("*").replace("/", "_OVER_").partition(",")
        if plain in SWITCHES:
            return self.switch(plain, next(operands), *([] if plain in ("SET", "INVERT", "CLEAR") else [next(operands)]))
        if re.fullmatch("V?S[LR][1-8]?R?", plain):
            short = re.match("V?S[LR]([1-8])", plain)
            return self.shift(plain, int(short[1]) if short else self.resolve(next(operands))[1])
        do = getattr(self, "do_" + plain, None)
        if do is not None:
            return do(*[next(operands) for _ in range(do.__code__.co_argcount - 1)])
        if register:
            return getattr(self, "on_" + plain)(int(register), next(operands))
        operand = next(operands, None)
        if operand is None:
            words = {"VLOAD": 6, "TAD": 3, "SIGN": 2, "TLOAD": 3, "DLOAD": 2}.get(plain)
            if plain in ("VXSC", "V_OVER_SC"):
                words = 2 if self.mode < 0 else 6
            place = self.popped(words or {-1: 6, 0: 2, 1: 3}[self.mode])
        else:
            place = self.resolve(operand)
        return getattr(self, "at_" + plain)(place)

    # scalars

    def at_DLOAD(self, place):
        self.set(self.load(place))

    def at_TLOAD(self, place):
        self.mode, self.mpac = 1, self.load(place, 3)

    def at_SLOAD(self, place):
        space, offset = place
        self.set(Value(self.words[offset] * 2.0**-14) if space is None else self.load(place, 1))

    def at_PDDL(self, place):
        value = self.load(place)
        self.push()
        self.set(value)

    def at_DAD(self, place):
        self.fit(self.mpac + self.load(place))

    def at_DSU(self, place):
        self.fit(self.mpac - self.load(place))

    def at_BDSU(self, place):
        self.fit(self.load(place) - self.mpac)

    def at_TAD(self, place):
        self.fit(self.mpac + self.load(place, 3))

    def at_DMP(self, place):
        self.mpac = self.mpac.cut() * self.load(place)

    def at_DMPR(self, place):
        self.set((self.mpac.cut() * self.load(place)).cut(0.5))

    def at_DDV(self, place):
        self.divide(self.mpac, self.load(place))

    def at_BDDV(self, place):
        self.divide(self.load(place), self.mpac.cut())

    def divide(self, dividend, divisor):
        if abs(dividend.number) >= abs(divisor.number):
            self.overflow = True
            self.mpac = Value(1.0 if (dividend.number < 0) == (divisor.number < 0) else -1.0, UNIT)
        else:
            self.mpac = dividend / divisor

    def at_SIGN(self, place):
        sign = self.load(place)
        assert abs(sign.number) > sign.error or not sign.error, f"the sign of {sign} is not sure"
        if sign.number < 0:
            self.do_DCOMP()

    def do_DSQ(self):
        self.mpac = self.mpac.cut() * self.mpac.cut()

    def do_ROUND(self):
        self.set(self.mpac.cut(0.5))

    def do_DCOMP(self):
        self.mpac = [-part for part in self.mpac] if self.mode < 0 else -self.mpac

    do_VCOMP = do_DCOMP

    def do_PUSH(self):
        self.push()

    def do_STADR(self):
        pass

    def do_SETPD(self, place):
        self.top = place

    # shifts: the name has the way, the places and the rounding

    def shift(self, name, places):
        left, rounds = (places if name.lstrip("V")[1] == "L" else -places), name[-1] == "R" and name not in ("SR", "VSR")
        if self.mode < 0:
            self.mpac = [self.shifted(part, left) if left > 0 else self.shifted(part, left).cut(0.5) for part in self.mpac]
        else:
            self.mpac = self.shifted(self.mpac, left)
            if rounds:
                self.do_ROUND()

    def shifted(self, part, left):
        if left <= 0:
            return Value(part.number * 2.0**left, part.error * 2.0**left + REST)
        size, error = abs(part.number) * 2.0**left, part.error * 2.0**left
        assert min(size % 1, 1 - size % 1) >= error, f"{part} may be another number after a shift"
        self.overflow = self.overflow or size >= 1
        return Value(size % 1 * (1 if part.number > 0 else -1), error)

    def do_NORM(self, cell):
        count = 0
        while 0 < abs(self.mpac.number) < 0.5:
            self.mpac = Value(self.mpac.number * 2, self.mpac.error * 2)
            count += 1
        self.words[self.resolve(cell)[1]] = -count

    # index registers and cells with one word

    def on_AXT(self, register, number):
        self.words[X - 1 + register] = number

    def on_AXC(self, register, number):
        self.words[X - 1 + register] = -number

    def on_LXA(self, register, cell):
        self.words[X - 1 + register] = self.words[cell]

    def on_LXC(self, register, cell):
        self.words[X - 1 + register] = -self.words[cell]

    def on_SXA(self, register, cell):
        self.words[cell] = self.words[X - 1 + register]

    def on_XCHX(self, register, cell):
        self.words[cell], self.words[X - 1 + register] = self.words[X - 1 + register], self.words[cell]

    def on_INCR(self, register, number):
        self.words[X - 1 + register] += number

    def on_XAD(self, register, cell):
        self.words[X - 1 + register] += self.words[cell]

    def on_XSU(self, register, cell):
        self.words[X - 1 + register] -= self.words[cell]

    def on_TIX(self, register, label):
        left = self.words[X - 1 + register] - self.words[S - 1 + register]
        if left <= 0:
            return None
        self.words[X - 1 + register] = left
        return label

    def do_SSP(self, cell, number):
        self.words[self.resolve(cell)[1]] = number

    # branches

    def way(self, target):
        return self.returns[target] if isinstance(target, int) else target

    def do_GOTO(self, target):
        return self.way(target)

    def do_CALL(self, target):
        self.qpret = self.at
        return self.way(target)

    def do_RVQ(self):
        return self.qpret

    do_ITCQ = do_RVQ

    def do_STQ(self, cell):
        self.returns[cell] = self.qpret

    do_ITA = do_STQ

    def do_RTB(self, routine):
        assert routine == COMPLEMENT
        self.do_DCOMP()

    def do_BZE(self, target):
        return self.way(target) if self.mpac.number == 0 else None

    def do_BPL(self, target):
        return self.way(target) if self.mpac.number >= 0 else None

    def do_BMN(self, target):
        return self.way(target) if self.mpac.number < 0 else None

    def do_BHIZ(self, target):
        return self.way(target) if abs(self.mpac.number) < 2.0**-14 else None

    def do_BOV(self, target):
        was, self.overflow = self.overflow, False
        return self.way(target) if was else None

    def do_BOVB(self, routine):
        if self.overflow:
            self.do_RTB(routine)
        self.overflow = False

    def do_CGOTO(self, cell, labels):
        return labels.labels[self.words[self.resolve(cell)[1]]]

    def do_CCALL(self, cell, labels):
        self.qpret = self.at
        return self.do_CGOTO(cell, labels)

    def switch(self, name, number, target=None):
        was = number in self.switches
        what = name[3:] if name[:3] in ("BON", "BOF") else name
        if what.startswith("SET"):
            self.switches.add(number)
        elif what.startswith("CL"):
            self.switches.discard(number)
        elif what.startswith("INV"):
            self.switches ^= {number}
        branches = was if name.startswith("BON") else not was if name.startswith("BOF") else name.endswith("GO")
        return target if branches else None

    # vectors

    def at_VLOAD(self, place):
        self.set(self.load_vector(place))

    def at_PDVL(self, place):
        value = self.load_vector(place)
        self.push()
        self.set(value)

    def at_VAD(self, place):
        self.fit([one + other for one, other in zip(self.mpac, self.load_vector(place))])

    def at_VSU(self, place):
        self.fit([one - other for one, other in zip(self.mpac, self.load_vector(place))])

    def at_BVSU(self, place):
        self.fit([other - one for one, other in zip(self.mpac, self.load_vector(place))])

    def both(self, place):
        """The vector and the scalar of VXSC and V/SC."""
        if self.mode < 0:
            return self.mpac, self.load(place)
        return self.load_vector(place), self.mpac.cut()

    def at_VXSC(self, place):
        parts, factor = self.both(place)
        self.set([(part * factor).cut(0.5) for part in parts])

    def at_V_OVER_SC(self, place):
        parts, divisor = self.both(place)
        self.mode, found = -1, []
        for part in parts:
            self.divide(part, divisor)
            found.append(self.mpac)
        self.mpac = found

    def dot(self, other):
        self.set([one * two for one, two in zip(self.mpac, other)])
        self.fit(self.mpac[0] + self.mpac[1] + self.mpac[2])
        self.mode = 0

    def at_DOT(self, place):
        self.dot(self.load_vector(place))

    def at_VPROJ(self, place):
        self.dot(self.load_vector(place))
        self.at_VXSC(place)

    def do_VSQ(self):
        self.dot(self.mpac)

    def at_VXV(self, place):
        (a, b, c), (d, e, f) = self.mpac, self.load_vector(place)
        self.fit([(b * f - c * e).cut(0.5), (c * d - a * f).cut(0.5), (a * e - b * d).cut(0.5)])

    def rows(self, place):
        return [self.load_vector((place[0], place[1] + 6 * n)) for n in range(3)]

    def at_MXV(self, place, transposed=False):
        rows, vector, found = self.rows(place), self.mpac, []
        for row in zip(*rows) if transposed else rows:
            self.mpac = list(row)
            self.dot(vector)
            found.append(self.mpac.cut(0.5))
        self.set(found)

    def at_VXM(self, place):
        self.at_MXV(place, True)

    def do_VDEF(self):
        second, third = self.load(self.popped(2)), self.load(self.popped(2))
        self.set([self.mpac.cut(), second, third])

    def size(self):
        """The length of the vector in MPAC: the interpreter scales it so that its greatest part is 1/4 to 1/2."""
        number = sum(part.number**2 for part in self.mpac) ** 0.5
        error = sum(part.error for part in self.mpac)
        return Value(number, error + (2 if max(abs(part.number) for part in self.mpac) < 0.5 else 4) * UNIT)

    def do_ABVAL(self):
        if self.mode < 0:
            self.fit(self.size())
            self.mode = 0
        else:
            self.mpac = Value(abs(self.mpac.number), self.mpac.error)

    def do_UNIT(self):
        size = self.size()
        assert size.number < 1, "the length does not fit into the work area"
        self.memory[0o44], self.memory[0o42] = (size.cut(), 2), ((size * size).cut(), 2)
        error = sum(part.error for part in self.mpac) / size.number + 3 * UNIT
        self.mpac = [Value(part.number / size.number / 2, error) for part in self.mpac]

    # functions

    def do_SQRT(self):
        if self.mpac.number < 0:
            self.overflow = True
            self.set(ZERO)
        else:
            assert self.mpac.number > 2 * self.mpac.error or not self.mpac.error, f"a root of {self.mpac} is not sure"
            root = math.sqrt(self.mpac.number)
            self.set(Value(root, (self.mpac.error / 2 / root if root else 0) + 2 * UNIT))

    def two_words(self):
        """MPAC without its third word, which a loaded number does not have."""
        return self.mpac.cut() if self.mpac.error else self.mpac

    def do_SINE(self):
        angle = self.two_words()
        self.set(Value(math.sin(2 * math.pi * angle.number) / 2, math.pi * angle.error + 2 * UNIT))

    def do_COSINE(self):
        angle = self.two_words()
        self.set(Value(math.cos(2 * math.pi * angle.number) / 2, math.pi * angle.error + 2 * UNIT))

    def arc(self, function):
        number = 2 * self.mpac.number
        self.overflow = self.overflow or abs(number) > 1
        number = max(-1.0, min(1.0, number))
        slope = 1 / math.pi / math.sqrt(max(1 - number * number, UNIT))
        self.set(Value(function(number) / 2 / math.pi, slope * self.two_words().error + 3 * UNIT))

    def do_ARCSIN(self):
        self.arc(math.asin)

    def do_ARCCOS(self):
        self.arc(math.acos)

    do_SIN, do_COS, do_ASIN, do_ACOS, do_ABS = do_SINE, do_COSINE, do_ARCSIN, do_ARCCOS, do_ABVAL
