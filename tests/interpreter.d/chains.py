"""Random programs of many operations. Each operation is tried on the model first, and is left out if a result does not fit, or if
its error grows too great.
"""

import copy

from model import UNIT, Model
from programs import Line, Program, Store, matrix, scalar, vector

MOST_ERROR = 60 * UNIT
CELLS = [0o1400 + 6 * n for n in range(4)]


class Chain:
    """A program that grows. `stack` has the modes of what is on the push-down list."""

    def __init__(self, noise, name):
        self.noise, self.name = noise, name
        self.statements, self.stack, self.stored = [], [], {}
        self.model = Model()
        self.statements.append(Line("DLOAD", self.scalar()))
        self.model.line(self.statements[0])

    def scalar(self):
        return scalar(self.noise.uniform(-0.7, 0.7) * 2.0 ** -self.noise.choice([0, 0, 2, 6]))

    def vector(self):
        return vector(*[self.noise.uniform(-0.4, 0.4) * self.noise.choice([1, 1, 0.01, 0]) for _ in range(3)])

    def scalar_step(self):
        """A statement for a scalar in MPAC."""
        choice = self.noise.choice
        plain = "DCOMP ABS SR1R SR2 SL1 SL2R DSQ SQRT SINE COSINE ARCSIN ARCCOS ROUND PUSH".split()
        kind = self.noise.randrange(5)
        if kind == 0:
            return Line(choice(plain))
        if kind == 1 and "d" in self.stack[-1:]:
            return Line(choice("DLOAD DAD DSU BDSU DMP DMPR SIGN PDDL".split()))
        if kind == 2:
            return Line(choice(("VXSC", "VLOAD", "PDVL")), self.vector())
        cells = [cell for cell, mode in self.stored.items() if mode == "d"]
        operand = choice(cells) if cells and self.noise.randrange(3) == 0 else self.scalar()
        return Line(choice("DLOAD DAD DSU BDSU DMP DMPR DDV BDDV SIGN PDDL".split()), operand)

    def vector_step(self):
        """A statement for a vector in MPAC."""
        choice = self.noise.choice
        kind = self.noise.randrange(5)
        if kind == 0:
            return Line(choice("VCOMP UNIT ABVAL VSQ VSR1 VSR3 VSL1 VSL2 PUSH".split()))
        if kind == 1 and "v" in self.stack[-1:]:
            return Line(choice("VAD VSU BVSU VXV DOT PDVL".split()))
        if kind == 2:
            return Line(choice(("VXSC", "V/SC", "SIGN")), self.scalar())
        if kind == 3:
            rows = [[self.noise.uniform(-0.5, 0.5) for _ in range(3)] for _ in range(3)]
            return Line(choice(("MXV", "VXM")), matrix(*rows))
        cells = [cell for cell, mode in self.stored.items() if mode == "v"]
        operand = choice(cells) if cells and self.noise.randrange(3) == 0 else self.vector()
        return Line(choice("VAD VSU BVSU VXV DOT VPROJ PDVL".split()), operand)

    def grow(self):
        """Adds a statement, if the model can take it."""
        before, after = self.model, copy.deepcopy(self.model)
        step = self.vector_step() if before.mode < 0 else self.scalar_step()
        try:
            after.line(step)
        except (AssertionError, ZeroDivisionError, ValueError):
            return
        parts = after.mpac if after.mode < 0 else [after.mpac]
        if after.overflow or after.top > 30 or any(part.error > MOST_ERROR for part in parts):
            return
        self.model = after
        self.statements.append(step)
        self.follow(before, is_popping(step))

    def follow(self, before, popped):
        """Keeps the push-down list's modes, and stores now and then."""
        left = before.top
        if popped:
            left -= 6 if self.stack.pop() == "v" else 2
        if self.model.top > left:
            self.stack.append("v" if before.mode < 0 else "d")
        if not popped and self.noise.randrange(5) == 0:
            store = Store("STORE", self.noise.choice(CELLS))
            self.model.store(store)
            self.statements.append(store)
            self.stored[store.cell] = "v" if self.model.mode < 0 else "d"


UNARY = "DCOMP ABS SR1R SR2 SL1 SL2R DSQ SQRT SINE COSINE ARCSIN ARCCOS ROUND PUSH VCOMP UNIT ABVAL VSQ VSR1 VSR3 VSL1 VSL2".split()


def is_popping(line):
    return not line.operands and line.names[0] not in UNARY


def paired(statements, noise):
    """The same statements with some lines of one operation put together."""
    found = []
    for statement in statements:
        last = found[-1] if found else None
        if isinstance(statement, Line) and isinstance(last, Line) and len(last.names) == 1 and noise.randrange(3):
            # A left operation that pops wants a negative word next, and so no store.
            if last.operands or last.names[0] in UNARY or is_popping(statement):
                found[-1] = Line(f"{last.names[0]} {statement.names[0]}", *last.operands, *statement.operands)
                continue
        found.append(statement)
    return found


def programs(noise, count=60, tries=40):
    for n in range(count):
        chain = Chain(noise, f"chain {n}")
        for _ in range(tries):
            chain.grow()
        # a store behind an operand that is left out would be taken for it
        yield Program(chain.name, *paired([*chain.statements, Line("DCOMP")], noise))
