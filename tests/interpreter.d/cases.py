"""The programs that the judge runs. `RESULT` is a cell in erasable bank 3, `LOWER` one in bank 1."""

import random

from language import SWITCHES
from programs import At, Labels, Line, Number, Program, Store, matrix, scalar, triple, vector

RESULT, LOWER = 0o1400, 0o600
X1, S1 = 0o46, 0o50  # in the work area
RTB = 0o2000  # the CADR of the driver's routine
KEPT = Store("STORE", RESULT)
POPPED = [Line("STADR"), Store("STORE", RESULT, complement=True)]  # behind an operand that is left out


def numbers(noise, count, size=1.0):
    """Random numbers of both signs, whose sizes are spread over powers of two."""
    return [noise.uniform(-size, size) * 2.0 ** -noise.choice([0, 0, 1, 3, 8, 15]) for _ in range(count)]


def scalars(noise):
    """Loads, sums, products, quotients and signs."""
    for n in range(12):
        for name in ("DAD", "DSU", "BDSU", "DMP", "DMPR"):
            a, b = numbers(noise, 2, 0.5 if name[-1] in "DU" else 1)
            yield Program(f"{name} {n}", Line("DLOAD " + name, scalar(a), scalar(b)), KEPT)
        a, b = sorted(numbers(noise, 2), key=abs)
        yield Program(f"DDV {n}", Line("DLOAD DDV", scalar(a), scalar(b)), KEPT)
        yield Program(f"BDDV {n}", Line("DLOAD BDDV", scalar(b), scalar(a)), KEPT)
        a, b = numbers(noise, 2)
        yield Program(f"SIGN {n}", Line("DLOAD SIGN", scalar(a), scalar(b)), Line("DSQ"), Store("STORE", LOWER))
        yield Program(f"DCOMP {n}", Line("DLOAD DCOMP", scalar(a)), Line("PUSH DMP", scalar(b)), Line("ROUND"))
        a, b = numbers(noise, 2, 0.5)
        yield Program(f"TAD {n}", Line("TLOAD TAD", triple(a), triple(b)), KEPT)


def overflows(noise):
    """Sums and quotients that are too great."""
    for n in range(4):
        a = noise.uniform(0.5, 1) * noise.choice([1, -1])
        yield Program(f"DAD over {n}", Line("DLOAD DAD", scalar(a), scalar(a)), KEPT)
        yield Program(f"DSU over {n}", Line("DLOAD DSU", scalar(a), scalar(-a)), KEPT)
        yield Program(f"DDV over {n}", Line("DLOAD DDV", scalar(a), scalar(a / 3)), KEPT)
        yield Program(f"DDV by 0 {n}", Line("DLOAD DDV", scalar(a), scalar(0)), KEPT)
        yield Program(f"TAD over {n}", Line("TLOAD TAD", triple(a), triple(a)), KEPT)


def shifts(noise):
    """Short and general shifts of scalars and vectors, and NORM."""
    for places in range(1, 9):
        for way in "LR":
            a = vector(*[noise.uniform(-1, 1) * 2.0 ** -noise.choice([0, places, places]) for _ in range(3)])
            yield Program(f"VS{way}{places}", Line(f"VLOAD VS{way}{places}", a), KEPT)
            if places <= 4:
                a, b = scalar(noise.uniform(-1, 1) / 2**places), scalar(noise.uniform(-1, 1))
                yield Program(f"S{way}{places}", Line(f"DLOAD S{way}{places}", a), KEPT)
                yield Program(f"S{way}{places}R", Line("DLOAD DMP", a, b), Line(f"S{way}{places}R"), KEPT)
    for name in ("SL", "SLR", "SR", "SRR", "VSL", "VSR"):
        for places in (0, 1, 5, 13, 14, 15, 20, 29):
            size = 2.0**-places if "L" in name else 1
            load, a = ("VLOAD", vector(*numbers(noise, 3, size))) if name[0] == "V" else ("DLOAD", scalar(noise.uniform(-size, size)))
            yield Program(f"{name} {places}", Line(f"{load} {name}", a, places), KEPT)
    for name, places, register, index in (("SL*", 3, 1, 5), ("SR*", 2, 2, 6), ("SLR*", 1, 1, -4), ("SRR*", 0, 2, 7), ("VSR*", 1, 1, 3), ("VSL*", 7, 2, 9)):
        load, a = ("VLOAD", vector(*numbers(noise, 3, 0.1))) if name[0] == "V" else ("DLOAD", scalar(noise.uniform(-0.1, 0.1)))
        yield Program(f"{name} {index}", Line(f"AXT,{register} {load}", index, a), Line(name, At(places, register)), KEPT)
    for n, size in enumerate((1, 0.5, 2.0**-9, 2.0**-14, 2.0**-20, 0)):
        a = scalar(noise.uniform(size / 2, size) * noise.choice([1, -1]))
        yield Program(f"NORM {n}", Line("DLOAD NORM", a, X1), KEPT)


def registers(noise):
    """Index registers, steps, and indexed operands."""
    for register in (1, 2):
        n, m = noise.randrange(1, 200), noise.randrange(1, 200)
        first = Line(f"AXT,{register} SXA,{register}", n, RESULT)
        for name in ("LXA", "LXC", "XAD", "XSU", "XCHX"):
            yield Program(f"{name},{register}", first, Line(f"AXC,{register} {name},{register}", m, RESULT), Line(f"SXA,{register}", LOWER))
        yield Program(f"INCR,{register}", first, Line(f"INCR,{register} INCR,{register}", m, -n))
        yield Program(f"SSP {register}", Line("SSP SSP", S1 + register - 1, m, LOWER, -n), Line("SLOAD", LOWER), KEPT)
        yield Program(
            f"TIX,{register}", Line(f"SSP AXT,{register}", S1 + register - 1, 2, 9), Line("DLOAD", scalar(0)), "LOOP",
            Line(f"DAD TIX,{register}", scalar(0.0625), "LOOP"), KEPT)  # fmt: skip
        table = Number(*[word for value in numbers(noise, 5) for word in scalar(value).words])
        for index in (0, -2, -8):
            line = Line(f"AXT,{register} DLOAD*", index, At(table, register))
            yield Program(f"DLOAD* {index},{register}", line, Line("DMP*", At(table, register)), KEPT)
        yield Program(f"STORE {register}", Line(f"AXT,{register} DLOAD", -4, table), Store("STORE", At(RESULT, register)), Store("STORE", At(4, register)))
        a, b = (vector(*numbers(noise, 3, 0.4)) for _ in range(2))
        yield Program(
            f"STOVL* {register}", Line(f"AXT,{register} VLOAD", 6, a), Store("STORE", RESULT),
            Store("STOVL*", RESULT + 6, At(RESULT + 6, register)), Line("VAD*", At(RESULT + 12, register)),
            Store("STODL*", LOWER, At(RESULT + 6, register)), Line("DAD", b))  # fmt: skip


def branches(noise):
    """Branches, calls and switches."""
    for value in (0.25, -0.25, 0, 2.0**-20, -(2.0**-20)):
        for name in ("BZE", "BPL", "BMN", "BHIZ"):
            yield Program(
                f"{name} {value}", Line("DLOAD " + name, scalar(value), "THERE"), Line("DLOAD GOTO", scalar(0.5), "END"),
                "THERE", Line("DLOAD DAD", scalar(0.125), scalar(value)), "END", KEPT)  # fmt: skip
    for value in (0.25, 0.75):
        add = Line("DLOAD DAD", scalar(value), scalar(value))
        yield Program(f"BOV {value}", add, Line("BOV", "THERE"), Line("DLOAD", scalar(0.5)), "THERE", KEPT)
        yield Program(f"BOVB {value}", add, Line("BOVB DMP", RTB, scalar(0.5)), KEPT)
    yield Program("RTB", Line("DLOAD RTB", scalar(0.3), RTB), Line("RTB DSU", RTB, scalar(0.2)), Line("RTB", RTB), KEPT)
    body = ["SUB", Line("DMP RVQ", scalar(-0.7))]
    yield Program("CALL", Line("DLOAD CALL", scalar(0.9), "SUB"), Line("CALL", "SUB"), Store("STCALL", RESULT, "SUB"), Line("GOTO", "END"), *body, "END")
    yield Program(
        "STQ", Line("DLOAD CALL", scalar(0.9), "OUT"), Line("GOTO", "END"), "OUT", Line("STQ CALL", LOWER, "SUB"), Line("GOTO", LOWER),
        *body, "END", KEPT)  # fmt: skip
    for n in range(3):
        ways = [each for name in "ABC" for each in (name, Line("DLOAD GOTO", scalar(noise.uniform(-1, 1)), "END"))]
        yield Program(f"CGOTO {n}", Line("SSP CGOTO", RESULT, n, RESULT, Labels("A", "B", "C")), *ways, "END", Store("STORE", LOWER))
        ways = [each for name in "ABC" for each in (name, Line("DLOAD RVQ", scalar(noise.uniform(-1, 1))))]
        yield Program(f"CCALL {n}", Line("SSP CCALL", RESULT, n, RESULT, Labels("A", "B", "C")), Line("DMP GOTO", scalar(0.5), "END"), *ways, "END")
    for name in SWITCHES:
        for number in (0, 14, 15, 100, 179):
            change = Line(name, number) if name in ("SET", "INVERT", "CLEAR") else Line(name, number, "ON")
            for before in ("SET", "CLEAR"):
                yield Program(
                    f"{before} {name} {number}", Line(f"{before} SET", number, (number + 1) % 180), change,
                    Line("DLOAD GOTO", scalar(0.5), "END"), "ON", Line("DLOAD", scalar(0.25)), "END")  # fmt: skip


def pushes(noise):
    """The push-down list: operands that are left out, STADR, PDDL, PDVL, SETPD."""
    for n in range(4):
        a, b, c, d = (scalar(each) for each in numbers(noise, 4, 0.4))
        u, v = (vector(*numbers(noise, 3, 0.4)) for _ in range(2))
        yield Program(f"PDDL {n}", Line("DLOAD PDDL", a, b), Line("PDDL DSU", c, d), Line("DMP DAD"), *POPPED)
        yield Program(f"BDSU {n}", Line("DLOAD PUSH", a), Line("DLOAD BDSU", b), Line("PUSH DLOAD", c), Line("DAD STADR"), Store("STODL", RESULT, d, complement=True))
        yield Program(f"PDVL {n}", Line("VLOAD PDVL", u, v), Line("VSU"), Line("PDVL VAD", u), Line("VCOMP"), Store("STOVL", RESULT, v))
        yield Program(f"PDDL exchanges {n}", Line("DLOAD PDDL", a, b), Line("PDDL"), Line("DCOMP"), KEPT)
        yield Program(
            f"VXSC pops {n}", Line("VLOAD PDDL", u, a), Line("VXSC"), Line("PDDL PDVL", b, v), Line("VXSC VAD"), *POPPED)  # fmt: skip
        yield Program(
            f"SETPD {n}", Line("SETPD DLOAD", 8, a), Line("PUSH TLOAD", triple(0.3)), Line("PUSH TAD", triple(0.1)), Line("TAD"),
            Line("SIGN"), *POPPED)  # fmt: skip
        yield Program(
            f"work area {n}", Line("DLOAD", a), Store("STORE", 0o20), Line("DLOAD DAD", b, 0o20), Store("STODL", 0o22, 0o20),
            Line("DMP", 0o22), Store("STORE", LOWER))  # fmt: skip


def vectors(noise):
    """Vectors and matrices."""
    for n in range(8):
        u, v = (vector(*numbers(noise, 3, 0.5)) for _ in range(2))
        m = matrix(*[numbers(noise, 3, 0.5) for _ in range(3)])
        a = scalar(noise.uniform(0.5, 0.9) * noise.choice([1, -1]))
        for name in ("VAD", "VSU", "BVSU", "DOT", "VXV", "VPROJ"):
            yield Program(f"{name} {n}", Line("VLOAD " + name, u, v), KEPT)
        for name in ("MXV", "VXM"):
            yield Program(f"{name} {n}", Line("VLOAD " + name, u, m), KEPT)
        for name in ("VXSC", "V/SC"):
            yield Program(f"{name} {n}", Line("VLOAD " + name, u, a), KEPT)
            yield Program(f"{name} by vector {n}", Line("DLOAD " + name, a, u), KEPT)
        for name in ("VSQ", "ABVAL", "UNIT"):
            size = 2.0 ** -noise.choice([0, 0, 1, 5, 13, 16])
            w = vector(*[noise.uniform(-0.57, 0.57) * size for _ in range(3)])
            yield Program(f"{name} {n}", Line("VLOAD " + name, w), KEPT)
        b, c, d = (scalar(each) for each in numbers(noise, 3))
        yield Program(f"VDEF {n}", Line("DLOAD PDDL", b, c), Line("PDDL VDEF", d), KEPT)
        yield Program(f"SIGN of a vector {n}", Line("VLOAD SIGN", u, b), KEPT)
    for name in ("UNIT", "ABVAL", "VSQ", "VSR2", "VSL1"):  # some parts are minus zero
        yield Program(f"{name} of minus zeros", Line("VLOAD VCOMP", vector(0.2, 0, 0)), Line(name), KEPT)
        yield Program(f"{name} of a difference", Line("VLOAD VSU", vector(0.2, 0.1, 0), vector(0.2, 0.3, 0)), Line(name), KEPT)
    yield Program("VAD over", Line("VLOAD VAD", vector(0.6, 0.2, -0.7), vector(0.6, 0.3, -0.7)), KEPT)
    yield Program("DOT over", Line("VLOAD DOT", vector(0.9, 0.8, 0.7), vector(0.9, 0.8, 0.3)), KEPT)


def functions(noise):
    """Roots, sines and arc sines."""
    for n in range(10):
        size = 4.0 ** -noise.choice([0, 0, 1, 3, 7])
        yield Program(f"SQRT {n}", Line("DLOAD SQRT", scalar(noise.uniform(size / 4, size))), KEPT)
        yield Program(f"ABS {n}", Line("DLOAD ABS", scalar(noise.uniform(-1, 1))), KEPT)
        angle = scalar(noise.uniform(-1, 1) * noise.choice([1, 0.25, 0.001]))
        yield Program(f"SINE {n}", Line("DLOAD SINE", angle), KEPT)
        yield Program(f"COSINE {n}", Line("DLOAD COSINE", angle), KEPT)
        value = scalar(noise.uniform(-0.5, 0.5) * noise.choice([1, 1, 0.001]))
        yield Program(f"ARCSIN {n}", Line("DLOAD ARCSIN", value), KEPT)
        yield Program(f"ARCCOS {n}", Line("DLOAD ARCCOS", value), KEPT)
    for name in ("SQRT", "SINE", "COSINE", "ARCSIN", "ARCCOS", "ABS", "SR1R", "SL2"):
        yield Program(f"{name} of minus zero", Line("DLOAD DCOMP", scalar(0)), Line(name), KEPT)
        yield Program(f"{name} of a difference", Line("DLOAD DSU", scalar(0.1 + 2.0**-21), scalar(0.1)), Line(name), KEPT)
    for name in ("SQRT", "ARCSIN", "ARCCOS", "SL2"):  # words of both signs, whose first one becomes a zero
        yield Program(f"{name} of two signs", Line("DLOAD DSU", scalar(2.0**-14), scalar(2.0**-14 - 2.0**-27)), Line(name), KEPT)
        yield Program(f"{name} by two signs", Line("DLOAD BDDV", scalar(2.0**-14 - 2.0**-16), scalar(2.0**-17)), Line("DSU", scalar(0.25)), Line("ABS " + name), KEPT)
    yield Program("DDV by two signs", Line("DLOAD DSU", scalar(2.0**-14), scalar(2.0**-14 - 2.0**-24)), Line("PDDL DDV", scalar(2.0**-25)), Line("DCOMP"), KEPT)
    yield Program("UNIT of two signs", Line("VLOAD VSU", vector(2.0**-14, 0.1, 0), vector(2.0**-14 - 2.0**-20, 0, 0.1)), Line("UNIT"), KEPT)
    yield Program("NORM of minus zero", Line("DLOAD DCOMP", scalar(0)), Line("NORM", X1))
    for value in (0, 0.125, 0.25, 0.5, 0.75, -0.25, -0.5, 1 - 2.0**-28):
        yield Program(f"SINE of {value}", Line("DLOAD SIN", scalar(value)), KEPT)
        yield Program(f"COSINE of {value}", Line("DLOAD COS", scalar(value)), KEPT)
        yield Program(f"SQRT of {value}", Line("DLOAD SQRT", scalar(value)), KEPT)
        yield Program(f"ARCSIN of {value}", Line("DLOAD ASIN", scalar(value)), KEPT)
        yield Program(f"ARCCOS of {value}", Line("DLOAD ACOS", scalar(value)), KEPT)


def table(*numbers):
    """Constants one behind the other."""
    return Number(*[word for each in numbers for word in each.words])


def indexed(noise):
    """Each operation with an index register."""
    scalars = table(*[scalar(noise.uniform(0.2, 0.4) * noise.choice([1, -1])) for _ in range(4)])
    triples = table(*[triple(noise.uniform(-0.4, 0.4)) for _ in range(3)])
    vectors = table(*[vector(*numbers(noise, 3, 0.4)) for _ in range(3)])
    matrices = table(*[matrix(*[numbers(noise, 3, 0.5) for _ in range(3)]) for _ in range(2)])
    small, great, u = scalar(0.1), scalar(0.6), vector(0.1, -0.15, 0.12)
    for register in (1, 2):
        for name in "DAD DSU BDSU DMPR DDV SIGN PDDL SLOAD".split():
            yield Program(f"{name}*,{register}", Line(f"AXT,{register} DLOAD", -4, small), Line(f"{name}*", At(scalars, register)), KEPT)
        yield Program(f"BDDV*,{register}", Line(f"AXT,{register} DLOAD", -2, great), Line("BDDV*", At(scalars, register)), KEPT)
        for name in ("TLOAD", "TAD"):
            yield Program(f"{name}*,{register}", Line(f"AXT,{register} TLOAD", -3, triple(0.3)), Line(f"{name}*", At(triples, register)), KEPT)
        for name in "VLOAD VSU BVSU DOT VXV VPROJ PDVL".split():
            yield Program(f"{name}*,{register}", Line(f"AXT,{register} VLOAD", -12, u), Line(f"{name}*", At(vectors, register)), KEPT)
        for name in ("VXSC", "V/SC"):
            yield Program(f"{name}*,{register}", Line(f"AXT,{register} VLOAD", -6, u), Line(f"{name}*", At(scalars, register)), KEPT)
        for name in ("MXV", "VXM"):
            yield Program(f"{name}*,{register}", Line(f"AXT,{register} VLOAD", -18, u), Line(f"{name}*", At(matrices, register)), KEPT)
        yield Program(f"NORM*,{register}", Line(f"AXT,{register} DLOAD", 3, scalar(0.01)), Line("NORM*", At(RESULT + 5, register)))
        yield Program(f"SSP*,{register}", Line(f"AXT,{register} SSP*", 3, At(RESULT + 5, register), 77))
        ways = [each for name in "AB" for each in (name, Line("DLOAD GOTO", scalar(noise.uniform(-1, 1)), "END"))]
        chosen = Line(f"SSP AXT,{register}", RESULT, 1, 2)
        yield Program(f"CGOTO*,{register}", chosen, Line("CGOTO*", At(RESULT + 2, register), Labels("A", "B")), *ways, "END")
        ways = [each for name in "AB" for each in (name, Line("DLOAD ITCQ", scalar(noise.uniform(-1, 1))))]
        yield Program(f"CCALL*,{register}", chosen, Line("CCALL*", At(RESULT + 2, register), Labels("A", "B")), Line("GOTO", "END"), *ways, "END")


def programs():
    """All programs."""
    noise = random.Random(11)
    groups = (scalars, overflows, shifts, registers, branches, pushes, vectors, functions, indexed)
    return [program for group in groups for program in group(noise)]
