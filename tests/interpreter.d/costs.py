"""What each operation of examples/interpreter costs, in machine cycles: from the fetch of its word to that of the next one. It is
alone on its line. The steps of timers are left out.

    tests/interpreter costs     prints the table of the example's page
"""

from cases import RESULT, RTB, X1
from programs import At, Labels, Line, Program, Store, matrix, scalar, triple, vector

A, B, THIRD = scalar(0.3), scalar(0.4), triple(0.3)
U, V, M = vector(0.3, -0.4, 0.25), vector(0.1, 0.2, -0.3), matrix((0.5, 0, -0.25), (0.25, 0.5, 0), (0, 0.125, 0.5))
DP, VECTOR = [Line("DLOAD", A)], [Line("VLOAD", U)]
TO_END = ["END", Line("DLOAD", A)]

# A row's title, what is done before, the statement, and what is behind it
ROWS = (
    [(name, DP, Line(name, B), []) for name in "DLOAD DAD DSU BDSU DMP DMPR DDV SIGN PDDL SLOAD".split()]
    + [("BDDV", [Line("DLOAD", B)], Line("BDDV", A), [])]
    + [(name, [Line("TLOAD", THIRD)], Line(name, THIRD), []) for name in ("TLOAD", "TAD")]
    + [(name, DP, Line(name), []) for name in "DSQ ROUND DCOMP ABS PUSH SQRT SINE COSINE ARCSIN ARCCOS".split()]
    + [(name, DP, Line(name), []) for name in "SL1 SL4 SR1 SR1R".split()]
    + [(f"{name} {n}", DP, Line(name, n), []) for name, n in (("SL", 7), ("SR", 7), ("SRR", 20))]
    + [("NORM, 1 place", DP, Line("NORM", X1), [])]
    + [(name, VECTOR, Line(name, V), []) for name in "VLOAD VAD VSU BVSU DOT VXV VPROJ PDVL".split()]
    + [(name, VECTOR, Line(name, M), []) for name in ("MXV", "VXM")]
    + [("VXSC", VECTOR, Line("VXSC", B), []), ("V/SC", VECTOR, Line("V/SC", scalar(0.6)), [])]
    + [(name, VECTOR, Line(name), []) for name in "VCOMP VSQ ABVAL UNIT VSL1 VSR1".split()]
    + [("VDEF", [Line("DLOAD", A), Line("PDDL", A), Line("PDDL", A)], Line("VDEF"), [])]
    + [("STORE, scalar", DP, Store("STORE", RESULT), []), ("STORE, vector", VECTOR, Store("STORE", RESULT), [])]
    + [("STORE X,1", DP, Store("STORE", At(RESULT, 1)), []), ("STODL", DP, Store("STODL", RESULT, A), [])]
    + [("STOVL", DP, Store("STOVL", RESULT, U), []), ("STCALL", DP, Store("STCALL", RESULT, "END"), TO_END)]
    + [("AXT", [], Line("AXT,1", 5), []), ("AXC", [], Line("AXC,1", 5), [])]
    + [(name, [], Line(f"{name},1", RESULT), []) for name in "LXA LXC SXA XCHX XAD XSU".split()]
    + [("INCR", [], Line("INCR,1", 2), []), ("TIX", [Line("AXT,1", 5)], Line("TIX,1", "END"), TO_END)]
    + [("SSP", [], Line("SSP", RESULT, 3), []), ("SETPD", [], Line("SETPD", 0), [])]
    + [("GOTO", [], Line("GOTO", "END"), TO_END), ("CALL", [], Line("CALL", "END"), TO_END)]
    + [("RVQ", [Line("CALL", "SUB"), Line("GOTO", "END"), "SUB"], Line("RVQ"), TO_END)]
    + [("STQ", [], Line("STQ", RESULT), []), ("RTB", DP, Line("RTB", RTB), [])]
    + [(name, DP, Line(name, "END"), TO_END) for name in "BZE BPL BMN BHIZ BOV".split()]
    + [("CGOTO", [], Line("CGOTO", RESULT, Labels("END")), TO_END), ("SET", [], Line("SET", 3), []), ("BON", [], Line("BON", 3, "END"), TO_END)]
    + [("DLOAD, popped", [Line("PUSH")], Line("DLOAD"), []), ("DLOAD, a cell", [], Line("DLOAD", RESULT), [])]
    + [("DLOAD*", [], Line("DLOAD*", At(A, 1)), []), ("DLOAD, work area", [], Line("DLOAD", 0o20), [])]
)  # fmt: skip


def programs():
    return [Program(title, *before, statement, *behind) for title, before, statement, behind in ROWS]


def runs(trace):
    """The cycles of each program of a trace at which it fetched a word, less those that timers took."""
    found, taken, step = [], 0, None
    for line in trace:
        cycle, place, name, offset, *_ = line.split()
        if step is not None:
            taken += int(cycle) - step
        step = int(cycle) if place == "-" else None
        if not offset.startswith("+") and name == "INTPRET":
            found.append([])
        elif not offset.startswith("+") and name == "FETCH":
            found[-1].append(int(cycle) - taken)
    return found


def costs(trace):
    """The titles of the rows and their cycles."""
    found = {}
    for (title, before, *_), fetches in zip(ROWS, runs(trace)):
        at = sum(not isinstance(each, str) for each in before) - ("SUB" in before)  # a GOTO before SUB is not done
        found[title] = fetches[at + 1] - fetches[at]
    return found


def table(found, wide=4):
    """The rows as a table of a page."""
    cells = [f"{title} | {cycles}" for title, cycles in found.items()]
    cells += [" | "] * (-len(cells) % wide)
    high = len(cells) // wide
    lines = ["| " + " | ".join(["Operation | Cycles"] * wide) + " |", "|" + "---|---:|" * wide]
    return lines + ["| " + " | ".join(cells[n::high]) + " |" for n in range(high)]
