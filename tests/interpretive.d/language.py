"""The interpretive language, encoded by a table of its own, which shares nothing with agc_interpretive.

A word is an int. A place of fixed memory is 0o2000 * bank + offset, with banks 40 to 43 (octal) behind 37; a cell is
0o400 * bank + offset. The codes and forms are from memory of the interpreter's jump tables, not checked.
"""

LAST = 0o77777
SUPERBANK = 0o20000  # banks 40 to 43 count as 30 to 33

# 4n + 1, with `*` 4n + 3. A slash parts the name from its operands, if they are not one address.
INDEXED = (
    "VLOAD TAD SIGN VXSC CGOTO/al TLOAD DLOAD V/SC/a SLOAD SSP/ak PDDL MXV PDVL CCALL/al VXM NORM/n DMPR DDV BDDV - VAD "
    "VSU BVSU DOT VXV VPROJ DSU BDSU DAD - DMP SETPD/d"
).split()

# 10n (octal)
UNARY = (
    "EXIT SQRT SINE,SIN COSINE,COS ARCSIN,ASIN ARCCOS,ACOS DSQ ROUND DCOMP,VCOMP VDEF UNIT ABVAL,ABS VSQ STADR RVQ,ITCQ PUSH"
).split()

# 10n + 2 for X2, 10n + 6 for X1
REGISTERS = "AXT/k AXC/k LXA/e LXC/e SXA/e XCHX/e INCR/k TIX/b XAD/e XSU/e".split()

# by their codes
BRANCHES = {
    "BZE": 0o122, "GOTO": 0o126, "BPL": 0o132, "BMN": 0o136, "RTB/c": 0o142, "BHIZ": 0o146, "CALL": 0o152, "CALRB": 0o152,
    "STQ/e": 0o156, "ITA/e": 0o156, "BOVB/c": 0o172, "BOV": 0o176,
}

# the kind in the operand word: bits 10 to 8, and bits 8 to 5
SHIFTS = {"SL": 0o200, "VSL": 0o200, "SR": 0o600, "VSR": 0o600, "SLR": 0o1200, "SRR": 0o1600}
SWITCHES = {
    "BONSET": 0o000, "SETGO": 0o020, "BOFSET": 0o040, "SET": 0o060, "BONINV": 0o100, "INVGO": 0o120, "BOFINV": 0o140,
    "INVERT": 0o160, "BONCLR": 0o200, "CLRGO": 0o220, "BOFCLR": 0o240, "CLEAR": 0o260, "BON": 0o300, "BOFF": 0o340,
}
STORES = {"STORE": 0, "STODL": 3, "STODL*": 4, "STOVL": 5, "STOVL*": 6, "STCALL": 7}


def _operations():
    """Each name, with its code and its operands: a address, n one that is never left out, d direct, k constant, e cell,
    b branch, c and l CADR, s shift, w switch."""
    found = {}
    for at, entry in enumerate(INDEXED):
        name, _, operands = ("V/SC", "/", "a") if entry == "V/SC/a" else entry.partition("/")
        if name != "-":
            found[name] = 4 * at + 1, operands or "a"
            if operands != "d":
                found[name + "*"] = 4 * at + 3, (operands or "a").replace("a", "n")
    for name in SHIFTS:
        found[name] = 0o115, "s"
        found[name + "*"] = 0o117, "s"
    for at, names in enumerate(UNARY):
        for name in names.split(","):
            found[name] = 8 * at, ""
    for places in range(1, 9):
        for at, way in enumerate("LR"):
            found[f"VS{way}{places}"] = 0o20 * (places - 1) + 0o10 * at + 4, ""
            if places <= 4:
                found[f"S{way}{places}R"] = 0o40 * (places - 1) + 0o10 * at + 4, ""
                found[f"S{way}{places}"] = 0o40 * (places - 1) + 0o10 * at + 0o24, ""
    for at, entry in enumerate(REGISTERS):
        name, _, operands = entry.partition("/")
        found[name + ",2"] = 8 * at + 2, operands
        found[name + ",1"] = 8 * at + 6, operands
    for entry, code in BRANCHES.items():
        name, _, operands = entry.partition("/")
        found[name] = code, operands or "b"
    for name in SWITCHES:
        found[name] = 0o162, "w" if name in ("SET", "INVERT", "CLEAR") else "wb"
    return found


OPERATIONS = _operations()


def pair(left, right=None):
    """The word of one or two operations."""
    upper = OPERATIONS[right][0] + 1 if right else 0
    return LAST - (0o200 * upper + OPERATIONS[left][0] + 1)


def indexed(word, index):
    return LAST - word if index == 2 else word


def address(place, is_fixed, index=0):
    """An address of fourteen bits, plus 1."""
    return indexed(place % 0o40000 + 1 if is_fixed else place + 1, index)


def cadr(fixed):
    """Fifteen bits of FB and offset, as they are."""
    return fixed - SUPERBANK if fixed >= 0o100000 else fixed


def shift(name, places, index=0):
    return indexed(0o20000 + SHIFTS[name.rstrip("*")] + places + 1, index)


def switch(name, number):
    return 0o400 * (number // 15) + SWITCHES[name] + number % 15


def store(name, cell, index=0):
    return 0o4000 * (STORES[name] + index) + cell + 1


def constant(number):
    return number if number >= 0 else LAST + number
