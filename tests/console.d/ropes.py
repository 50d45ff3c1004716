"""Random ropes whose memory depends on when an event comes, and in which order."""

RELINT, INHINT, EXTEND, RETURN, RESUME, START = 0o00003, 0o00004, 0o00006, 0o00002, 0o50017, 0o4060
CCS, TCF, INCR, ADS, CA, INDEX, TS, XCH, MASK = 0o10000, 0o10000, 0o24000, 0o26000, 0o30000, 0o50000, 0o54000, 0o56000, 0o70000
EDRUPT, DV, BZF, DCA, BZMF = 0o07000, 0o10000, 0o10000, 0o30000, 0o60000  # extracodes
SUM, INDEXED, DIVISOR = 0o107, 0o120, 0o121  # a cell to which much is added, and two that nothing else changes
ROUTINES, CONSTANTS = 0o4400, 0o4500
UPPER, LOWER, BY, SELDOM, SEVEN = range(0o4773, 0o5000)  # the last constants: what is divided, by what, and two masks
CELLS = [0, 1, 2, 0, 1, 2, *range(0o20, 0o32), 0o33, 0o45, *range(0o100, 0o110), *range(0o100, 0o110), 0o1410, 0o1577]
PAIRS = [1, *range(0o101, 0o110), 0o1411]
READ_FROM = [*range(1, 8), 0o10, 0o11, 0o13, 0o15, *range(0o30, 0o34), 0o777]
WRITE_TO = [1, 2, 5, 6, 7, 0o10, 0o11, 0o13, 0o13, 0o32]
EDGES = [0, 1, 2, 0o37777, 0o40000, 0o77776, 0o77777]
# Orders with a cell, with a constant or a cell, with the lower word of a pair, and with a channel that is read or written
WITH_CELL, WITH_CELL_EXTRA = [0o22000, INCR, ADS, XCH], [0o22000, 0o24000, 0o26000]
WITH_ANY, WITH_ANY_EXTRA = [CA, 0o40000, 0o60000, MASK], [0o70000]
WITH_PAIR, WITH_PAIR_EXTRA = [0o20000, 0o52000], [0o30000, 0o40000]
READS, WRITES = [0o00000, 0o02000, 0o04000, 0o06000], [0o01000, 0o03000, 0o05000]


def file_of(words):
    """The bytes of a rope in the classic form."""
    return b"".join((word << 1).to_bytes(2, "big") for word in words)


def wild_rope(dice):
    """A rope whose banks are all full of random words. Few of them divide, and few calls lead to cells, so that it runs on for
    some time."""
    words = [EXTEND if dice.random() < 0.2 else dice.randrange(0o100000) for _ in range(0o44 * 0o2000)]
    for at in range(1, len(words)):
        if words[at - 1] != EXTEND:
            words[at] += 0o4000 if 7 < words[at] < 0o2000 else 0
        elif 0o10000 <= words[at] < 0o12000:
            words[at] += 0o10000
    for vector in range(0o4, 0o54, 4):
        words[vector] = dice.choice([RESUME, RESUME, words[vector]])
    return file_of(words)


def mixing_rope(dice):
    """A rope whose loop mixes channels, counters, registers and cells by most orders, and whose services count. Now and then it
    stops."""
    words = [TCF + START - 2] + [0] * 0o777
    for vector in range(0o4, 0o54, 4):
        words[vector : vector + 3] = [INCR + dice.choice([SUM, 0o31, 0o100]), INCR + dice.choice(CELLS[6:]), RESUME]
    code = []
    while len(code) < 0o300:
        code += some_orders(dice, START + len(code))
    at = START - 0o4000
    words[at - 2 : at + len(code) + 1] = [CA + SEVEN, XCH + SUM, *code, TCF + START]
    for at in range(ROUTINES - 0o4000, CONSTANTS - 0o4000, 4):
        words[at : at + 3] = [INCR + dice.choice(CELLS[6:]), ADS + SUM, RETURN]
    for at in range(CONSTANTS - 0o4000, 0o1000):
        words[at] = dice.choice([dice.choice(EDGES), dice.randrange(0o100000)])
    words[UPPER - 0o4000 :] = [*division(dice), 0o177, 7]
    return file_of(words)


def division(dice):
    """The two words of a dividend, and a divisor. The quotient is defined, now and then only just."""
    divisor = dice.randrange(1, 0o40000)
    upper, lower = dice.choice([(divisor, 0), (0, dice.randrange(0o40000)), (dice.randrange(divisor), dice.randrange(0o40000))])
    return [word ^ dice.choice([0, 0o77777]) for word in (upper, lower, divisor)]


def some_orders(dice, here):
    """The words of a few orders, which stand from this address on and go on behind them. What may be skipped is INCR."""
    cell, other, pair = dice.choice(CELLS), INCR + dice.choice(CELLS), dice.choice(PAIRS)
    place, routine = dice.choice([cell, dice.randrange(CONSTANTS, UPPER)]), dice.randrange(ROUTINES, CONSTANTS, 4)
    add, read = ADS + SUM, dice.choice(READS) + dice.choice(READ_FROM)
    return dice.choice([
        [dice.choice(WITH_CELL) + cell, add],
        [EXTEND, dice.choice(WITH_CELL_EXTRA) + cell],
        [dice.choice(WITH_ANY) + place, add],
        [EXTEND, dice.choice(WITH_ANY_EXTRA) + place, add],
        [EXTEND, dice.choice([0o20000, 0o60000]) + cell, add],
        [dice.choice(WITH_PAIR) + pair],
        [EXTEND, dice.choice(WITH_PAIR_EXTRA) + pair, add],
        [EXTEND, read, add],
        [EXTEND, read, EXTEND, dice.choice(WRITES) + dice.choice(WRITE_TO), add],
        [CA + place, EXTEND, dice.choice(WRITES) + dice.choice(WRITE_TO), add],
        [CA + place, TS + cell, other],
        [CCS + cell, other, INCR + 0o101, INCR + 0o102, INCR + 0o103],
        [EXTEND, dice.choice([BZF, BZMF]) + here + 3, other],
        [CA + SUM, MASK + SELDOM, EXTEND, BZF + here + 5, TCF + here + 7, EXTEND, EDRUPT],
        [routine],
        [CA + SUM, MASK + SEVEN, XCH + INDEXED, INDEX + INDEXED, CA + 0o100, add],
        [CA + BY, XCH + DIVISOR, EXTEND, DCA + LOWER, EXTEND, DV + DIVISOR, add],
        [INHINT, other, RELINT],
    ])
