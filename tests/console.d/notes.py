"""Notes behind the answers: source lines, operands, quantities and the display in words; and short forms of commands at a terminal."""

import os
import pty
import random
import re
import subprocess
import termios
from fractions import Fraction

from judge import CONSOLE, STUDY, TOP, judge, scratch_folder

scratch = scratch_folder()
DESCENT = os.path.join(TOP, "examples", "descent")
KEYS = os.path.join(TOP, "examples", "keys", "rope")
BLANKS = {"PROG": "__", "VERB": "__", "NOUN": "__", "R1": "______", "R2": "______", "R3": "______"}


def file_with(name, text):
    """Writes a file, and returns its path."""
    path = os.path.join(scratch, name)
    with open(path, "w") as file:
        file.write(text)
    return path


def answered(commands, *words):
    """Runs a console on these commands. Returns its status, and the lines of its output and of its errors."""
    run = subprocess.run([CONSOLE, *words], input=commands, capture_output=True, text=True)
    return run.returncode, run.stdout.splitlines(), run.stderr.splitlines()


def refused(*words):
    status, lines, errors = answered("panel\n", *words)
    return status, lines, errors


def try_listing():
    """A place of the listing gets its source line; all else stays as it is."""
    source = file_with("two.agc", "# two\n        SETLOC  4000\nSTART   CA      THREE   # into A\n        TC      START\nTHREE   OCT     3\n")
    rope, listing = os.path.join(scratch, "two.rope"), os.path.join(scratch, "two.listing")
    with open(rope, "wb") as out:
        woven = subprocess.run([STUDY, "weave", source, "--write-listing", listing], stdout=out, stderr=subprocess.PIPE)
    judge("a source is woven", 0, woven.returncode)
    commands = "next\nstep 2\nwhere\nregisters\ncell 0\nfly\npanel\nback step\nover\n"
    status, plain, _ = answered(commands, rope, os.devnull)
    judge("a session without a listing", 0, status)
    noted = {"4000": " # two.agc 3: START   CA      THREE   # into A", "4001": " # two.agc 4:         TC      START"}
    wanted = [line + noted.get(place_in(line), "") for line in plain]
    judge("a session with a listing", (0, wanted, []), answered(commands, rope, os.devnull, "--listing", listing))
    named = answered("step 2\n", rope, os.devnull, "--listing", listing, "--names", file_with("two.names", "4000 START\n4002 THREE\n"))[1]
    judge("a source line takes the place of an operand's name", [noted["4000"], noted["4001"]], [line[line.index(" #") :] for line in named[:2]])
    # one behind next, two behind step 2, one behind where
    judge("notes that the listing makes", 4, sum(line != other for line, other in zip(plain, wanted)))
    other = "agc-console: listing: it is not of this rope: at 02,4000 it has 34002, and the rope 14000"
    status, lines, errors = refused(KEYS, os.devnull, "--listing", listing)
    judge("a listing of another rope", (1, [], other), (status, lines, "".join(errors)[: len(other)]))
    none = (1, [], ["agc-console: cannot read listing"])
    judge("no listing", none, refused(rope, os.devnull, "--listing", os.path.join(scratch, "none")))


def place_in(line):
    """Returns the place with which a line of these answers begins."""
    found = re.match(r"(?:next|where|\d+) (\d{4}) ", line + " ")
    return found[1] if found else None


def value_of(kind, scale, words):
    """Returns what words are worth, and what a one in the last place is."""
    full = Fraction(2) ** int(scale[1:]) if scale.startswith("B") else Fraction(scale)
    signed = [word if word < 0o40000 else word - 0o77777 for word in words]
    if kind == "unsigned":
        return words[0] * full / 2**15, full / 2**15
    step = full / 2 ** (14 * len(words))
    return sum(part * 2 ** (14 * (len(words) - 1 - at)) for at, part in enumerate(signed)) * step, step


def try_quantities():
    """The value of each quantity is the one that its words are worth, to half a step, with its unit."""
    dice = random.Random(79)
    kinds = {"single": 1, "double": 2, "triple": 3, "unsigned": 1}
    lines, pokes, sizes = ["# a file of quantities"], [], {}
    for number in range(60):
        kind = dice.choice(list(kinds))
        scale = dice.choice(["B14", "B-6", "360", "163.84", "B0"])
        unit = dice.choice(["", "m", "m/s", "deg"])
        bank, offset = dice.randrange(3, 8), 4 * number
        lines.append(f"value{number} E{bank},{0o1400 + offset:o} {kind} {scale} {unit}".rstrip())
        words = [dice.choice([0, 0o77777, dice.randrange(0o100000)]) for _ in range(kinds[kind])]
        sizes[f"value{number}"] = (kind, scale, unit, f"E{bank},{0o1400 + offset:o}", words)
        pokes += [f"poke {bank} {offset + at:o} {word:o}" for at, word in enumerate(words)]
    quantities = file_with("quantities", "\n".join(lines) + "\n")
    for name, (kind, scale, unit, place, words) in sizes.items():
        answers = answered("\n".join([*pokes, f"print {name}"]) + "\n", KEYS, os.devnull, "--quantities", quantities)
        printed = [line.split()[2] for line in answers[1] if line.startswith("print ")]
        judge(f"{name}: the words", [f"{word:05o}" for word in words], printed)
        note = next(line for line in answers[1] if line.startswith(f"# {name} ")).split(" ")
        wanted, step = value_of(kind, scale, words)
        judge(f"{name}: the note", ["#", name, *([unit] if unit else [])], note[:2] + note[3:])
        judge(f"{name}: {note[2]} is within half a step of {float(wanted)}", True, abs(Fraction(note[2]) - wanted) <= step / 2)
        same = answered("\n".join([*pokes, f"print {place} {len(words)}"]) + "\n", KEYS, os.devnull, "--quantities", quantities)
        judge(f"{name}: by its place", answers, same)
    fewer = answered(f"print {sizes['value0'][3]}\nprint nothing\n", KEYS, os.devnull, "--quantities", file_with("q", "pair 0100 double B14\n"))
    judge("too few words make no note", 0, sum(line.startswith("# pair") for line in fewer[1]))
    vector = answered("poke 0 100 1\npoke 0 105 2\nprint way\n", KEYS, os.devnull, "--quantities", file_with("q", "way 0100 vector B28 m\n"))
    judge("a vector", ["# way 16384, 0, 2 m"], [line for line in vector[1] if line.startswith("# way")])
    code = answered("poke 0 100 1202\nprint code\n", KEYS, os.devnull, "--quantities", file_with("q", "code 0100 octal 15-1\n"))
    judge("a code in octal", ["# code 01202"], [line for line in code[1] if line.startswith("# code")])
    bad = file_with("bad", "a 0100 single B14\na 0101 single B14\n")
    judge("a faulty file", (1, [], ["agc-console: quantities line 2: an earlier line has this name or column"]), refused(KEYS, os.devnull, "--quantities", bad))
    none = (1, [], ["agc-console: cannot read quantities"])
    judge("no file", none, refused(KEYS, os.devnull, "--quantities", os.path.join(scratch, "none")))


def try_cells():
    """One printed word as a fraction, two in double precision; names behind cells and breakpoints."""
    names = file_with("names", "0100 TICK\nE3,1404 ZN\n4054 LOOP\n")
    with_names = [KEYS, os.devnull, "--names", names, "--nouns", file_with("no-nouns", "")]
    pokes = "poke 0 100 10000\npoke 0 101 67777\npoke 3 4 40001\npoke 3 5 77776\n"
    wanted = [
        "print 0100 10000 4096 # TICK",
        "# as a fraction 0.25",
        "print 0100 10000 4096 # TICK",
        "print 0101 67777 -4096 # TICK +1",
        "# in double precision 67104768, as a fraction 0.24998474",
        "print E3,1404 40001 -16382 # ZN",
        "print E3,1405 77776 -1 # ZN +1",
        "# in double precision -268402689, as a fraction -0.999877933",
        "print 0100 10000 4096 # TICK",
        "print 0101 67777 -4096 # TICK +1",
        "print 0102 00000 0 # TICK +2",
        "cell 0100 10000 # TICK",
        "break 1 order 02,4056 # LOOP +2",
        "break 2 cell 0100 # TICK",
        "break 3 write 010",
    ]
    commands = "print TICK\nprint 100 2\nprint ZN 2\nprint TICK 3\ncell TICK\nbreak LOOP+2\nwatch TICK\nbreak write 10\n"
    status, lines, _ = answered(pokes + commands, *with_names)
    judge("cells and breakpoints by name", (0, wanted), (status, [line for line in lines if not line.startswith("at ")]))


# 4010 puts 3 into EB, 4012 puts 5 into FB, 4013 puts 30 into FB: the superbank counts with that.
ORDERS = """4000 34010
4001 54003
4002 55406
4003 55410
4004 34012
4005 54004
4006 12100
4010 01400
4012 12000
4013 60000
05,2100 00006
05,2101 01010
05,2102 53411
05,2103 34013
05,2104 54004
30,2104 00000
30,2105 14020
4020 12110
30,2110 12111
30,2111 00006
30,2112 07000
"""
# The second line has what is at the same address in another bank.
NAMED_BY_ORDERS = """4000 START
E2,1010 WRONG
E3,1406 LOW
E3,1410 FLAGS
05,2100 FAR
30,2110 HIGH
40,2110 HIGHER
C000 NONE
C010 OUT0
"""
# Each order, and its note. In double words the upper one has the name: the word of DXCH has the address of the lower.
NOTED = [
    ("4000 START        34010 CA 4010", "CA START +8"), ("4001 START +1     54003 TS 0003", ""),
    # it may have written EB itself, if bank 0 was there before it
    ("4002 START +2     55406 TS 1406", ""), ("4003 START +3     55410 TS 1410", "TS FLAGS"),
    ("4004 START +4     34012 CA 4012", "CA START +10"), ("4005 START +5     54004 TS 0004", ""),
    ("4006 START +6     12100 TCF 2100", "TCF FAR"), ("05,2100 FAR          00006 EXTEND", ""),
    ("05,2101 FAR +1       01010 WRITE 010 > 010 12000", "WRITE OUT0"), ("05,2102 FAR +2       53411 DXCH 1410", "DXCH FLAGS"),
    ("05,2103 FAR +3       34013 CA 4013", "CA START +11"), ("05,2104 FAR +4       54004 TS 0004", ""),
    # from bank 02 only the superbank says whether 2110 is in bank 30 or 40; from bank 30 it is sure
    ("30,2105              14020 TCF 4020", "TCF START +16"), ("4020 START +16    12110 TCF 2110", ""),
    ("30,2110 HIGH         12111 TCF 2111", "TCF HIGH +1"), ("30,2111 HIGH +1      00006 EXTEND", ""),
    ("30,2112 HIGH +2      07000 EDRUPT 000", ""),
]


def woven_orders():
    """The path of the rope of ORDERS."""
    rope = os.path.join(scratch, "orders.rope")
    with open(rope, "wb") as out:
        subprocess.run([STUDY, "weave", file_with("orders", ORDERS)], stdout=out, check=True)
    return rope


def try_operands():
    """The order with its operand by its name behind `next`, `step` and `ahead`, if the line tells which place it is."""
    rope, names = woven_orders(), file_with("order-names", NAMED_BY_ORDERS)
    with_names, with_notes = [rope, os.devnull, "--names", names], ["--nouns", file_with("no-nouns", "")]
    shown = lambda line: (re.sub(r"^\d+ ", "", line.split(" | ")[0].split(" # ")[0]), line.partition(" # ")[2])
    count = len(NOTED)
    for command in ("step", "ahead"):
        status, lines, _ = answered(f"{command} {count}\n", *with_names, *with_notes)
        judge(f"the orders of {command}", (0, NOTED), (status, [shown(line) for line in lines[:count]]))
    coming = {4: "CA START +10", 5: "", 6: "", 10: "CA START +11", 14: "TCF HIGH +1"}  # before 6, 2100 may be in any bank
    for steps, note in coming.items():
        wanted = f"next {NOTED[steps][0].split(' > ')[0]}" + (f" # {note}" if note else "")
        judge(f"next after {steps}", wanted, answered(f"step {steps}\nnext\n", *with_names, *with_notes)[1][-2])
    plain = answered(f"step {count}\nnext\n", *with_names)[1]
    judge("names alone make no notes in a pipe", [], [line for line in plain if "#" in line])
    at_terminal = answered(f"step {count}\n", *with_names, "--terminal")[1]
    judge("names alone make them at a terminal", NOTED, [shown(line) for line in at_terminal if " | " in line])
    judge("no names, no notes", [], [line for line in answered(f"step {count}\n", rope, os.devnull, *with_notes)[1] if "#" in line])


def amount_of(shown, worth, unit):
    """Returns what a register says: by the rules of docs/WEB.md, with exact decimals."""
    if not re.fullmatch(r"[+_-]\d{5}", shown) or (shown[0] == "_" and re.search("[89]", shown)):
        return "–"
    if shown[0] == "_":
        return f"{shown[1:]} octal"
    places = len(worth.partition(".")[2])
    number = Fraction(worth) * int(shown[1:])
    text = f"{number.numerator // number.denominator}" + (f".{int(number % 1 * 10**places):0{places}}" if places else "")
    return ("-" if shown[0] == "-" else "") + text + (f" {unit}" if unit else "")


def minutes_of(shown):
    """Returns what a register of minutes and seconds says."""
    found = re.fullmatch(r"([+_-])(\d\d)_(\d\d)", shown)
    return f"{'-' if found[1] == '-' else ''}{int(found[2])} min {int(found[3])} s" if found else "–"


def relay_words(panel):
    """Returns the words of channel 10 that show a panel, by the wiring of the DSKY."""
    code = {"0": 0o25, "1": 0o3, "2": 0o31, "3": 0o33, "4": 0o17, "5": 0o36, "6": 0o34, "7": 0o23, "8": 0o35, "9": 0o37, "_": 0}
    r1, r2, r3 = ([panel[name][0], *(code[digit] for digit in panel[name][1:])] for name in ("R1", "R2", "R3"))
    pair = {name: code[panel[name][0]] << 5 | code[panel[name][1]] for name in ("PROG", "VERB", "NOUN")}
    sign = lambda register, wanted: (register[0] == wanted) << 10
    return [
        11 << 11 | pair["PROG"],
        10 << 11 | pair["VERB"],
        9 << 11 | pair["NOUN"],
        8 << 11 | r1[1],
        7 << 11 | sign(r1, "+") | r1[2] << 5 | r1[3],
        6 << 11 | sign(r1, "-") | r1[4] << 5 | r1[5],
        5 << 11 | sign(r2, "+") | r2[1] << 5 | r2[2],
        4 << 11 | sign(r2, "-") | r2[3] << 5 | r2[4],
        3 << 11 | r2[5] << 5 | r3[1],
        2 << 11 | sign(r3, "+") | r3[2] << 5 | r3[3],
        1 << 11 | sign(r3, "-") | r3[4] << 5 | r3[5],
    ]


def rope_that_shows(panel, name):
    """Makes a rope that writes the relay words of a panel, and returns its path."""
    words = relay_words(panel)
    orders = [0]
    for at in range(len(words)):
        orders += [0o34000 + 0o100 + at, 0o00006, 0o01010]
    orders[0] = 0
    orders += [0o14000 + len(orders)]
    memory = [0] * 0o2000
    memory[: len(orders)] = orders
    memory[0] = 0o34077
    memory[0o77] = 0
    memory[0o100 : 0o100 + len(words)] = words
    path = os.path.join(scratch, name)
    with open(path, "wb") as file:
        file.write(b"".join((word << 1).to_bytes(2, "big") for word in memory))
    return path


def try_nouns():
    """The display in words is the panel's, by the file of verbs and nouns."""
    dice = random.Random(16)
    names = ["slant range", "rate", "time to go", "angle = 2", "R1 = x"]
    for number in range(60):
        shown = dict(BLANKS, PROG="63")
        shown["VERB"] = dice.choice(["16", "06", "__", "1_", "35"])
        shown["NOUN"] = dice.choice(["68", "60", "__", "99"])
        for register in ("R1", "R2", "R3"):
            shown[register] = dice.choice(["______", dice.choice("+-_") + f"{dice.randrange(100000):05}", "+1_345", f"{dice.choice('+-_')}{dice.randrange(60):02}_{dice.randrange(60):02}"])
        parts = []
        for register in dice.sample(["R1", "R2", "R3"], dice.randrange(1, 4)):
            worth = dice.choice(["1", "0.1", "0.01", "2.5", "10", "octal", "123456789.123456789", "min sec"])
            parts.append((register, dice.choice(names), worth, dice.choice(["", "m", "m/s"]) if worth[0].isdigit() else ""))
        text = ", ".join(f"{register} {name} = {worth} {unit}".rstrip() for register, name, worth, unit in parts)
        nouns = file_with("nouns", f"# nouns\nverb 16   monitor\t it\nverb 06 decimal # shown once\n\nnoun 68 {text}\nnoun 60 {text}\n")
        status, lines, errors = answered("go 400\npanel\n", rope_that_shows(shown, "shows"), os.devnull, "--nouns", nouns)
        panel = [line for line in lines if not re.match("write|at ", line)]
        judge(f"panel {number}", [f"{name} {shown[name]}" for name in BLANKS], panel[:6])
        wanted = []
        if shown["VERB"].isdigit():
            said = f"V{shown['VERB']}" + (f" N{shown['NOUN']}" if shown["NOUN"].isdigit() else "")
            meaning = {"16": ": monitor it", "06": ": decimal"}.get(shown["VERB"], "")
            amounts = [
                f"{name} {amount_of(shown[register], '1' if worth == 'octal' else worth, unit)}"
                if worth != "min sec" else f"{name} {minutes_of(shown[register])}"
                for register, name, worth, unit in parts
                if shown[register] != "______" and shown["NOUN"] in ("68", "60")
            ]
            wanted = [f"# {said}{meaning}" + (": " + ", ".join(amounts) if amounts else "")]
        judge(f"panel {number} in words", (0, wanted, []), (status, panel[8:], errors))
    by_hand = dict(BLANKS, VERB="16", NOUN="68", R1="+00377", R2="+00465", R3="-00012")
    status, lines, _ = answered("go 400\nquiet\npanel\n", rope_that_shows(by_hand, "shows"), os.devnull, "--nouns", os.path.join(DESCENT, "nouns"))
    by_time = file_with("by-time", "noun 44 R1 apolune = 0.1 nmi, R3 time to perilune = min sec\n")
    for signs, words in (("-12_05", "-12 min 5 s"), ("+00_59", "0 min 59 s"), ("+12005", "–"), ("+1__05", "–")):
        by_hand_too = dict(BLANKS, VERB="16", NOUN="44", R3=signs)
        printed = answered("go 400\nquiet\npanel\n", rope_that_shows(by_hand_too, "shows"), os.devnull, "--nouns", by_time)[1][-2]
        judge(f"noun 44 by hand: {signs}", f"# V16 N44: time to perilune {words}", printed)
    judge("noun 68 by hand", "# V16 N68: monitor: slant range 377 m, time to go 46.5 s, radar less altitude -12 m", lines[-2])
    for text, fault in {
        "word 16 x\n": "line 1: a line begins with verb or noun",
        "\nverb 6 x\n": "line 2: a verb or noun has two digits",
        "verb 16 x\nverb 16 y\n": "line 2: an earlier line has this verb or noun",
        "noun 16\n": "line 1: the verb or noun has no meaning",
        "noun 16 RR x = 1\n": "line 1: each part of a noun is R1 NAME = WORTH UNIT, or = octal, or = min sec; R2 and R3 too",
        "noun 16 R1 x = 1 a b\n": "line 1: each part of a noun is R1 NAME = WORTH UNIT, or = octal, or = min sec; R2 and R3 too",
        "noun 16 R1 x = 1234567890\n": "line 1: each part of a noun is R1 NAME = WORTH UNIT, or = octal, or = min sec; R2 and R3 too",
    }.items():
        judge(f"nouns {text!r}", (1, [], [f"agc-console: nouns {fault}"]), refused(KEYS, os.devnull, "--nouns", file_with("bad", text)))
    judge("no nouns", (1, [], ["agc-console: cannot read nouns"]), refused(KEYS, os.devnull, "--nouns", os.path.join(scratch, "none")))


def try_short_forms():
    """At a terminal letters stand for commands, an empty line repeats the last one, and runs print no writes."""
    terminal, far = pty.openpty()
    modes = termios.tcgetattr(far)
    modes[3] &= ~termios.ECHO
    termios.tcsetattr(far, termios.TCSANOW, modes)
    rope = rope_that_shows(dict(BLANKS, VERB="16"), "shows")
    process = subprocess.Popen([CONSOLE, rope, os.devnull], stdin=far, stdout=far)
    os.close(far)
    os.write(terminal, b"s\n\np 0\ngo 40\nb 4003\nquiet off\ngo 9\nquit\n")
    shown = b""
    while True:
        try:
            part = os.read(terminal, 4096)
        except OSError:
            break
        if not part:
            break
        shown += part
    process.wait()
    os.close(terminal)
    lines = shown.decode().splitlines()
    judge("a note at a terminal", 1, lines.count("# as a fraction -0.62494"))
    lines.remove("# as a fraction -0.62494")
    wanted = answered("quiet\nstep\nstep\nprint 0\ngo 40\nbreak 4003\nquiet off\ngo 9\nquit\n", rope, os.devnull)[1][1:]
    judge("short forms at a terminal", wanted, lines)
    judge("writes of runs", (0, 2), tuple(sum(line.startswith("write") for line in part) for part in (lines[:-4], lines[-4:])))
    piped = answered("s\np 0\n\n", rope, os.devnull)
    unknown = "error: UnknownCommand: unknown command; help lists the commands"
    judge("no short forms in a pipe", (0, [unknown, unknown, "at 0"], []), piped)


def try_notes():
    try_listing()
    try_quantities()
    try_cells()
    try_operands()
    try_nouns()
    try_short_forms()
