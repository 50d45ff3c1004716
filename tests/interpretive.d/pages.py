"""Weaves pages of the interpretive language, and compares each word; and refuses faulty lines."""

import os
import re
import resource
import subprocess
from pathlib import Path

import folder as made
import generate
from judge import STUDY, check, finish, judge, near, scratch_folder
from language import OPERATIONS

HERE = Path(__file__).parent
BANKS = [2, 3, 0, 1, *range(4, 36)]  # in the order of a rope file
PAGES = [(seed, bank) for seed, bank in enumerate((0o04, 0o12, 0o17, 0o22, 0o27, 0o37, 0o40, 0o43) * 2)]
PAIRS = 260

# Before the line that is tried: names, and a place in bank 12.
HEAD = [
    "CELL\t\tEQUALS\t100",
    "MASK\t\tEQUALS\t101",
    "LOW\t\tEQUALS\t20100\t\t# 04,2100",
    "HIGH\t\tEQUALS\t54100\t\t# 22,2100",
    "LAST\t\tEQUALS\t21777\t\t# 04,3777",
    "ZEROTH\t\tEQUALS\t10100\t\t# 00,2100",
    "FIRST\t\tEQUALS\t12100\t\t# 01,2100",
    "BOTTOM\t\tEQUALS\t50100\t\t# 20,2100",
    "\t\tSETLOC\t34000\t\t# 12,2000",
]
NO_PLACE = "no such address: erasable memory ends at 3777, fixed memory in bank 43"
OTHER_HALF = "this place is in the other half of fixed memory: copy the constant into a bank of this half"
BANK = "this bank is out of reach: banks 00, 01, 20 and 21 hold no operands, and 00 and 01 no branches"
LAST_WORD = "the last word of a bank is out of reach: move it"
NO_CELL = "a cell is expected here: this place is in fixed memory"
NO_FIXED = "a place in fixed memory is expected here: this is a cell"
NUMBER = "not a number that this operand can have"
INDEX = "`*` and an index belong together: write ,1 or ,2 behind an operand of a starred operation only"
PAIR = "at the right of an operation only another one may stand: write operands on the next lines"
MANY = "the operations before this line take no more operands: remove it"
FEW = "an operand is missing: write it on the line after the operations"
NO_PUSH_UP = "nothing is popped for this operation: write its operand"
STADR = "an operand that is left out before a store needs STADR as the last operation"
STORE = "STADR is the last operation before a store: write the store on the next line"
OPERAND = "the operand is missing, superfluous or malformed"
NAME = "no line has this name"
ORDER = "no order or directive has this name (they come after the first column)"

# Lines, of which the last is refused, and the sentence. `-` stands before an operand.
FAULTS = [
    ("VLOAD VXV;- HIGH", OTHER_HALF), ("DLOAD;- HIGH", OTHER_HALF), ("DLOAD*;- HIGH,1", OTHER_HALF),
    ("DLOAD;- ZEROTH", BANK), ("DLOAD;- FIRST", BANK), ("GOTO;- ZEROTH", BANK), ("CALL;- FIRST", BANK),
    ("STCALL CELL;- FIRST", BANK), ("BON;- 1;- ZEROTH", BANK), ("TIX,1;- FIRST", BANK),
    ("DLOAD;- LAST", LAST_WORD), ("VLOAD*;- LAST,2", LAST_WORD),
    ("LXA,1;- LOW", NO_CELL), ("STQ;- LOW", NO_CELL), ("SXA,2;- HIGH", NO_CELL), ("STORE LOW", NO_CELL),
    ("STODL HIGH", NO_CELL), ("RTB;- CELL", NO_FIXED), ("BOVB;- CELL", NO_FIXED), ("CGOTO;- CELL;- CELL", NO_FIXED),
    ("SL;- 200D", NUMBER), ("SR;- -3", NUMBER), ("SL;- LOW", NUMBER), ("SET;- 960D", NUMBER), ("SET;- -1", NUMBER),
    ("AXT,1;- 100000", NUMBER), ("SETPD;- -1", NO_PLACE), ("STORE 0 -1", NO_PLACE), ("GOTO;- -1", NO_PLACE),
    ("STCALL 3777", NO_PLACE),
    ("DLOAD;- CELL,1", INDEX), ("DLOAD*;- CELL", INDEX), ("SR;- 3,1", INDEX), ("SL*;- 3", INDEX), ("CALL;- LOW,1", INDEX),
    ("STODL CELL,1", INDEX), ("STCALL CELL,2", INDEX), ("STODL* CELL;- CELL", INDEX), ("STODL CELL;- CELL,1", INDEX),
    ("SETPD;- CELL,1", INDEX), ("STORE* CELL", INDEX), ("EXIT*", INDEX), ("SETPD*", INDEX),
    ("DLOAD CELL", PAIR), ("DLOAD STORE", PAIR), ("DLOAD DAD DAD", PAIR), ("EXIT CA", PAIR), ("DLOAD PDDM", PAIR),
    ("CALL", FEW), ("CALL;EXIT", FEW), ("CALL;TC 4000", FEW), ("BON;- 1;EXIT", FEW), ("SL;EXIT", FEW), ("AXT,1;STORE CELL", FEW),
    ("SSP;- CELL;EXIT", FEW), ("STCALL CELL;EXIT", FEW), ("DLOAD SL;- 7;EXIT", FEW), ("RTB;OCT 1", FEW),
    ("NORM;EXIT", NO_PUSH_UP), ("SETPD;EXIT", NO_PUSH_UP), ("DLOAD*;EXIT", NO_PUSH_UP), ("SSP;EXIT", NO_PUSH_UP),
    ("STODL* CELL;EXIT", NO_PUSH_UP), ("CGOTO;EXIT", NO_PUSH_UP),
    ("DAD;STORE CELL", STADR), ("DLOAD DAD;- CELL;STODL CELL", STADR), ("STODL CELL;STORE CELL", STADR),
    ("STADR;EXIT", STORE), ("DAD STADR;DLOAD", STORE), ("STADR;CAF 4000", STORE), ("STADR SQRT", STORE), ("STADR DLOAD", STORE),
    ("DLOAD;TC 4000", FEW), ("DLOAD DAD;- CELL;OCT 77777", FEW), ("DAD STADR;2DEC 1", FEW), ("STOVL CELL;COUNT*;OCT 1", FEW),
    ("STORE", OPERAND), ("DLOAD;- CELL +1 +2", OPERAND), ("STORE CELL CELL", OPERAND),
    ("DLOAD;- NOWHERE", NAME), ("STORE NOWHERE", NAME), ("CALL;- NOWHERE +2", NAME),
    ("EXIT;- CELL", MANY), ("VLOAD VXV;- CELL;- CELL;- CELL", MANY), ("STORE CELL;- NOWHERE", MANY), ("DLOAX", ORDER),
]

# Lines that are taken, with the number of their words.
SOUND = [
    ("DLOAD DAD;- CELL;EXIT", 3), ("DLOAD DAD;- CELL;DDV;EXIT", 4), ("DAD STADR;STORE CELL", 2), ("DAD STADR;STODL CELL;EXIT", 3),
    ("DLOAD DAD;COUNT*;UNIT", 2), ("STADR;STOVL CELL;- MASK", 3), ("DLOAD;NAMED;- LOW", 2), ("STORE 3777", 1),
    ("VLOAD VXV;- CELL\t# SO;# A COMMENT;;- LOW", 3), ("DLOAD;- MASK", 2), ("SL*;- 0 -7,2", 2), ("GOTO;- HIGH", 2),
    ("DLOAD;- CELL;EXIT;TC 4000", 4), ("CALL;NAMED;- LOW", 2), ("SSP;- CELL;- -5", 3), ("AXT,1;- 77776", 2),
]


def weave(page):
    done = subprocess.run([STUDY, "weave", page], capture_output=True)
    return done.returncode, done.stdout, done.stderr.decode("latin-1")


def words_of(rope):
    """The words of a rope file that are not +0, by place."""
    words = {}
    for at in range(0, len(rope), 2):
        bank, offset = BANKS[at // 2048], at // 2 % 1024
        word = int.from_bytes(rope[at:at + 2], "big") >> 1
        if word:
            words[f"{bank:02o},{0o2000 + offset:04o}"] = f"{word:05o}"
    return words


def compare(name, page, wanted):
    """Weaves a page, and compares each word of the rope."""
    status, rope, message = weave(page)
    if not judge(f"{name}, status and message", (0, ""), (status, message)):
        return
    came = words_of(rope)
    wanted = {place: word for place, word in wanted.items() if word != "00000"}
    other = sorted(place for place in wanted.keys() | came.keys() if wanted.get(place) != came.get(place))
    judge(f"{name}, places with another word", [], [(each, wanted.get(each), came.get(each)) for each in other[:5]])


def try_hand():
    wanted = dict(line.split() for line in (HERE / "hand.words").read_text().splitlines())
    compare("the page by hand", HERE / "hand.agc", wanted)


def try_layouts(page):
    """A page in many layouts, and the same with CR LF, blanks at the ends of lines, bytes in comments, and no last end of a line."""
    text = (HERE / "layouts.agc").read_bytes()
    wanted = dict(line.split() for line in (HERE / "layouts.words").read_text().splitlines())
    compare("the page of layouts", HERE / "layouts.agc", wanted)
    page.write_bytes(text.replace(b"#", b"#\xff\x80\x00").replace(b"\n", b" \t\r\n").rstrip())
    compare("the page of layouts with CR LF", page, wanted)


def try_offsets(page):
    """Code that list prints with names is code of the language: an offset is octal, or decimal with its D."""
    page.write_text("TABLE\t\tEQUALS\t1400\n\t\tSETLOC\t34000\n\t\tDLOAD*\tDSU\n\t\t\tTABLE +10,1\n\t\t\tTABLE +7\n\t\tEXIT\n")
    rope, names = page.with_name("rope"), page.with_name("names")
    rope.write_bytes(subprocess.run([STUDY, "weave", page, "--write-names", names], capture_output=True).stdout)
    span = ["list", rope, "--interpretive", "12,2000-12,2003", "--names", names]
    done = subprocess.run([STUDY, *span], capture_output=True, text=True)
    wanted = "12,2000 45343 DLOAD* DSU\n12,2001 01411 TABLE +8D,1\n12,2002 01410 TABLE +7\n12,2003 77776 EXIT\n"
    judge("list --interpretive with names", (0, wanted, ""), (done.returncode, done.stdout, done.stderr))


def try_pages(page):
    used = set()
    for seed, bank in PAGES:
        lines = generate.lines(seed, PAIRS, bank)
        page.write_text("\n".join(text for text, _ in lines) + "\n")
        words = [word for _, word in lines if word is not None]
        wanted = {f"{bank:02o},{0o2000 + at:04o}": f"{word:05o}" for at, word in enumerate(words)}
        compare(f"seed {seed} in bank {bank:02o}, {len(words)} words", page, wanted)
        used |= {name for text, word in lines if word is not None for name in text.split("#")[0].split()}
    judge("operations that no page uses", [], sorted(set(OPERATIONS) - used))


def try_folder(home):
    """A folder of 90 files and 60,000 lines: each word, in 3 seconds of a processor and 400 MB. It comes first, because the largest
    memory is that of all programs so far."""
    place = Path(home, "flight")
    place.mkdir()
    wanted = made.write(made.SEED, place)
    judge("files and lines", (90, 60_000), (len(os.listdir(place)), sum(len(file.read_bytes().splitlines()) for file in place.iterdir())))
    before = resource.getrusage(resource.RUSAGE_CHILDREN)
    compare("a folder of 60,000 lines", place / "main.agc", wanted)
    after = resource.getrusage(resource.RUSAGE_CHILDREN)
    seconds = after.ru_utime + after.ru_stime - before.ru_utime - before.ru_stime
    if os.environ.get("FIGURES"):
        print(f"interpretive: 60,000 lines, {len(wanted)} words, {seconds:.2f} seconds, {after.ru_maxrss // 1024} MB")
    near("seconds of a processor", 0, seconds, 3)
    near("MB of memory", 0, after.ru_maxrss / 1024, 400)


def line_of(part):
    """A line of a row in its columns."""
    if part.startswith("- "):
        return "\t\t\t" + part[2:]
    if part in ("", "NAMED") or part.startswith("#"):
        return part
    return "\t\t" + part.replace(" ", "\t", 1)


def written(row):
    return [line_of(part) for part in row.split(";")]


def try_faults(folder):
    page, part = Path(folder, "page.agc"), Path(folder, "PART.agc")
    for row, sentence in FAULTS:
        lines = HEAD + written(row)
        page.write_text("\n".join(lines) + "\n")
        status, rope, message = weave(page)
        found = re.match(r"agc-study: \S+ line (\d+)[^:]*: ([^\n]*)", message)
        came = (int(found[1]), found[2]) if found else message
        if judge(f"the line `{row}`", (2, b"", (len(lines), sentence)), (status, rope, came)):
            part.write_text("\n".join(lines[len(HEAD):]) + "\n")
            page.write_text("\n".join(HEAD + ["$PART.agc"]) + "\n")
            status, rope, message = weave(page)
            wanted = f"PART.agc line {len(lines) - len(HEAD)}"
            check(f"`{row}` in a file that is included: {message}", status == 2 and wanted in message and sentence in message)
    check("sixty faulty lines", len(FAULTS) >= 60)


def try_sound(page):
    for row, count in SOUND:
        page.write_text("\n".join(HEAD + written(row) + ["\t\tOCT\t12345"]) + "\n")
        status, rope, message = weave(page)
        place = f"12,{0o2000 + count:04o}"
        judge(f"the line `{row}`, and a word behind it", (0, "", "12345"), (status, message, words_of(rope).get(place)))


def main():
    folder = scratch_folder()
    page = Path(folder, "page.agc")
    try_folder(folder)
    try_hand()
    try_layouts(page)
    try_offsets(page)
    try_pages(page)
    try_faults(folder)
    try_sound(page)
    finish()


if __name__ == "__main__":
    main()
