"""Tries of weave with pages in the listings' language.

Of a page NAME.agc, NAME.words has each place with its word. Each row of `faults` is put where `faulty` has a mark, and into a file
that is included there; the row's last line is to be refused, by its sentence and with its word. Sums, listings, sources with includes and interpretive code have tries of their own.
"""

import re
import subprocess
from pathlib import Path

from followed import try_followed
from judge import STUDY, TOP, check, finish, judge, scratch_folder
from source_lines import try_source_lines

HERE = Path(__file__).parent
BANKS = [2, 3, 0, 1, *range(4, 36)]  # in the order of a rope file


def weave(page):
    done = subprocess.run([STUDY, "weave", page], capture_output=True)
    return done.returncode, done.stdout, done.stderr.decode("latin-1")


def words_of(rope):
    """The words of a rope file that are not +0, by place."""
    words = {}
    for at in range(0, len(rope), 2):
        bank, offset = BANKS[at // 2048], at // 2 % 1024
        address = {2: 0o4000, 3: 0o6000}.get(bank, 0o2000) + offset
        word = int.from_bytes(rope[at:at + 2], "big") >> 1
        if word:
            words[f"{bank:02o},{address:04o}"] = f"{word:05o}"
    return words


def try_page(page):
    wanted = dict(line.split() for line in page.with_suffix(".words").read_text().splitlines())
    status, rope, message = weave(page)
    judge(f"{page.name}, status and message", (0, ""), (status, message))
    if status:
        return
    came = words_of(rope)
    wanted = {place: word for place, word in wanted.items() if word != "00000"}
    other = sorted(place for place in wanted.keys() | came.keys() if wanted.get(place) != came.get(place))
    judge(f"{page.name}, places with another word", [], [(each, wanted.get(each), came.get(each)) for each in other[:5]])


FAULTS = [Path(TOP, "crates", *name.split("/")) for name in (
    "agc_vocabulary/src/source_fault.rt", "agc_interpretive/src/fault.rt", "agc_include/src/fault.rt")]
# Faults that no row can have: weave names the line of another word for a place, and the cases of tests/messages.d say why of the others.
NO_ROW = {"NamedTwice", "Include", "OtherOrder"}
MOST_BYTES = 16_777_216  # of a file


class Faulty:
    """A row of `faults`: its lines, its sentence, and column and word of its last line, or None."""

    def __init__(self, row, sentence):
        self.row, self.sentence, self.lines, self.column, self.word = row, sentence, [], None, None
        for line in row.split(";"):
            text, count = re.fullmatch(r"(.*?)(?:\{(\d+)\})?", line).groups()
            begin, mark, rest = text.partition("<")
            if mark:
                self.column, self.word, text = len(begin) + 1, rest.split(">")[0], begin + rest.replace(">", "", 1)
            self.lines += [re.sub(r"\\([0-7]{3})", lambda found: chr(int(found[1], 8)), text)] * int(count or 1)


def faulty_rows():
    """The rows of `faults`."""
    rows, sentence = [], ""
    for line in (HERE / "faults").read_text().splitlines():
        if line.startswith("= "):
            sentence = line[2:]
        elif line and not line.startswith("#"):
            rows.append(Faulty(line, sentence))
    return rows


def write_included(folder):
    """Writes what the rows include."""
    Path(folder, "folder").mkdir()
    Path(folder, "folder", "OTHER.agc").write_text("")
    Path(folder, "outside.agc").symlink_to(Path("folder", "OTHER.agc"))
    for name, count in (("empty", 0), ("full", MOST_BYTES), ("long", MOST_BYTES + 1)):
        Path(folder, f"{name}.agc").write_bytes(b"#" * count)


def begin_of(message, wanted):
    """As many lines of a message as are wanted."""
    return "".join(message.splitlines(True)[:wanted.count("\n")])


def try_fault(page, base, faulty):
    """Tries a row in the page, and in a file that the page includes."""
    at = base.index("# MARK")
    number, sentence = at + len(faulty.lines), faulty.sentence
    page.write_text("\n".join(base[:at] + faulty.lines + base[at + 1:]), encoding="latin-1")
    wanted = f"agc-study: text line {number}: {sentence}\n"
    if faulty.column:
        wanted += f"    page.agc line {number}, column {faulty.column}: `{faulty.word}`\n"
    elif faulty.row.startswith("$"):
        wanted = f"agc-study: page.agc line {number}: {sentence}\n"
    status, rope, message = weave(page)
    judge(f"the line `{faulty.row}`", (2, b"", wanted), (status, rope, begin_of(message, wanted)))
    if faulty.row.startswith("$"):
        return
    page.with_name("PART.agc").write_text("\n".join(faulty.lines), encoding="latin-1")
    page.write_text("\n".join(base[:at] + ["$PART.agc"] + base[at + 1:]))
    wanted = f"agc-study: PART.agc line {len(faulty.lines)}: page.agc {sentence}\n"
    if faulty.column:
        wanted = f"agc-study: PART.agc line {len(faulty.lines)}, column {faulty.column}: {sentence}: `{faulty.word}`\n"
    status, rope, message = weave(page)
    judge(f"`{faulty.row}` in a file that is included", (2, b"", wanted), (status, rope, begin_of(message, wanted)))


def try_faults(scratch):
    folder = Path(scratch, "faults")
    folder.mkdir()
    write_included(folder)
    base, rows = (HERE / "faulty").read_text().split("\n"), faulty_rows()
    for faulty in rows:
        try_fault(folder / "page.agc", base, faulty)
    cases = [case for file in FAULTS for case in re.findall(r"Fault::(\w+) =>\s*\{?\s*\"([^\"]*)\"", file.read_text(encoding="utf-8"))]
    shown = {faulty.sentence for faulty in rows}
    judge("faults without a row", [], [name for name, text in cases if text not in shown and name not in NO_ROW])
    check(f"{len(rows)} faulty lines and {len(cases)} faults: too few", len(rows) >= 200 and len(cases) >= 40)


def run(*words):
    done = subprocess.run([STUDY, *words], capture_output=True)
    return done.returncode, done.stdout, done.stderr.decode("latin-1")


def bank_sum(words, bank):
    """The ones' complement sum of a bank's words."""
    total = 0
    for place, word in words.items():
        if place.startswith(f"{bank:02o},"):
            total += int(word, 8)
            total = total - 0o77777 if total > 0o77777 else total
    return total


# Bank 05 has room for the three words just behind offset 1774, bank 06 has none behind 1775. The words +0 that end bank 07 are
# the source's too.
SUMMED = """        SETLOC  4000
        OCT     1
        OCT     77776
        BANK    01
        OCT     12345
        SETLOC  23774
        OCT     70000
        SETLOC  25775
        OCT     3
        BANK    07
        OCT     7
        OCT     0
        OCT     0
        BANK    43
        OCT     40000
"""
SELVES = {
    "02,4002": "04002", "02,4003": "04003", "01,2001": "02001", "01,2002": "02002", "05,3775": "03775", "05,3776": "03776",
    "43,2001": "02001", "43,2002": "02002", "07,2003": "02003", "07,2004": "02004",
}


def try_sums(scratch):
    page = Path(scratch, "summed.agc")
    page.write_text(SUMMED)
    plain = words_of(run("weave", page)[1])
    for form in ("classic", "parity"):
        status, rope, message = run("weave", page, "--sums", "--form", form)
        full = "agc-study: bank 06 has no room for a sum: three words\n"
        judge(f"--sums, {form}: status and message", (0, full), (status, message))
        if form == "parity":
            odd = [at for at in range(0, len(rope), 2) if rope[at:at + 2] != b"\0\0"]
            wrong = [at for at in odd if bin(int.from_bytes(rope[at:at + 2], "big")).count("1") % 2 == 0]
            judge("--sums, parity: words with wrong parity", [], wrong)
            continue
        words = words_of(rope)
        for bank in (1, 2, 5, 7, 0o43):
            judge(f"the sum of bank {bank:02o}", bank, bank_sum(words, bank))
        judge("TC SELF", SELVES, {place: words.get(place) for place in SELVES})
        checks = {"02,4004", "01,2003", "05,3777", "07,2005", "43,2003"}
        judge("the other words", plain, {at: word for at, word in words.items() if at not in SELVES and at not in checks})


LISTED = b"""# caf\351
X1      EQUALS  46
START   CAF     TEN     # begin
        2CADR   START

TEN     OCT     12
        OCT     0
"""
LISTING = """              # page.agc 1: # caf\\351
              # page.agc 2: X1      EQUALS  46
02,4000 34003 # page.agc 3: START   CAF     TEN     # begin
02,4001 04000 # page.agc 4:         2CADR   START
02,4002 04000
              # page.agc 5:
02,4003 00012 # page.agc 6: TEN     OCT     12
02,4004 00000 # page.agc 7:         OCT     0
# names
# E0,0046 X1
# 02,4000 START
# 02,4003 TEN
# banks
# 02: 5 of 1024 words, the last at 02,4004
"""


def try_listing(scratch):
    page, new = Path(scratch, "page.agc"), Path(scratch, "listing")
    page.write_bytes(LISTED)
    status, rope, message = run("weave", page, "--write-listing", new)
    judge("--write-listing, status and message", (0, ""), (status, message))
    judge("--write-listing, the rope", run("weave", page)[1], rope)
    judge("the listing", LISTING, new.read_text() if new.exists() else None)
    judge("it weaves to the rope", (0, rope, ""), run("weave", new))
    judge("check --listing takes it", 0, run("check", "--listing", new)[0])
    status, rope, message = run("weave", page, "--write-listing", new)
    judge("an existing file is kept", (2, b"", LISTING), (status, rope, new.read_text()))
    status, rope, message = run("weave", page, "--sums", "--write-listing", new, "--force")
    judge("--sums and a listing", (0, ""), (status, message))
    judge("it weaves to the rope with its sums", (0, rope, ""), run("weave", new))
    status, rope, message = run("weave", page, "--write-listing", page, "--force")
    judge("never the source", (2, b"", LISTED), (status, rope, page.read_bytes()))
    for each in sorted(HERE.glob("*.agc")):
        status, rope, message = run("weave", each, "--write-listing", new, "--force")
        judge(f"{each.name}: its listing weaves to its rope", (0, rope, ""), run("weave", new))


def try_compared(scratch):
    folder = Path(scratch, "folder")
    folder.mkdir()
    Path(folder, "MAIN.agc").write_text("$TAGS.agc\nSTART   CA      TEN\n$REST.agc\n")
    Path(folder, "TAGS.agc").write_text("TIME    EQUALS  0100\n")
    Path(folder, "REST.agc").write_text("        TS      TIME\nTEN     OCT     12\n")
    whole = Path(scratch, "whole.agc")
    whole.write_text("START   CA      TEN\n        TS      0100\nTEN     OCT     13\n")
    wanted = """02,4002: 00012 TC 0012 (REST.agc line 2) | 00013 TC 0013 (line 3)
bank 02: 1 words differ
"""
    done = run("compare", "--words", Path(folder, "MAIN.agc"), whole, "--source")
    judge("compare --words, a source with includes", (1, wanted.encode(), ""), done)
    Path(folder, "REST.agc").write_text("        TS      TIMER\nTEN     OCT     12\n")
    wanted = "agc-study: REST.agc line 1, column 17: no line has this name: `TIMER`\n"
    done = run("compare", "--words", Path(folder, "MAIN.agc"), whole, "--source")
    judge("a faulty one", (2, b"", wanted), done)


# Each word by the rules, by hand: a pair is 77776 less its code, or less 200 times the right code plus 1; an address and a
# shift have 1 added, `,2` and a store behind STADR are complemented.
SPOKEN = """04,2000 45345 DLOAD DSU
04,2001 00017 16
04,2002 01401 1400
04,2003 77661 SL
04,2004 20206 5
04,2005 77614 SET
04,2006 00065 5
04,2007 77773 VLOAD*
04,2010 76376 1400,2
04,2011 77650 GOTO
04,2012 10000 04,2000
04,2013 77626 STADR
04,2014 77676 STORE 100
04,2015 77776 EXIT
"""


def try_interpretive(scratch):
    lines = Path(scratch, "spoken")
    lines.write_text(SPOKEN)
    rope = Path(scratch, "spoken.rope")
    rope.write_bytes(run("weave", lines)[1])
    judge("list --interpretive", (0, SPOKEN.encode(), ""), run("list", rope, "--interpretive", "04,2000-04,2015"))
    ranges = Path(scratch, "ranges")
    ranges.write_text("# the code\r\n\n04,2000-04,2006\t# its first words\n\t04,2007-04,2015")
    judge("list --interpretive @FILE", (0, SPOKEN.encode(), ""), run("list", rope, "--interpretive", f"@{ranges}"))
    page = Path(scratch, "spoken.agc")
    spoken = [line.split(" ", 2)[2] for line in SPOKEN.splitlines()]
    page.write_text("        BANK    04\n" + "".join(f"{' ' * (24 if word[0].isdigit() else 16)}{word}\n" for word in spoken))
    judge("what it prints is a source of these words", (0, rope.read_bytes(), ""), run("weave", page))
    try_followed(scratch)


def main():
    scratch = scratch_folder()
    for page in sorted(HERE.glob("*.agc")):
        try_page(page)
    try_faults(scratch)
    try_sums(scratch)
    try_listing(scratch)
    try_compared(scratch)
    try_interpretive(scratch)
    try_source_lines(scratch)
    shown = subprocess.run([Path(TOP, "tests/pages"), Path(TOP, "examples/waitlist/README.md")], capture_output=True, text=True)
    judge("the commands of the example's page", (0, ""), (shown.returncode, shown.stderr))


main()
finish()
