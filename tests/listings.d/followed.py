"""Tries of list --follow: a rope made by hand, and the ropes of examples/interpreter against the listings of their sources.

The listings have each word with its line. So the lines behind TC INTPRET, up to EXIT and the operands of its line, say which words
are interpretive code, without any decoding. Orders of the example begin at column 8, operands at column 16.
"""

import re
import subprocess
from pathlib import Path

from judge import STUDY, TOP, check, judge

SOURCES = [("orbit.agc", "--sums"), ("main.agc",), ("law.agc",)]

# Words by the rules, by hand, as in `SPOKEN` of tries.py: 04100 is TC 4100, and 77425 is DSU EXIT. The interpreter has no words,
# since nothing runs. A line is there only if its word is not +0.
WORDS = """02,4000 04100
02,4001 77776
02,4002 00005
02,5776 04100
02,5777 45345
03,6000 00017
03,6001 01401
03,6002 77776
04,2000 04100
04,2001 45345
04,2002 00017
04,2003 04100
04,2004 77626
04,2005 77676
04,2006 77776
04,2007 04100
04,2010 77776
04,2011 30000
04,2100 04100
04,2101 77425
04,2102 00017
04,2103 30000
04,2104 04100
04,2105 77425
04,2106 54000
05,3777 04100
06,3774 04100
06,3775 45345
06,3776 00017
06,3777 01401
07,2000 04100
07,2002 04100
07,2003 77776
10,3776 04100
10,3777 77425
11,2000 00017
43,3777 04100
"""

# Words of bank 02 run on into 03. 04,2003 holds TC 4100 too, but as an operand: the place 4077 with 1 added. What DSU takes may be
# left out before a word that is negative.
CODE = """02,4001 77776 EXIT

02,5777 45345 DLOAD DSU
03,6000 00017 16
03,6001 01401 1400
03,6002 77776 EXIT

04,2001 45345 DLOAD DSU
04,2002 00017 16
04,2003 04100 02,4077
04,2004 77626 STADR
04,2005 77676 STORE 100
04,2006 77776 EXIT

04,2010 77776 EXIT

04,2101 77425 DSU EXIT
04,2102 00017 16

04,2105 77425 DSU EXIT

# the bank ends at 05,3777, without EXIT

06,3775 45345 DLOAD DSU
06,3776 00017 16
06,3777 01401 1400
# the bank ends at 06,3777, without EXIT

07,2001 00000 no interpretive word: the code ends before it

07,2003 77776 EXIT

10,3777 77425 DSU EXIT

# the bank ends at 43,3777, without EXIT
"""


def run(*words):
    done = subprocess.run([STUDY, *words], capture_output=True, text=True)
    return done.returncode, done.stdout, done.stderr


def woven(page, rope, *options):
    """Weaves a page to a rope file. Returns the status and the message."""
    with open(rope, "wb") as file:
        done = subprocess.run([STUDY, "weave", page, *options], stdout=file, stderr=subprocess.PIPE, text=True)
    return done.returncode, done.stderr


def try_hand(scratch):
    page, rope, names, back = (Path(scratch, name) for name in ("words", "words.rope", "words.names", "back"))
    page.write_text(WORDS)
    names.write_text("02,4077 BEFORE\n02,4100 INTPRET\nE3,1400 RVEC\n")
    judge("the words of the rope, status and message", (0, ""), woven(page, rope))
    judge("list --follow", (0, CODE, ""), run("list", rope, "--follow", "4100"))
    judge("the same place with its bank", (0, CODE, ""), run("list", rope, "--follow", "02,4100"))
    named = CODE.replace(" 1400\n", " RVEC\n").replace("02,4077", "BEFORE")
    judge("the same place by its name", (0, named, ""), run("list", rope, "--follow", "INTPRET", "--names", names))
    judge("another place", (0, "", "agc-study: no word of this rope is TC 4101\n"), run("list", rope, "--follow", "4101"))
    page.write_text(CODE)
    judge("what it prints weaves, status and message", 0, woven(page, back)[0])
    lines = [line for line in CODE.splitlines() if line[:1].isdigit()]
    words = [line[:13] for line in lines if line[8:13] != "00000"]
    judge("to the words of the code", sorted(words), sorted(line[:13] for line in run("list", back)[1].splitlines()))
    bank = Path(scratch, "bank")
    whole = rope.read_bytes()
    bank.write_bytes(whole[4 * 2048:5 * 2048])
    only = [part for part in CODE.split("\n\n") if part.startswith("04")]
    judge("of bank 04 alone", (0, "\n\n".join(only) + "\n", ""), run("list", bank, "--follow", "4100", "--first-bank", "04"))


def source_parts(text):
    """The words of a line of a source without its label, and the column of the first one."""
    text = text.split("#")[0].rstrip()
    rest = re.sub(r"^\S+", lambda label: " " * len(label[0]), text)
    return rest.split(), len(rest) - len(rest.lstrip())


def spans_in(listing):
    """The places and words that a listing shows behind each TC INTPRET, up to EXIT and its operands."""
    spans, goes_on, has_exit = [], False, False
    for place, word, text in re.findall(r"^(\d\d,\d{4}) (\d{5}) # \S+ \d+: (.*)$", listing, re.M):
        words, column = source_parts(text)
        if has_exit and column < 16:
            goes_on = has_exit = False
        if goes_on:
            spans[-1].append((place, word))
            has_exit = has_exit or "EXIT" in words and column < 16
        elif words == ["TC", "INTPRET"]:
            spans.append([])
            goes_on = True
    return spans


def try_source(scratch, source, *options):
    folder = Path(TOP, "examples", "interpreter")
    rope, listing, names = (Path(scratch, source + "." + end) for end in ("rope", "listing", "names"))
    files = ("--write-listing", listing, "--write-names", names)
    judge(f"{source} is woven", (0, ""), woven(folder / source, rope, *options, *files))
    text = listing.read_text()
    found = re.search(r"^# (\S+) INTPRET$", text, re.M)
    if not check(f"{source} has the place of INTPRET", found):
        return
    status, shown, message = run("list", rope, "--follow", found[1])
    spans = [part.splitlines() for part in shown.split("\n\n")]
    came = [[(line[:7], line[8:13]) for line in span] for span in spans if span]
    judge(f"{source}: status, message and words", (0, "", spans_in(text)), (status, message, came))
    for span, (first, *_, last) in zip(spans, came):
        lines = run("list", rope, "--interpretive", f"{first[0]}-{last[0]}")[1].splitlines()
        judge(f"{source}: the lines from {first[0]} on are those of --interpretive", lines, span)
    judge(f"{source}: the same by name", run("list", rope, "--follow", found[1], "--names", names),
          run("list", rope, "--follow", "INTPRET", "--names", names))


def try_followed(scratch):
    try_hand(scratch)
    for source in SOURCES:
        try_source(scratch, *source)
