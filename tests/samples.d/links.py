"""Tries `agc-study uplink` through a machine, and `agc-study downlink` against logs worked out by hand, and random ones against a reader
that looks at each word by itself."""

import os
import random
import re
import subprocess
from fractions import Fraction
from pathlib import Path
from typing import Dict, List, NamedTuple, Tuple

from agc import Console
from judge import AGC, CONSOLE, STUDY, TOP, check, judge, scratch_folder
from quantities import BITS, SIZES, Quantity, seconds_text

LOGS = int(os.environ.get("SAMPLES_LOGS", 200))
SEED = os.environ.get("SAMPLES_SEED", "79")
WORDS = {
    # a code, its complement, the code: five binary digits each
    "V": 0b10001_01110_10001, "3": 0b00011_11100_00011, "7": 0b00111_11000_00111, "E": 0b11100_00011_11100, "6": 0b00110_11001_00110,
    "4": 0b00100_11011_00100, "0": 0b10000_01111_10000, "8": 0b01000_10111_01000, "9": 0b01001_10110_01001, "N": 0b11111_00000_11111,
    "C": 0b11110_00001_11110, "K": 0b11001_00110_11001, "R": 0b10010_01101_10010, "+": 0b11010_00101_11010, "-": 0b11011_00100_11011,
    "1": 0b00001_11110_00001, "2": 0b00010_11101_00010, "5": 0b00101_11010_00101,
}
"""The words of keys, by the codes of docs/SPECIFICATION.md."""

LISTS = """# two lists
list first 00001 77777
a 2 double B14 m
b 4 single 1.5
list second 00001 77776   # another one
c 2 bits 10-7
d 3 unsigned 360 deg
e 4 triple B0
"""
LOG = """PROG __
5 034 00002
6 035 77777
10 034 00001
12 035 77777
20 034 00003
21 010 54171
22 035 20000
30 034 60000
32 035 11111
40 034 00001
42 035 77776
50 034 01700
52 035 20000
60 034 00000
62 035 77777
70 034 40000
72 035 00000
80 034 00001
82 035 77777
90 034 77774
92 035 57777
"""
# -8191 * 1.5 / 16384 is -0.749908, half a step 0.000046; -16383 / 2^42 is -3.725063e-9, half a step 1.1e-13
ROWS = ["cycle,seconds,list,a,b,c,d,e", "10,0.00012,first,3.5,-0.7499,,,", "40,0.00047,second,,,15,90,-0.000000003725"]
HEAD = "list x 00001 00002\n"
FAULTS: List[Tuple[str, str]] = [
    ("a 0 single B0\n", "line 1: "), ("list x 1 2\n", "line 1: "), ("list x 00001\n", "line 1: "), ("list x 00001 00002 3\n", "line 1: "),
    ("list a,b 00001 00002\n", "line 1: "), ("list x 00001 00008\n", "line 1: "), (HEAD + "list y 00001 00002\n", "line 2: "),
    (HEAD + "a 0 quad B0\n", "line 2: "), (HEAD + "a 0 single B61\n", "line 2: "), (HEAD + "a 0 single 0\n", "line 2: "),
    (HEAD + "a 0 bits 16\n", "line 2: "), (HEAD + "a -1 single B0\n", "line 2: "), (HEAD + "a 1000 single B0\n", "line 2: "),
    (HEAD + "a 0 single\n", "line 2: "), (HEAD + "a 0 single B0 m m\n", "line 2: "), (HEAD + "1 0 single B0\n", "line 2: "),
    (HEAD + "a 0 single B0\n\na 1 single B0\n", "line 4: "), (HEAD + "a 0 vector B0\na.y 1 single B0\n", "line 3: "),
    (HEAD + "a.x 0 single B0\nlist y 00001 00003\na 1 vector B0\n", "line 4: "), (HEAD, "no list"), ("", "no list"),
]
NO_KEYS = ("", "v", "V37P", "V 37", "VÄ", "V" * 4097)
NO_TIMES = ("--every 100", "--bits 0", "--every 0 --bits 0", "--every 15 --bits 1", "--from 999999991467 --every 8534", "--from x")


class Sent(NamedTuple):
    """A list: its name, the words that begin it, and its quantities, each with the number of its first word as its cell."""

    name: str
    head: Tuple[int, int]
    quantities: List[Quantity]

    @property
    def size(self) -> int:
        """How many words come until all quantities are there: an even number."""
        return max([2, *(-(-(each.cell + each.size) // 2) * 2 for each in self.quantities)])


def ran(*words: object, text: str = "") -> "subprocess.CompletedProcess[str]":
    return subprocess.run([str(word) for word in words], input=text, capture_output=True, text=True)


def uplink(*words: str) -> "subprocess.CompletedProcess[str]":
    return ran(STUDY, "uplink", *words)


def downlink(*words: object, text: str = "") -> "subprocess.CompletedProcess[str]":
    return ran(STUDY, "downlink", *words, text=text)


def try_uplink() -> None:
    """Sends each key through INLINK, which is read and cleared after each: the word, and UPRUPT at the last pulse."""
    keys, script = "".join(WORDS), Path(scratch_folder(), "script")
    done = uplink(keys, "--from", "1000")
    script.write_text(done.stdout)
    judge("uplink: 16 pulses a key", 16 * len(keys), len([line for line in done.stdout.splitlines() if line[0] != "#"]))
    with Console(Path(TOP, "examples", "watch", "rope"), script, program=CONSOLE) as console:
        for number, key in enumerate(keys):
            before = 1000 + number * 8533 + 15 * 427
            console.go_to(before)
            came = console.until_cell("0045", within=2)
            judge(f"uplink: {key}", (True, WORDS[key]), (came.came, console.cell("0045")))
            check(f"uplink: {key}: UPRUPT is not next: {console.next()}", console.next() == "- interrupt UPRUPT")
            console.poke(0, 0o45, 0)
    try_uplink_words()


def try_uplink_words() -> None:
    """Tries keys and times that cannot be sent, the last that can, and a full disk."""
    for words in [[each] for each in NO_KEYS] + [["V", *each.split()] for each in NO_TIMES]:
        done = uplink(*words)
        judge(f"uplink {words}: status and output", (2, ""), (done.returncode, done.stdout))
        check(f"uplink {words}: a sentence", done.stderr.startswith("error: "))
    for words in (["V" * 4096, "--bits", "1", "--every", "16"], ["V", "--from", "999999991467", "--every", "8533"]):
        done = uplink(*words)
        judge(f"uplink {words}: status and lines", (0, "", 16 * len(words[0]) + 1), (done.returncode, done.stderr, done.stdout.count("\n")))
    with open("/dev/full", "w") as full:
        judge("uplink: a full disk", 3, subprocess.run([STUDY, "uplink", "V"], stdout=full).returncode)


def pairs_of(log: str) -> List[Tuple[int, int, int]]:
    """The cycle and the words of each pair of a log."""
    writes = [(int(cycle), channel, int(word, 8)) for cycle, channel, word in re.findall(r"^(\d+) (03[45]) ([0-7]{5})$", log, re.MULTILINE)]
    return [(one[0], one[2], two[2]) for one, two in zip(writes, writes[1:]) if (one[1], two[1]) == ("034", "035")]


def slow_rows(lists: List[Sent], log: str) -> List[str]:
    """What `downlink` should print of a log: each pair of words is looked at by itself, as the beginning of a list."""
    pairs = pairs_of(log)
    heads = {each.head: each for each in lists}
    rows = [",".join(["cycle", "seconds", "list"] + [name for each in lists for one in each.quantities for name in one.columns])]
    for at, (cycle, *head) in enumerate(pairs):
        sent = heads.get((head[0], head[1]))
        found = pairs[at:at + sent.size // 2] if sent else []
        if not sent or 2 * len(found) < sent.size or any((one, two) in heads for _, one, two in found[1:]):
            continue
        words = [word for _, *both in found for word in both]
        texts = [one.texts(words[one.cell:one.cell + one.size]) if each is sent else [""] * len(one.columns)
                 for each in lists for one in each.quantities]
        rows.append(",".join([str(cycle), seconds_text(cycle), sent.name, *(text for several in texts for text in several)]))
    return rows


def some_lists(chance: random.Random) -> Tuple[str, List[Sent]]:
    """A file of lists."""
    lines, lists = [], []
    for number in range(chance.choice((1, 1, 2, 5))):
        head = chance.choice((0, 1, 0o77777)), number + 1
        lines += [f"list L{number} {head[0]:05o}  {head[1]:05o}", ""]
        lists.append(Sent(f"L{number}", head, []))
        for place in sorted(chance.choices(range(12), k=chance.choice((1, 1, 3))) if number == 0 or chance.random() < 0.9 else []):
            kind, full = chance.choice(list(SIZES)), chance.randint(1, 9999)
            high = chance.randint(1, 15)
            low = chance.randint(1, high)
            one = Quantity(f"q{number}.{len(lines)}", place, kind, Fraction(full, 100), (high, low), "")
            scale = f"{high}-{low}" if kind in BITS else f"{full // 100}.{full % 100:02}"
            lists[-1].quantities.append(one)
            lines.append(f"{one.name} {place}\t{kind} {scale}{chance.choice((' m/s', ''))}{chance.choice(('', ' # this'))}")
    return "\n".join(lines) + "\n", lists


def some_log(chance: random.Random, lists: List[Sent]) -> str:
    """A log with lists that are whole, cut off, or have a word too many or too few."""
    lines, cycle = ["PROG 63", "R1 +00001", "LAMPS none"], chance.randrange(100)
    for _ in range(chance.randrange(12)):
        sent = chance.choice(lists)
        words = [*sent.head, *(chance.choice((0, 1, 0o77777, chance.randrange(1 << 15))) for _ in range(sent.size - 2))]
        for number, word in enumerate(words[:chance.choice((99, 99, 99, 3, 4))]):
            cycle += chance.randint(1, 5000)
            if chance.random() < 0.1:
                lines.append(f"{cycle} {chance.choice(('010', '033', '036', '134'))} {chance.randrange(1 << 15):05o}")
            if chance.random() > 0.01:
                lines.append(f"{cycle} 03{4 + number % 2} {word:05o}")
            if chance.random() < 0.01:
                lines.append(f"{cycle} 03{4 + number % 2} {word:05o}")
    return "\n".join(lines + [f"STOP Limit CYCLE {cycle} WRITES 7", ""])


def try_logs() -> None:
    """Compares random logs with the slow reader."""
    chance, folder, found = random.Random(f"links {SEED}"), Path(scratch_folder()), 0
    for number in range(LOGS):
        text, lists = some_lists(chance)
        log = some_log(chance, lists)
        (folder / "lists").write_text(text)
        (folder / "log").write_text(log)
        done = downlink(folder / "lists", folder / "log")
        wanted = slow_rows(lists, log) if pairs_of(log) else []
        judge(f"downlink, log {number}, {text!r} {log!r}", (0 if wanted else 2, wanted), (done.returncode, done.stdout.splitlines()))
        found += len(wanted) - 1
    print(f"{LOGS} logs, {found} lists in them")
    check(f"{found} lists are few", found > LOGS or LOGS < 100)


def try_lists() -> None:
    """Reads a log worked out by hand, random logs, faulty files, and the landing's list against the words of its log."""
    folder = Path(scratch_folder())
    file, log = folder / "lists", folder / "log"
    file.write_text(LISTS)
    log.write_text(LOG)
    judge("downlink: by hand", ROWS, downlink(file, log).stdout.splitlines())
    judge("downlink: standard input", ROWS, downlink(file, text=LOG).stdout.splitlines())
    log.write_bytes(LOG.replace("\n", "\r\n").encode())
    judge("downlink: with carriage returns", ROWS, downlink(file, log).stdout.splitlines())
    done = downlink(file, text="5 034 00002\n6 035 77777\n")
    judge("downlink: no list", (0, ROWS[0] + "\n"), (done.returncode, done.stdout))
    check(f"downlink: no list: {done.stderr!r}", "no list" in done.stderr)
    with open("/dev/full", "w") as full:
        judge("downlink: a full disk", 3, subprocess.run([STUDY, "downlink", file, log], stdout=full).returncode)
    try_logs()
    try_list_faults(file, log)
    try_landing_list()


def try_list_faults(file: Path, log: Path) -> None:
    """Tries each fault: status 2, nothing on standard output, and a sentence that names the line."""
    for text in ("", "STOP Limit CYCLE 120 WRITES 0\n", "5 034 00002\n6 034 77777\n", "5 010 00002\n", "5 035 00002\n6 034 00001\n"):
        done = downlink(file, text=text)
        judge(f"downlink of {text!r}", (2, "", 1), (done.returncode, done.stdout, done.stderr.count("\n")))
        check(f"downlink of {text!r}: {done.stderr!r}", "no words of channels 034 and 035" in done.stderr)
    many = HEAD + "".join(f"q{number} 0 single B0\n" for number in range(4097))
    for text, words in FAULTS + [(many, "line 4098: more than 4096 columns; a vector has three")]:
        file.write_text(text)
        done = downlink(file, log)
        check(f"downlink: {text[:99]!r}: {done}", done.returncode == 2 and not done.stdout and words in done.stderr and done.stderr.count("\n") == 1)
    file.write_text(HEAD + "".join(f"q{number} {number % 1000} single B0\n" for number in range(4096)))
    judge("downlink: 4096 columns", 0, downlink(file, log).returncode)
    for files in ((file, "nowhere"), ("nowhere", log)):
        done = downlink(*files)
        judge(f"downlink {files}", (2, "", True), (done.returncode, done.stdout, "nowhere: " in done.stderr))


def try_landing_list() -> None:
    """Checks a row of the landing's list by the erasable load: 7500 m to go, 150 m/s forward, 8500 kg."""
    descent = Path(TOP, "examples", "descent")
    script = Path(scratch_folder(), "script")
    script.write_text("".join(f"{line}\n" for line in (descent / "script").read_text().splitlines() if " poke " in line) + "every 8533 8533 900000 raise 8\n")
    log = ran(AGC, descent / "rope", script, "--limit", "1000000", "--log").stdout
    names, *rows = [line.split(",") for line in downlink(descent / "downlink", text=log).stdout.splitlines()]
    judge("downlink: the landing's columns", "cycle seconds list place forward altitude altitude_rate mass clock".split(), names)
    check(f"downlink: the landing has {len(rows)} rows", len(rows) > 10)
    loaded = dict(place=-7500, forward=150, altitude=2300, altitude_rate=-45, mass=8500)
    for row in rows:
        found: Dict[str, str] = dict(zip(names, row))
        near = all(abs(float(found[name]) - value) < 50 * 2**-14 + abs(value) * 0.02 for name, value in loaded.items())
        check(f"downlink: the load: {found}", near and found["seconds"] == seconds_text(int(found["cycle"])))
        check(f"downlink: the clock: {found}", 0 <= float(found["clock"]) - float(found["seconds"]) < 0.7)
