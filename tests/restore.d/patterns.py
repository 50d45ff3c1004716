"""Draws ropes from a seed, damages them in one way, and judges the pattern that `agc-study check` names.

Each line that is wanted is made from the damage that was done, with counts of its own. The command that the line prints is run,
and has to give the sound rope, as far as the damage left its words.
"""

import os
import re
import shlex
import subprocess
from itertools import product

import judge
from merging import BANK, in_classic_order, is_even, place_text, read, total, with_parity, without_parity, write

HALF = BANK // 2
MODULE = 6 * BANK
KINDS = ("stuck", "exchanged", "moved", "twice", "missing", "reversed", "bytes exchanged", "one place on", "one place back",
         "inverted", "inverted but for the parity bits")
PATTERN = re.compile(rf"({'|'.join(KINDS)}): (.*)")


def run(*args):
    """Returns the status, standard output and standard error."""
    done = subprocess.run([judge.STUDY, *args], capture_output=True, check=False)
    return done.returncode, done.stdout, done.stderr.decode()


def draw_rope(draw, banks, least=100, most=BANK - 1, code=3):
    """Returns the sixteen bits of each place of a rope with right sums in these banks. Two words name the first one as orders
    of this code."""
    words = [0] * (36 * BANK)
    for bank in banks:
        count = draw.randrange(least, most + 1) - 1
        first = {2: 0o4000, 3: 0o6000}.get(bank, 0o2000)
        for at in range(count):
            word = draw.randrange(1, 0o77777) if at > 3 else 0o10000 * draw.choice([1, 3, 4]) + first + draw.choice([0, 2])
            words[bank * BANK + at] = with_parity(word)
        words[bank * BANK + 1] = words[bank * BANK + 3] = with_parity(0o10000 * code + first)
        words[bank * BANK + count] = 2
        put_sum(words, bank, bank)
    return words


def put_sum(words, bank, wanted):
    """Makes the sum of a bank what is wanted, by its last word."""
    last = max(at for at in range(bank * BANK, (bank + 1) * BANK) if words[at])
    rest = total(words[at] >> 1 for at in range(bank * BANK, last))
    words[last] = with_parity(total([wanted, 0o77777 - rest]))


def judge_none(what, words):
    """Judges that no pattern is named, in both forms."""
    write("image", words)
    judge.judge(f"{what}: no pattern", [], patterns("image", "--form", "parity"))
    write("image", without_parity(in_classic_order(words)))
    judge.judge(f"{what}: no pattern, classic", [], patterns("image"))


def patterns(name, *options):
    """Returns the lines of patterns that `check` prints as (kind, text, what mends it)."""
    lines = run("check", name, *options)[1].decode().splitlines()
    found = []
    for at, line in enumerate(lines):
        match = PATTERN.fullmatch(line)
        if match:
            after = lines[at + 1] if at + 1 < len(lines) else ""
            mended = after.removeprefix("    mended by: ") if after.startswith("    mended by: ") else None
            found.append((match[1], match[2], mended))
    return found


def mended(command):
    """Runs a printed command, whose ROPE is `image` and whose DUMP is `other`, and returns the words of the rope that it makes."""
    made = b""
    for at, part in enumerate(command.split(", and ")):
        words = shlex.split(part.replace("ROPE", "image").replace("DUMP", "other"))
        into = None
        if ">" in words:
            into = words[words.index(">") + 1]
            words = words[:words.index(">")]
        status, made, err = run(*words)
        judge.judge(f"{command}: status of part {at}: {err}", 0, status)
        if into:
            with open(into, "wb") as file:
                file.write(made)
    return read(made)


def judge_lines(what, wanted, found):
    judge.judge(f"{what}: patterns", wanted, [(kind, text) for kind, text, _ in found])


def judge_mended(what, sound, found):
    """Judges that the command of the first pattern gives the sound rope; a file may end before its last banks."""
    if found and judge.check(f"{what}: a command", found[0][2] is not None):
        made = mended(found[0][2])
        judge.check(f"{what}: it is sound again", made == sound[:len(made)] and not any(sound[len(made):]))


# Stuck bits

def judge_stuck(what, sound, words, parts):
    """Judges a rope with stuck bits; parts are (bit, value, name, first place, number of places)."""
    write("image", words)
    wanted = []
    for bit, value, name, first, count in parts:
        held = [word for word in words[first:first + count] if word]
        wrong = sum(is_even(word) for word in held)
        text = "the parity bit" if bit == 0 else f"bit {bit}"
        wanted.append(("stuck", f"{text} is {value} in all {len(held)} words of {name}, {place_text(first)} to "
                                f"{place_text(first + count - 1)}; {wrong} have wrong parity (likely)"))
    found = patterns("image", "--form", "parity")
    judge_lines(what, wanted, found)
    judge_mended(what, sound, found)
    lines = run("repair", "image", "--form", "parity", "--stuck")[1].decode().splitlines()
    inside = [at for at, word in enumerate(words) if is_even(word) and any(f <= at < f + n for _, _, _, f, n in parts)]
    judge.judge(f"{what}: repaired", [f"{place_text(at)} {sound[at] >> 1:05o}" for at in inside], [line[:13] for line in lines])


def stuck_parts(draw):
    """A bit that is 0 or 1 in a half bank, a bank or a module; two columns; a column beside single wrong words."""
    for n in range(9):
        bit, value = draw.randrange(16), n % 2
        sound = [1 << bit]
        while 1 << bit in sound:  # such a word would be 0
            sound = draw_rope(draw, [2, 3, 6, 7, 9, 11, 20, 30], 700)
        first, count, name = ((7 * BANK + HALF * (n % 2), HALF, "a half bank"), (9 * BANK, BANK, "a bank"),
                              (MODULE, MODULE, "module 2"))[n % 3]
        words = list(sound)
        stick(words, bit, value, first, count)
        parts = [(bit, value, name, first, count)]
        if n >= 6:
            stick(words, 15 - bit, 1, 20 * BANK, BANK)
            parts.append((15 - bit, 1, "module 4", 18 * BANK, MODULE))
        judge_stuck(f"stuck {n}", sound, words, parts)
    sound = draw_rope(draw, [2, 3, 6, 7, 9, 11, 20, 30], 700)
    words = list(sound)
    words[30 * BANK + 7] ^= 8
    sound[30 * BANK + 7] ^= 8
    stick(words, 5, 1, 9 * BANK, BANK)
    judge_stuck("stuck, and a wrong word elsewhere", sound, words, [(5, 1, "a bank", 9 * BANK, BANK)])


def stick(words, bit, value, first, count):
    """Sets a bit in words of some places. A word that would be 0 stays, since sixteen bits 0 are no word."""
    for at in range(first, first + count):
        if words[at]:
            words[at] = words[at] & ~(1 << bit) | value << bit or words[at]


def few_words(draw):
    """Seven wrong words of a column are too few, and so are two bits that are the same: no pattern, nothing to repair."""
    for n in range(4):
        sound = draw_rope(draw, [4, 9], 700)
        words = list(sound)
        if n % 2 == 0:
            turned = [at for at in range(9 * BANK, 9 * BANK + HALF) if words[at] & 16][:7]
            words[9 * BANK:9 * BANK + HALF] = [0] * HALF
            for at in turned + [at for at in range(9 * BANK, 9 * BANK + HALF) if not sound[at] & 16][:30]:
                words[at] = sound[at] & ~16
        else:
            stick(words, 4, 1, 9 * BANK, HALF)
            stick(words, 9, 0, 9 * BANK, HALF)
        write("image", words)
        judge.judge(f"few words {n}", [], [kind for kind, _, _ in patterns("image", "--form", "parity") if kind == "stuck"])
        judge.judge(f"few words {n}: repairs", b"", run("repair", "image", "--form", "parity", "--stuck")[1])


# Banks in other places

def held(words, first, count=1):
    """Returns how many places of some banks have a word."""
    return sum(word != 0 for word in words[first * BANK:(first + count) * BANK])


def exchanged(draw):
    for n in range(6):
        banks = draw.sample(range(1, 36), 6)
        sound = draw_rope(draw, banks)
        one, two = sorted(banks[:2])
        words = list(sound)
        words[one * BANK:(one + 1) * BANK], words[two * BANK:(two + 1) * BANK] = (
            sound[two * BANK:(two + 1) * BANK], sound[one * BANK:(one + 1) * BANK])
        wanted = [("exchanged", f"banks {one:02o} and {two:02o}, {held(words, one)} and {held(words, two)} words; the sum of each is the "
                                "number of the other (likely)")]
        write("image", words)
        found = patterns("image", "--form", "parity")
        judge_lines(f"exchanged {n}", wanted, found)
        judge_mended(f"exchanged {n}", sound, found)
        write("image", without_parity(in_classic_order(words)))
        found = patterns("image")
        judge_lines(f"exchanged {n}: classic", wanted, found)
        judge_mended(f"exchanged {n}: classic", without_parity(in_classic_order(sound)), found)


def in_a_circle(draw):
    """Three banks or more are in each other's places: each sum is the number of the next."""
    for n, moved in enumerate(([3, 9, 12], [4, 5, 6], range(36))):
        sound = draw_rope(draw, range(36) if n == 2 else [2, *moved, 30], 200)
        places = [*moved[1:], moved[0]] if n < 2 else draw.sample(moved, 36)
        words = list(sound)
        for bank, there in zip(moved, places):
            words[bank * BANK:(bank + 1) * BANK] = sound[there * BANK:(there + 1) * BANK]
        write("image", words)
        found = patterns("image", "--form", "parity", "--first-bank", "00")
        lines = {0: ["bank 03 has the words of bank 11; its sum is that number (likely)",
                     "bank 11 has the words of bank 14; its sum is that number (likely)",
                     "bank 14 has the words of bank 03; its sum is that number (likely)"],
                 1: ["banks 04 to 05 have the words of banks 05 to 06; their sums, 2, are those numbers (likely)",
                     "bank 06 has the words of bank 04; its sum is that number (likely)"]}
        if n in lines:
            judge_lines(f"in a circle {n}", [("moved", line) for line in lines[n]], found)
        judge.check(f"in a circle {n}: they are named", {kind for kind, _, _ in found} <= {"moved", "exchanged"})
        judge_mended(f"in a circle {n}", sound, found[-1:])


def left_out(draw):
    """A module is left out of the file, so that the banks after it are six places back; or the words come six banks on."""
    for n in range(4):
        module = 1 + n
        after = range(6 * module + 6, 36)
        sound = draw_rope(draw, [*([1, 2] if n % 2 else range(6 * module)), *after])
        words = sound[:module * MODULE] + sound[(module + 1) * MODULE:]
        write("image", words)
        first = 6 * module
        wanted = [("moved", f"banks {first:02o} to 35 have the words of banks {first + 6:02o} to 43; their sums, "
                            f"{len(after)}, are those numbers (likely); module {module + 1} is missing")]
        found = patterns("image", "--form", "parity", "--first-bank", "00")
        judge_lines(f"left out {n}", wanted, found)
        judge_mended(f"left out {n}", sound, found)
    sound = draw_rope(draw, [2, 3, 8, 9, 15])
    words = sound[:MODULE] + sound[:MODULE] + sound[MODULE:-MODULE]
    write("image", words)
    found = patterns("image", "--form", "parity")
    judge.judge("a module too many", ("moved", "banks 10 to 25 have the words of banks 02 to 17; their sums, 5, are those numbers "
                                               "(likely); module 1 is there twice"), found[0][:2] if found else None)
    judge_mended("a module too many", sound, found)


def module_alone(draw):
    """A module alone in a file: its first bank is named."""
    for n in range(1, 6):
        sound = draw_rope(draw, range(6 * n, 6 * n + 6))
        write("image", sound[n * MODULE:(n + 1) * MODULE])
        found = patterns("image", "--form", "parity")
        judge.judge(f"module {n + 1} alone", [("moved", f"the file begins with bank {6 * n:02o}, by the sums of 6 of its banks (likely)",
                                              f"--first-bank {6 * n:02o}")], found)


def twice(draw):
    """A bank, or a module, has the words of another one."""
    for n in range(4):
        sound = draw_rope(draw, range(2, 24))
        write("other", sound)
        judge_twice(f"twice {n}: a bank", sound, (20, 5, 1), "bank 24 has the words of bank 05", "latter")
        judge_twice(f"twice {n}: the former bank", sound, (5, 20, 1), "bank 24 has the words of bank 05", "former")
        judge_twice(f"twice {n}: a module", sound, (12, 6, 6), "module 3, banks 14-21, has the words of module 2, banks 06-13", "latter")
        words = list(sound)
        words[20 * BANK + 30] = words[5 * BANK + 30] = with_parity(words[5 * BANK + 30] >> 1 ^ 1)
        words[5 * BANK:6 * BANK] = words[20 * BANK:21 * BANK]
        write("image", words)
        found = [line for line in patterns("image", "--form", "parity") if line[0] == "twice"]
        text = f"bank 24 has the words of bank 05, {held(words, 5)} words (certain); no sum shows which is right"
        judge.judge(f"twice {n}: without a sum", [("twice", text, None)], found)


def judge_twice(what, sound, part, text, right):
    """Judges a rope some of whose banks have the words of others; the part is the first bank that changes, the first bank whose words
    it gets, and their number."""
    into, of, count = part
    words = list(sound)
    words[into * BANK:(into + count) * BANK] = sound[of * BANK:(of + count) * BANK]
    write("image", words)
    found = [line for line in patterns("image", "--form", "parity") if line[0] == "twice"]
    judge_lines(what, [("twice", f"{text}, {held(words, of, count)} words (certain); the sums are right for the {right}")], found)
    judge_mended(what, sound, found)


def missing(draw):
    """A module of a full rope has no words."""
    for n in range(6):
        sound = draw_rope(draw, range(36))
        write("other", sound)
        words = list(sound)
        words[n * MODULE:(n + 1) * MODULE] = [draw.choice([0, 0xFFFF])] * MODULE
        write("image", words)
        banks = f"{6 * n:02o}-{6 * n + 5:02o}"
        others = held(sound, 0, 36) - held(sound, 6 * n, 6)
        found = patterns("image", "--form", "parity")
        judge_lines(f"missing {n}", [("missing", f"module {n + 1}, banks {banks}, has no words, and each other bank has some, {others} in all "
                                                 "(likely)")], found)
        judge_mended(f"missing {n}", sound, found)


# What shows nothing

def one_wrong_bit(draw):
    """One wrong bit makes the sum of a bank the number of another one, which names no pattern."""
    for n in range(12):
        bit = n % 5
        bank = draw.randrange(1, 36 - (1 << bit))
        words = draw_rope(draw, {bank, *draw.sample(range(1, 36), n % 4)})
        at = next(at for at in range(bank * BANK, (bank + 1) * BANK) if words[at] and not words[at] >> 1 + bit & 1)
        words[at] ^= 2 << bit
        fitting = [word ^ 1 if place == at else word for place, word in enumerate(words)]
        if is_right_by_chance(words, bank) or is_right_by_chance(fitting, bank):
            continue
        judge_none(f"one wrong bit {n}", words)
        judge_none(f"one wrong bit {n}, with the parity that fits it", fitting)


def is_right_by_chance(words, bank):
    """Returns whether the sum of a bank would be right with the bits or bytes of its words in another order: one in 4,000 is."""
    for kind in ("reversed", "bytes exchanged"):
        changed = [CHANGES[kind](word) for word in words[bank * BANK:(bank + 1) * BANK]]
        if total(word >> 1 for word in changed) in (bank, 0o77777 - bank):
            return True
    return False


def alone_in_a_file(draw):
    """A single bank in a file names its number only if all its parity bits are right."""
    for n in range(1, 6):
        words = draw_rope(draw, [5 * n])[5 * n * BANK:(5 * n + 1) * BANK]
        write("image", words)
        judge.judge(f"a bank alone {n}", [("moved", f"the file begins with bank {5 * n:02o}, by the sums of 1 of its banks (possible)",
                                           f"--first-bank {5 * n:02o}")], patterns("image", "--form", "parity"))
        write("image", without_parity(words))
        judge.judge(f"a bank alone {n}: classic", [], patterns("image"))
        words[7] ^= 2
        words[8] ^= 2 if words[7] >> 1 & 1 != words[8] >> 1 & 1 else 4
        write("image", words)
        judge.judge(f"a bank alone {n}: wrong words", [], patterns("image", "--form", "parity"))


def wrong_first_word(draw):
    """A bank whose first word is wrong, before one that begins with the word that it should be, is not one place on."""
    for n in range(6):
        bank = draw.randrange(4, 34)
        words = draw_rope(draw, [bank, bank + 1, *draw.sample([1, 2, 3], n % 3)])
        words[(bank + 1) * BANK] = words[bank * BANK]
        put_sum(words, bank + 1, bank + 1)
        words[bank * BANK] = with_parity(draw.randrange(1, 0o77777))
        judge_none(f"wrong first word {n}", words)


def filled_with_ones(draw):
    """Unused places with sixteen ones, in banks whose sums are their numbers or the complements, are not inverted words."""
    for n in range(6):
        banks = draw.sample(range(1, 36), 4)
        words = draw_rope(draw, banks, 100, BANK - 30)
        for bank in banks[n % 3 + 1:]:
            put_sum(words, bank, 0o77777 - bank)
        words = [word or 0xFFFF for word in words]
        write("image", words)
        judge.judge(f"filled with ones {n}", [], patterns("image", "--form", "parity"))


def zero_first(draw):
    """Banks that begin with a constant +0 are not one place on."""
    for n in range(6):
        banks = draw.sample(range(1, 36), 1 + n)
        words = draw_rope(draw, banks)
        for bank in banks:
            words[bank * BANK] = with_parity(0)
            put_sum(words, bank, bank)
        judge_none(f"zero first {n}", words)


def columns_apart(draw):
    """Two bits that are stuck in two banks: no other layout is suspected, and `repair` mends them without `--stuck` too."""
    for n in range(4):
        words = draw_rope(draw, [9, 20], 700)
        stick(words, 3 + n, n % 2, 9 * BANK, BANK)
        stick(words, 12 - n, 1, 20 * BANK, BANK)
        write("image", words)
        report = run("check", "image", "--form", "parity")[1].decode()
        judge.check(f"columns apart {n}: stuck", "    more than one word in ten: a bit is stuck in part of the rope, as said below (likely)\n" in report)
        judge.judge(f"columns apart {n}: patterns", 2, report.count("\nstuck: "))
        judge.check(f"columns apart {n}: no other layout", "another layout" not in report)
        stuck = run("repair", "image", "--form", "parity", "--stuck")
        judge.judge(f"columns apart {n}: repairs", stuck, run("repair", "image", "--form", "parity"))
        judge.check(f"columns apart {n}: some", stuck[0] == 0 and stuck[1].count(b"\n") > 300)


def by_chance(draw):
    """In a rope of another layout, a half bank of few words in which a bit is the same in all words: it is not suspected."""
    for n in range(4):
        sound = draw_rope(draw, [4, 9, 20], 700)
        bit, first = draw.randrange(1, 16), 9 * BANK + HALF
        few = [word for word in map(with_parity, draw.sample(range(1, 0o77777), 200)) if not word >> bit & 1][:30]
        sound[first:first + HALF] = few + [0] * (HALF - len(few))
        judge_unsuspected(f"by chance {n}", [word ^ 0xFFFE for word in sound], range(first, first + len(few)))
        judge.check(f"by chance {n}: another layout", "the file has another layout, or is not a rope (likely)"
                    in run("check", "image", "--form", "parity")[1].decode())


def judge_unsuspected(what, words, wrong):
    """Judges that no bit is named as stuck, and that `repair` repairs no word, but with `--stuck` these."""
    write("image", words)
    judge.judge(f"{what}: no pattern", [], [kind for kind, _, _ in patterns("image", "--form", "parity") if kind == "stuck"])
    if os.path.exists("unsuspected.html"):
        os.remove("unsuspected.html")
    status = run("check", "image", "--form", "parity", "--report", "unsuspected.html")[0]
    with open("unsuspected.html", encoding="ascii") as page:
        judge.judge(f"{what}: status, and whether the page names one", (1, False), (status, "stuck" in page.read()))
    status, out, remarks = run("repair", "image", "--form", "parity")
    judge.judge(f"{what}: no repair", (2, b""), (status, out))
    judge.check(f"{what}: why", "more than one word in ten has wrong parity" in remarks)
    lines = run("repair", "image", "--form", "parity", "--stuck")[1].decode().splitlines()
    judge.judge(f"{what}: repairs with --stuck", [place_text(at) for at in wrong], [line[:7] for line in lines])


def more_than_half(draw):
    """A stuck bit is suspected exactly if more than half of all words with wrong parity are where it is stuck."""
    for n in range(4):
        sound = draw_rope(draw, [9, 20, 21], 900)
        words = list(sound)
        stick(words, 1 + draw.randrange(15), n % 2, 9 * BANK, HALF)
        wrong = [at for at in range(9 * BANK, 9 * BANK + HALF) if is_even(words[at])]
        turned = draw.sample([at for at in range(20 * BANK, 22 * BANK) if sound[at]], len(wrong))
        for at in turned:
            bit = draw.randrange(16)
            words[at] ^= 1 << bit if words[at] != 1 << bit else 2 << bit
        judge_unsuspected(f"half of the wrong words {n}", words, wrong)
        words[turned[0]] = sound[turned[0]]
        write("image", words)
        kinds = [kind for kind, _, _ in patterns("image", "--form", "parity")]
        judge.judge(f"more than half {n}", ["stuck"], kinds)
        lines = run("repair", "image", "--form", "parity")[1].decode().splitlines()
        judge.judge(f"more than half {n}: repairs", [place_text(at) for at in wrong], [line[:7] for line in lines])


# Bits and places

CHANGES = {
    "reversed": lambda word: int(f"{word:016b}"[::-1], 2),
    "bytes exchanged": lambda word: word >> 8 | (word & 255) << 8,
    "inverted": lambda word: word ^ 0xFFFF,
    "inverted but for the parity bits": lambda word: word ^ 0xFFFE,
}


def changed_words(draw):
    """All words, or those of one or two banks, are changed bit by bit."""
    for kind, made in CHANGES.items():
        for n in range(3):
            banks = sorted(draw.sample(range(1, 36), 6))
            sound = draw_rope(draw, banks, 100, BANK - 30)
            write("image", [made(word) for word in sound])
            found = patterns("image", "--form", "parity")
            judge_lines(f"{kind} {n}", [(kind, "all words; with that undone the sums of all used banks are right (likely)")], found)
            judge_mended(f"{kind} {n}", sound, found)
            few = sorted(draw.sample(banks, 1 + n % 2))
            words = [made(word) if at // BANK in few else word for at, word in enumerate(sound)]
            write("image", words)
            found = patterns("image", "--form", "parity")
            named = bank_list(few)
            judge_lines(f"{kind} {n}: banks", [(kind, f"the words of banks {named}; with that undone their sums are right (likely)")], found)
            judge_mended(f"{kind} {n}: banks", sound, found)


def inverted_with_bank_00(draw):
    """All words are inverted: those of bank 00 too, whose sum fits either way, and of a bank that has no unused place."""
    for kind in ("inverted", "inverted but for the parity bits"):
        for n in range(4):
            banks = [0, *sorted(draw.sample(range(1, 36), 5))]
            sound = draw_rope(draw, banks, 100, BANK - 30)
            for bank in banks[:n % 2] + banks[4:4 + n // 2]:
                sound[bank * BANK:(bank + 1) * BANK] = draw_rope(draw, [bank], BANK, BANK)[bank * BANK:(bank + 1) * BANK]
            write("image", [CHANGES[kind](word) for word in sound])
            found = patterns("image", "--form", "parity")
            judge_lines(f"{kind} {n}, with bank 00", [(kind, "all words; with that undone the sums of all used banks are right (likely)")], found)
            judge_mended(f"{kind} {n}, with bank 00", sound, found)


def layouts(draw):
    """A rope of random words, in each other layout: sums and parity bits show how its words have to be read, and that is called sure if
    all banks have words."""
    for n, banks in enumerate((range(36), [1, 2, 3, 4, 8, 22])):
        sound = draw_rope(draw, banks)
        for first, classic, swap, kind in product((False, True), (False, True), (False, True), (None, *BITS)):
            if not (first or classic or swap or kind):
                continue
            words = in_classic_order(sound) if classic else list(sound)
            words = [word >> 1 | (word & 1) << 15 for word in words] if first else words
            words = [changed_back(word, kind, first) for word in words]
            write("image", [word >> 8 | (word & 255) << 8 for word in words] if swap else words)
            more = f"{' --swap' if swap else ''}{f' --bits {kind}' if kind else ''}"
            reading = f"{'classic-' if classic else ''}parity{'-first' if first else ''}{more}"
            report = run("check", "image", "--form", "parity", "--first-bank", "00")[1].decode()
            found = re.search(r"    it reads better in another form \((\w+)\), read as ([a-z -]+): ", report)
            judge.judge(f"layouts {n}: {reading}", reading, found and found[2])
            judge.check(f"layouts {n}: {reading}: sure with all banks", n == 1 or "another form (sure)" in report)


BITS = ("inverted", "word-inverted", "reversed")


def changed_back(word, kind, first):
    """Returns a word with a change of its bits, whose parity bit is first or last."""
    if kind == "reversed":
        return CHANGES["reversed"](word)
    return word ^ {None: 0, "inverted": 0xFFFF, "word-inverted": 0x7FFF if first else 0xFFFE}[kind]


def bank_list(banks):
    """Returns banks in ascending order as `--banks` has them."""
    parts = []
    for bank in banks:
        if parts and parts[-1][1] == bank - 1:
            parts[-1][1] = bank
        else:
            parts.append([bank, bank])
    return ",".join(f"{first:02o}" if first == last else f"{first:02o}-{last:02o}" for first, last in parts)


def one_place(draw):
    """All words are one place on, or back."""
    for n in range(4):
        sound = draw_rope(draw, sorted(draw.sample(range(1, 36), 5)) if n % 2 else range(36), 100 if n % 2 else BANK,
                          BANK - 1 if n % 2 else BANK)
        moved = [0, *sound[:-1]]
        if n % 2 == 0:
            sound = [*sound[:-1], 0]  # its last word is lost
        for kind, words in (("one place on", moved), ("one place back", [*sound[1:], 0])):
            write("image", words)
            found = [line for line in patterns("image", "--form", "parity") if line[0] == kind]
            judge.check(f"{kind} {n}: it is named", len(found) == 1)
            judge.check(f"{kind} {n}: all words or its banks", n % 2 == 0 or found and found[0][1].startswith("all words"))
            made = read(run("convert", "image", "--form", "parity", "--moved", kind.split()[-1], "--to", "parity",
                            "--ignore-parity")[1])
            judge.check(f"{kind} {n}: it comes back", made[1:] == sound[1:len(made)])
    for n in range(4):
        sound = draw_rope(draw, [2, *sorted(draw.sample(range(4, 36), 4))], code=n % 2)
        words = without_parity(in_classic_order(sound))
        write("image", [*words[1:], 0])
        found = patterns("image")
        judge_lines(f"classic {n}: one place back", [("one place back", "all words; with that undone the sums of all used banks are right, "
                                                      "but for bank 02, which lost a word (likely)")], found)
        judge_mended(f"classic {n}: one place back", [0, *words[1:]], found)
        write("image", [0, *words[:-1]])
        found = patterns("image")
        judge_lines(f"classic {n}: one place on", [("one place on", "all words; with that undone the sums of all used banks are right "
                                                    "(likely)")], found)
        judge_mended(f"classic {n}: one place on", words, found)
    write("image", [0o123456 | 1, *sound[:-1]])
    remark = run("convert", "image", "--form", "parity", "--moved", "on", "--to", "parity", "--ignore-parity")[2]
    judge.check(f"one place on: the word left out: {remark}", f"; left out {(0o123456 | 1) >> 1:05o}" in remark)


def sound_ropes(draw):
    """On sound ropes, and on the examples, no pattern is found."""
    for n in range(40):
        sound = draw_rope(draw, draw.sample(range(36), draw.randrange(1, 9)))
        write("image", sound)
        judge.judge(f"sound rope {n}", [], patterns("image", "--form", "parity"))
        write("image", without_parity(in_classic_order(sound)))
        judge.judge(f"sound rope {n}: classic", [], patterns("image"))
    for name in ("descent", "interpreter", "verbs", "pinball", "lander"):
        judge.judge(f"examples/{name}", [], patterns(os.path.join(judge.TOP, f"examples/{name}/rope")))


GROUPS = (stuck_parts, few_words, exchanged, in_a_circle, left_out, module_alone, twice, missing, one_wrong_bit, alone_in_a_file,
          wrong_first_word, filled_with_ones, zero_first, columns_apart, by_chance, more_than_half, changed_words,
          inverted_with_bank_00, layouts, one_place, sound_ropes)
