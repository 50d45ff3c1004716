"""Draws ropes with the sums of their banks from a seed, damages them, and judges what agc-study says.

The model below is a second reading of docs/study/restore.md: when a repair is sure, and what must be said of other damage.
RESTORE_SEED is another seed.
"""

import os
import random
import re
import subprocess

import banks
import dumps
import judge
import merging
import pages
import patterns
import ranks
import slips
import sums

BANK = 0o2000
MOST_REPAIRED = 20
SURE = "(sure if no other word of this bank is wrong)"
UNSURE = "after a repair that is not sure, the sum of its bank proves nothing"
OTHER_LAYOUT = "more than one word in ten has wrong parity"
LINE = re.compile(r"(\d\d),(\d{4}) ([0-7]{5}) .* (\([a-z].*\))$")

folder = judge.scratch_folder()
os.chdir(folder)


# A rope, as its words of sixteen bits: fifteen, and the parity bit

def with_parity(word):
    """Returns fifteen bits with the parity bit that makes the number of ones odd."""
    return 2 * word + (bin(word).count("1") + 1) % 2


def is_bad(word):
    return word != 0 and bin(word).count("1") % 2 == 0


def total(words):
    """Returns the ones' complement sum of words of fifteen bits."""
    value = sum(words)
    while value > 0o77777:
        value = (value & 0o77777) + (value >> 15)
    return value


def fits(bank, words):
    """Returns whether the sum of a bank is its number or the complement of it."""
    value = total(word >> 1 for word in words)
    return value in (bank, 0o77777 - bank)


def bank_of(words, bank):
    return words[bank * BANK:(bank + 1) * BANK]


def draw_rope(draw, banks):
    """Returns a rope with words in these banks, whose sums are right, up to bank 43."""
    words = [0] * (36 * BANK)
    for bank in banks:
        count = draw.randrange(100, BANK - 1)
        for at in range(count):
            words[bank * BANK + at] = with_parity(order(draw, bank))
        missing = total([bank, 0o77777 - total(word >> 1 for word in bank_of(words, bank))])
        words[bank * BANK + count] = with_parity(missing)
    return words


def order(draw, bank):
    """Returns an order as programs have it: most name a low cell, or a word of their own bank."""
    if draw.random() < 0.4:
        return 0o10000 * draw.randrange(1, 8) + draw.randrange(0o100, 0o600)
    if draw.random() < 0.5:
        return 0o10000 * draw.choice([1, 3, 4]) + (0o4000 if bank in (2, 3) else 0o2000) + draw.randrange(100)
    return draw.choice([3, 4, 6, 0o50017, draw.randrange(0o100000)])


def turn(words, place, bit):
    words[place] ^= 1 << bit


# The program

def run(*args):
    """Returns what agc-study writes, and its standard error."""
    done = subprocess.run([judge.STUDY, *args], capture_output=True, check=False)
    return done.stdout, done.stderr.decode()


def write(name, words):
    with open(name, "wb") as file:
        file.write(b"".join(word.to_bytes(2, "big") for word in words))


def read(data):
    return [data[at] << 8 | data[at + 1] for at in range(0, len(data), 2)]


def place_of(bank, address):
    return int(bank, 8) * BANK + int(address, 8) % BANK


def repairs(words, *options):
    """Returns the lines of `repair` as (place, word, how sure), and its remarks."""
    write("image", words)
    out, remarks = run("repair", "image", "--form", "parity", *options)
    lines = [LINE.match(line) for line in out.decode().splitlines()]
    return [(place_of(line[1], line[2]), int(line[3], 8), line[4]) for line in lines], remarks


# The model

def sure_word(words, place):
    """Returns the word that the sum of its bank shows for a bad word, if it shows one."""
    bank = place // BANK
    if any(is_bad(word) for at, word in enumerate(words) if at // BANK == bank and at != place):
        return None
    others = [n for n in range(36) if n != bank and any(word >> 1 for word in bank_of(words, n))]
    right = [n for n in others if fits(n, bank_of(words, n))]
    if not right or 2 * len(right) < len(others):
        return None
    found = []
    for bit in range(16):
        tried = list(bank_of(words, bank))
        tried[place % BANK] = words[place] ^ 1 << bit
        if fits(bank, tried):
            found.append((words[place] ^ 1 << bit) >> 1)
    return found[0] if len(found) == 1 else None


def judge_repairs(what, sound, words):
    """Judges the repairs of a rope in which single words are wrong."""
    wrong = [at for at, word in enumerate(words) if is_bad(word)]
    lines, remarks = repairs(words)
    judge.judge(f"{what}: words with lines", wrong[:MOST_REPAIRED], sorted({place for place, _, _ in lines}))
    for place in wrong[:MOST_REPAIRED]:
        sure = [word for at, word, how in lines if at == place and how == SURE]
        shown = sure_word(words, place)
        judge.judge(f"{what}: sure words at {place:05o}", [] if shown is None else [shown], sure)
        bank = place // BANK
        damaged = [at for at in range(bank * BANK, (bank + 1) * BANK) if words[at] != sound[at]]
        if sure and damaged == [place]:
            judge.judge(f"{what}: {place:05o} is right", [sound[place] >> 1], sure)
        fitting = [how for at, _, how in lines if at == place and how == "(likely: the bank's sum fits)"]
        judge.check(f"{what}: {place:05o} is sure or likely, not both", not (sure and fitting))
    unsure = any(how != SURE for _, _, how in lines)
    judge.judge(f"{what}: a remark on the sums", unsure, UNSURE in remarks)
    keeps_the_rest(what, words, lines)


def keeps_the_rest(what, words, lines):
    """Judges that a patch of the first repair of each word changes these words alone."""
    chosen = {}
    for place, word, _ in lines:
        chosen.setdefault(place, word)
    with open("patch", "w", encoding="ascii") as file:
        for place, word in chosen.items():
            bank = place // BANK
            file.write(f"{bank:02o},{place % BANK + (0o2000 * bank if bank in (2, 3) else 0o2000):04o} {word:05o}\n")
    patched = read(run("patch", "image", "patch", "--form", "parity")[0])
    wanted = list(words)
    for place, word in chosen.items():
        wanted[place] = with_parity(word)
    judge.check(f"{what}: the patch changes its words alone", patched == wanted)


def single_words(draw):
    """One bit in one bank, one in each of some banks, two words of one bank, and the two of the issue's kind."""
    for n in range(12):
        sound = draw_rope(draw, draw.sample(range(36), draw.randrange(2, 7)))
        used = [at for at, word in enumerate(sound) if word]
        words = list(sound)
        kind = n % 3
        places = [draw.choice(used)]
        if kind == 1:
            places = list({at // BANK: at for at in draw.sample(used, 20)}.values())
        elif kind == 2:
            bank = places[0] // BANK
            places = draw.sample([at for at in used if at // BANK == bank], 2)
        for place in places:
            turn(words, place, draw.randrange(16))
        judge_repairs(f"single words {n}", sound, words)


def two_that_fit(draw):
    """A repair to the bank's number, and one to its complement: the bit of the number's value is wrong or is not."""
    for n in range(4):
        bank = 1 << draw.randrange(5)
        sound = draw_rope(draw, [bank, 7, 0o21])
        # The other repair that fits changes the sum by twice the number, so this bit has to be 1.
        place = next(at for at, word in enumerate(sound) if at // BANK == bank and word >> 1 & 2 * bank)
        words = list(sound)
        turn(words, place, 0)
        lines, _ = repairs(words)
        likely = {word for at, word, how in lines if how == "(likely: the bank's sum fits)"}
        judge.judge(f"two that fit {n}", {sound[place] >> 1, sound[place] >> 1 ^ 2 * bank}, likely)
        judge.check(f"two that fit {n}: none is sure", all(how != SURE for _, _, how in lines))


def sums_unknown(draw):
    """Ropes whose banks have no right sums, or too few of them."""
    for n in range(4):
        sound = draw_rope(draw, [2, 4, 6, 8, 10])
        words = list(sound)
        for bank in (6, 8, 10)[:2 + n % 2]:
            words[bank * BANK + 50] = with_parity(words[bank * BANK + 50] >> 1 ^ 0o1234)
        turn(words, 4 * BANK + 10, 1 + n)
        judge_repairs(f"sums unknown {n}", sound, words)


def stuck_columns(draw):
    """A bit that is 1 in all words: each word with wrong parity gets its repair."""
    for n in range(4):
        sound = draw_rope(draw, [2, 3, 5, 7])
        bit = draw.randrange(1, 16)
        words = [word | 1 << bit if word else 0 for word in sound]
        lines, remarks = repairs(words)
        judge.check(f"stuck bit {bit}: it is named", f"bit {bit} is the same in all of them: it is stuck" in remarks)
        judge.check(f"stuck bit {bit}: nothing is sure", all("sure" not in how for _, _, how in lines))
        wanted = [(at, word >> 1) for at, word in enumerate(sound) if is_bad(words[at])]
        judge.judge(f"stuck bit {bit}: repairs {n}", wanted, [(at, word) for at, word, _ in lines])


def reversed_bits(word):
    return int(f"{word:016b}"[::-1], 2)


CHANGES = {
    "inverted": lambda word: word ^ 0xFFFF,
    "word-inverted": lambda word: word ^ 0xFFFE,
    "reversed": reversed_bits,
}


def changed_bits(draw):
    """All words inverted, or all but their parity bits, or in reverse: `repair` repairs nothing, `convert` undoes it."""
    for change, made in CHANGES.items():
        for n in range(3):
            sound = draw_rope(draw, [2, 3, 4, 9])
            words = [made(word) for word in sound]
            lines, remarks = repairs(words)
            judge.judge(f"{change} {n}: repairs", [], lines)
            if change != "reversed":
                judge.check(f"{change} {n}: why", OTHER_LAYOUT in remarks)
            back = read(run("convert", "image", "--form", "parity", "--bits", change, "--to", "parity")[0])
            judge.check(f"{change} {n}: it comes back", back == sound)
    program = read(run("convert", os.path.join(judge.TOP, "examples/descent/rope"), "--to", "parity")[0])
    for change, made in CHANGES.items():
        write("image", [made(word) for word in program])
        report = run("check", "image", "--form", "parity")[0].decode()
        judge.check(f"{change}: check names it", f"read as parity --bits {change}: 100%" in report)
        judge.check(f"{change}: no repair is sure", "(sure if" not in report)


def layouts(draw):
    """Banks exchanged, modules missing, words moved along: nothing is called sure, and the sums are wrong."""
    for n in range(6):
        banks = [2, 3, 4, 6, 0o11, 0o30]
        sound = draw_rope(draw, banks)
        if n % 3 == 0:
            words = sound[:4 * BANK] + bank_of(sound, 6) + bank_of(sound, 5) + bank_of(sound, 4) + sound[7 * BANK:]
            wrong = {4, 6}
        elif n % 3 == 1:
            words = sound[:6 * BANK] + [0] * (6 * BANK) + sound[12 * BANK:]
            wrong = set()
        else:
            words = [1] * 1024 + sound[:-1024]
            wrong = {bank + 1 for bank in banks}
        write("image", words)
        report = run("check", "image", "--form", "parity")[0].decode()
        judge.check(f"layout {n}: no repair", "with one bit changed" not in report)
        neither = {int(bank, 8) for bank in re.findall(r"^bank (\d\d): .*, neither", report, re.M)}
        judge.judge(f"layout {n}: wrong sums", wrong, neither)
        judge.judge(f"layout {n}: repairs", [], repairs(words)[0])


def modules(draw):
    """Six banks as a file of their own."""
    for n in range(4):
        first = 6 * (1 + n)
        sound = draw_rope(draw, range(first, first + 6))
        words = sound[first * BANK:(first + 6) * BANK]
        name = f"{first:02o}"
        write("module", words)
        judge.check(f"module {name}: nothing is sure", b"sure" not in run("check", "module", "--form", "parity")[0])
        report = run("check", "module", "--form", "parity", "--first-bank", name)[0].decode()
        judge.judge(f"module {name}: right sums", 6, report.count("the bank's number (certain)"))
        judge.check(f"module {name}: no better form", "in another form" not in report)
        whole = read(run("convert", "module", "--form", "parity", "--to", "parity", "--first-bank", name)[0])
        judge.check(f"module {name}: in its banks", whole == sound[:(first + 6) * BANK])
        turn(words, 70, 3 if words[70] != 8 else 4)  # 0 would be no word
        lines, _ = repairs(words)
        judge.check(f"module {name}: no sure repair", lines and all(how != SURE for _, _, how in lines))
        lines, _ = repairs(words, "--first-bank", name)
        place = first * BANK + 70
        shown = sure_word([0] * (first * BANK) + words + [0] * ((30 - first) * BANK), place)
        judge.judge(f"module {name}: sure", [(place, shown)] if shown is not None else [],
                    [(at, word) for at, word, how in lines if how == SURE])


def moved_modules(draw):
    """`list --all` and `patch` keep +0 with its parity bit."""
    for n in range(3):
        sound = draw_rope(draw, [6, 7])
        for at in (6 * BANK + 3, 7 * BANK + 9):
            sound[at] = 1
        write("module", sound[6 * BANK:12 * BANK])
        listing, _ = run("list", "module", "--form", "parity", "--first-bank", "06", "--all")
        with open("listing", "wb") as file:
            file.write(listing)
        write("image", [0])
        patched = read(run("patch", "image", "listing", "--form", "parity")[0])
        judge.check(f"moved module {n}", patched == sound[:len(patched)] and not any(sound[len(patched):]))


def repeated_code(draw):
    """A word that changed is shown, though the code around it is in the rope twice."""
    for n in range(4):
        sound = draw_rope(draw, [4, 5])
        for at in range(60):
            sound[5 * BANK + 20 + at] = sound[4 * BANK + at]
        words = list(sound)
        place = 4 * BANK + n * 9
        words[place] = with_parity(words[place] >> 1 ^ 0o21)
        write("image", sound)
        write("changed", words)
        report = run("compare", "--words", "image", "changed", "--form", "parity")[0].decode()
        judge.check(f"repeated code {n}", f"04,{place % BANK + 0o2000:04o}: " in report and "moved" not in report)


def parity_bits(draw):
    """`convert` names the words whose parity bits it made right."""
    for n in range(3):
        sound = draw_rope(draw, [2, 3, 5])
        words = list(sound)
        places = sorted(draw.sample([at for at, word in enumerate(sound) if word], 12 * (n + 1)))
        for place in places:
            turn(words, place, 0)
        write("image", words)
        for options, shown in (((), places[:20]), (("--all",), places)):
            remarks = run("convert", "image", "--form", "parity", "--to", "classic", "--ignore-parity", *options)[1]
            found = [place_of(*place) for place in re.findall(r"^    (\d\d),(\d{4}) ", remarks, re.M)]
            judge.judge(f"parity bits {n}: words", shown, found)
            judge.check(f"parity bits {n}: count", f"parity bits made right: {len(places)}\n" in remarks)


def sound_ropes(draw):
    """On sound ropes nothing is found."""
    for n in range(100):
        sound = draw_rope(draw, draw.sample(range(1, 36), draw.randrange(1, 9)))
        judge.judge(f"sound rope {n}: repairs", ([], ""), repairs(sound))
        report = run("check", "image", "--form", "parity")[0].decode()
        judge.judge(f"sound rope {n}: patterns", [], patterns.patterns("image", "--form", "parity"))
        for text in ("wrong parity", "in another form", "neither", "(sure"):
            judge.check(f"sound rope {n}: {text}", text not in report)


def main():
    draw = random.Random(int(os.environ.get("RESTORE_SEED", "69")))
    for group in (single_words, two_that_fit, sums_unknown, stuck_columns, changed_bits, layouts, modules,
                  moved_modules, repeated_code, parity_bits, sound_ropes, *merging.GROUPS, *sums.GROUPS, *patterns.GROUPS, *banks.GROUPS,
                  *slips.GROUPS, *dumps.GROUPS, *ranks.GROUPS, merging.five_commands, *pages.GROUPS):
        judge.attempt(group, draw)
    judge.finish()


main()
