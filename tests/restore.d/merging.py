"""Draws dumps of ropes from a seed, and judges what `agc-study merge` makes of them by a model of its own.

The model is a second reading of docs/study/restore.md: by which rule a place is decided, and which word it gets.
"""

import os
import subprocess
from collections import Counter

import judge

BANK = 0o2000


def with_parity(word):
    """Returns fifteen bits with the parity bit that makes the number of ones odd."""
    return 2 * word + (bin(word).count("1") + 1) % 2


def is_even(bits):
    return bits != 0 and bin(bits).count("1") % 2 == 0


def total(words):
    """Returns the ones' complement sum of words of fifteen bits."""
    value = sum(words)
    while value > 0o77777:
        value = (value & 0o77777) + (value >> 15)
    return value


def draw_rope(draw, banks, count):
    """Returns the words of sixteen bits of a rope whose banks have right sums."""
    words = [0] * (count * BANK)
    for bank in banks:
        used = draw.randrange(50, 300)
        for at in range(used):
            words[bank * BANK + at] = with_parity(draw.randrange(1, 0o77777))
        rest = total(word >> 1 for word in words[bank * BANK:(bank + 1) * BANK])
        words[bank * BANK + used] = with_parity(total([bank, 0o77777 - rest]))
    return words


# The model: dumps are lists of sixteen bits by place, each with whether it has parity bits

def by_words(found):
    """Returns the word and the rule by the words of a place alone; found is a list of (bits, whether it has parity)."""
    if not found:
        return 0, None
    wrong = [has and is_even(bits) for bits, has in found]
    right = [bits >> 1 for (bits, has), bad in zip(found, wrong) if has and not bad]
    free = [bits >> 1 for bits, has in found if not has]
    tried = right or free
    if not any(wrong) and len({bits >> 1 for bits, _ in found}) == 1:
        return found[0][0] >> 1, "agree"
    if len(set(tried)) == 1:
        return tried[0], "parity"
    return (tried[0] if tried else found[0][0] >> 1), "undecided"


def model(dumps):
    """Returns for each place the word and the rule that decides it."""
    count = max(len(words) for words, _ in dumps)
    places = [[(words[at], has) for words, has in dumps if at < len(words) and words[at]] for at in range(count)]
    first = [by_words(found) for found in places]
    made = list(first)
    for at, (_, rule) in enumerate(first):
        if rule != "undecided":
            continue
        right = [bits >> 1 for bits, has in places[at] if has and not is_even(bits)]
        tried = right or [bits >> 1 for bits, has in places[at] if not has]
        bank = at // BANK
        inside = range(bank * BANK, min((bank + 1) * BANK, count))
        alone = all(first[other][1] != "undecided" for other in inside if other != at)
        others = [first[other][0] for other in inside if other != at]
        fitting = {word for word in tried if total([*others, word]) in (bank, 0o77777 - bank)}
        shares = Counter(bits >> 1 for bits, _ in places[at])
        most = [word for word in tried if 2 * shares[word] > len(places[at])]
        if alone and len(fitting) == 1:
            made[at] = (fitting.pop(), "sum of the bank")
        elif most:
            made[at] = (most[0], "majority")
    return made


# The program

def write(name, words):
    with open(name, "wb") as file:
        file.write(b"".join(word.to_bytes(2, "big") for word in words))


def read(data):
    return [data[at] << 8 | data[at + 1] for at in range(0, len(data), 2)]


def merge(*args):
    """Returns the status, the words and the lines of standard error."""
    done = subprocess.run([judge.STUDY, "merge", *args], capture_output=True, check=False)
    return done.returncode, read(done.stdout), done.stderr.decode().splitlines()


def place_text(at):
    """Returns how a line names a place: two banks have their own addresses."""
    bank = at // BANK
    return f"{bank:02o},{at % BANK + (0o2000 * bank if bank in (2, 3) else 0o2000):04o}"


def judge_merge(what, dumps, *args):
    """Judges a merge of dumps that are in files: status, rope, a line for each word on which they differ, and the counts."""
    made = model(dumps)
    rules = Counter(rule for _, rule in made)
    status, words, lines = merge(*args)
    judge.judge(f"{what}: status", 2 if rules["undecided"] else 0, status)
    if rules["undecided"]:
        judge.judge(f"{what}: nothing is written", [], words)
        judge.check(f"{what}: why", lines[-1].startswith(f"agc-study: words that nothing decides: {rules['undecided']};"))
        lines = lines[:-1]
        status, words, _ = merge("--accept", *args)
        judge.judge(f"{what}: status with --accept", 0, status)
    judge.judge(f"{what}: words", [word for word, _ in made], [word >> 1 for word in words])
    judge.check(f"{what}: parity", not any(is_even(word) for word in words))
    wanted = []
    for at, (word, rule) in enumerate(made):
        if rule not in (None, "agree"):
            mark = "# " if rule == "undecided" else ""
            wanted.append(f"{mark}{place_text(at)} {word:05o} ({rule}):")
    judge.judge(f"{what}: lines", wanted, [line.split(":")[0] + ":" for line in lines[:-1]])
    counts = [rules[rule] for rule in ("agree", "parity", "sum of the bank", "majority", "undecided")]
    judge.judge(f"{what}: counts", "agc-study: {} dumps: {} words agree; {} by parity, {} by the sum of the bank, "
                "{} by majority, {} undecided".format(len(dumps), *counts), lines[-1])
    return [word for word, _ in made]


def single_bits(draw):
    """Two dumps in which single bits were read wrongly, never two of one word: parity restores each word."""
    for n in range(6):
        sound = draw_rope(draw, [2, 4, 5], 7)
        used = [at for at, word in enumerate(sound) if word]
        dumps = [list(sound), list(sound)]
        for count, at in enumerate(draw.sample(used, 40)):
            dumps[count % 2][at] ^= 1 << draw.randrange(16)
        for name, words in zip("ab", dumps):
            write(name, words)
        made = judge_merge(f"single bits {n}", [(words, True) for words in dumps], "--form", "parity", "a", "b")
        judge.check(f"single bits {n}: it is the rope", made == [word >> 1 for word in sound])


def one_word_of_a_bank(draw):
    """Two dumps without parity that differ in one word of each of some banks: the sums decide."""
    for n in range(4):
        sound = [word >> 1 << 1 for word in draw_rope(draw, [2, 4, 5], 7)]
        dumps = [list(sound), list(sound)]
        for bank in (2, 4, 5):
            dumps[draw.randrange(2)][bank * BANK + draw.randrange(50)] ^= 2 << draw.randrange(15)
        for name, words in zip("ab", dumps):
            write(name, words)
        made = judge_merge(f"one word {n}", [(words, False) for words in dumps], "--form", "plain", "a", "b")
        judge.check(f"one word {n}: it is the rope", made == [word >> 1 for word in sound])


def damaged(draw, words, has_parity):
    """Returns the words of a dump with some of them wrong, and perhaps without a module or the last bank."""
    for at in draw.sample(range(len(words)), 60):
        words[at] ^= draw.randrange(1, 1 << 16) if draw.random() < 0.3 else 1 << draw.randrange(0 if has_parity else 1, 16)
    if draw.random() < 0.3:
        words[3 * BANK:4 * BANK] = [0] * BANK
    return words[:6 * BANK] if draw.random() < 0.3 else words


def any_damage(draw):
    """Two to sixteen dumps with damage of every kind, with or without parity, some without a module."""
    for n in range(12):
        sound = draw_rope(draw, [0, 3, 6], 7)
        has = n % 3 != 2
        dumps, names = [], []
        for index in range(draw.randrange(2, 6) if n else 16):
            words = damaged(draw, [word if has else word >> 1 << 1 for word in sound], has)
            write(f"dump{index}", words)
            dumps.append((words, has))
            names.append(f"dump{index}")
        judge_merge(f"any damage {n}", dumps, "--form", "parity" if has else "plain", *names)


def readings(draw):
    """Dumps in each form: with exchanged bytes, inverted bits, the parity bit first, and a module."""
    sound = draw_rope(draw, [0, 1, 2, 3, 6], 12)
    order = [bank for bank in (2, 3, 0, 1, *range(4, 12))]
    module = [0] * 6 * BANK + sound[6 * BANK:]
    for what, words, rope, options in (
        ("classic", [word >> 1 << 1 for bank in order for word in sound[bank * BANK:(bank + 1) * BANK]], sound, ()),
        ("swapped", [(word & 255) << 8 | word >> 8 for word in sound], sound, ("--form", "parity-swapped")),
        ("inverted", [word ^ 0xFFFF for word in sound], sound, ("--form", "parity", "--bits", "inverted")),
        ("first", [(word & 1) << 15 | word >> 1 for word in sound], sound, ("--form", "parity-first")),
        ("module", sound[6 * BANK:], module, ("--form", "parity", "--first-bank", "06")),
    ):
        write("one", words)
        write("two", words)
        status, merged, lines = merge(*options, "one", "two")
        judge.judge(f"readings: {what}: status", 0, status)
        judge.judge(f"readings: {what}: the rope", rope, merged)
        used = sum(1 for word in rope if word)
        judge.judge(f"readings: {what}: all agree", [f"agc-study: 2 dumps: {used} words agree; 0 by parity, 0 by the sum of the bank, "
                                                     "0 by majority, 0 undecided"], lines)


def swapped(word):
    return (word & 255) << 8 | word >> 8


def parity_first(word):
    return (word & 1) << 15 | word >> 1


def without_parity(words):
    return [word >> 1 << 1 for word in words]


def in_classic_order(words):
    """Returns the words of whole banks as the classic forms have them."""
    return [word for bank in (2, 3, 0, 1, *range(4, len(words) // BANK)) for word in words[bank * BANK:(bank + 1) * BANK]]


def several_layouts(draw):
    """Dumps of one rope in different layouts: the options before a dump hold until others follow."""
    for n in range(4):
        sound = draw_rope(draw, [0, 2, 5, 6, 11], 12)
        used = [at for at, word in enumerate(sound) if word]
        dumps = [list(sound), list(sound), without_parity(sound), without_parity(sound), [0] * 6 * BANK + sound[6 * BANK:], list(sound)]
        for count, at in enumerate(draw.sample(used, 90)):
            if dumps[count % 6][at]:
                dumps[count % 6][at] ^= 1 << draw.randrange(1, 16)
        write("a", [swapped(word) for word in dumps[0]])
        write("b", [parity_first(word) ^ 0xFFFF for word in dumps[1]])
        write("c", in_classic_order(dumps[2]))
        write("d", in_classic_order(dumps[3]))
        write("e", dumps[4][6 * BANK:])
        write("f", dumps[5])
        judge_merge(f"several layouts {n}", [(words, index not in (2, 3)) for index, words in enumerate(dumps)],
                    "--form", "parity-swapped", "a", "--bits", "inverted", "--form", "parity-first", "b",
                    "--form", "classic", "--bits", "none", "c", "d", "--first-bank", "06", "--form", "parity", "e",
                    "--first-bank", "00", "f")


def lines_are_a_patch(draw):
    """The lines of a merge make the first dump the merged rope, with a word chosen for each that is undecided."""
    sound = draw_rope(draw, [2, 3], 4)
    used = [at for at, word in enumerate(sound) if word]
    dumps = [list(sound), list(sound)]
    for count, at in enumerate(draw.sample(used, 12)):
        dumps[count % 2][at] ^= 3 if count < 2 else 1 << draw.randrange(16)
    for name, words in zip("ab", dumps):
        write(name, words)
    lines = merge("--form", "parity", "a", "b")[2]
    with open("patch", "w", encoding="ascii") as file:
        file.writelines(line.removeprefix("# ") + "\n" for line in lines if "(" in line and ")" in line)
    patched = subprocess.run([judge.STUDY, "patch", "a", "patch", "--form", "parity"], capture_output=True, check=False)
    judge.judge("lines are a patch", merge("--accept", "--form", "parity", "a", "b")[1], read(patched.stdout))


def faults(_draw):
    """What merge cannot take: one dump, seventeen, a faulty file, which is named by its letter."""
    write("a", [1, 2])
    with open("odd", "wb") as file:
        file.write(b"abc")
    judge.judge("one dump", 2, merge("a")[0])
    judge.judge("seventeen dumps", 2, merge(*["a"] * 17)[0])
    judge.judge("no such bank", 2, merge("--first-bank", "44", "a", "a")[0])
    status, words, lines = merge("a", "a", "--form", "parity")
    judge.judge("an option after the dumps", (2, [], ["error: --form applies to the dumps after it, and none follows"]),
                (status, words, lines))
    status, words, lines = merge("a", "odd")
    judge.judge("an odd file", (2, [], ["agc-study: in dump B", "agc-study: rope: OddLength; agc-study check explains it"]),
                (status, words, lines))
    status, _, lines = merge("none", "a")
    judge.judge("no file", 2, status)
    judge.check("no file: it is named", lines[0].startswith("agc-study: none: ") and "agc-study: in dump A" in lines)


def rope_with_sums():
    """Returns the words of the landing's program, with a last word in each bank that makes its sum right."""
    def study(*args):
        return subprocess.run([judge.STUDY, *args], capture_output=True, check=False).stdout

    with open("program", "wb") as file:
        file.write(study("convert", os.path.join(judge.TOP, "examples/descent/rope"), "--to", "parity"))
    banks = [line.split()[1].rstrip(":") for line in study("sums", "program", "--form", "parity").decode().splitlines()]
    return read(study("patch", "program", "--form", "parity", *(word for bank in banks for word in ("--sum", bank))))


def commands_of_page():
    """Returns the commands of docs/study/restore.md that lead from two bad dumps to the rope."""
    with open(os.path.join(judge.TOP, "docs/study/restore.md"), encoding="utf-8") as file:
        text = file.read().split("### From two bad dumps to the rope\n")[1].split("\n## ")[0]
    return [line.strip() for line in text.splitlines() if line.startswith("    ./agc-study ")]


def five_commands(draw):
    """The page's five commands make the rope from two bad dumps, as the page says."""
    sound = rope_with_sums()
    used = [at for at, word in enumerate(sound) if word]
    commands = commands_of_page()
    judge.judge("five commands: their number", 5, len(commands))
    for n in range(3):
        dumps = [list(sound), list(sound)]
        for count, at in enumerate(draw.sample(used, 60)):
            dumps[count % 2][at] ^= 1 << draw.randrange(16)
        write("one.bin", [swapped(word) for word in dumps[0]])
        write("two.bin", [word ^ 0xFFFF for word in dumps[1]])
        one, two, _, totals, last = [
            subprocess.run(["bash", "-c", command.replace("./agc-study", '"$0"'), judge.STUDY], capture_output=True, check=False).stdout.decode()
            for command in commands]
        judge.check(f"five commands {n}: the first reading", "in another form (sure), read as parity --swap: " in one)
        judge.check(f"five commands {n}: the second reading", "in another form (sure), read as parity --bits inverted: " in two)
        with open("rope", "rb") as file:
            judge.check(f"five commands {n}: the rope", read(file.read()) == sound)
        judge.check(f"five commands {n}: its sums", totals and "should be" not in totals)
        judge.check(f"five commands {n}: its parity", "read as parity: 100% of the parity bits are right" in last and "wrong parity" not in last)


GROUPS = (single_bits, one_word_of_a_bank, any_damage, readings, several_layouts, lines_are_a_patch, faults)
