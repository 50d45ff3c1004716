"""Draws ropes from a seed, and judges what `agc-study sums` and `patch --sum` make of them by a model of its own.

The model adds the words of a bank, and puts each word that is printed into its place.
"""

import re
import subprocess

import judge
from merging import BANK, draw_rope, in_classic_order, is_even, place_text, read, total, with_parity, without_parity, write

LINE = re.compile(r"bank (\d\d): sum (\d{5}), (the bank's number|the complement of the bank's number|should be .*)")
WANTED = re.compile(r"should be (\d{5}) or (\d{5}): (\d\d,\d{4}) (\d{5})(?: or (\d{5}))?")


def run(*args):
    """Returns the status, standard output and standard error."""
    done = subprocess.run([judge.STUDY, *args], capture_output=True, check=False)
    return done.returncode, done.stdout, done.stderr.decode()


def bank_words(words, bank):
    """Returns the fifteen bits of the words of a bank."""
    return [word >> 1 for word in words[bank * BANK:(bank + 1) * BANK]]


def is_right(bank, value):
    """Returns how a sum fits its bank; bank 00 takes either zero as its number."""
    if value == bank or bank == 0 and value == 0o77777:
        return "the bank's number"
    return "the complement of the bank's number" if value == 0o77777 - bank else None


def last_used(words):
    return max(at for at, word in enumerate(words) if word)


def judge_word(what, bank, words, text, wanted):
    """Judges a word that should make the sum of a bank this."""
    changed = list(words)
    changed[last_used(words)] = int(text, 8)
    value = total(changed)
    judge.check(f"{what}: {text} makes the sum {wanted:05o}", value == wanted or bank == 0 and value in (0, 0o77777))


def judge_sums(what, words, *args):
    """Judges the sums of a rope of sixteen bits by place: a line for each used bank, and each word that it names."""
    status, out, _ = run("sums", *args)
    lines = [LINE.fullmatch(line) for line in out.decode().splitlines()]
    judge.judge(f"{what}: status", 0, status)
    used = [bank for bank in range(36) if any(bank_words(words, bank))]
    judge.judge(f"{what}: banks", used, [int(line[1], 8) if line else line for line in lines])
    for bank, line in zip(used, lines):
        held = bank_words(words, bank)
        judge.judge(f"{what}: sum of {bank:02o}", f"{total(held):05o}", line[2])
        right = is_right(bank, total(held))
        if right:
            judge.judge(f"{what}: bank {bank:02o}", right, line[3])
            continue
        found = WANTED.fullmatch(line[3])
        judge.judge(f"{what}: what {bank:02o} should be", (f"{bank:05o}", f"{0o77777 - bank:05o}"), found and found.groups()[:2])
        judge.judge(f"{what}: place of {bank:02o}", place_text(bank * BANK + last_used(held)), found[3])
        judge_word(what, bank, held, found[4], bank)
        judge_word(what, bank, held, found[5] or found[4], 0o77777 - bank)


def damaged_rope(draw, banks):
    """Returns a rope with right sums, and one of it with some words changed in some banks."""
    sound = draw_rope(draw, banks, 36)
    words = list(sound)
    for bank in draw.sample(banks, len(banks) // 2):
        for _ in range(draw.randrange(1, 4)):
            words[bank * BANK + draw.randrange(50)] = with_parity(draw.randrange(1, 0o77777))
    return sound, words


def printed(draw):
    """The sums of ropes in both forms, and of a module."""
    for n in range(8):
        sound, words = damaged_rope(draw, draw.sample(range(1, 36), 6) + [0])
        write("image", sound)
        judge.check(f"sums {n}: a sound rope", "should be" not in run("sums", "image", "--form", "parity")[1].decode())
        write("image", words)
        judge_sums(f"sums {n}: parity", words, "image", "--form", "parity")
        write("classic", without_parity(in_classic_order(words)))
        judge_sums(f"sums {n}: classic", words, "classic")
        write("module", words[6 * BANK:12 * BANK])
        judge_sums(f"sums {n}: module", [0] * 6 * BANK + words[6 * BANK:12 * BANK], "module", "--form", "parity", "--first-bank", "06")
    words[5] ^= 1
    write("image", words)
    judge.judge("sums: wrong parity", "agc-study: image: words with wrong parity: 1, ignored\n", run("sums", "image", "--form", "parity")[2])


def judge_patched(what, words, banks, patched, named):
    """Judges a rope after `patch --sum` for some banks and a patch of other words."""
    changed = {bank * BANK + last_used(bank_words(words, bank)) for bank in banks}
    judge.judge(f"{what}: length", len(words), len(patched))
    others = [at for at, (old, new) in enumerate(zip(words, patched)) if old != new and at not in changed and at not in named]
    judge.judge(f"{what}: other words", [], others)
    for bank in banks:
        judge.judge(f"{what}: sum of {bank:02o}", "the bank's number", is_right(bank, total(bank_words(patched, bank))))
    judge.check(f"{what}: parity", not any(is_even(patched[at]) for at in changed))


def patched_sums(draw):
    """`patch --sum` changes the last word of each of its banks so that their sums are right, also after a patch."""
    for n in range(8):
        banks = draw.sample(range(1, 36), 5)
        _, words = damaged_rope(draw, banks)
        words[banks[0] * BANK + 3] ^= 1
        options = [word for bank in banks[:3] for word in ("--sum", f"{bank:02o}")]
        write("image", words)
        patched = read(run("patch", "image", "--form", "parity", *options)[1])
        judge_patched(f"patched {n}", words, banks[:3], patched, set())
        place = banks[0] * BANK + 7
        with open("patch", "w", encoding="ascii") as file:
            file.write(f"{place_text(place)} 12345\n")
        words[place] = with_parity(0o12345)
        patched = read(run("patch", "image", "patch", "--form", "parity", *options)[1])
        judge_patched(f"patched {n}: with a patch", words, banks[:3], patched, {place})
        write("classic", without_parity(in_classic_order(words)))
        made = read(run("patch", "classic", *options)[1])
        judge.judge(f"patched {n}: classic", without_parity(in_classic_order(patched)), made)


def faults(draw):
    """What cannot be summed: an empty bank, no bank, no patch."""
    write("image", draw_rope(draw, [2, 3], 36))
    status, out, err = run("patch", "image", "--form", "parity", "--sum", "02", "--sum", "05")
    judge.judge("an empty bank", (2, b""), (status, out))
    judge.check("an empty bank: why", err.startswith("agc-study: a bank of --sum has only words +0"))
    judge.judge("no such bank", (2, b""), run("patch", "image", "--sum", "44")[:2])
    judge.judge("no patch", (2, b""), run("patch", "image")[:2])
    judge.judge("sums of no file", (2, b""), run("sums", "nowhere")[:2])


GROUPS = (printed, patched_sums, faults)
