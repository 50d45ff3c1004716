"""Draws ropes from a seed, takes banks out of them by `convert --banks` and puts banks into them by `patch --banks`.

The model moves lists of words about, and counts the words that each bank gained, changed and lost.
"""

import re

import judge
from merging import BANK, draw_rope, in_classic_order, is_even, read, without_parity, write
from patterns import run

CHANGED = re.compile(r"agc-study: bank (\d\d): words changed: (\d+), now without a word: (\d+)")


def bank_words(words, bank):
    """Returns the words of a bank; xx, a bank without words, is None."""
    return [0] * BANK if bank is None else words[bank * BANK:(bank + 1) * BANK]


def taken_out(draw):
    """Some banks of a rope in any order, banks without words between them, and each module by its number."""
    for n in range(6):
        sound = draw_rope(draw, draw.sample(range(36), 9), 36)
        words = list(sound)
        for at in draw.sample(range(36 * BANK), 40):
            words[at] ^= 1 << draw.randrange(16)
        write("image", words)
        banks = [draw.choice([None, *range(36)]) for _ in range(draw.randrange(1, 12))]
        text = ",".join("xx" if bank is None else f"{bank:02o}" for bank in banks)
        wanted = [word for bank in banks for word in bank_words(words, bank)]
        _, made, remark = run("convert", "image", "--form", "parity", "--to", "parity", "--banks", text)
        judge.check(f"taken out {n}: {text}", read(made) == wanted)
        wrong = sum(is_even(word) for word in wanted)
        judge.judge(f"taken out {n}: remark", f"agc-study: from parity to parity: {len(wanted)} words"
                    + (f"; {wrong} with wrong parity, kept" if wrong else "") + "\n", remark)
        write("image", without_parity(in_classic_order(sound)))
        made = read(run("convert", "image", "--banks", text, "--to", "parity")[1])
        judge.check(f"taken out {n}: from classic", made == [word for bank in banks for word in bank_words(sound, bank)])
        for module in range(1, 7):
            named = run("convert", "image", "--to", "plain", "--module", str(module))[1]
            held = sound[(module - 1) * 6 * BANK:module * 6 * BANK]
            judge.check(f"taken out {n}: module {module}", read(named) == without_parity(held))
    order = [*range(35, -1, -1)]
    write("image", sound)
    made = read(run("convert", "image", "--form", "parity", "--to", "classic", "--banks", ",".join(f"{bank:02o}" for bank in order))[1])
    wanted = [word for bank in order for word in bank_words(sound, bank)]
    judge.check("36 banks make a rope of the form", made == without_parity(in_classic_order(wanted)))


def judge_changes(what, before, after, remark):
    """Judges that each bank whose words changed is named, with how many did and how many are no words now."""
    before = before + [0] * (len(after) - len(before))
    wanted = []
    for bank in range(36):
        pairs = [(old, new) for old, new in zip(bank_words(before, bank), bank_words(after, bank)) if old != new]
        if pairs:
            wanted.append((f"{bank:02o}", str(len(pairs)), str(sum(new == 0 for _, new in pairs))))
    judge.judge(f"{what}: changes", wanted, CHANGED.findall(remark))
    judge.judge(f"{what}: no more is said", max(1, len(wanted)), remark.count("\n"))


def put_in(draw):
    """Banks of one rope replace those of another one; all other words stay; each bank that changed is named."""
    for n in range(8):
        rope, other = draw_rope(draw, draw.sample(range(36), 9), 36), draw_rope(draw, draw.sample(range(36), 20), 36)
        rope[40] = 6
        banks = draw.sample(range(36), draw.randrange(1, 9)) if n % 2 else range(6 * (n % 6), 6 * (n % 6) + 6)
        option = ("--banks", ",".join(f"{bank:02o}" for bank in banks)) if n % 2 else ("--module", str(n % 6 + 1))
        put = [word for bank in banks for word in bank_words(other, bank)]
        wanted = list(rope)
        for bank in banks:
            wanted[bank * BANK:(bank + 1) * BANK] = bank_words(other, bank)
        write("image", rope)
        write("banks", put)
        _, made, remark = run("patch", "image", "banks", "--form", "parity", *option)
        judge.check(f"put in {n}", read(made) == wanted)
        judge_changes(f"put in {n}", rope, wanted, remark)
        write("made", read(made))
        back = run("convert", "made", "--form", "parity", "--to", "parity", *option)[1]
        judge.check(f"put in {n}: out again", read(back) == put)
        write("image", without_parity(in_classic_order(rope)))
        write("banks", without_parity(put))
        made = run("patch", "image", "banks", *option)[1]
        judge.check(f"put in {n}: classic", read(made) == without_parity(in_classic_order(wanted)))
    write("image", rope[:8 * BANK])
    write("banks", other[20 * BANK:21 * BANK])
    _, made, remark = run("patch", "image", "banks", "--form", "parity", "--banks", "24")
    wanted = rope[:8 * BANK] + [0] * 12 * BANK + other[20 * BANK:21 * BANK] + [0] * 15 * BANK
    judge.check("a short file becomes a whole rope", read(made) == wanted)
    judge_changes("a short file", rope[:8 * BANK], wanted, remark)
    write("banks", rope[3 * BANK:4 * BANK])
    judge.judge("the same words", "agc-study: no word changed\n", run("patch", "image", "banks", "--form", "parity", "--banks", "03")[2])


def faults(draw):
    """What `--banks` and `--module` refuse."""
    write("image", draw_rope(draw, [2, 3], 36))
    write("banks", [1] * BANK)
    for text in ("", "44", "06-", "13-06", "6-x", "06,,07", "00-43,00"):
        status, out, err = run("convert", "image", "--form", "parity", "--to", "parity", "--banks", text)
        judge.judge(f"banks `{text}`", (2, b""), (status, out))
        judge.check(f"banks `{text}`: why", "banks are octal, 00 to 43" in err)
    for text in ("05,05", "xx"):
        judge.judge(f"patch --banks {text}", (2, b""), run("patch", "image", "banks", "--form", "parity", "--banks", text)[:2])
    for module in ("0", "7", "x", "01"):
        judge.judge(f"module {module}", (2, b""), run("convert", "image", "--to", "parity", "--module", module)[:2])
    judge.judge("banks and module", (2, b""), run("convert", "image", "--module", "1", "--banks", "02")[:2])
    status, out, err = run("patch", "image", "banks", "--form", "parity", "--banks", "02,03")
    judge.judge("a file of too few banks", (2, b"", "agc-study: the file of --banks has not exactly their words: 2048 bytes a bank\n"),
                (status, out, err))


GROUPS = (taken_out, put_in, faults)
