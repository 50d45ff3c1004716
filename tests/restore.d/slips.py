"""Types a listing twice, the second time with one slip, and judges what `agc-study compare --words --source` calls it.

The slips are made here, and what each line has to say is known from the slip.
"""

import judge
from merging import BANK, place_text, total
from patterns import run

ALIKE = {"0": "OoDQ8", "1": "Il", "2": "Z", "3": "8", "4": "9", "5": "S", "6": "8"}
DIGITS = (("1", "7"), ("3", "5"), ("5", "6"), ("0", "6"))


def draw_listing(draw, bank):
    """Returns the places and words of a bank with a right sum, as text."""
    count = draw.randrange(20, 200)
    words = [draw.randrange(1, 0o77777) for _ in range(count)]
    words.append(total([bank, 0o77777 - total(words)]))
    return [[place_text(bank * BANK + at), f"{word:05o}"] for at, word in enumerate(words)]


def write(name, lines):
    with open(name, "w", encoding="utf-8") as file:
        file.write("# typed by hand\n" + "".join(f"{place} {word}\n" for place, word in lines))


def swapped(draw, word):
    at = draw.choice([at for at in range(4) if word[at] != word[at + 1]] or [None])
    if at is None:
        return None
    return word[:at] + word[at + 1] + word[at] + word[at + 2:], "two digits swapped (likely)"


def other_character(draw, word):
    at = draw.choice([at for at in range(5) if word[at] in ALIKE] or [None])
    if at is None:
        return None
    typed = draw.choice(ALIKE[word[at]])
    return word[:at] + typed + word[at + 1:], f"{typed} for {word[at]} (likely)"


def other_digit(draw, word):
    pairs = [(at, one, two) for at in range(5) for pair in DIGITS for one, two in (pair, pair[::-1]) if word[at] == one]
    if not pairs:
        return None
    at, one, two = draw.choice(pairs)
    return word[:at] + two + word[at + 1:], f"one digit, {one} or {two}, which look alike (likely)"


def left_out_digit(draw, word):
    at = draw.randrange(5)
    return word[:at] + word[at + 1:], "a digit left out or typed twice (likely)"


def typed_twice(draw, word):
    at = draw.randrange(5)
    return word[:at] + word[at] + word[at:], "a digit left out or typed twice (likely)"


def one_slip(draw):
    """One word typed wrongly in one way."""
    for slip in (swapped, other_character, other_digit, left_out_digit, typed_twice):
        for n in range(4):
            bank = draw.randrange(36)
            lines = draw_listing(draw, bank)
            made = None
            while made is None:
                at = draw.randrange(len(lines))
                made = slip(draw, lines[at][1])
            typed = [list(line) for line in lines]
            typed[at][1] = made[0]
            write("one", lines)
            write("two", typed)
            place, word = lines[at]
            for names, left, right, only in ((("one", "two"), word, made[0], "first"), (("two", "one"), made[0], word, "second")):
                if "one digit" in made[1] and names[0] == "two":
                    one, two = made[1][11], made[1][16]
                    what = f"one digit, {two} or {one}, which look alike (likely)"
                else:
                    what = made[1]
                status, out, err = run("compare", "--words", *names, "--source")
                is_word = len(made[0]) == 5 and all("0" <= digit <= "7" for digit in made[0])
                lines_found = (out.decode() if is_word else err).splitlines()
                judge.judge(f"{slip.__name__} {n} {names}: status", 1 if is_word else 2, status)
                judge.check(f"{slip.__name__} {n} {names}: {lines_found}",
                            f"{place}: {left} (line {at + 2}) | {right} (line {at + 2}): {what}" in lines_found)
                judge.check(f"{slip.__name__} {n} {names}: sum", f"bank {bank:02o}: its sum is right in the {only} only" in lines_found)


def one_line(draw):
    """A line left out."""
    for n in range(6):
        bank = draw.randrange(36)
        lines = draw_listing(draw, bank)
        at = draw.randrange(len(lines))
        write("one", lines)
        write("two", lines[:at] + lines[at + 1:])
        place, word = lines[at]
        for names, text, only in ((("one", "two"), f"{place}: {word} (line {at + 2}) | no line: a line left out (likely)", "first"),
                                  (("two", "one"), f"{place}: no line | {word} (line {at + 2}): a line left out (likely)", "second")):
            status, out, _ = run("compare", "--words", *names, "--source")
            found = out.decode().splitlines()
            judge.judge(f"a line left out {n} {names}: status", 1, status)
            judge.judge(f"a line left out {n} {names}", [text, f"bank {bank:02o}: its sum is right in the {only} only"], found[-2:])


def no_slip(draw):
    """The same words, with another spelling of the rest, differ in nothing."""
    for n in range(3):
        lines = draw_listing(draw, draw.randrange(36))
        write("one", lines)
        write("two", [[place, word + " # " + word] for place, word in lines])
        judge.judge(f"no slip {n}", (0, b"", ""), run("compare", "--words", "one", "two", "--source"))


GROUPS = (one_slip, one_line, no_slip)
