"""The files that the runs of tests/messages take: ropes that are damaged or laid out in a known way, and long texts."""

from pathlib import Path

import judge

BANK = 0o2000
# Sixteen words of a program at 4000: the data and the orders are legal, and it ends in a jump to itself.
PROGRAM = [0o34010, 0o54100, 0o00006, 0o01010, 0o30100, 0o60101, 0o54101, 0o14007, 0o54171, 0o00001, 0o00002, 0o12007,
           0o40100, 0o22100, 0o14000, 0o37777]


def with_parity(word):
    """A word of fifteen bits, and the parity bit that makes the number of ones odd."""
    return 2 * word + (bin(word).count("1") + 1) % 2


# Words of which a quarter gets wrong parity by a stuck bit, and in these no other bit is always the same.
SCATTERED = [with_parity(at * 7007 % 0o100000) for at in range(1, 25)]


def total(words):
    """The sum of words of fifteen bits, with end-around carry."""
    value = sum(words)
    while value > 0o77777:
        value = (value & 0o77777) + (value >> 15)
    return value


def bank_of(count, wanted):
    """A bank of so many words and a last one, whose sum is what is wanted."""
    words = [PROGRAM[at % 16] ^ at // 16 for at in range(count)]
    missing = total([wanted, 0o77777 - total(words)])
    return [with_parity(word) for word in [*words, missing]] + [0] * (BANK - 1 - count)


def turned(words, bit, places):
    """The words with a bit of sixteen turned at these places."""
    return [word ^ 1 << bit if at in places else word for at, word in enumerate(words)]


def stuck(words, bit):
    """The words with a bit that is 1 in each that is not 0."""
    return [word | 1 << bit if word else 0 for word in words]


def reverse(word):
    return int(f"{word:016b}"[::-1], 2)


def read(path):
    data = Path(path).read_bytes()
    return [data[at] << 8 | data[at + 1] for at in range(0, len(data), 2)]


def words_of(example):
    """The words of an example's rope, as one bank."""
    words = read(Path(judge.TOP, "examples", example, "rope"))
    return words + [0] * (BANK - len(words))


def bytes_of(words, order="big"):
    return b"".join(word.to_bytes(2, order) for word in words)


def forms_of(program):
    """The six forms of a program that is in the classic one: banks 02, 03, 00, 01, and then the others in turn."""
    plain = program[2 * BANK:4 * BANK] + program[:2 * BANK] + program[4 * BANK:]
    last = {"classic-parity": [with_parity(word >> 1) if word else 0 for word in program],
            "parity": [with_parity(word >> 1) if word else 0 for word in plain]}
    first = {f"{name}-first": [word >> 1 | (word & 1) << 15 for word in words] for name, words in last.items()}
    return {"classic": program, "plain": plain, **last, **first}


def restorers_files():
    """Ropes for `check`, `repair`, `convert` and `list`."""
    # Not a whole number of banks: such a file might be some modules.
    sums = (bank_of(39, 0) + bank_of(49, 1) + bank_of(59, 0o77775) + bank_of(209, 3))[:3 * BANK + 210]
    forms = forms_of(words_of("verbs") + words_of("pinball") + [0] * 2 * BANK + words_of("timers"))
    ropes = {
        "sums": sums,
        "no-sums": sums[:2 * BANK] + [with_parity(0o12345)] + sums[2 * BANK + 1:],
        "one-wrong": turned(sums, 5, {BANK + 6}),
        "two-wrong": turned(sums, 5, {BANK + 6, BANK + 16}),
        "no-sum-right": turned(sums[BANK:2 * BANK], 5, {6}) + [with_parity(1)],
        "one-wrong-classic": turned(sums[2 * BANK:3 * BANK] + bank_of(209, 3) + sums[:2 * BANK] + bank_of(99, 4) + bank_of(99, 5)[:200], 5,
                                    {4 * BANK + 6}),
        "25-wrong": turned(sums, 9, {3 * BANK + 8 * at for at in range(25)}),
        "stuck-bit": stuck(SCATTERED, 13),
        "stuck-parity": stuck(SCATTERED, 0),
        "other-layout": [at * 40503 % 65536 for at in range(1, 40)],
        "edrupt": [2 * 6, 2 * 0o7000],
        "no-program": [0o12345] * 3 + [0] * 4000,
        "no-parity": [word & ~1 for word in SCATTERED],
        "module": sums[BANK:2 * BANK],
        "module-wrong": turned(sums[BANK:2 * BANK], 5, {6}),
        "inverted": [word ^ 0xFFFF for word in forms["parity"]],
        "word-inverted": [word ^ 0xFFFE for word in forms["parity"]],
        "reversed": [reverse(word) for word in forms["parity"]],
        **forms,
    }
    files = {name: bytes_of(words) for name, words in ropes.items()}
    return {**files, "swapped": bytes_of(forms["parity"], "little")}


def long_files():
    """Files that are too long, or have a line too many."""
    events = "".join(f"{cycle} raise 1\n" for cycle in range(65537))
    return {
        "empty": b"",
        "odd": b"abc",
        "37-banks": bytes(2 * 37 * BANK),
        "huge-rope": bytes(1048577),
        "huge-text": b"\n" * 16777217,
        "huge-keys": b" " * 65537,
        "many-events": events.encode(),
        "long-line": b"0 key 1\n# " + b"x" * 119 + b"\n",
        "latin": b"0 key 1\n5 key 1 # \xe9t\xe9\n",
        "many-breaks": b"break 4000\n" * 65,
        "many-lines": b"".join(b"N%d TC XYZ%d\n" % (at, at) for at in range(30)),
        "many-doubts": b"".join(b"%o 14000 TCF 4001\n" % (0o4000 + at) for at in range(25)),
        "latin-source": b"\tCA 0100\n\tCA \xe9\n",
        "latin-names": b"4000 START\n4001 \xe9\n",
    }


def make(folder):
    """Writes all files into a folder."""
    for name, data in {**restorers_files(), **long_files()}.items():
        Path(folder, name).write_bytes(data)
    Path(folder, "examples").symlink_to(Path(judge.TOP, "examples"))
    Path(folder, "folder").mkdir()
