"""Draws ropes from a seed, writes them as texts of numbers, and judges what `agc-study convert` makes of these texts, and how it writes
ropes as texts.

The texts that it reads are written here, from the words drawn here; what it writes is compared with texts written here.
"""

import judge
from merging import BANK, in_classic_order, place_text, read, with_parity, write
from patterns import bank_list, run

LONGEST = 36 * BANK
# For each radix and whether a parity bit stands apart: the digits of a word.
DIGITS = {("octal", "word"): 5, ("octal", "parity"): 5, ("octal", "bits"): 6, ("hex", "bits"): 4, ("hex", "parity"): 4}


def draw_file(draw, parity):
    """Returns the sixteen bits of each word of a rope file with some used banks, up to its last word that is not 0. Without parity
    bits the last bits are 0."""
    words = [0] * LONGEST
    for bank in draw.sample(range(36), draw.randrange(1, 4)):
        first, count = draw.randrange(BANK - 60), draw.randrange(1, 60)
        for at in range(bank * BANK + first, bank * BANK + first + count):
            word = draw.choice([0, draw.randrange(0o100000), draw.randrange(0o100000)])
            words[at] = with_parity(word) if parity else 2 * word
        words[at] = with_parity(0o12345) if parity else 2 * 0o12345
    return cut(words)


def cut(words):
    """Returns words up to the last one that is not 0."""
    return words[:max(at for at, word in enumerate(words) if word) + 1]


def place_of(index, classic):
    """Returns the place in the rope of a word of a file."""
    bank = index // BANK
    return index + BANK * ([2, 2, -2, -2][bank] if classic and bank < 4 else 0)


def number(word, radix, shape):
    """Writes the sixteen bits of a word."""
    if shape == "parity":
        return f"{word >> 1:05o} {word & 1}" if radix == "octal" else f"{word >> 1:04x} {word & 1}"
    if shape == "word":
        return f"{word >> 1:05o}"
    return f"{word:06o}" if radix == "octal" else f"{word:04x}"


def wanted_text(words, radix, shape, place):
    """Returns the text that `--to-text` has to write."""
    lines = []
    for first in range(0, len(words), 8):
        line = words[first:first + 8]
        if any(line):
            lines.append(f"{place_text(place(first))}: " + " ".join(number(word, radix, shape) for word in line) + "\n")
    return "".join(lines)


def judge_words(what, wanted, *options):
    """Judges the words that `convert` makes of the file `text`."""
    status, out, err = run("convert", "text", *options)
    if judge.judge(f"{what}: status: {err}", 0, status):
        found = read(out)
        apart = [at for at in range(max(len(wanted), len(found))) if wanted[at:at + 1] != found[at:at + 1]]
        judge.judge(f"{what}: words apart", [], apart[:5])


def save(text):
    with open("text", "w", encoding="ascii", newline="") as file:
        file.write(text)


# To text and back

def there_and_back(draw):
    """Ropes in each shape to text and back: 300 of each."""
    for form, radix in (("parity", "octal"), ("classic", "octal"), ("parity", "hex"), ("classic", "hex"), ("unused", "octal")):
        for n in range(300):
            words = draw_file(draw, form == "parity")
            classic = form != "parity"
            if form == "unused":  # a word +0 has its unused bit, so that its place is not empty
                words[draw.randrange(len(words))] |= 1
            shape = "bits" if radix == "hex" else "word" if form == "classic" else "parity"
            write("image", words)
            reading = ("--form", "classic" if classic else "parity", "--to", "classic" if classic else "parity")
            status, out, _ = run("convert", "image", *reading, "--to-text", radix)
            wanted = wanted_text(words, radix, shape, lambda at, classic=classic: place_of(at, classic))
            judge.judge(f"there {form} {radix} {n}", (0, wanted), (status, out.decode()))
            save(out.decode())
            judge_words(f"and back {form} {radix} {n}", words, *reading, "--from-text", radix)


def other_forms(draw):
    """The parity bit stands behind an octal word, whatever its place in the file; the places are those of the result."""
    for n in range(20):
        words = draw_file(draw, True) + [0] * (4 * BANK)
        words = cut(words[:LONGEST]) if len(cut(words)) > 4 * BANK else words[:4 * BANK]
        write("image", words)
        for form in ("parity-first", "classic-parity", "classic-parity-first"):
            out = run("convert", "image", "--form", "parity", "--to", form, "--to-text", "octal")[1].decode()
            classic = form.startswith("classic")
            held = in_classic_order(words + [0] * (LONGEST - len(words)))[:len(words)] if classic else words
            judge.judge(f"{form} {n}", wanted_text(held, "octal", "parity", lambda at, classic=classic: place_of(at, classic)), out)


def banks(draw):
    """Some banks as text: their places, and back with the same banks."""
    for n in range(20):
        words = draw_file(draw, True)
        chosen = sorted(draw.sample(range(36), draw.randrange(1, 9)) + [at // BANK for at, word in enumerate(words) if word][:1])
        chosen = sorted(set(chosen))
        write("image", words)
        held = [word for bank in chosen for word in (words + [0] * LONGEST)[bank * BANK:(bank + 1) * BANK]]
        options = ("--form", "parity", "--to", "parity", "--banks", bank_list(chosen))
        out = run("convert", "image", *options, "--to-text", "octal")[1].decode()
        wanted = wanted_text(held, "octal", "parity", lambda at, chosen=chosen: chosen[at // BANK] * BANK + at % BANK)
        judge.judge(f"banks {n}", wanted, out)
        save(out)
        judge_words(f"banks {n}: back", held, *options, "--from-text", "octal")


# Texts of others

def styled(draw, words, radix, shape, classic):
    """Writes words as a text in a style that is drawn: addresses, lines of other lengths, comments, blank lines, blanks, line ends."""
    style = draw.choice(["none", "place", "place:", "words:", "bytes:", "offset"])
    per_line = draw.choice([1, 4, 8, 8, 16])
    end = draw.choice(["\n", "\r\n"])
    lines = [draw.choice(["", "# a comment: 12345, or none", "; 8 banks"])]
    for first in range(0, len(words), per_line):
        line = words[first:first + per_line]
        # The first two lines show what the numbers count.
        if style != "none" and first >= 2 * per_line and not any(line):
            continue
        numbers = draw.choice([" ", "  ", "\t"]).join(number(word, radix, shape) for word in line)
        address = {"none": "", "place": place_text(place_of(first, classic)), "place:": place_text(place_of(first, classic)) + ":",
                   "words:": digits(first, radix) + ":", "bytes:": digits(2 * first, radix) + ":",
                   "offset": f"{2 * first:07o}" if radix == "octal" else f"{2 * first:07x}"}[style]
        text = address + ("" if address.endswith(":") and draw.random() < 0.3 else " ") + numbers
        lines.append(text.upper() if draw.random() < 0.3 else text + draw.choice(["", " ", "  # end", ";"]))
        if draw.random() < 0.1:
            lines.append(draw.choice(["", "   ", "#", "\t; 9"]))
    return end.join(lines) + draw.choice(["", end])


def digits(value, radix):
    return f"{value:05o}" if radix == "octal" else f"{value:x}"


def texts_of_others(draw):
    """Texts in all shapes and styles, from the words of a rope; and with the options of `convert`, as the binary file has them."""
    for (radix, shape) in DIGITS:
        for n in range(60):
            classic = n % 2 == 0
            words = draw_file(draw, shape != "word")
            words = words[-draw.randrange(1, 2000):] if n % 3 else words
            save(styled(draw, words, radix, shape, classic))
            form = "classic-parity" if classic else "parity"
            if shape == "word":
                form = "classic" if classic else "plain"
            judge_words(f"{radix} {shape} {n}", cut(words), "--form", form, "--to", form, "--from-text", radix)
            write("image", words)
            options = ["--form", form, "--to", draw.choice(["parity", "classic", "plain", "classic-parity-first"]), "--ignore-parity"]
            options += draw.choice([[], ["--swap"], ["--bits", "inverted"], ["--bits", "reversed"], ["--moved", "back"], ["--module", "2"]])
            judge.judge(f"{radix} {shape} {n}: {' '.join(options)}", run("convert", "image", *options),
                        run("convert", "text", *options, "--from-text", radix))


def dumps_of_tools(draw):
    """What od, hexdump and xxd print, with the bytes in order and exchanged."""
    for n in range(20):
        words = [draw.randrange(1, 0x10000) for _ in range(draw.randrange(1, 400))]
        data = b"".join(word.to_bytes(2, "big") for word in words)
        rows = [data[at:at + 16] for at in range(0, len(data), 16)]
        pairs = [[row[at:at + 2] for at in range(0, len(row), 2)] for row in rows]
        swapped = [f"{16 * at:07o} " + " ".join(f"{low << 8 | high:06o}" for high, low in row) for at, row in enumerate(pairs)]
        texts = {
            "od": ("octal", [f"{16 * at:07o} " + " ".join(f"{high << 8 | low:06o}" for high, low in row) for at, row in enumerate(pairs)]
                   + [f"{len(data):07o}"]),
            "od, swapped": ("octal", swapped + [f"{len(data):07o}"]),
            "hexdump": ("hex", [f"{16 * at:07x} " + " ".join(pair.hex() for pair in row) for at, row in enumerate(pairs)] + [f"{len(data):07x}"]),
            "xxd without its characters": ("hex", [f"{16 * at:08x}: " + " ".join(pair.hex() for pair in row) for at, row in enumerate(pairs)]),
            "xxd -p": ("hex", [data[at:at + 30].hex() for at in range(0, len(data), 30)]),
        }
        for tool, (radix, lines) in texts.items():
            save("\n".join(lines) + "\n")
            swap = ["--swap"] if "swapped" in tool else []
            judge_words(f"{tool} {n}", words, "--form", "plain", "--to", "plain", *swap, "--from-text", radix)


# Faults

NO_DIGIT = "no octal digit, blank, colon or comma; # or ; begins a comment"
NO_HEX = "no hexadecimal digit, blank, colon or comma; # or ; begins a comment"
NO_WORD = "no word: five octal digits, perhaps a parity bit behind them, or six up to 177777"
NO_HEX_WORD = "no word: four hexadecimal digits, or up to 7FFF and a parity bit behind them"
OTHER = "the words before this one are written in another way"
MARK = "a colon or comma stands only in the address that begins a line"
NO_ADDRESS = "no address: BB,AAAA in fixed memory, or a number with a colon"
BACK = "this address is before the end of the words above; addresses ascend in the order of --form"
PAST = "past the last place of fixed memory, 36864 words"
UNKNOWN = "no line shows whether addresses count words or bytes: write BB,AAAA"
ODD = "the addresses count bytes, and this one is odd"
REPEATED = "* stands for lines that od or hexdump left out: make the text again with -v"
RETURN = "a carriage return without a line feed: end each line with a line feed"

# The radix, the text, and the fault: line, column, message.
FAULTS = [
    ("octal", "12345 1234x\n", 1, 11, NO_DIGIT),
    ("octal", "\n12345\n 12385\n", 3, 5, NO_DIGIT),
    ("octal", "12345\n*\n", 2, 1, REPEATED),
    ("octal", "12345\r12345\n", 1, 6, RETURN),
    ("octal", "\u00e9", 1, 1, NO_DIGIT),
    ("hex", "# g\n0000: 12g4\n", 2, 9, NO_HEX),
    ("octal", "1234\n", 1, 1, NO_WORD),
    ("octal", "12345 1234\n", 1, 7, NO_WORD),
    ("octal", "12345 2\n", 1, 7, NO_WORD),
    ("octal", "1 12345\n", 1, 1, NO_WORD),
    ("octal", "12345 1 1\n", 1, 9, NO_WORD),
    ("octal", "\t200000\n", 1, 2, NO_WORD),
    ("octal", "123456 1\n", 1, 1, NO_WORD),
    ("octal", "0: 1234567\n", 1, 4, NO_WORD),
    ("hex", "123\n", 1, 1, NO_HEX_WORD),
    ("hex", "12345\n", 1, 1, NO_HEX_WORD),
    ("hex", "8000 1\n", 1, 1, NO_HEX_WORD),
    ("hex", "0: 12345678 1\n", 1, 4, NO_HEX_WORD),
    ("octal", "12345 12345\n12345 0\n", 2, 1, OTHER),
    ("octal", "12345 1 12345\n", 1, 9, OTHER),
    ("octal", "123456\n\n  12345\n", 3, 3, OTHER),
    ("hex", "1234\n1234 1\n", 2, 1, OTHER),
    ("octal", "12345 02,4000: 12345\n", 1, 7, MARK),
    ("octal", "0: 1:2345\n", 1, 4, MARK),
    ("octal", "02,4000 : 12345\n", 1, 9, MARK),
    ("octal", " : 12345\n", 1, 2, NO_ADDRESS),
    ("octal", "02,2000 12345\n", 1, 1, NO_ADDRESS),
    ("octal", "44,2000: 12345\n", 1, 1, NO_ADDRESS),
    ("octal", "2,4000 12345\n", 1, 1, NO_ADDRESS),
    ("octal", "12345,12345\n", 1, 1, NO_ADDRESS),
    ("octal", "02,4010: 12345\n02,4007: 12345\n", 2, 1, BACK),
    ("octal", "02,4000: 12345 12345\n02,4001: 12345\n", 2, 1, BACK),
    ("octal", "00,2000: 12345\n02,4000: 12345\n", 2, 1, BACK),
    ("octal", "0: 12345\n1: 12345\n1: 12345\n", 3, 1, BACK),
    ("octal", "0: 12345\n1: 12345\n110001: 12345\n", 3, 1, PAST),
    ("octal", "0: 12345\n2: 12345\n777777777777777: 12345\n", 3, 1, PAST),
    ("octal", "43,3777: 12345 12345\n", 1, 16, PAST),
    ("octal", "100: 12345\n", 1, 1, UNKNOWN),
    ("octal", "0: 12345\n3: 12345\n", 2, 1, UNKNOWN),
    ("hex", "0: 1234\n2: 1234\n5: 1234\n", 3, 1, ODD),
]


def faults(_draw):
    """Each fault with its line, its column and its message; nothing is written."""
    for radix, text, line, column, message in FAULTS:
        with open("text", "w", encoding="latin-1", newline="") as file:
            file.write(text)
        wanted = (2, b"", f"agc-study: text line {line}, column {column}: {message}\n")
        judge.judge(f"fault of {text!r}", wanted, run("convert", "text", "--from-text", radix))
    for text in ("", "\n\n", "# 12345\n", "02,4000:\n", "0:\n"):
        save(text)
        judge.judge(f"fault of {text!r}", (2, b"", "agc-study: text: no line has a word\n"), run("convert", "text", "--from-text", "octal"))
    save("12345\n" * LONGEST)
    judge.judge("a whole rope", 2 * LONGEST, len(run("convert", "text", "--from-text", "octal")[1]))
    save("12345\n" * (LONGEST + 1))
    judge.judge("a word too many", f"agc-study: text line {LONGEST + 1}, column 1: {PAST}\n", run("convert", "text", "--from-text", "octal")[2])
    save("12345\n" + "\n" * 16777216)
    judge.judge("a text that is too long", (2, "agc-study: cannot read text\n"),
                (lambda done: (done[0], done[2].splitlines(True)[0]))(run("convert", "text", "--from-text", "octal")))


LOOKS = "    this looks like a text of numbers: convert --from-text makes a rope file from it (likely)"


def looks_like_text(_draw):
    """`check` says so of a text, and of no rope."""
    texts = ("02,4000: 12345 12345\n", "7058 000c\r\n", "1234567\n", "0" * 64 + "#", "ABCDEF\t12\n")
    others = ("\n\n \n", "0" * 63 + "#", "12345 # a comment\n", "ghi 12345\n")
    for text in (*texts, *others):
        save(text)
        found = run("check", "text")[1].decode().splitlines()
        judge.judge(f"check says that it is a text: {text!r}", text in texts, LOOKS in found)
    for rope in ("verbs", "lander"):
        judge.check(f"no text: {rope}", LOOKS not in run("check", f"{judge.TOP}/examples/{rope}/rope")[1].decode().splitlines())


GROUPS = (there_and_back, other_forms, banks, texts_of_others, dumps_of_tools, faults, looks_like_text)
