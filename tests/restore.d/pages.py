"""Draws ropes from a seed, and judges the page that `agc-study check --report` writes by models of its own.

The page's text is read as HTML, and the cells of its map as paths. Words, parity, sums and what orders reach are counted from
the file of the rope.
"""

import base64
import hashlib
import os
import re
from html.parser import HTMLParser

import judge
import patterns
from merging import BANK, in_classic_order, is_even, place_text, total, with_parity, without_parity, write

run = patterns.run
draw_rope = patterns.draw_rope
MOST_ROWS = 20
CELLS = re.compile(r"M(\d+) (\d+)h(\d+)")
MARKS = re.compile(r"M(\d+) (\d+)h4v4h-4z")


class Page(HTMLParser):
    """The text of a page: its headings, tables by class, items and paragraphs, and the paths of each bank of its maps."""

    def __init__(self, text):
        super().__init__()
        self.tags, self.attributes, self.policy = [], [], None
        self.tables, self.maps, self.blocks = [], [], []
        self.into = None
        self.feed(text)

    def handle_starttag(self, tag, attrs):
        found = dict(attrs)
        self.tags.append(tag)
        self.attributes += attrs
        if found.get("http-equiv") == "Content-Security-Policy":
            self.policy = found["content"]
        if tag == "table":
            self.tables.append((found.get("class"), []))
        elif tag == "tr":
            self.tables[-1][1].append([])
        elif tag in ("td", "th"):
            self.tables[-1][1][-1].append("")
            self.into = "cell"
        elif tag == "br":
            self.handle_data("\n")
        elif tag in ("h1", "h2", "h3", "p", "li", "pre", "style"):
            self.blocks.append([tag, ""])
            self.into = "block"
        elif tag == "svg":
            self.maps.append([])
            self.into = "block"
        elif tag == "text":
            self.blocks.append([f"text {found.get('class')}", ""])
        elif tag == "path":
            self.maps[-1].append((found["class"], found["d"]))
        elif tag == "rect":
            self.maps[-1].append((found["class"], None))

    def handle_data(self, data):
        if self.into == "cell" and self.tables:
            self.tables[-1][1][-1][-1] += data
        elif self.blocks:
            self.blocks[-1][1] += data

    def handle_endtag(self, tag):
        if tag == "table":
            self.into = "block"
            self.blocks.append(["", ""])

    def texts(self, tag):
        return [text.strip() for name, text in self.blocks if name == tag]

    def rows(self, name, which=0):
        """Returns the rows of a table without its head, or nothing if there is no such table."""
        found = [rows for called, rows in self.tables if called == name]
        if len(found) <= which:
            return []
        return [[cell.strip() for cell in row] for row in found[which] if len(row) > 1 and row[0] not in ("Bank", "Place")]

    def facts(self, which=0):
        return dict(self.rows("facts", which))

    def places(self, name, which=0):
        """Returns the places of all cells, or marks, of a class in a map."""
        found, bank = set(), -1
        for called, path in [each for each in self.maps if len(each) > 30][which]:
            if path is None:
                bank += 1
            elif called == name and name in ("bad", "apart"):
                found |= {bank * BANK + int(y) // 2 * 64 + int(x) // 2 for x, y in MARKS.findall(path)}
            elif called == name:
                for x, y, length in CELLS.findall(path):
                    first = bank * BANK + (int(y) - 2) // 2 * 64 + (int(x) - 1) // 2
                    found |= set(range(first, first + int(length) // 2))
        return found


def page_of(name, *options):
    """Returns the page of a rope file and what `check` prints beside it."""
    if os.path.exists("page.html"):
        os.remove("page.html")
    status, out, err = run("check", name, "--report", "page.html", *options)
    if not judge.check(f"{name}: a page: {err}", status in (0, 1) and os.path.exists("page.html")):
        return Page(""), out
    with open("page.html", encoding="ascii") as file:
        return Page(file.read()), out


# The model of what orders reach: `words` are the fifteen bits of each place

def names_word(words, here, address):
    """Returns whether an address names a word that is not +0, as far as that is known without a bank."""
    target = target_of(here, address)
    return target is None or words[target] != 0


def target_of(here, address):
    """Returns the place in fixed memory that an address surely names."""
    if address >= 0o4000:
        return address - 0o4000 + 2 * BANK
    if address >= 0o2000 and here // BANK not in (2, 3):
        return here // BANK * BANK + address - 0o2000
    return None


def run_of(place):
    """Returns the bank of a place; bank 03 counts as bank 02, which it follows."""
    return 2 if place // BANK == 3 else place // BANK


def order_at(words, here, extracode):
    """Returns whether the word is legal, and the places after it as (place, extracode); none that another bank decides."""
    word = words[here]
    code, quarter, address = word >> 12, word >> 10 & 3, word & 0o7777
    nexts, jump = [(1, False)], False
    legal = True
    if not extracode:
        if word in (3, 4):
            pass
        elif word == 6:
            nexts = [(1, True)]
        elif word == 0o50017:
            nexts = []
        elif code == 0:
            legal, jump = names_word(words, here, address), True
            nexts = [] if address < 0o2000 else nexts
        elif code == 1 and quarter:
            legal, jump, nexts = names_word(words, here, address), True, []
        elif code == 1:
            nexts = [(skip, False) for skip in (1, 2, 3, 4)]
        elif code in (3, 4, 6, 7):
            legal = names_word(words, here, address)
        elif word in (0o52005, 0o52006, 0o54005):
            nexts = []
        elif code == 5 and quarter == 2:
            nexts = [(1, False), (2, False)]
    elif code == 0:
        legal = word >> 9 & 7 != 7 and 1 <= word & 0o777 <= 0o35
    elif code in (1, 6) and quarter:
        legal, jump = names_word(words, here, address), True
    elif code in (3, 4):
        legal = names_word(words, here, address - 1 & 0o7777)
    elif code in (5, 7):
        legal = names_word(words, here, address)
        nexts = [(1, code == 5)]
    after = [(here + skip, extra) for skip, extra in nexts if here + skip < 36 * BANK and run_of(here + skip) == run_of(here)]
    target = target_of(here, address) if jump else None
    return legal and word != 0, after + ([(target, False)] if target is not None else [])


def reached(words):
    """Returns the places that orders lead to from 4000 and the interrupt vectors."""
    open_steps = [(2 * BANK + 4 * n, False) for n in range(11)]
    open_steps = [step for step in open_steps if order_at(words, *step)[0]]
    seen = set(open_steps)
    while open_steps:
        legal, after = order_at(words, *open_steps.pop())
        for step in after if legal else ():
            if step not in seen:
                seen.add(step)
                open_steps.append(step)
    return {place for place, _ in seen if words[place]}


# What a page has to show

def judge_page(what, page, bits, has_parity, which=0):
    """Judges the part of a page on a rope by the sixteen bits of each place."""
    words = [word >> 1 for word in bits]
    used = {at for at, word in enumerate(words) if word}
    code = reached(words)
    judge.judge(f"{what}: words that are reached", code, page.places("code", which))
    judge.judge(f"{what}: words that are not", used - code, page.places("data", which))
    wrong = [at for at, word in enumerate(bits) if is_even(word)] if has_parity else []
    judge.judge(f"{what}: marks of parity", set(wrong), page.places("bad", which))
    facts = page.facts(which)
    judge.judge(f"{what}: code and data", f"{len(code)} words are reached from 4000 and the interrupt vectors, "
                                          f"{len(used) - len(code)} are not", facts.get("Code and data"))
    judge.judge(f"{what}: parity", f"wrong in {len(wrong)} words" if has_parity else None, facts.get("Parity"))
    sums = sum_rows(words)
    judge.judge(f"{what}: sums", sums, page.rows("sums", which))
    right = sum(row[3] != "wrong" for row in sums)
    judge.judge(f"{what}: right sums", f"right in {right} of {len(sums)} banks that have words", facts.get("Sums"))
    return wrong


def sum_rows(words):
    """Returns the rows of the table of sums."""
    rows = []
    for bank in range(36):
        inside = words[bank * BANK:(bank + 1) * BANK]
        if not any(inside):
            continue
        value = total(inside)
        row = [f"{bank:02o}", str(sum(word != 0 for word in inside)), f"{value:05o}"]
        if value == bank or bank == 0 and value == 0o77777:
            row += ["the bank's number", "", ""]
        elif value == 0o77777 - bank:
            row += ["its complement", "", ""]
        else:
            row += ["wrong", f"{bank:05o} or {0o77777 - bank:05o}", last_words(bank, inside)]
        rows.append(row)
    return rows


def last_words(bank, inside):
    """Returns the place of a bank's last word, and the words there that make its sum right."""
    last = max(at for at, word in enumerate(inside) if word)
    before = total(inside[:last])
    number, complement = (total([wanted, 0o77777 - before]) for wanted in (bank, 0o77777 - bank))
    made = f"{place_text(bank * BANK + last)} {number:05o}"
    return made if number == complement else f"{made} or {complement:05o}"


def judge_words(what, page, bits, wrong):
    """Judges the table of words with wrong parity: each word, and among its proposals those that make the sum right."""
    rows = page.rows("words")
    judge.judge(f"{what}: bad words", [[place_text(at), f"{bits[at] >> 1:05o}", str(bits[at] & 1)] for at in wrong[:MOST_ROWS]],
                [row[:3] for row in rows])
    printed = run("repair", "image", "--form", "parity")[1].decode().splitlines()
    for at, row in zip(wrong, rows):
        bank = at // BANK
        others = [word >> 1 for n, word in enumerate(bits[bank * BANK:(bank + 1) * BANK]) if bank * BANK + n != at]
        tried = {(bits[at] ^ 1 << bit) >> 1 for bit in range(16)}
        fitting = {word for word in tried if total([*others, word]) in (bank, 0o77777 - bank)}
        lines = row[4].splitlines() if row[4].startswith(place_text(at)) else []
        shown = [int(line.split()[1], 8) for line in lines]
        judge.check(f"{what}: {row[0]}: proposals by one bit", set(shown) <= tried)
        judge.check(f"{what}: {row[0]}: those with a right sum come first", set(shown[:len(fitting)]) == fitting)
        judge.check(f"{what}: {row[0]}: they are lines of repair", all(line in printed for line in lines))


def judge_patterns(what, page, options=("--form", "parity")):
    """Judges that the page has the patterns that `check` prints, with their commands."""
    wanted = [f"{kind}: {text}" + (f"\nmended by: {command}" if command else "")
              for kind, text, command in patterns.patterns("image", *options)]
    found = [re.sub(r"\n+", "\n", item) for item in page.texts("li")]
    judge.judge(f"{what}: patterns", wanted, found)
    judge.judge(f"{what}: their number", str(len(wanted)), page.facts().get("Patterns"))
    return wanted


def judge_alone(what, page):
    """Judges that a page is whole by itself: no script, nothing from elsewhere, and a policy that allows its style alone."""
    with open("page.html", encoding="ascii") as file:
        text = file.read()
    judge.check(f"{what}: no other file", not re.search(r"https?:|//[a-z]|url\(|@import", text))
    judge.judge(f"{what}: no script, link or image", set(), {"script", "link", "img", "a", "iframe", "object"} & set(page.tags))
    judge.judge(f"{what}: no attribute that acts", [],
                [name for name, _ in page.attributes if name.startswith("on") or name in ("style", "src", "href")])
    style = text.split("<style>")[1].split("</style>")[0]
    digest = base64.b64encode(hashlib.sha256(style.encode()).digest()).decode()
    judge.judge(f"{what}: the policy", f"default-src 'none'; style-src 'sha256-{digest}'", page.policy)


# Groups of tries

def single_words(draw):
    """Single bits in some words: their marks, rows and proposals."""
    for n in range(8):
        sound = draw_rope(draw, sorted(draw.sample(range(36), 6)))
        bits = list(sound)
        used = [at for at, word in enumerate(bits) if word]
        for at in draw.sample(used, (1, 2, 5, 30)[n % 4]):
            bits[at] = bits[at] ^ 1 << draw.randrange(16) or bits[at]
        write("image", bits)
        page, out = page_of("image", "--form", "parity")
        wrong = judge_page(f"single words {n}", page, bits, True)
        judge_words(f"single words {n}", page, bits, wrong)
        judge_patterns(f"single words {n}", page)
        judge_alone(f"single words {n}", page)
        judge.judge(f"single words {n}: what check prints", run("check", "image", "--form", "parity")[1], out)
        judge.judge(f"single words {n}: the verdict", ["Something is wrong: see below."] if wrong else ["No finding."],
                    [text for text in page.texts("p") if text.startswith(("No finding", "Something"))])


def damaged_parts(draw):
    """A stuck bit, banks exchanged, a module left out, words inverted: the patterns, and no proposals for single words."""
    def stuck(words):
        patterns.stick(words, 5, 1, 0, 36 * BANK)

    def exchanged(words):
        words[3 * BANK:4 * BANK], words[9 * BANK:10 * BANK] = words[9 * BANK:10 * BANK], words[3 * BANK:4 * BANK]

    def left_out(words):
        words[6 * BANK:] = words[12 * BANK:] + [0] * (6 * BANK)

    def inverted(words):
        words[:] = [word ^ 0xFFFF for word in words]

    for made in (stuck, exchanged, left_out, inverted):
        what = made.__name__
        bits = draw_rope(draw, [2, 3, 9, 13, 14, 20], 700)
        made(bits)
        write("image", bits)
        page, _ = page_of("image", "--form", "parity")
        judge_page(what, page, bits, True)
        judge.check(f"{what}: there is a pattern", judge_patterns(what, page))
        if what in ("stuck", "inverted"):
            judge.judge(f"{what}: no proposals", [], page.rows("words"))


def classic(draw):
    """The classic form has another order of banks, and no parity."""
    for n in range(3):
        bits = draw_rope(draw, [0, 1, 2, 3, 5, 20])
        bits[20 * BANK + 3] ^= 0o20
        write("image", without_parity(in_classic_order(bits)))
        page, _ = page_of("image")
        judge_page(f"classic {n}", page, without_parity(bits), False)
        judge.judge(f"classic {n}: the form", "classic: no parity bits", page.facts().get("Form"))


def modules(draw):
    """Modules of a rope in their banks."""
    sound = draw_rope(draw, range(12, 18))
    write("image", sound[12 * BANK:18 * BANK])
    page, _ = page_of("image", "--form", "parity", "--first-bank", "14")
    judge_page("modules", page, sound, True)
    judge.check("modules: no finding", "No finding." in page.texts("p"))


def two_ropes(draw):
    """Two ropes beside each other: each has its part, and the words that differ have marks and rows."""
    for n in range(3):
        sound = draw_rope(draw, [2, 3, 7, 11])
        bits = list(sound)
        places = sorted(draw.sample([at for at, word in enumerate(sound) if word], (0, 3, 250)[n]))
        for at in places:
            bits[at] = with_parity(bits[at] >> 1 ^ 1 << draw.randrange(15))
        write("image", bits)
        write("other", without_parity(in_classic_order(sound)))
        page, out = page_of("image", "--form", "parity", "--beside", "other", "--form-b", "classic")
        judge.judge(f"two ropes {n}: what check prints", run("check", "image", "--form", "parity")[1], out)
        judge_page(f"two ropes {n}: one", page, bits, True)
        judge_page(f"two ropes {n}: other", page, without_parity(sound), False, 1)
        for which in (0, 1):
            judge.judge(f"two ropes {n}: marks", set(places), page.places("apart", which))
        rows = [[place_text(at), f"{bits[at] >> 1:05o}", f"{sound[at] >> 1:05o}"] for at in places[:200]]
        judge.judge(f"two ropes {n}: rows", rows, [[row[0], row[1], row[3]] for row in page.rows("apart")])
        judge.check(f"two ropes {n}: their number", f"Words that differ: {len(places)}" in page.texts("h2"))
        banks = len({at // BANK for at in places})
        judge.judge(f"two ropes {n}: in how many banks", f"{len(places)} words differ, in {banks} banks" if places else None,
                    page.facts().get("Other rope"))
        judge_alone(f"two ropes {n}", page)


def names(draw):
    """A name of a file is text, whatever it has."""
    for name in ("<b>&\"x'.rope", "</h2><script>alert(1)</script>", "rope \\ \u00e9 %", "&lt;"):
        name = name.replace("/", "\u2044")
        write(name, draw_rope(draw, [2, 5]))
        page, _ = page_of(name, "--form", "parity", "--beside", name)
        shown = "".join(chr(byte) if 32 <= byte < 127 and byte != 92 else f"\\{byte:03o}" for byte in name.encode())
        judge.judge(f"names: {name!r}", [f"Rope {shown}"] * 2, [text for text in page.texts("h2") if text.startswith("Rope ")])
        judge_alone(f"names: {name!r}", page)


def faulty_files(_):
    """A file that is no rope: its fault alone. A file that cannot be read, and a page that cannot be written."""
    for data, fault in ((b"abc", "rope: OddLength"), (b"", "rope: Empty"), (bytes(2 * 36 * BANK + 2), "rope: TooLong")):
        with open("faulty", "wb") as file:
            file.write(data)
        page, _ = page_of("faulty", "--form", "parity")
        judge.check(f"faulty: {fault}", any(text.startswith(fault) for text in page.texts("pre")))
        judge.judge(f"faulty: {fault}: no map", [], page.maps)
    write("image", [with_parity(3)] * 9)
    for args, wanted in ((("missing",), "agc-study: cannot read rope"), (("image", "--beside", "missing"), "agc-study: other run: cannot read rope")):
        os.remove("page.html")
        status, out, err = run("check", *args, "--report", "page.html")
        judge.check(f"faulty: {args}: {status} {err}", status == 2 and out == b"" and err.startswith(wanted))
        judge.check(f"faulty: {args}: no page", not os.path.exists("page.html"))
        page_of("image")
    status, out, err = run("check", "image", "--report", "no/such/folder")
    judge.check(f"faulty: no such folder: {status} {err}", status == 3 and out == b"")


def kept_files(_):
    """A file that exists is kept, also a link into nothing."""
    write("image", [with_parity(3)] * 9)
    with open("kept", "w", encoding="ascii") as file:
        file.write("mine\n")
    if not os.path.islink("link"):
        os.symlink("nowhere", "link")
    for name in ("kept", "link", "image", "."):
        status, out, err = run("check", "image", "--report", name)
        judge.judge(f"kept: {name}", (2, b"", f"error: invalid value '{name}' for '--report <NEW>': the file exists\n\n"
                                              "For more information, try '--help'.\n"), (status, out, err))
    with open("kept", encoding="ascii") as file:
        judge.judge("kept: its text", "mine\n", file.read())
    judge.check("kept: the link", os.path.islink("link") and not os.path.exists("nowhere"))


def sound_ropes(draw):
    """On 100 sound ropes nothing is found. The examples have no sums, and no other finding."""
    for n in range(100):
        sound = draw_rope(draw, draw.sample(range(1, 36), draw.randrange(1, 9)))
        write("image", sound)
        page, _ = page_of("image", "--form", "parity")
        judge.check(f"sound rope {n}: no finding", "No finding." in page.texts("p") and not page.rows("words") and not page.texts("li")
                    and all(row[3] != "wrong" for row in page.rows("sums")) and not page.places("bad"))
    for name in ("descent", "interpreter", "verbs", "pinball", "lander"):
        page, _ = page_of(os.path.join(judge.TOP, f"examples/{name}/rope"))
        judge.check(f"examples/{name}", any(text.startswith("No finding") for text in page.texts("p")))


GROUPS = (single_words, damaged_parts, classic, modules, two_ropes, names, faulty_files, kept_files, sound_ropes)
