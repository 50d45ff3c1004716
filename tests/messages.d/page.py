"""Compares docs/MESSAGES.md with `table`, and each message of the table with what the programs print.

    page.py [--write]

`table` has sections. `# TITLE` begins one, and `> TEXT` is a paragraph of it. A line with no blank at its start is a message;
several such lines make one item of the page. In a message `{NAME}` is a text that differs, and in one of a launcher `$NAME`
too. The lines after them begin with a tab: cause, remedy and, if the message is only a part, how it is shown. `=` instead of
a cause or a remedy means that the message itself says it.

Each message has to be in a stored output: of the runs in `*.runs`, which are run here, of the examples, or of help. `@ FILE ..`
names judges of a section whose own text has the message instead, because it needs a terminal, or memory that is refused.
Each line on standard error in these runs has to be a message of the table.
"""

import re
import sys
from pathlib import Path

import cases
import files
import judge
import runs

TOP = Path(judge.TOP)
HERE = TOP / "tests" / "messages.d"
TABLE = HERE / "table"
PAGE = TOP / "docs" / "MESSAGES.md"
HEAD = "# Messages\n\n<!-- tests/messages --write writes this page from tests/messages.d/table. -->\n\n"
# What differs from one message to the next.
VARIES = re.compile(r"\$?\{!?#?(\w*)[^}]*\}|\$(\w+)|\$\((\w+)[^)]*\)")
# How a line ends that the system, or the parser of command lines, gives the reason of.
SYSTEMS = ("(os error 2)", ": file too large", "invalid digit found in string", "number too large to fit in target type")
# The outputs that other judges compare whole.
STORED = ("examples/study/*/std*", "examples/*/std*", "examples/console/*/std*", "tests/help.d/*")


class Item:
    """An item of the page: its messages, and their cause, remedy and form."""

    def __init__(self):
        self.messages, self.says = [], []


class Section:
    """A section of the table: its title, its paragraphs, the judges that have its messages, its items."""

    def __init__(self, title):
        self.title, self.text, self.judges, self.items = title, [], [], []

    def messages(self):
        return [message for item in self.items for message in item.messages]


def sections_of(table):
    """The sections of the table."""
    sections = []
    for line in table.splitlines():
        if line.startswith("# "):
            sections.append(Section(line[2:]))
            continue
        section = sections[-1]
        if line.startswith("> "):
            section.text.append(line[2:])
        elif line.startswith("@ "):
            section.judges += line[2:].split()
        elif line.startswith("\t"):
            section.items[-1].says.append(line[1:])
        elif line:
            if not section.items or section.items[-1].says:
                section.items.append(Item())
            section.items[-1].messages.append(line)
    return sections


class Pattern:
    """What a message looks like in a line: it is no part of a longer word."""

    def __init__(self, message):
        parts = VARIES.split(plain(message))[::VARIES.groups + 1]
        self.longest = max(parts, key=len)
        text = ".+?".join(map(re.escape, parts))
        begin, end = plain(message)[0].isalpha(), plain(message)[-1].isalpha()
        self.regex = re.compile(("(?<![A-Za-z])" if begin else "") + text + ("(?![A-Za-z])" if end else ""))

    def is_in(self, line):
        return self.longest in line and self.regex.search(line) is not None


def check_shown(sections, lines):
    """Checks that each message is in a line of a stored output, or in a judge that its section names."""
    for section in sections:
        judges = [line for file in section.judges for line in plain((TOP / file).read_text(encoding="utf-8")).splitlines()]
        for message in section.messages():
            pattern = Pattern(message)
            is_shown = any(map(pattern.is_in, lines)) or any(map(pattern.is_in, judges))
            judge.check(f"{section.title}: no stored output has: {message}", is_shown)


def check_listed(sections, every):
    """Checks that the table has each line of a program on standard error, but for what the system says."""
    patterns = [Pattern(message) for section in sections for message in section.messages()]
    for run in every:
        for line in run.err.splitlines():
            if re.match(r"agc[a-z-]*: |error: invalid value .*: ", line) and not line.endswith(SYSTEMS):
                judge.check(f"{run.where}: not in the table: {line}", any(pattern.is_in(line) for pattern in patterns))


def check_items(section):
    """Checks that each item has a cause and a remedy, and shows its messages whole."""
    for item in section.items:
        if not judge.check(f"{section.title}: needs a cause and a remedy: {item.messages[0]}", len(item.says) in (2, 3) and all(item.says)):
            continue
        for text in item.messages:
            shows = words_of(text) <= words_of(" ".join(texts_of(item)))
            judge.check(f"{section.title}: not shown whole: {text}", shows)


def shown(text):
    """A message as it is printed, with capitals for what differs."""
    return VARIES.sub(lambda found: (found[1] or found[2] or "..").upper(), plain(text))


def plain(text):
    """A message of a launcher without escapes."""
    return text.replace('\\"', '"')


def words_of(text):
    """The words of a text, without what differs."""
    return set(re.findall("[A-Za-z]+", VARIES.sub(" ", plain(text))))


def texts_of(item):
    """The messages of an item as the page shows them."""
    return [item.says[2]] if len(item.says) == 3 else [shown(text) for text in item.messages]


def fenced(text):
    """A message in backquotes."""
    return f"`` {text} ``" if "`" in text else f"`{text}`"


def line_of(item):
    """The line of an item: its messages, then cause and remedy, if the messages do not say them."""
    notes = "; ".join(text for text in item.says[:2] if text != "=")
    texts = [fenced(text) for text in texts_of(item)]
    between = ", " if sum(map(len, texts)) <= 100 else "\\\n  "
    return "- " + between.join(texts) + (f": {notes}" if notes else "")


def page_of(sections):
    """The text of the page."""
    text = HEAD
    for section in sections:
        text += f"## {section.title}\n\n" + "".join(f"{line}\n\n" for line in section.text)
        text += "".join(f"{line_of(item)}\n" for item in section.items) + "\n"
    return text.rstrip("\n") + "\n"


def check_page(sections):
    page = page_of(sections)
    if "--write" in sys.argv[1:]:
        PAGE.write_text(page, encoding="utf-8")
    is_page = PAGE.exists() and PAGE.read_text(encoding="utf-8") == page
    judge.check("docs/MESSAGES.md is not the page of the table: run tests/messages --write", is_page)


def main():
    sections = sections_of(TABLE.read_text(encoding="utf-8"))
    folder = judge.scratch_folder()
    files.make(folder)
    every = runs.check_runs(sorted(HERE.glob("*.runs")), folder)
    stored = [path.read_text(encoding="utf-8", errors="replace") for each in STORED for path in TOP.glob(each) if path.is_file()]
    stored += [run.text() for run in every]
    for section in sections:
        check_items(section)
    check_shown(sections, sorted({line for text in stored for line in text.splitlines()}))
    check_listed(sections, every)
    cases.check_cases(HERE / "cases", stored)
    check_page(sections)
    judge.finish()


main()
