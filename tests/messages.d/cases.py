"""Checks that each case of each enum of faults and findings that a user of agc and agc-study can meet has a stored output.

The cases are read from the code. The file `cases` has a text for each, which a stored output has to have, and no other case
of its enum:

    @ FILE ENUM       the enum of the cases below
    CASE: TEXT        a stored output has this text
    CASE - REASON     no stored output: another judge shows it, or a user cannot meet it

Each enum whose name ends with Fault or Error, in a crate that agc or agc-study is made of, has to be there.
"""

import re
from pathlib import Path

import judge

TOP = Path(judge.TOP)
ENUM = re.compile(r"^(?:pub(?:\(crate\))? )?enum (\w+)(?:<[^>]*>)? \{\n(.*?)^\}", re.MULTILINE | re.DOTALL)


def enums_in(file):
    """The cases of each enum of a source file."""
    code = re.sub(r"//[^\n]*|#\[[^\n]*\]", "", file.read_text(encoding="utf-8"))
    return {name: re.findall(r"^    (\w+)", body, re.MULTILINE) for name, body in ENUM.findall(code)}


def crates_of(*programs):
    """The crates that programs are made of."""
    lines = (TOP / "crates.txt").read_text(encoding="utf-8").splitlines()
    needs = {name: rest.split() for name, _, rest in (line.partition(":") for line in lines if not line.startswith("#"))}
    found, left = set(), list(programs)
    while left:
        crate = left.pop()
        if crate in needs and crate not in found:
            found.add(crate)
            left += needs[crate]
    return sorted(found)


def sections_of(path):
    """The lines of `cases`: for each enum its file, and the text or the reason of each case."""
    sections, here = {}, {}
    for number, line in enumerate(path.read_text(encoding="utf-8").splitlines(), 1):
        if line.startswith("@ "):
            file, name = line[2:].split()
            here = sections[file, name] = {}
        elif line and not line.startswith("#"):
            found = re.match(r"(\w+)(: | - )(.+)", line)
            if not found:
                raise ValueError(f"cases:{number}: what is this line? {line}")
            here[found[1]] = found[3] if found[2] == ": " else None
    return sections


def check_enum(file, name, texts, stored):
    """Checks the lines of an enum against its cases, and its texts against the stored outputs."""
    cases = enums_in(TOP / file).get(name) if (TOP / file).exists() else None
    judge.judge(f"cases of {name} in {file}", sorted(texts), sorted(cases or ["(there is no such enum)"]))
    shown = [text for text in texts.values() if text]
    for case, text in texts.items():
        if text:
            one = sum(text in other for other in shown) == 1
            judge.check(f"{name}::{case}: the text is also that of another case: {text}", one)
            judge.check(f"{name}::{case}: no stored output has: {text}", any(text in output for output in stored))


def check_cases(path, stored):
    sections = sections_of(path)
    for (file, name), texts in sections.items():
        check_enum(file, name, texts, stored)
    for crate in crates_of("agc", "agc_study"):
        for file in sorted((TOP / "crates" / crate / "src").rglob("*.rt")):
            for name in enums_in(file):
                place = str(file.relative_to(TOP))
                if name.endswith(("Fault", "Error")):
                    judge.check(f"{name} of {place} is not in tests/messages.d/cases", (place, name) in sections)
