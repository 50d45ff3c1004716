"""Plants wrong texts in copies of the programs, and finds what catches each.

    plant.py [COUNT [SEED [FIRST]]]

A text is a part of a string in the code that the program's file has once; a letter in its middle is turned there, so no
program is built. What is computed is changed in the output instead (FILTERS). FIRST leaves out those before it.
"""

import hashlib
import os
import random
import re
import shlex
import shutil
import subprocess
import sys
from pathlib import Path

import files
import judge
import runs

TOP = Path(judge.TOP)
PREBUILT = Path("prebuilt", "x86_64-linux")
# The crates with texts for people, and the judges that see them, if no stored output has the text.
CRATES = {
    "agc-study": "agc_text agc_run_commands agc_rope_commands agc_analysis agc_check agc_mend agc_study_args agc_study_cli "
                 "agc_listing_check agc_asm agc_encode agc_vocabulary agc_symbols agc_cli agc_load",
    "agc-console": "agc_command agc_repl agc_console",
    "agc-dsky": "agc_tui agc_dsky agc_panel",
    "agc": "agc_load agc_cli",
}
JUDGES = {
    "agc-study": ["tests/listings", "tests/weave"],
    "agc-console": ["examples/console/run"],
    "agc-dsky": ["tests/dsky try_pictures", "tests/dsky try_marks try_waiting_keys try_fastest", "tests/dsky try_faces"],
    "agc": ["examples/run", "tests/replay"],
}
# More judges, for texts that they have themselves.
OTHERS = ("tests/client", "tests/console", "tests/film", "tests/restore", "tests/many", "tests/questions", "tests/replay")
# A short text may be in the program's orders, and the turned one beside them be unused: it is printed as before.
NO_EFFECT = "no effect"
# The seconds that a judge has, and the numbers of random tries. One that does not end in time has caught nothing.
LONGEST, TIMED_OUT = 300, 124
FEW = {"JOBS_TRIES": "3", "PROFILE_TRIES": "6", "PROFILE_BANKED": "2"}
# What is computed: the program, what is wrong, a text of the outputs that it is in, the judges of it, and the change in Perl.
FILTERS = [
    ("agc-study", "a bank of a profile in decimal", " of what", "tests/profile", r"s/^( *\d+ +\d+ +- +bank )(\d\d)$/$1 . sprintf('%02d', oct($2))/ge"),
    ("agc-study", "a bank of the superbank without it", " of what", "tests/profile", r"s/word 4([0-3]),/word 3$1,/g"),
    ("agc-study", "the share of a routine one tenth more", "routine", "tests/profile", r"s/\b(\d+)\.(\d)%/$1 . '.' . ($2 + 1) . '%'/ge"),
    ("agc-study", "a word that was not read as data", " of what", "tests/profile", r"s/^( +\d+ +\d+ +)[1-9]\d*(  word)/$1 . '0' . $2/ge"),
    ("agc-study", "the left word of a cell twice", "The cells that", "", r"s/^(\d{4} )(\d{5}) \d{5}$/$1$2 $2/g"),
    ("agc-study", "the right cycle of a pair twice", "The runs part", "tests/many", r"s/^  \d+ (\d+) (\d{3} \d{5})$/  $1 $1 $2/g"),
    ("agc-study", "a distance of clocks of one more", "more than", "tests/many", r"s/more than (\d+) cycle/'more than ' . ($1 + 1) . ' cycle'/ge"),
    ("agc-study", "a column of one less", "column", "", r"s/column (\d+):/'column ' . ($1 - 1) . ':'/ge"),
    ("agc-study", "the two words for a sum exchanged", "would make it so", "", r"s/(\d{5}) or (\d{5}) would/$2 or $1 would/g"),
    ("agc-study", "the other parity bit", "parity bit", "", r"s/parity bit ([01])/'parity bit ' . (1 - $1)/ge"),
    ("agc-study", "the name of a reading", "from ", "", r"s/from classic-parity to/from parity to/g"),
    ("agc-study", "no mark of wrong parity", "wrong parity", "", r"s/ wrong parity$//g"),
    ("agc-study", "no name at address 2000", "LOC", "tests/jobs", r"s/(LOC 02000 BANKSET \d{5}) .*/$1/g"),
    ("agc-study", "no name in the superbank", "LOC", "tests/jobs", r"s/(LOC 0[23]\d{3} BANKSET [67]\d[1357]\d\d) .*/$1/g"),
    ("agc-study", "twenty one words shown", "the first 20", "", r"s/the first 20/the first 21/g"),
    ("agc-study", "a place more that is reached", "places reached", "", r"s/(\d+) of (\d+ places)/($1 + 1) . ' of ' . $2/ge"),
    ("agc-study", "a count of words that differ", "words differ", "", r"s/(\d+) words differ/($1 + 1) . ' words differ'/ge"),
    ("agc-study", "a job that sleeps as ready", "ASLEEP", "tests/jobs", r"s/^(\d+ SET \d+ )ASLEEP/$1READY/g"),
    ("agc-console", "a number of writes of one more", "writes", "examples/console/run", r"s/^writes (\d+)/'writes ' . ($1 + 1)/ge"),
    ("agc-console", "a cell in decimal", "cell", "examples/console/run", r"s/^cell (\d{4})/'cell ' . sprintf('%04d', oct($1))/ge"),
]


def strings_of(code):
    """The strings of a source file, without those of comments and tests."""
    code = re.split(r"^#\[cfg\(test\)\]\nmod \w+ \{", code, flags=re.MULTILINE)[0]
    pattern = re.compile(r"""//[^\n]*|'(?:\\.[^']*|[^'\\])'|b?"((?:[^"\\]|\\.)*)\"""", re.DOTALL)
    return [re.sub(r"\\\n\s*", "", found[1]) for found in pattern.finditer(code) if found[1] is not None]


def texts_of(program):
    """The texts of a program, each with its file: parts of strings with four letters, that the program's file has once."""
    data, texts = (TOP / PREBUILT / program).read_bytes(), {}
    for crate in CRATES[program].split():
        for file in sorted((TOP / "crates" / crate / "src").rglob("*.rt")):
            for string in strings_of(file.read_text(encoding="utf-8")):
                for part in re.split(r"\{[^}]*\}|\\x1b\[[0-9;?]*[A-Za-z]|\\.", string):
                    if len(re.findall("[A-Za-z]", part)) >= 4 and len(part) < 400 and data.count(part.encode()) == 1:
                        texts[part] = file.relative_to(TOP / "crates")
    return list(texts.items())


def turned(text):
    """The text with a letter in its middle turned."""
    letters = [at for at, letter in enumerate(text) if letter.isalpha() and letter.isascii()]
    at = letters[len(letters) // 2]
    return text[:at] + ("x" if text[at] != "x" else "y") + text[at + 1:]


class Tree:
    """A copy of the repository, whose programs can be changed."""

    def __init__(self):
        self.top = Path(judge.scratch_folder())
        # The judges that were seen to pass with the right programs, and those that do not.
        self.sound, self.unsound = [], []
        listed = subprocess.run(["git", "ls-files", "-z"], cwd=TOP, capture_output=True, check=True).stdout.decode().split("\0")[:-1]
        for name in listed:
            if not name.startswith("crates/") and (TOP / name).is_file():
                (self.top / name).parent.mkdir(parents=True, exist_ok=True)
                shutil.copy2(TOP / name, self.top / name, follow_symlinks=False)
        (self.top / "crates").symlink_to(TOP / "crates")
        for program in ("agc", "agc-study", "agc-console"):
            self.restore(program)

    def put(self, program, data):
        """Makes these bytes the program. agc-dsky keeps its launcher, which sets the terminal and looks at the digest."""
        path = self.top / PREBUILT / program if program == "agc-dsky" else self.top / program
        path.unlink()
        path.write_bytes(data)
        path.chmod(0o755)
        if program == "agc-dsky":
            manifest = self.top / "prebuilt" / "MANIFEST"
            line = f"{hashlib.sha256(data).hexdigest()}  x86_64-linux/{program}"
            manifest.write_text(re.sub(rf"(?m)^\w+  x86_64-linux/{program}$", line, manifest.read_text(encoding="utf-8")), encoding="utf-8")

    def restore(self, program):
        self.put(program, (TOP / PREBUILT / program).read_bytes())

    def turn(self, program, text):
        """Plants the wrong text in the program."""
        self.put(program, (TOP / PREBUILT / program).read_bytes().replace(text.encode(), turned(text).encode()))

    def filter(self, program, change):
        """Makes the program one whose output is changed."""
        perl, real = f"perl -pe {shlex.quote(change)}", shlex.quote(str(TOP / PREBUILT / program))
        script = f'#!/bin/bash\n{{ {real} "$@" 2>&3 | {perl}; s=${{PIPESTATUS[0]}}; }} 3> >({perl} >&2)\nexit "$s"\n'
        self.put(program, script.encode())

    def passes(self, words):
        """Whether a judge passes with the programs as they are. On a busy machine one may fail, so it is tried twice."""
        names = {name: value for name, value in os.environ.items() if name not in ("DSKY", "PYTHONPATH")}
        names.update(AGC=str(self.top / "agc"), STUDY=str(self.top / "agc-study"), CONSOLE=str(self.top / "agc-console"))
        command = ["timeout", str(LONGEST), str(self.top / words.split()[0]), *words.split()[1:]]
        names.update(FEW)
        return any(subprocess.run(command, cwd=self.top, env=names, stdin=subprocess.DEVNULL, capture_output=True, check=False).returncode
                   in (0, TIMED_OUT) for _ in range(2))


class Stored:
    """The stored outputs of the examples, of help, and of the runs of tests/messages, tests/study and tests/agc."""

    def __init__(self, tree):
        self.tree, self.folder, self.all = tree, judge.scratch_folder(), []
        files.make(self.folder)
        for args in sorted((tree.top / "examples" / "study").glob("*/args")):
            if not (args.parent / "blocks").exists():
                run = runs.Run(f"examples/study/{args.parent.name}", "agc-study " + args.read_text(encoding="utf-8"), {})
                run.status, run.out, run.err = int(read(args.parent / "status") or 0), read(args.parent / "stdout"), read(args.parent / "stderr")
                self.all.append((run, args.parent))
        for args in sorted((tree.top / "examples" / "console").glob("*/args")):
            run = runs.Run(f"examples/console/{args.parent.name}", f"agc-console {read(args)} < commands", {})
            run.status, run.out, run.err = int(read(args.parent / "status") or 0), read(args.parent / "stdout"), read(args.parent / "stderr")
            self.all.append((run, args.parent))
        for file in sorted((tree.top / "tests" / "help.d").iterdir()):
            line, status, text = read(file).split("\n", 2)
            run = runs.Run(f"tests/help, {file.name}", line, {})
            run.status, run.out, run.err = (0, text, "") if status == "0" else (int(status), "", text)
            self.all.append((run, self.folder))
        for path in sorted((TOP / "tests" / "messages.d").glob("*.runs")):
            self.add_runs(path, self.folder)
        for judged in ("study", "agc"):
            for path in sorted((TOP / "tests" / f"{judged}.d").glob("*.runs")):
                self.add_runs(path, judge.scratch_folder())

    def add_runs(self, path, folder):
        """Adds the runs of a file, each with all files that were written or made before it."""
        written = {}
        for run in runs.runs_of(path):
            run.made(folder)
            written.update(run.files)
            run.files = dict(written)
            if run.kept():
                written[run.kept()] = Path(folder, run.kept()).read_bytes()
            run.where = f"tests/{path.parent.stem}, {run.where}"
            self.all.append((run, folder))

    def catches(self, program, text):
        """The first stored output with a text that is another one now, and whether any has the text."""
        runs.PROGRAMS[program] = str(self.tree.top / program)
        with_text = [(run, folder) for run, folder in self.all if run.line.split()[0] == program and text in run.text()]
        return next((run.where for run, folder in with_text if not run.is_made(folder)), None), bool(with_text)


def read(path):
    return path.read_text(encoding="utf-8", errors="backslashreplace") if path.exists() else ""


def judges_of(program, text):
    """The judges that see a text of a program: those whose own text has it come first, of tests/dsky these groups."""
    if program == "agc-dsky":
        groups = re.findall(r"(?ms)^def (try_\w+)(\(.*?)(?=^\S)", read(TOP / "tests" / "dsky.d" / "tries.py"))
        named = [f"tests/dsky {name}".replace("try_face", "try_faces").replace("facess", "faces") for name, code in groups if text in code]
        return dict.fromkeys(named + JUDGES[program])
    named = []
    for path in sorted((TOP / "tests").rglob("*")):
        name = f"tests/{path.relative_to(TOP / 'tests').parts[0]}".removesuffix(".d")
        if name in OTHERS and path.is_file() and text in read(path):
            named.append(name)
    return dict.fromkeys([*named, *JUDGES[program]])


def caught_by(tree, stored, program, text, judges, is_turned):
    """What catches the wrong text that is planted now, or None. A judge that also fails without it catches nothing."""
    where, has_text = stored.catches(program, text) if program != "agc-dsky" else (None, False)
    if is_turned and has_text and not where:
        where = NO_EFFECT
    failing = next((words for words in judges if words not in tree.unsound and not tree.passes(words)), None) if not where else None
    tree.restore(program)
    if failing and failing not in tree.sound:
        (tree.sound if tree.passes(failing) else tree.unsound).append(failing)
    return where or (failing if failing in tree.sound else None)


def report(what, found):
    print(f"{what} | {found or 'MISSED'}", flush=True)
    if found != NO_EFFECT:
        judge.check(what, found is not None)


def main():
    count, seed, first = map(int, sys.argv[1:] + ["100", "1", "0"][len(sys.argv) - 1:])
    tree = Tree()
    stored = Stored(tree)
    every = [(program, text, file) for program in CRATES for text, file in texts_of(program)]
    plants = [(program, text, str(file)) for program, text, file in random.Random(seed).sample(every, min(count, len(every)))]
    for program, text, where in sorted(plants, key=lambda plant: (plant[0] == "agc-dsky", plant))[first:]:
        tree.turn(program, text)
        report(f"{program} | {turned(text)} | {where}", caught_by(tree, stored, program, text, judges_of(program, text), True))
    for program, what, text, judges, change in FILTERS[max(0, first - len(plants)):]:
        tree.filter(program, change)
        report(f"{program} | {what} | its output", caught_by(tree, stored, program, text, judges.split(), False))
    judge.finish()


main()
