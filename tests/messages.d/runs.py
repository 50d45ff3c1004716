"""Runs of programs with what they print, as the files `*.runs` have them.

    # a comment
    > FILE            a file for the runs below
    <tab>A LINE       one of its lines
    % FILE TEXT       a file of this text alone, in which `%HH` is a byte, `%HH{N}` N such bytes, and `(%HH%HH){N}` N such pairs
    $ PROGRAM WORD .. a run; `%HH` in a word is a byte; `< NAME` at its end is its standard input, `> NAME` keeps its standard output
    = STATUS          its status, if it is not 0
    | A LINE          a line on standard output
    ! A LINE          a line on standard error
    ~| A LINE         standard output has this line, and its other lines are not compared; such lines follow one another there, but for
                      those with `~|` alone between them
    ~! A LINE         the same of standard error
    ~ TEXT            of standard output only the lines with this text are compared
    & PLACE WORD      a word of the rope on standard output, which has no other word; `&` alone: a rope without words. If `parity`
                      is a word of the run, the rope is in that form, and else in the classic one
"""

import os
import re
import shlex
import subprocess
import sys
from pathlib import Path
from urllib.parse import unquote_to_bytes

import files
import judge

AT_ONCE = 4  # files whose runs are made at once
PROGRAMS = {"agc": judge.AGC, "agc-study": judge.STUDY, "agc-console": judge.CONSOLE, "agc-dsky": judge.DSKY}


class Run:
    """A run: its words, the files that are written before it, and what it should print."""

    def __init__(self, where, line, given):
        self.where, self.line, self.files = where, line, given
        self.status, self.out, self.err = 0, "", ""
        # The lines of a stream that is compared in part, the text of the lines that are compared, and the words of a rope.
        self.some, self.only, self.words = {}, "", None

    def add(self, mark, rest):
        """Takes a line of what the run should print, and returns whether it is one."""
        if mark == "|":
            self.out += rest + "\n"
        elif mark == "!":
            self.err += rest + "\n"
        elif mark in ("~|", "~!"):
            self.some[mark] = self.some.get(mark, []) + [rest]
        elif mark == "~":
            self.only = rest
        elif mark == "=":
            self.status = int(rest)
        elif mark == "&":
            self.words = {**(self.words or {}), **dict([rest.split()] if rest else [])}
        else:
            return False
        return True

    def wanted(self, found):
        """What the run should print, if this is what was found."""
        _, out, err = found
        wanted = in_part(self.some.get("~|"), out, self.out)
        if self.words is not None:
            wanted = shown(rope_file(self.words, "parity" in self.line.split()))
        elif self.only and wanted == "".join(f"{line}\n" for line in out.splitlines() if self.only in line):
            wanted = out
        return self.status, wanted, in_part(self.some.get("~!"), err, self.err)

    def kept(self):
        """The name of the file that keeps its standard output, if there is one."""
        words = shlex.split(self.line)
        return words[-1] if words[-2:-1] == [">"] else None

    def made(self, folder):
        """What the program prints now: its status, standard output and standard error."""
        for name, data in self.files.items():
            Path(folder, name).write_bytes(data)
        words = shlex.split(self.line)
        given, into = "/dev/null", self.kept() and Path(folder, self.kept())
        if words[-2:-1] == ["<"]:
            given, words = words[-1], words[:-2]
        elif into:
            words = words[:-2]
        arguments = [unquote_to_bytes(word) for word in words[1:]]
        stdin = os.open(Path(folder, given), os.O_RDONLY)
        done = subprocess.run([PROGRAMS[words[0]], *arguments], cwd=folder, stdin=stdin, capture_output=True, check=False)
        os.close(stdin)
        if into:
            into.write_bytes(done.stdout)
        return done.returncode, "" if into else shown(done.stdout), shown(done.stderr)

    def is_made(self, folder):
        """Whether the program prints now what it should."""
        found = self.made(folder)
        return found == self.wanted(found)

    def text(self):
        """What is stored of the output."""
        return self.out + self.err + "".join(f"{line}\n" for lines in self.some.values() for line in lines)


def in_part(lines, found, text):
    """The text that is wanted: what was found, if it is compared in part and has the blocks of these lines in their order."""
    if lines is None:
        return text
    rest = f"\n{found}"
    for block in "\n".join(lines).split("\n\n"):
        _, has, rest = rest.partition(f"\n{block}\n")
        if not has:
            return f"some text with these lines:\n{block}\n"
        rest = f"\n{rest}"
    return found


def shown(data):
    return data.decode("utf-8", "backslashreplace")


def bytes_of(text):
    """The bytes of a text in which `%HH` is a byte, `%HH{N}` N such bytes, and `(%HH%HH){N}` N such pairs."""
    parts, at = [], 0
    for found in re.finditer(r"(%[0-9A-F]{2}|\(%[0-9A-F]{2}%[0-9A-F]{2}\))\{(\d+)\}", text):
        parts += [unquote_to_bytes(text[at:found.start()]), unquote_to_bytes(found[1].strip("()")) * int(found[2])]
        at = found.end()
    return b"".join(parts) + unquote_to_bytes(text[at:])


def rope_file(words, has_parity):
    """A rope file of these words: as long as the last one needs, and at least one word long."""
    banks = range(0o44) if has_parity else [2, 3, 0, 1, *range(4, 0o44)]
    rope = {}
    for place, word in words.items():
        bank, _, address = place.rpartition(",")
        number = int(bank or str(int(address, 8) // files.BANK), 8)
        rope[banks.index(number) * files.BANK + int(address, 8) % files.BANK] = int(word, 8)
    file = [0] * (max(rope, default=0) + 1)
    for at, word in rope.items():
        file[at] = files.with_parity(word) if has_parity else 2 * word
    return files.bytes_of(file)


def runs_of(path):
    """The runs of a file."""
    runs, given, name = [], {}, None
    for number, line in enumerate(path.read_text(encoding="utf-8").split("\n")[:-1], 1):
        mark, _, rest = line.partition(" ")
        if mark == ">":
            name = rest
            given = {**given, name: b""}
        elif line[:1] == "\t" and name:
            given[name] += f"{line[1:]}\n".encode()
        elif mark == "%":
            name, _, text = rest.partition(" ")
            given = {**given, name: bytes_of(text)}
        elif mark == "$":
            runs.append(Run(f"{path.name}:{number}", rest, given))
            given, name = {}, None
        elif line and mark != "#" and not (runs and runs[-1].add(mark, rest)):
            raise ValueError(f"{path.name}:{number}: what is this line? {line}")
    return runs


def check_runs(paths, folder):
    """Compares what the programs print with the files, and returns all runs."""
    every = []
    for path in paths:
        for run in runs_of(path):
            found = run.made(folder)
            judge.judge(f"{run.where}: {run.line}", run.wanted(found), found)
            every.append(run)
    return every


def check_file(path):
    """Compares what the programs print with a file. Its runs have a folder of their own."""
    check_runs([path], judge.scratch_folder())


def check_files(folder):
    """Is a judge of the files `*.runs` of a folder, or of those that its command line names. They are made beside one another."""
    paths = sorted(path for path in folder.glob("*.runs") if path.stem in sys.argv[1:] or not sys.argv[1:])
    for each in judge.beside(paths, AT_ONCE):
        judge.attempt(check_file, each)
    judge.finish()
