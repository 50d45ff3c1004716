"""Runs the commands that the pages show, and compares what they print with the pages. tests/pages has the rules."""

import difflib
import os
import re
import shutil
import signal
import subprocess
import sys
import tempfile
import textwrap
from pathlib import Path

import judge

TOP = Path(judge.TOP)
LANDING = TOP / "examples" / "descent" / "README.md"
PROGRAMS = {"agc": "AGC", "agc-study": "STUDY", "agc-console": "CONSOLE", "agc-dsky": "DSKY"}
# what a page's commands may read or change; the rest of the tree is no business of theirs
COPIED = ("README.md", "docs", "examples", "clients", "prebuilt", "agc-web")
FILE = re.compile(r"\b(?:file|as) `([\w./-]+)`:$")
SECONDS = int(os.environ.get("PAGES_SECONDS", 600))


def dedented(lines):
    """The lines without the blanks that all of them begin with."""
    return textwrap.dedent("\n".join(lines)).split("\n")


def trimmed(lines):
    """The lines without empty ones at the end."""
    while lines and not lines[-1]:
        lines = lines[:-1]
    return lines


def blocks_of(page):
    """Yields each code block of a page: its first line's number, its lines, and the last line of text before it."""
    lines = page.read_text(encoding="utf-8").splitlines()
    text, at = "", 0
    while at < len(lines):
        fence = re.match(r"\s*(```+|~~~+)", lines[at])
        # An indented block begins after an empty line; four blanks within a paragraph or a list are text.
        if fence:
            end = at + 1
            while end < len(lines) and not lines[end].lstrip().startswith(fence[1]):
                end += 1
            yield at + 2, dedented(lines[at + 1:end]), text
            text, at = "", end + 1
        elif lines[at].startswith("    ") and (at == 0 or not lines[at - 1].strip()):
            end = at
            while end < len(lines) and (lines[end].startswith("    ") or not lines[end].strip()):
                end += 1
            yield at + 1, trimmed(dedented(lines[at:end])), text
            text, at = "", end
        else:
            text = lines[at].strip() or text
            at += 1


def commands_of(first, block):
    """The commands of a block: the number of each one's line, its text, and the lines that it is to print."""
    commands = []
    for number, line in enumerate(block, first):
        if line.startswith("$ "):
            commands.append((number, [line[2:]], []))
        elif commands and commands[-1][1][-1].endswith("\\") and not commands[-1][2]:
            commands[-1][1].append(line)
        elif commands:
            commands[-1][2].append(line)
    return [(number, "\n".join(text), trimmed(wanted)) for number, text, wanted in commands]


def is_shown(wanted, printed):
    """Whether the lines printed are those of the page, in which `..` stands for any lines."""
    if ".." not in wanted:
        return wanted == printed
    cut = wanted.index("..")
    if wanted[:cut] != printed[:cut]:
        return False
    rest = wanted[cut + 1:]
    return any(is_shown(rest, printed[start:]) for start in range(cut, len(printed) + 1))


def copy_of(folder):
    """Makes a copy of what the commands of a page need, with the programs beside it."""
    for name in COPIED:
        source = TOP / name
        if source.is_dir():
            shutil.copytree(source, folder / name, symlinks=True)
        elif source.exists():
            shutil.copy2(source, folder / name)
    for name, variable in PROGRAMS.items():
        (folder / name).symlink_to(Path(os.environ[variable]).resolve())


def printed_by(folder, commands):
    """The lines that each command of a block prints, or None for one that was not reached in time; and where the shell is at the end."""
    with tempfile.TemporaryDirectory() as scratch:
        script = []
        for index, (_, text, _) in enumerate(commands):
            Path(scratch, f"{index}.command").write_text(text, encoding="utf-8")
            script.append(f'eval "$(<{scratch}/{index}.command)" >{scratch}/{index}.out 2>&1 </dev/null')
            script.append(f"touch {scratch}/{index}.done")
        script.append(f"pwd -P >{scratch}/end")
        shell = subprocess.Popen(["bash", "-c", "\n".join(script)], cwd=folder, start_new_session=True)
        try:
            shell.wait(SECONDS)
        except subprocess.TimeoutExpired:
            pass
        finally:
            if shell.poll() is None:
                os.killpg(shell.pid, signal.SIGKILL)
                shell.wait()
        end = Path(scratch, "end")
        return [trimmed(Path(scratch, f"{index}.out").read_text(encoding="utf-8", errors="replace").splitlines())
                if Path(scratch, f"{index}.done").exists() else None for index in range(len(commands))], end.read_text().strip() if end.exists() else ""


def answer_of(command, wanted, printed):
    """Returns what there is to say of a command, and whether it printed what the page shows."""
    if printed is None:
        return f"{command}\nthe shell did not get to its end within {SECONDS} seconds", False
    difference = difflib.unified_diff(wanted, printed, "page", "printed", lineterm="")
    return "\n".join([command, *difference]), is_shown(wanted, printed)


def try_page(page):
    """Runs the commands of a page, and checks whether each prints what the page shows."""
    with tempfile.TemporaryDirectory() as scratch:
        folder = Path(scratch)
        copied = False
        for first, block, text in blocks_of(page):
            commands, named = commands_of(first, block), FILE.search(text)
            if not commands and not named:
                continue
            if not copied:
                copy_of(folder)
                copied = True
            if not commands:
                (folder / named[1]).write_text("\n".join(block) + "\n", encoding="utf-8")
                continue
            lines, end = printed_by(folder, commands)
            for (number, text_of, wanted), printed in zip(commands, lines):
                judge.check(*answer_of(f"{page.relative_to(TOP)}:{number}: {text_of}", wanted, printed))
            # Who types the next block is still in this folder.
            judge.judge(f"{page.relative_to(TOP)}:{first}: the folder after the block", str(folder.resolve()), end)


def main():
    os.environ["LC_ALL"] = "C"
    pages = [Path(name).resolve() for name in sys.argv[1:]] or [TOP / "README.md", LANDING, *sorted((TOP / "docs").rglob("*.md"))]
    for page in pages:
        try_page(page)
    judge.finish()


main()
