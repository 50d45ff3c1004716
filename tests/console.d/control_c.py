"""Control-C at a terminal: it ends the command that runs, and the session stays as it was before it."""

import fcntl
import os
import pty
import re
import select
import shutil
import signal
import struct
import termios
import time
from contextlib import suppress
from pathlib import Path

from judge import CONSOLE, TOP, judge, scratch_folder

scratch = scratch_folder()
ROPE = os.path.join(TOP, "examples", "verbs", "rope")
LONGEST = 300  # seconds; on a machine that does nothing else, what is waited for comes at once
LONG = "go 990000000000"  # runs for some eight minutes
AFTER = "the command was ended; the session is as it was before it"
INTERRUPT, END_OF_INPUT = "\3", "\4"


class Terminal:
    """The launcher on a terminal of its own, which makes a signal of Control-C. Its processes are known by a mark."""

    def __init__(self, path, rope=ROPE):
        self.mark, self.shown = f"{os.getpid()}.{time.monotonic_ns()}", ""
        self.pid, self.master = pty.fork()
        if self.pid == 0:
            fcntl.ioctl(0, termios.TIOCSWINSZ, struct.pack("HHHH", 24, 80, 0, 0))
            os.execve(CONSOLE, [CONSOLE, rope, os.devnull], {**os.environ, "PATH": path, "TERM": "dumb", "TRY": self.mark})

    def until(self, pattern):
        """Waits until this is shown. Returns its match; what comes behind it is shown next."""
        end = time.monotonic() + LONGEST
        while not (found := re.search(pattern, self.shown)):
            if not select.select([self.master], [], [], max(0, end - time.monotonic()))[0]:
                raise TimeoutError(f"{pattern} is not shown: {self.shown!r:.500}")
            self.shown += os.read(self.master, 4096).decode()
        self.shown = self.shown[found.end():]
        return found

    def type(self, text):
        os.write(self.master, text.encode())

    def say(self, command):
        """Types a command. Returns its answer."""
        self.type(f"{command}\n")
        return self.until(rf"{command}\r*\n((?s:.*?)(?:at|stop|error:) .*)\n")[1].replace("\r", "")

    def looks(self):
        return [self.say(command) for command in ("registers", "panel", "cell 0000 100", "script", "breaks", "writes")]

    def begin(self):
        """Types a command that runs for long, and waits until it runs: until the program has used two tenths of a second."""
        before = self.ticks()
        self.type(f"{LONG}\n")
        self.wait("the command does not run", lambda: self.ticks() > before + 0.2 * os.sysconf("SC_CLK_TCK"))

    def wait(self, what, is_so):
        end = time.monotonic() + LONGEST
        while not is_so():
            if time.monotonic() > end:
                raise TimeoutError(what)
            time.sleep(0.01)

    def end(self):
        """Waits until all processes have ended. Returns the status of the launcher."""
        with suppress(OSError):  # no process has the terminal
            self.until("no match")
        self.wait("a process is left", lambda: not self.processes())
        return os.waitstatus_to_exitcode(os.waitpid(self.pid, 0)[1])

    def processes(self):
        """Returns the processes of this terminal."""
        found = []
        for path in Path("/proc").glob("[0-9]*"):
            with suppress(OSError):
                if f"TRY={self.mark}".encode() in (path / "environ").read_bytes().split(b"\0"):
                    found.append(path)
        return found

    def ticks(self):
        """Returns how long they have used a processor."""
        return sum(sum(map(int, (path / "stat").read_text().split()[13:15])) for path in self.processes())


def kinds():
    """Returns the ways to start it: with rlwrap, if that is installed, and with a stand-in for it. Only a launcher handles
    Control-C."""
    if not (Path(CONSOLE).parent / "launch" / "console.py").exists():
        print("skipped: Control-C, because this agc-console has no launcher")
        return []
    stand_in = Path(scratch, "bin", "rlwrap")
    stand_in.parent.mkdir()
    stand_in.write_text('#!/bin/sh\nwhile [ "${1#--}" != "$1" ]; do shift 2; done\nexec "$@"\n')
    stand_in.chmod(0o755)
    return [("as installed", os.environ["PATH"]), ("without rlwrap", f"{stand_in.parent}:{os.environ['PATH']}")]


def try_session(kind, path):
    """Control-C in a long command, and at the prompt."""
    terminal, saved = Terminal(path), os.path.join(scratch, str(time.monotonic_ns()))
    for command in ("go 1000", "b 4000", "key 4", f"save {saved}", "", "fly"):
        terminal.say(command)
    before = terminal.looks()
    judge(f"{kind}: a session", ["1000 key 4\nat 1000", "break 1 order 02,4000\nat 1000"], before[3:5])
    for _ in range(2):
        terminal.begin()
        terminal.type(INTERRUPT)
        terminal.until(AFTER)
        judge(f"{kind}: Control-C in a command", before, terminal.looks())
    terminal.type(INTERRUPT)
    terminal.until("quit ends the program")
    judge(f"{kind}: Control-C at the prompt", before, terminal.looks())
    terminal.type("quit\n")
    judge(f"{kind}: quit", 0, terminal.end())
    terminal = Terminal(path, shutil.copy(ROPE, saved))
    terminal.begin()
    os.utime(saved, (0, 0))
    terminal.type(INTERRUPT)
    terminal.until("the session may differ")
    terminal.type("quit\n")
    judge(f"{kind}: a file that has changed", 0, terminal.end())


def try_ends(kind, path):
    """All processes end, however the session is ended."""
    terminal = Terminal(path)
    terminal.say("go 10")
    terminal.type(END_OF_INPUT)
    judge(f"{kind}: the end of the input", 0, terminal.end())
    terminal = Terminal(path)
    terminal.say("go 4000000000")
    terminal.begin()
    terminal.type(INTERRUPT)
    terminal.until("repeating the session")
    terminal.type(INTERRUPT)
    judge(f"{kind}: a second Control-C", True, terminal.end() in (130, -signal.SIGINT))
    terminal = Terminal(path)
    terminal.say("go 10")
    terminal.begin()
    os.kill(terminal.pid, signal.SIGKILL)
    judge(f"{kind}: SIGKILL", -signal.SIGKILL, terminal.end())
    terminal = Terminal(path)
    terminal.say("go 10")
    terminal.begin()
    os.close(terminal.master)
    judge(f"{kind}: a hang-up", True, terminal.end() != 0)
