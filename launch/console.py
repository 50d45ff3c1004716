"""Runs agc-console on a terminal: Control-C ends the command that runs, and the session stays as it was before it. The
arguments are the program and its own arguments.

The program cannot take back half of a command. So Control-C kills it, and a new one gets the lines of the session again,
which lead to the same state. However this process ends, the kernel kills the program.
"""

import ctypes
import os
import select
import signal
import stat
import subprocess
import sys
from contextlib import suppress

LAST = (b"at ", b"stop ", b"error: ")  # how the last line of an answer begins
PR_SET_PDEATHSIG = 1


def say(text):
    """Prints a line; also safe in a signal handler."""
    os.write(1, f"{text}\n".encode())


def hint(*_):
    """Answers Control-C while no command runs."""
    say("")
    say("quit ends the program")


def prepare():
    """Has the new process ignore Control-C, and end with this process."""
    signal.signal(signal.SIGINT, signal.SIG_IGN)
    ctypes.CDLL(None).prctl(PR_SET_PDEATHSIG, signal.SIGKILL)


def stamp(word):
    """Returns when the file that a word names was last changed, or None if there is none. A pipe, which cannot be read again, counts as
    changed."""
    try:
        state = os.stat(word.partition("=")[2] if word.startswith("--") and "=" in word else word)
    except OSError:
        return None
    return object() if stat.S_ISFIFO(state.st_mode) else state.st_mtime_ns


def stamps(words):
    """Returns the stamp of each word of a command line."""
    return [stamp(word) for word in words]


class Session:
    """A program, and the lines that have led it to its state."""

    def __init__(self, command):
        self.command, self.stamps, self.lines = command, stamps(command), []
        self.start()

    def start(self):
        """Starts the program, and repeats the lines in it. Until it has answered them, Control-C ends this process."""
        signal.signal(signal.SIGINT, signal.SIG_DFL)
        if self.lines:
            say("repeating the session up to this command")
        self.program = subprocess.Popen(
            self.command, stdin=subprocess.PIPE, stdout=subprocess.PIPE, close_fds=False, preexec_fn=prepare
        )
        for line in (b"#\n", *self.lines):
            list(self.answer(line))
        self.was_ended = False
        signal.signal(signal.SIGINT, hint)

    def answer(self, line):
        """Passes on a line, and yields the lines of its answer."""
        with suppress(BrokenPipeError):
            os.write(self.program.stdin.fileno(), line)
        for part in self.program.stdout:
            yield part
            if part.startswith(LAST):
                return

    def end_command(self, *_):
        """Ends the running command at Control-C."""
        say("")
        self.was_ended = True
        self.program.kill()

    def take(self, line):
        """Passes on a user's line and prints its answer. Keeps a comment instead of `save`, which a new program would refuse."""
        signal.signal(signal.SIGINT, self.end_command)
        for part in self.answer(line):
            if part.startswith(LAST):
                signal.signal(signal.SIGINT, hint)
            if not self.was_ended:
                sys.stdout.buffer.write(part)
                sys.stdout.buffer.flush()
        signal.signal(signal.SIGINT, hint)
        if self.was_ended:
            self.repeat()
        else:
            self.lines.append(b"#\n" if line.split()[:1] == [b"save"] else line)

    def repeat(self):
        """Brings a new program to the state before the command."""
        self.program.wait()
        self.start()
        if stamps(self.command) == self.stamps:
            say("the command was ended; the session is as it was before it")
        else:
            say("the command was ended; the session may differ: one of its files has changed, or cannot be read again")

    def run(self):
        """Takes lines until the input or the program ends. Returns the status of the program."""
        lines, line = open(0, "rb", buffering=0), b"\n"
        while line.endswith(b"\n") and self.program.stdout not in select.select([lines, self.program.stdout], [], [])[0]:
            line = lines.readline()
            if line:
                self.take(line.rstrip(b"\n") + b"\n")
        signal.signal(signal.SIGINT, signal.SIG_DFL)
        self.program.stdin.close()
        sys.stdout.buffer.write(self.program.stdout.read())
        return self.program.wait()


# If a signal comes just before a call that waits, Python runs its handler only after the call, or at the next signal.
signal.signal(signal.SIGALRM, lambda *_: None)
signal.setitimer(signal.ITIMER_REAL, 0.1, 0.1)
status = Session(sys.argv[1:]).run()
signal.setitimer(signal.ITIMER_REAL, 0)
sys.exit(status if status >= 0 else 128 - status)
