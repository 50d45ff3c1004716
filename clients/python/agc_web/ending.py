"""How a session ends: the signals (Control-C, SIGTERM, and the end of the terminal), and what becomes of its script, which a file
takes or which is printed."""

import math
import os
import shlex
import shutil
import signal
import sys
import time
from contextlib import contextmanager, suppress
from types import FrameType
from typing import Any, Callable, Dict, Iterator, List, Optional

import agc
from agc_web.journal import Repeat

ENDS = tuple(getattr(signal, name) for name in ("SIGINT", "SIGTERM", "SIGHUP") if hasattr(signal, name))
LOOK = 0.05  # seconds between two looks whether a signal has come
HURRY = 2.0  # seconds after the first signal from which another one ends the program even if nothing was saved
SAVED, REFUSED, UNSAVED = 0, 1, 3
"""The statuses of a program: its script was saved or printed, something was refused, the script was not saved."""


@contextmanager
def naming(file: str) -> Iterator[None]:
    """Has an `OSError` name this file."""
    try:
        yield
    except OSError as error:
        raise OSError(error.errno or 0, error.strerror or str(error), file) from None


class ScriptFile:
    """The file that takes the script at the end: a new one, or one with nothing in it. It is whole or as it was."""

    def __init__(self, path: str) -> None:
        """Raises `OSError`, which names the file, if the script cannot be saved there or would replace something."""
        self.path = path
        self._target = os.path.realpath(path)
        self._part = os.path.join(os.path.dirname(self._target), f"agc-web.{os.getpid()}")
        self._check()
        with naming(path), open(self._part, "x"):
            os.unlink(self._part)  # there is such a folder, and it takes files

    def save(self, script: str) -> None:
        """Writes the script beside the file, and puts it in the file's place. Raises `OSError`, which names the file, and
        leaves nothing behind if that fails."""
        self._check()
        with naming(self.path), open(self._part, "x", encoding="ascii") as file:
            try:
                file.write(script)
                file.flush()
                if os.path.exists(self._target):
                    shutil.copymode(self._target, self._part)
                os.replace(self._part, self._target)
            except BaseException:
                os.unlink(self._part)
                raise

    def _check(self) -> None:
        """Raises `OSError` if the script would replace something."""
        if os.path.exists(self._target) and not os.path.isfile(self._target):
            raise OSError(0, "is a folder" if os.path.isdir(self._target) else "is no regular file", self.path)
        if os.path.exists(self._target) and os.path.getsize(self._target):
            raise OSError(0, "has something in it: name another file", self.path)


def save_or_print(repeat: Repeat, file: Optional[ScriptFile], rope: str, form: Optional[str]) -> None:
    """Saves the script, and prints how to run it again. Without a file the script is printed; and if the file does not take
    it, so that nothing is lost, before `OSError` is raised."""
    if file is None:
        print_out(repeat.script)
        return
    try:
        file.save(repeat.script)
    except OSError:
        print_out(repeat.script)
        raise
    options = f" --form {form}" if form else ""
    with suppress(OSError):  # the script is saved, even if the terminal is gone
        print_out(f"{shell_agc()} {shlex.quote(rope)} {shlex.quote(file.path)} --limit {repeat.limit}{options}\n")


class Ending:
    """Waits for the first signal. Once the script is saved, or two seconds later, another signal ends the program at once;
    signals that come before that are one with the first. A signal that is ignored, such as a hang-up with nohup, stays
    ignored."""

    def __init__(self) -> None:
        self.kills: List[Callable[[], None]] = []  # what kills the processes that the program has started
        self._since: Optional[float] = None
        self._status: Optional[int] = None
        self._before: Dict[int, Any] = {}

    def __enter__(self) -> "Ending":
        for number in ENDS:
            if signal.getsignal(number) != signal.SIG_IGN:
                self._before[number] = signal.signal(number, self._end)
        return self

    def __exit__(self, *error: object) -> None:
        for number, handler in self._before.items():
            signal.signal(number, handler)

    def wait(self, seconds: float = math.inf) -> bool:
        """Waits for the first signal, or so many seconds; returns whether it came."""
        end = time.monotonic() + seconds
        while self._since is None and time.monotonic() < end:
            time.sleep(min(LOOK, seconds))
        return self._since is not None

    def save(self, repeat: Repeat, file: Optional[ScriptFile], rope: str, form: Optional[str]) -> None:
        """Saves or prints the script, and notes what became of it: from then on nothing is lost. Raises `OSError` as `save_or_print`
        does."""
        status = UNSAVED
        try:
            save_or_print(repeat, file, rope, form)
            status = SAVED
        finally:
            self._status = status

    def _end(self, number: int, frame: Optional[FrameType]) -> None:
        if self._since is None:
            self._since = time.monotonic()
        elif self._status is not None or time.monotonic() - self._since > HURRY:
            for kill in self.kills:
                kill()
            os._exit(UNSAVED if self._status is None else self._status)


def print_out(text: str) -> None:
    """Prints a text. If that fails, `OSError` names standard output, and nothing more is printed, because what is left would
    fail again at the end."""
    try:
        with naming("standard output"):
            print(text, end="", flush=True)
    except OSError:
        with open(os.devnull, "w") as nothing:
            os.dup2(nothing.fileno(), sys.stdout.fileno())
        raise


def say(program: str, text: str) -> None:
    """Says something to the user in the terminal, which may be a file on a full disk."""
    with suppress(OSError):
        print(f"{program}: {text}", file=sys.stderr, flush=True)


def shell_agc() -> str:
    """Returns how the shell here starts the program agc."""
    path = _beside("agc")
    if path is None:
        return "agc"
    return "./agc" if os.path.exists("agc") and os.path.samefile("agc", path) else shlex.quote(path)


def study() -> Optional[str]:
    """Returns the program agc-study, if it is there."""
    return _beside("agc-study") or shutil.which("agc-study")


def _beside(name: str) -> Optional[str]:
    """Returns a program in the folder of the client, two levels up; None if only the path may have it."""
    path = os.path.normpath(os.path.join(os.path.dirname(os.path.realpath(agc.__file__)), "..", "..", name))
    return path if os.access(path, os.X_OK) else None
