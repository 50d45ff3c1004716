"""Searches by a second console with the session's script: the session's own keeps its place and its events."""

import os
import tempfile
import threading
from typing import Any, Dict, List, Optional, Sequence

from agc import Console, Ended, Refused

MOST_BOUNDARIES = 1000  # of one cycle
PATIENCE = 120  # seconds that a search may take


class Searcher:
    """The second console, which is kept as long as the script stays the same. Any thread may use it."""

    def __init__(self, console: Console) -> None:
        self._console = console
        self._lock = threading.Lock()
        self._other: Optional[Console] = None
        self._script = ""

    def answers(self, script: str, cycle: int, comes: Optional[str], lines: Sequence[str]) -> List[Dict[str, Any]]:
        """Says lines to the second console at a cycle and, if `comes` is named, before that boundary of the cycle. Returns what
        `answers_to` does. Breakpoints that the lines set are deleted. Raises `Ended` after two minutes."""
        with self._lock:
            other = self._other_with(script)
            watch = threading.Timer(PATIENCE, other.kill)
            watch.start()
            try:
                _stand_at(other, cycle, comes)
                answers = answers_to(other, lines)
                for each in other.breaks():
                    other.delete(each)
            finally:
                watch.cancel()
            return answers

    def close(self) -> None:
        """Ends the second console, and a search that it makes."""
        if self._other is not None:
            self._other.kill()
        with self._lock:
            if self._other is not None:
                self._other.close()

    def _other_with(self, script: str) -> Console:
        """Returns the second console with this script."""
        if self._other is None or not self._other.alive or script != self._script:
            if self._other is not None:
                self._other.close()
            self._other, self._script = second(self._console, script), script
            self._other.quiet()
        return self._other


def second(console: Console, script: str) -> Console:
    """Starts another console of the same rope, with this script."""
    try:
        with tempfile.TemporaryDirectory() as folder:
            path = os.path.join(folder, "script")
            with open(path, "w", encoding="ascii") as file:
                file.write(script)
            return console.again(path)
    except OSError as error:
        raise Ended(f"no script for a second console: {error.strerror or error}", None) from None


def answers_to(console: Console, lines: Sequence[str]) -> List[Dict[str, Any]]:
    """Says lines, and returns for each one the `cycle` after it with the `lines` of its answer, or with the name of its `fault` and the
    sentence, `error`."""
    answers: List[Dict[str, Any]] = []
    for line in lines:
        try:
            answer = console.say(line)
            answers.append({"cycle": answer.cycle, "lines": answer.lines})
        except Refused as refused:
            answers.append({"cycle": console.cycle, "fault": refused.name, "error": str(refused)})
    return answers


def _stand_at(other: Console, cycle: int, comes: Optional[str]) -> None:
    """Takes a console to a cycle, and to the one of its boundaries that comes."""
    if other.cycle >= cycle:
        other.back(cycle)
    other.go_to(cycle)
    if comes is not None:
        lines = other.ahead(MOST_BOUNDARIES)
        other.step(next((i for i, line in enumerate(lines) if line.startswith(f"{cycle} {comes}")), 0))
