"""Films and timelines of a session: `agc-study film`, and `jobs --timeline`, of its script and of the rope as the session began
with it. A film has what the instruments showed beside the DSKY."""

import json
import os
import re
import signal
import subprocess
import tempfile
import threading
from contextlib import suppress
from dataclasses import dataclass, field
from pathlib import Path
from typing import Any, List, Optional, Sequence

from agc import Console
from agc_web.journal import Repeat
from agc_web.ticks import View
from agc_web.worker import Unable

PAGE = Path(__file__).resolve().parent / "page"
INCLUDE = re.compile(r"^\{\{([a-z/.-]+)\}\}\n", re.MULTILINE)
END = b"</body>"
PATIENCE = 600  # seconds that a film may take
LEAVING = 0.5  # seconds in which a film that is broken off removes its files
SCRIPT, NOUNS, TIMELINE = "session.script", "session.nouns", "timeline.html"


@dataclass
class Films:
    """Makes films and timelines, one at a time."""

    program: Optional[str]  # agc-study, if there is one
    console: Console
    form: Optional[str]
    names: Optional[str] = None  # the file of names
    watch: Optional[str] = None  # where the Executive's tables are
    nouns: Optional[str] = None  # the text of the file of verbs and nouns
    _kept: Optional[bytes] = None  # the timeline that was made last
    _one_at_a_time: Any = field(default_factory=threading.Lock)
    _process: Optional["subprocess.Popen[bytes]"] = None
    _closing: bool = False

    def make(self, repeat: Repeat, views: Sequence[View] = ()) -> bytes:
        """Returns the page of a film with these views. Raises `Unable` if there is none."""
        return with_views(self._page(repeat, "film", *(["--nouns", NOUNS] if self.nouns else [])), views)

    def timeline(self, repeat: Repeat) -> bytes:
        """Returns the page of a timeline of the Executive. Raises `Unable` if there is none."""
        if self.watch is None:
            raise Unable("a timeline needs to know where the Executive's tables are: --watch SPEC, or a file ROPE.watch")
        names = ["--names", os.path.abspath(self.names)] if self.names else []
        return self._page(repeat, "jobs", "--watch", self.watch, "--timeline", TIMELINE, *names)

    def keep_timeline(self, repeat: Repeat) -> None:
        """Makes the page of a timeline, and keeps it. Raises `Unable` if it cannot be made."""
        self._kept = self.timeline(repeat)

    def kept_timeline(self) -> bytes:
        """Returns the page of the timeline that was made last. Raises `Unable` before the first one."""
        if self._kept is None:
            raise Unable("no timeline was made yet")
        return self._kept

    def _page(self, repeat: Repeat, command: str, *more: str) -> bytes:
        """Returns the page that a command of agc-study makes, in a folder of its own."""
        if self.program is None:
            raise Unable("films need agc-study beside agc-console, or on the path")
        form = ["--form", self.form] if self.form else []
        try:
            with self._one_at_a_time, tempfile.TemporaryDirectory() as folder:
                Path(folder, SCRIPT).write_text(repeat.script, encoding="ascii")
                Path(folder, NOUNS).write_text(self.nouns or "", encoding="utf-8")
                words = [self.program, command, self._rope_in(folder), SCRIPT, "--limit", str(repeat.limit), *more, *form]
                printed = self._printed(words, folder)
                return Path(folder, TIMELINE).read_bytes() if TIMELINE in more else printed
        except OSError as error:
            raise Unable(f"agc-study made no film: {error.strerror or error}") from None

    def kill(self) -> None:
        """Breaks off the film that is being made, and makes no more."""
        self._closing = True
        process = self._process
        with suppress(OSError):
            if process is not None and process.poll() is None:
                os.killpg(process.pid, signal.SIGKILL)

    def close(self) -> None:
        """Breaks off as `kill` does, and lets the film's files be removed."""
        self.kill()
        if self._one_at_a_time.acquire(timeout=LEAVING):
            self._one_at_a_time.release()

    def _printed(self, words: List[str], folder: str) -> bytes:
        """Runs a program in a folder. Returns what it printed."""
        process = self._process = subprocess.Popen(
            words, cwd=folder, stdin=subprocess.DEVNULL, stdout=subprocess.PIPE, stderr=subprocess.PIPE, start_new_session=True
        )
        if self._closing:
            self.kill()
        try:
            printed, errors = process.communicate(timeout=PATIENCE)
        except subprocess.TimeoutExpired:
            os.killpg(process.pid, signal.SIGKILL)
            process.communicate()
            raise Unable(f"agc-study made no film in {PATIENCE} seconds") from None
        if self._closing:
            raise Unable("the session has ended")
        if process.returncode:
            raise Unable(errors.decode(errors="replace").strip() or f"agc-study ended with status {process.returncode}")
        return printed

    def _rope_in(self, folder: str) -> str:
        """Returns the rope for a film: a copy in its folder, whose name has the last two parts of the rope's."""
        path = Path(os.path.abspath(self.console.rope))
        if self.console.rope_bytes is None:
            return str(path)
        name = Path(*path.relative_to(path.anchor).parts[-2:])
        copy = folder / name
        copy.parent.mkdir(exist_ok=True)
        copy.write_bytes(self.console.rope_bytes)
        return str(name)


def with_views(film: bytes, views: Sequence[View]) -> bytes:
    """Returns a film with a block of views, a line each, and the script that shows them."""
    if not views:
        return film
    lines = "".join(f"{cycle} {json.dumps(shown, separators=(',', ':'))}\n" for cycle, shown in views)
    block = '<script type="text/plain" id="left-view">\n' + lines.replace("<", "\\u003c") + "</script>\n"
    before, end, after = film.rpartition(END)
    return before + (block + part_of_page("film/view.html")).encode() + end + after


def part_of_page(name: str) -> str:
    """Returns a file of the page with the files that it includes."""
    return INCLUDE.sub(lambda found: part_of_page(found[1]), (PAGE / name).read_text(encoding="utf-8"))
