"""The machine's turns: one thread at a time uses the machine, and a thread of its own lets time run between them, by a clock."""

import threading
import time
from contextlib import suppress
from typing import Any, Callable, Tuple

from agc import Ended

PATIENCE = 20  # seconds that a task waits for its turn
LEAVING = 0.5  # seconds that the thread may take to end
CYCLES_A_SECOND = 1024000 / 12
SPEEDS = (1, 10, 100, 1000)
LONGEST_PIECE = 0.02  # seconds that a piece may take, so that keys get in
LOST = 1.0  # seconds behind the clock from which time is dropped


class Unable(Exception):
    """The machine cannot do that now."""


class Worker:
    """Has tasks of any thread done one after another, and its own work between them."""

    def __init__(self, work: Callable[[], None], note_end: Callable[[Ended], None]) -> None:
        """`work` is done after each task, and after each wait; `note_end` is called if either finds that the console has ended."""
        self._work = work
        self._note_end = note_end
        self._turn = threading.RLock()
        self._bell = threading.Event()
        self._closing = False
        self.wait = 0.25  # seconds that the thread waits for a task before it works on
        self.thread = threading.Thread(target=self._run, name="machine", daemon=True)

    def call(self, task: Callable[[], Any]) -> Any:
        """Does a task in its turn, and returns what it returns. A task may call others, which are done at once. If the turn does not
        come, `Unable` is raised, and the task is not done at all; once it has begun there is no limit."""
        if not self._turn.acquire(timeout=PATIENCE):
            raise Unable("the machine is busy: this was not done")
        try:
            if self._closing:
                raise Ended("the session has ended", None)
            return task()
        except Ended as ended:
            if not self._closing:
                self._note_end(ended)
            raise
        finally:
            self._turn.release()
            if threading.current_thread() is not self.thread:
                self._bell.set()

    def close(self, kill: Callable[[], None]) -> None:
        """Ends the thread. If it does not end at once, `kill` ends what it waits for."""
        self._closing = True
        self._bell.set()
        if threading.current_thread() is self.thread:
            return
        self.thread.join(LEAVING)
        if self.thread.is_alive():
            kill()
            self.thread.join(LEAVING)

    def _run(self) -> None:
        while not self._closing:
            self._bell.wait(self.wait)
            self._bell.clear()
            with suppress(Ended, Unable):
                self.call(self._work)


class Clock:
    """The machine's time beside ours. It goes at one of the speeds, and drops time that the machine cannot keep up with."""

    def __init__(self) -> None:
        self.speed = 1
        self.pace = 0.0  # how many times the hardware's pace the machine went lately
        self._rate = 200_000.0  # cycles a second that the machine can go
        self.start(0)

    def start(self, cycle: int) -> None:
        """Begins anew at this cycle."""
        self._anchor: Tuple[float, int] = (time.monotonic(), cycle)
        self._measured = self._anchor

    def due(self, here: int) -> int:
        """Returns the cycle to which a machine that is here should go now, in a piece that is soon over."""
        now, (since, start) = time.monotonic(), self._anchor
        due = start + int((now - since) * CYCLES_A_SECOND * self.speed)
        if due - here > LOST * CYCLES_A_SECOND * self.speed:
            self._anchor = (now, here)
            due = here
        return min(due, here + max(1000, int(self._rate * LONGEST_PIECE)))

    def measure(self, seconds: float, cycles: int, here: int) -> None:
        """Notes how many cycles a piece had, and how fast the machine went in the last half second."""
        if cycles > 500:
            rate = cycles / max(seconds, 1e-6)
            self._rate = max(20_000.0, 0.8 * self._rate + 0.2 * rate)
        now, (since, start) = time.monotonic(), self._measured
        if now - since >= 0.5:
            self.pace = (here - start) / CYCLES_A_SECOND / (now - since)
            self._measured = (now, here)
