"""The journal of a session: the events that were injected, where the machine stands, and going back in time and on again by them.

The session's script is made of it alone, by any thread and at any time, whatever the machine does.
"""

from collections import deque
from contextlib import contextmanager
from typing import Callable, Deque, Iterator, List, NamedTuple, Optional

from agc import Console

HISTORY = 100  # boundaries that are shown
WARM_UP = 400  # cycles before the present one from which a hundred boundaries are found
LONGEST_BOUNDARY = 8  # cycles; an order takes six at most


class Event(NamedTuple):
    """An injected event: its cycle in the script, the console's command, and whether the user gave it."""

    cycle: int
    command: str
    by_user: bool


class Point(NamedTuple):
    """What readers see of a session: the first events of a list, which only grows, how many they are, and the limit of a run that ends
    where the machine stands."""

    events: List[Event]
    known: int
    limit: int


class Repeat(NamedTuple):
    """How to repeat a session: its script, and the limit of the run."""

    script: str
    limit: int


class Journal:
    """It is used in the machine's turn; any thread may read `point` and `repeat`. What it runs again is a replay: readers see what stood
    before, until the machine stands where it is to stand."""

    def __init__(self, console: Console, replay: Callable[[List[Event]], None]) -> None:
        """Begins with a console's script. `replay` gives events to the console once more, each at its cycle, which adds them here."""
        self.events: List[Event] = []  # those that the console has at the moment
        self.history: Deque[str] = deque(maxlen=HISTORY)  # the last boundaries, if time stands
        self.is_replaying = False
        self.point = Point(self.events, 0, 1)
        self._console, self._replay = console, replay
        self._base = [(int(line.split(" ", 1)[0]), line) for line in console.script().splitlines()]

    def note(self, cycle: int, stop: Optional[str]) -> None:
        """Notes where the machine stands after an answer, unless that is only on the way to another cycle. A run needs one cycle more
        for an order that stopped the machine, and none for a machine that stopped at its limit."""
        if not self.is_replaying:
            self.point = Point(self.events, len(self.events), max(1, cycle + (stop not in (None, "Limit"))))

    def repeat(self) -> Repeat:
        """Returns the script, and the limit at which `agc`, run on it, stands where the session stands. The events of the first
        script come before the others of their cycle."""
        point = self.point
        lines = self._base + [(event.cycle, f"{event.cycle} {event.command}") for event in point.events[:point.known]]
        lines.sort(key=lambda each: each[0])
        return Repeat("".join(line + "\n" for _, line in lines), point.limit)

    def go_to(self, cycle: int, events: List[Event], since: Optional[int] = None) -> None:
        """Goes to a cycle with these events, and keeps the boundaries that lead there. Up to `since` the machine has the events; up to
        the cycle, if none is named."""
        shown = max(0, cycle - WARM_UP)
        start = shown if since is None else min(since, shown)
        with self._replaying():
            self._console.back(start)
            self.events = [event for event in events if event.cycle < start]  # a new list: readers may have the old one
            self._replay([event for event in events if start <= event.cycle < shown])
            self._console.go_to(shown)
            self.history.clear()
            for event in [event for event in events if event.cycle >= shown]:
                self._step_to(event.cycle)
                self._replay([event])
                self.history.append(f"{event.cycle} - {event.command}")
            self._step_to(cycle)
        self.note(self._console.cycle, self._console.stop)

    def last_change(self) -> Optional[int]:
        """Returns the cycle before the last change of the panel, None if there was none. The machine is where it was."""
        here, events = self._console.cycle, self.events
        with self._replaying():
            found = self._console.cycle if self._console.back_until_panel() else None
        if found is not None:
            self.go_to(here, events, found)
        return found

    @contextmanager
    def _replaying(self) -> Iterator[None]:
        self.is_replaying = True
        try:
            yield
        finally:
            self.is_replaying = False

    def _step_to(self, cycle: int) -> None:
        """Goes on to a cycle boundary by boundary, and keeps their lines."""
        while self._console.cycle < cycle and self._console.stop is None:
            count = max(1, (cycle - self._console.cycle) // LONGEST_BOUNDARY)
            self.history.extend(self._console.step(count))
