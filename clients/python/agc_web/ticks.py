"""The instruments of a session: their ticks, and their states at past ticks, to which they can go back.

An instrument is an object with `tick(console, cycle)`, called every 10 ms of machine time, from cycle 0 on, and
`view()`, which returns JSON for a panel of the page: `title`, `rows` of name and value, a `dial` with `angle`, `wanted`
and `jets`, `controls` with `name`, `label` and `key`, an `outcome` with `text` and `good`, which is shown in large letters,
and a `drawing`. All parts are optional, and together they have 65,536 bytes at most. If the instrument also has `save()`
and `load(state)`, it goes back in time with the machine, to the tick before, and films show its view. Each tick of the last
ten seconds is kept, of the last two hundred seconds one a tenth of a second, before that one a second. If it has
`control(name, down)`, the buttons of its panel call that as they go down and come up.

A drawing has a `frame` of `left, bottom, right, top` in metres (y is up), which is shown whole, a `label` for screen
readers, and `shapes`, drawn one over the other:

    {"shape": "line", "points": [[0, 0], [9, 4.5]]}
    {"shape": "path", "points": [[0, 0], [1, 2], ..]}                      open
    {"shape": "polygon", "points": [[0, 0], [1, 2], [2, 0], ..]}           closed, and filled
    {"shape": "circle", "at": [3, 4], "radius": 2}
    {"shape": "text", "at": [3, 4], "text": "Site", "align": "middle"}     or "start", which is usual, or "end"

`style` gives a shape its colour: ground, site, craft, flame, jet, behind, ahead, scale or mark. A text has the same size
in any frame, and at most 80 characters. The page leaves out what is no shape, and numbers beyond 1e9; it draws 400 shapes
at most, of 1,000 points each. examples/descent/side_view.py draws a flight.
"""

import json
from typing import Any, Dict, List, NamedTuple, Sequence, Tuple

from agc import Console

MOST_BYTES = 65536  # of a view: the page gets up to fifty a second
FILMED = 10  # ticks between two views of a film
MOST_FILMED = 3000  # views of a film
FILM_PARTS = ("title", "outcome", "drawing", "dial", "rows")  # of a view
KEPT = ((1, 1000), (10, 2000), (100, 10 ** 10))  # the ticks from one state that is kept to the next, and how many are kept


class Mark(NamedTuple):
    """A tick of the instruments: its number, its cycle, and their states before it."""

    tick: int
    cycle: int
    states: List[Any]


View = Tuple[int, List[Dict[str, Any]]]
"""What instruments showed from a cycle on."""


class Control(NamedTuple):
    """A button of a panel that went down or came up: at which cycle, after how many ticks, and which one."""

    cycle: int
    ticks: int
    instrument: int
    name: str
    down: bool


class Past(NamedTuple):
    """The instruments before they went back: their states, how many ticks there were, the marks, the buttons that are kept and those
    that are not."""

    states: List[Any]
    ticks: int
    marks: List[Mark]
    kept: List[Control]
    dropped: List[Control]


class Ticker:
    """Ticks the instruments. It is used in the machine's turn alone."""

    def __init__(self, instruments: Sequence[Any]) -> None:
        self.instruments = list(instruments)
        self.is_ticking = False  # whether an instrument gives events at the moment
        self._ticks = 0
        self._marks: List[Mark] = []
        self._controls: List[Control] = []

    def next_cycles(self) -> List[int]:
        """Returns the cycle of the next tick, if there are instruments."""
        return [_cycle_of_tick(self._ticks)] if self.instruments else []

    def tick_due(self, console: Console) -> None:
        """Ticks the instruments, if their time has come."""
        if not self.instruments or console.cycle < _cycle_of_tick(self._ticks):
            return
        self._marks.append(Mark(self._ticks, console.cycle, self._states()))
        self._ticks += 1
        if self._ticks % KEPT[0][1] == 0:
            self._marks = [mark for mark in self._marks if _is_kept(mark.tick, self._ticks)]
        self.is_ticking = True
        try:
            for instrument in self.instruments:
                instrument.tick(console, console.cycle)
        finally:
            self.is_ticking = False

    def control(self, number: int, name: str, down: bool, cycle: int) -> None:
        """Calls an instrument for a button of its panel that goes down or comes up."""
        if not 0 <= number < len(self.instruments) or not hasattr(self.instruments[number], "control"):
            raise ValueError(f"no instrument with controls: {number}")
        try:
            self.instruments[number].control(name, down)
        except LookupError:
            raise ValueError(f"no control: {name!r:.20}") from None
        self._controls.append(Control(cycle, self._ticks, number, name, down))

    def pressed_since(self, cycle: int) -> int:
        """Returns how many buttons went down from a cycle on."""
        return sum(control.cycle >= cycle and control.down for control in self._controls)

    def mark_before(self, cycle: int) -> Mark:
        """Returns the tick to which the instruments go back for a cycle; the cycle itself if there are none."""
        if not self.instruments:
            return Mark(0, cycle, [])
        return next((mark for mark in reversed(self._marks) if mark.cycle <= cycle), Mark(0, 0, []))

    def go_back(self, mark: Mark) -> Past:
        """Takes the instruments back to a tick, and returns how they were before. A button at the mark's own cycle went down or came up
        before its states were taken, unless the tick had happened."""
        kept = [each for each in self._controls if (each.cycle, each.ticks) <= (mark.cycle, mark.tick)]
        past = Past(self._states(), self._ticks, self._marks, kept, self._controls[len(kept):])
        self._load(mark.states)
        self._ticks, self._marks, self._controls = mark.tick, [each for each in self._marks if each.tick < mark.tick], list(kept)
        return past

    def restore(self, past: Past) -> None:
        """Restores the instruments as they were before they went back."""
        self._load(past.states)
        self._ticks, self._marks, self._controls = past.ticks, past.marks, [*past.kept, *past.dropped]

    def views(self) -> List[Any]:
        return [_view_of(each) for each in self.instruments]

    def past_views(self, cycle: int) -> List[View]:
        """Returns what those instruments showed that go back in time, from the beginning up to the present cycle."""
        now = self._states()
        marks = [mark for mark in self._marks if mark.tick % FILMED == 0]
        step = -(-len(marks) // MOST_FILMED) or 1
        found: List[View] = []
        try:
            for mark in marks[::step]:
                self._load(mark.states)
                _add_views(found, mark.cycle, self.instruments)
        finally:
            self._load(now)
        _add_views(found, cycle, self.instruments)
        return found

    def _states(self) -> List[Any]:
        return [each.save() if hasattr(each, "save") else None for each in self.instruments]

    def _load(self, states: List[Any]) -> None:
        for each, state in zip(self.instruments, states):
            if hasattr(each, "load"):
                each.load(state)


def _is_kept(tick: int, now: int) -> bool:
    return any(tick % step == 0 and now - tick <= step * most for step, most in KEPT)


def _cycle_of_tick(number: int) -> int:
    """Returns the cycle of a tick: each is a hundredth of a second after the one before."""
    return -(-number * 2560 // 3)


def _add_views(found: List[View], cycle: int, instruments: Sequence[Any]) -> None:
    """Adds what the instruments show, if it is other than before."""
    views = [_view_of(each) for each in instruments if hasattr(each, "load")]
    shown = [{part: view[part] for part in FILM_PARTS if part in view} for view in views]
    if shown and (not found or found[-1][1] != shown):
        found.append((cycle, shown))


def _view_of(instrument: Any) -> Any:
    """Returns what an instrument shows; if it fails or shows what is no JSON object or is too long, what went wrong."""
    try:
        view = instrument.view()
        length = len(json.dumps(view, allow_nan=False))
        if not isinstance(view, dict):
            raise TypeError("a view is a dictionary")
        if length > MOST_BYTES:
            raise ValueError(f"a view of {length} bytes: {MOST_BYTES} at most")
        return view
    except Exception as error:
        return {"title": type(instrument).__name__, "rows": [["failed", repr(error)]]}
