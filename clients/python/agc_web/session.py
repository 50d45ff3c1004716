"""The one machine behind the page: a console, whose turn it is to use it, and its clock.

A `Session` lets one thread at a time use the console. Other threads use `inject`, `on_write` and `repeat`. Each event that
goes through the console, whoever gives it, is written into the session's journal. So the exported script repeats it, going
back drops it, and undo brings it back. Reported writes come in pieces of at most 10 ms of machine time at the hardware's
pace: an answer to a write is injected up to that much later than the write.

`agc_web.ticks` says what an instrument is.
"""

import functools
import re
import time
from collections import deque
from contextlib import suppress
from typing import Any, Callable, Deque, Dict, Iterator, List, NamedTuple, Optional, Sequence, Tuple, TypeVar, Union, cast

from agc import EVENTS, Answer, Console, Ended, Refused, Write
from agc_web.journal import HISTORY, Event, Journal, Repeat
from agc_web.keyboard import KEY_GAP, KEYS, Keyboard
from agc_web.news import News
from agc_web.searcher import Searcher, answers_to
from agc_web.ticks import Control, Past, Ticker, View
from agc_web.worker import SPEEDS, Clock, Unable, Worker

__all__ = ["HISTORY", "KEYS", "KEY_GAP", "NEWS", "SPEEDS", "Session", "Sure", "Unable"]

AHEAD = 12  # coming boundaries that are shown
LONGEST_STEP = 1_000_000  # cycles that `over` and `finish` may take
FULL = "Time stops: the script is full, with 65,536 events. Going back makes room."
MOST_BREAKPOINTS = 8
MOST_IGNORED = 1_000_000  # hits of a breakpoint
MOST_WAITING = 100  # keys
WAKE = 0.01  # seconds between two pieces
RESTING = 0.25  # seconds between two looks whether the console is still there, if time stands
QUIET_NEWS = 0.04  # seconds between two looks if nothing was written
NEWS = 0.02  # seconds between two looks at least
LOOK_SHARE = 4  # times as long as a look took until the next one, so that the machine has the time
WRITTEN = re.compile(r"write (\d+) (\d+) (\d+)$|(\d+) .* > (\d{3}) (\d{5}) \| ")
"""A channel write in an answer: "write 30 010 44017", or in a trace's line "30 4071 01010 WRITE 010 > 010 44017 | .."."""


Method = TypeVar("Method", bound=Callable[..., Any])


class Undo(NamedTuple):
    """What undo restores. The machine went back from the cycle `end` to `start`, its instruments to the tick at `since`. From
    there on all may be other now: `events` and `past` are as they were."""

    since: int
    start: int
    end: int
    events: List[Event]
    past: Past


class Sure(Exception):
    """Going back would drop events: the user has to consent."""

    def __init__(self, count: int) -> None:
        super().__init__(f"this drops {count} {'event' if count == 1 else 'events'} given since")
        self.count = count


def _is_press(event: Event) -> bool:
    """Whether the user gave an event. PRO coming up does not count: if its going down stays, going back lets it come up."""
    return event.by_user and event.command != "pro up"


def _on_machine(method: Method) -> Method:
    """Has a method run in the machine's turn, whoever calls it. It raises `Unable` if the console has ended."""
    @functools.wraps(method)
    def run(self: "Session", *words: Any, **named: Any) -> Any:
        if self.ended is not None:
            raise Unable(self.ended)
        return self.call(lambda: method(self, *words, **named))

    return cast(Method, run)


class Session:
    """A console with a clock, a journal, breakpoints and news for the page."""

    def __init__(self, console: Console, instruments: Sequence[Any] = (), watch: Optional[str] = None) -> None:
        """Takes over a console at its beginning. Nothing else may use the console from now on."""
        if console.cycle:
            raise ValueError("a session begins with a console at cycle 0")
        self.console = console
        self.watch = watch
        self.playing = False
        self.ended: Optional[str] = None  # why the console has ended, if it has
        self.trouble = ""  # what went wrong last, for the user
        self.hit = ""  # the breakpoint at which the machine stands, if any
        self.furthest = 0
        self.journal = Journal(console, self._replay)
        self.news = News()
        self._clock = Clock()
        self._keyboard = Keyboard()
        self._breakpoints: Dict[str, int] = {}  # the console's numbers, by the texts of the user
        self._ignored: Dict[str, int] = {}  # how many hits of a breakpoint are passed over from now on, if any
        self._searcher = Searcher(console)
        self._ticker = Ticker(instruments)
        self._undo: List[Undo] = []
        self._callbacks: List[Callable[[Write], None]] = []
        self._givers: Deque[bool] = deque()  # of the events that are being given again: whether they are the user's
        self._is_dirty = True
        self._looked = self._look_took = 0.0  # when the last look began, and how long it took
        self._worker = Worker(self._work, self._note_end)
        console.on_answer = self._answered
        self._look()
        self._worker.thread.start()

    # for other threads

    def call(self, task: Callable[[], Any]) -> Any:
        """Runs a task as soon as nobody else uses the machine, and returns what it returns."""
        return self._worker.call(task)

    def inject(self, task: Callable[[Console], Any]) -> Any:
        """Runs task(console) between two boundaries, as soon as nobody else uses the machine, and returns what the task returns;
        the task may press keys, send pulses, read cells .."""
        return self.call(lambda: task(self.console))

    def on_write(self, callback: Callable[[Write], None]) -> None:
        """Calls callback(write) for each channel write from now on, in order, with an `agc.Write` (cycle, channel, value). Writes
        that are run again as time goes back are not reported. Nobody else uses the machine meanwhile, so the callback has to be
        quick; it may call `inject`, which then runs at once."""
        self._callbacks.append(callback)

    def script(self) -> str:
        """Returns the script that repeats the session, without waiting for the machine."""
        return self.repeat().script

    def repeat(self) -> Repeat:
        """Returns the script that repeats the session, and the limit of its run, whatever the machine does at the moment."""
        return self.journal.repeat()

    @property
    def is_alive(self) -> bool:
        """Whether time can run."""
        return self._worker.thread.is_alive()

    @property
    def breakpoints(self) -> List[str]:
        """The breakpoints, as they were given."""
        return list(self._breakpoints)

    @property
    def history(self) -> List[str]:
        """The last boundaries, if time stands."""
        return list(self.journal.history)

    def close(self) -> None:
        """Ends the machine's thread and the console, in a second whatever they do. The script stays."""
        self._searcher.close()
        self._worker.close(self.console.kill)
        self.console.kill()
        self.console.close()
        self.news.close()

    # in the machine's turn

    def _work(self) -> None:
        """Lets time run, and shows what is new. What goes wrong stops time and is shown."""
        try:
            self._go_on()
            soon = max(NEWS if self._is_dirty else QUIET_NEWS, LOOK_SHARE * self._look_took)
            if self.playing and time.monotonic() - self._looked >= soon:
                self._look()
        except Ended:
            raise
        except Exception as error:  # of an instrument, or of a full script
            self.trouble = FULL if getattr(error, "name", "") == "TooMany" else str(error) or repr(error)
            self._stand()
            with suppress(Exception):  # the first fault is shown; the thread continues, so that the script can be saved
                self._look_inside()
            self._publish_time()
        self._worker.wait = WAKE if self.playing else RESTING

    def _note_end(self, ended: Ended) -> None:
        self.playing = False
        if self.ended is None:
            self.ended = f"agc-console has ended: {ended}"
        self._publish_time()

    def _answered(self, command: str, answer: Answer) -> None:
        """Keeps the journal and reports writes, whoever gave the command."""
        word = command.split()[0]
        if word in EVENTS:
            cycle = answer.cycle - (word == "pulse")
            by_user = self._givers.popleft() if self._givers else not self._ticker.is_ticking
            self.journal.events.append(Event(cycle, command, by_user))
            self._is_dirty = True
        self.journal.note(answer.cycle, answer.stop)
        if self.journal.is_replaying or word == "ahead":
            return
        self.furthest = max(self.furthest, answer.cycle)
        for line in answer.lines:
            write = WRITTEN.match(line)
            if write:
                self._is_dirty = True
                cycle_text, channel, value = filter(None, write.groups())
                for callback in self._callbacks:
                    callback(Write(int(cycle_text), int(channel, 8), int(value, 8)))

    def _replay(self, events: List[Event]) -> None:
        """Gives events to the console once more, each at its cycle, for whoever gave them."""
        commands = [line for event in events for line in (f"go to {event.cycle}", event.command)]
        self._givers.extend(event.by_user for event in events)
        try:
            self.console.say_all(commands)
        finally:
            self._givers.clear()

    # time

    def _go_on(self) -> None:
        """Goes on as far as the clock says, in a piece that is soon over."""
        if not self.playing:
            if not self.console.alive and self.ended is None:
                raise Ended("its process is gone", None)
            return
        began, here = time.monotonic(), self.console.cycle
        self._advance(self._clock.due(here))
        self._clock.measure(time.monotonic() - began, self.console.cycle - here, self.console.cycle)
        if self.console.stop is not None:
            self._keyboard.waiting.clear()
            self._stand_here()

    def _advance(self, target: int) -> None:
        """Goes on to a cycle, or to the first breakpoint before it, with keys and ticks on the way."""
        for stage in self._stages(target, with_keys=True):
            hit = self._hit_before(stage)
            if hit is not None:
                self._stand_here(hit)
            if not self.playing:
                break

    def _hit_before(self, cycle: int) -> Optional[str]:
        """Goes on to a cycle, or to the first hit before it that is not passed over, and returns its breakpoint."""
        if not self._breakpoints:
            self.console.go_to(cycle)
            return None
        while True:
            hit = self.console.continue_(cycle - self.console.cycle).breakpoint
            text = next((text for text, number in self._breakpoints.items() if hit and hit.number == number), None)
            if text is None or not self._passes_over(text):
                return text
            if self.console.cycle >= cycle:
                return None

    def _passes_over(self, text: str) -> bool:
        """Counts a hit of a breakpoint, and returns whether it is passed over."""
        left = self._ignored.pop(text, 0)
        if left > 1:
            self._ignored[text] = left - 1
        return left > 0

    def _stages(self, target: int, with_keys: bool) -> Iterator[int]:
        """Yields the cycles to which to go on one after another, up to a target: those at which a key or a tick is due. These are
        pressed and ticked."""
        while self.console.cycle < target and self.console.stop is None:
            if with_keys:
                self._press_due()
            self._ticker.tick_due(self.console)
            keys = self._keyboard.next_cycles(self.console.cycle) if with_keys else []
            yield min([target, *keys, *self._ticker.next_cycles()])

    @_on_machine
    def play(self) -> None:
        """Lets time go on."""
        self._want_machine()
        if not self.playing:
            self.playing = True
            self.hit = self.trouble = ""
            self._clock.start(self.console.cycle)
            self._publish_time()

    @_on_machine
    def pause(self) -> None:
        """Stops time."""
        if self.playing:
            self._stand_here()

    def _stand(self) -> None:
        self.playing = False
        self._clock.pace = 0.0

    def _stand_here(self, hit: str = "") -> None:
        """Stops time, and shows the last boundaries. `hit` is the breakpoint that stopped it, if any."""
        self._stand()
        self._show_anew()
        self.hit = hit
        self._look()

    def _show_anew(self) -> None:
        """Finds the last boundaries by running them once more, up to the stop if the machine had stopped."""
        has_stopped = self.console.stop is not None
        self._go_to(self.console.cycle, self.journal.events)
        while has_stopped and " - stop " not in (self.journal.history or [""])[-1]:
            self.journal.history.extend(self.console.step())

    def _go_to(self, cycle: int, events: List[Event], since: Optional[int] = None) -> None:
        """Takes the machine to a cycle by the journal, and finds anew what is kept of it."""
        self.journal.go_to(cycle, events, since)
        self._is_dirty = True
        self._keyboard.find(events)

    @_on_machine
    def set_speed(self, times: int) -> None:
        """Sets how many times the hardware's pace the machine goes."""
        if times not in SPEEDS:
            raise ValueError(f"speed {times}: 1, 10, 100 or 1000")
        self._clock.speed = times
        self._clock.start(self.console.cycle)
        self._publish_time()

    @_on_machine
    def step(self) -> None:
        """Goes on by one boundary; time stops."""
        self._begin_step()
        self.journal.history.extend(self.console.step())
        self._look()

    def _begin_step(self) -> None:
        """Stops time, and does what is due at this cycle."""
        self._want_machine()
        if self.playing:
            self.pause()
        self.hit = self.trouble = ""
        self._press_due()
        self._ticker.tick_due(self.console)

    @_on_machine
    def step_by_call(self, way: str) -> None:
        """Goes on by the console's `over` or `finish`; time stops. Keys that wait go on waiting. If instruments tick on the way, it goes on
        farther and farther until the script shows the end, and back to there."""
        self._begin_step()
        cycle, comes, furthest = self.console.cycle, self.console.next(), self.furthest
        length = min([LONGEST_STEP, *(tick - cycle for tick in self._ticker.next_cycles())])
        while True:
            answer, = self._searcher.answers(self.script(), cycle, comes, [f"{way} within {length}"])
            if "error" in answer:
                raise ValueError(answer["error"])
            came = "came yes" in answer["lines"]
            if came or length == LONGEST_STEP or self.console.stop is not None:
                break
            length = min(LONGEST_STEP, 4 * length)
            self._run_to(cycle + length)
        self._come_to(answer["cycle"])
        self.furthest = max(furthest, self.console.cycle)
        if not came:
            self.trouble = f"{way.split()[0]} did not come to its end in {LONGEST_STEP:,} cycles"
        self._look()

    def _come_to(self, cycle: int) -> None:
        """Goes on to a cycle, or back to it, which no undo brings back."""
        if cycle < self.console.cycle:
            waiting = list(self._keyboard.waiting)
            self._go_back(cycle, True)
            self._keyboard.waiting.extend(waiting)
            self._undo.pop()
        else:
            self._run_to(cycle)
            self._show_anew()

    def _want_machine(self) -> None:
        if self.console.stop is not None:
            raise Unable(f"the machine has stopped ({self.console.stop}): go back first")

    # keys and buttons

    @_on_machine
    def press(self, name: str) -> None:
        """Presses a key now, or as soon as the keys before it are through."""
        if name not in KEYS + ("PRO", "PRO up"):
            raise ValueError(f"no key: {name!r}")
        self._want_machine()
        if name == "PRO up" and not self._keyboard.pro_comes_down:
            return
        if len(self._keyboard.waiting) >= MOST_WAITING:
            raise Unable(f"{MOST_WAITING} keys wait already")
        self._keyboard.waiting.append(name)
        self._press_due()
        if not self.playing:
            self._look()

    def _press_due(self) -> None:
        """Presses the key that waits first, if the key before it was long enough ago."""
        try:
            if self._keyboard.press_due(self.console) and not self.playing:
                last = self.journal.events[-1]
                self.journal.history.append(f"{last.cycle} - {last.command}")
        except Refused as refused:
            self.trouble = str(refused)
            self._keyboard.waiting.clear()
            self._publish_time()

    @_on_machine
    def control(self, number: int, name: str, down: bool) -> None:
        """Tells an instrument that a button of its panel went down or came up."""
        self._ticker.control(number, name, down, self.console.cycle)
        self._look()

    # back, on, and undo

    @_on_machine
    def go_there(self, cycle: int, sure: bool = False) -> None:
        """Goes back to a cycle, or on to one that was reached before; time stops. Raises `Sure` if going back drops events
        and the user was not asked."""
        if cycle < self.console.cycle:
            self._go_back(max(0, cycle), sure)
        elif self.console.cycle < self.furthest:
            self._go_ahead(min(cycle, self.furthest))
        else:
            self.pause()

    @_on_machine
    def go_back_to_change(self, sure: bool = False) -> None:
        """Goes back to before the last change of the panel; time stops. Raises `Sure` as `go_there` does, and `Unable` if the
        panel has not changed yet."""
        cycle = self.journal.last_change()
        if cycle is None:
            raise Unable("the panel has not changed before now")
        self._go_back(cycle, sure)

    def _go_ahead(self, cycle: int) -> None:
        """Goes on to a cycle as fast as it can, with keys and ticks on the way."""
        self._want_machine()
        self._stand()
        self.trouble = ""
        self._run_to(cycle, with_keys=True)
        self._stand_here()

    def _go_back(self, cycle: int, sure: bool) -> None:
        """Goes back to a cycle, and drops what was injected since. Instruments go back to the tick before, and from there on
        again: what the user had given on the way is given once more."""
        mark = self._ticker.mark_before(cycle)
        start, end, events, waiting = mark.cycle, self.console.cycle, self.journal.events, self._keyboard.waiting
        pressed = sum(_is_press(event) and event.cycle >= cycle for event in events)
        self._want_consent(sure, pressed + sum(name != "PRO up" for name in waiting), cycle)
        self._stand()
        waiting.clear()
        self.hit = self.trouble = ""
        self._go_to(start, [event for event in events if event.cycle < start])
        past = self._ticker.go_back(mark)
        self._undo.append(Undo(start, cycle, end, events, past))
        if start < cycle:
            self._repeat([event for event in events if event.cycle >= start], past.dropped, cycle)
        if self._keyboard.pro_down:
            self._keyboard.release_pro(self.console)
        self._look()

    def _want_consent(self, sure: bool, count: int, cycle: int) -> None:
        """Raises `Sure` if events (their count), or buttons that went down from a cycle on, would be dropped without consent."""
        count += self._ticker.pressed_since(cycle)
        if count and not sure:
            raise Sure(count)

    def _repeat(self, events: List[Event], controls: List[Control], end: int) -> None:
        """Goes on from a tick of the past to a cycle: instruments give their events again, the user's come from here."""
        given: List[Union[Event, Control]] = [*events, *controls]
        given.sort(key=lambda each: each.cycle)
        for each in given:
            if each.cycle >= end:
                break
            self._run_to(each.cycle)
            if isinstance(each, Control):
                self._ticker.control(each.instrument, each.name, each.down, each.cycle)
            elif each.by_user:
                self._replay([each])
            else:
                self._ticker.tick_due(self.console)  # an event of this tick came before what the user gave here
        self._run_to(end)
        self._show_anew()

    def _run_to(self, cycle: int, with_keys: bool = False) -> None:
        """Goes on to a cycle, with the ticks on the way."""
        for stage in self._stages(cycle, with_keys):
            self.console.go_to(stage)

    @_on_machine
    def undo(self, sure: bool = False) -> None:
        """Restores what the last going back dropped."""
        if not self._undo:
            raise Unable("there is nothing to undo")
        undo = self._undo[-1]
        since = [event for event in self.journal.events if event.cycle >= undo.start]
        self._want_consent(sure, sum(map(_is_press, since)), undo.start)
        self._undo.pop()
        self._stand()
        self._keyboard.waiting.clear()
        self._go_to(undo.end, undo.events, undo.since)
        self._ticker.restore(undo.past)
        self._look()

    # breakpoints

    @_on_machine
    def add_breakpoint(self, text: str) -> None:
        """Adds a breakpoint: PLACE, `write CCC` or `cell PLACE`, in the words of the console's `break`."""
        text = " ".join(text.split())
        if text in self.breakpoints:
            return
        if len(self.breakpoints) >= MOST_BREAKPOINTS:
            raise Unable(f"there are {MOST_BREAKPOINTS} breakpoints already")
        self._breakpoints[text] = self.console.break_at(text).number
        self._publish_time()

    @_on_machine
    def remove_breakpoint(self, text: str) -> None:
        if text in self._breakpoints:
            self.console.delete(self._breakpoints.pop(text))
            self._ignored.pop(text, None)
        self._publish_time()

    @_on_machine
    def ignore_hits(self, text: str, count: int) -> None:
        """Passes over the next hits of a breakpoint, this number of them; going back keeps what is left of it."""
        if text not in self._breakpoints:
            raise ValueError(f"no breakpoint: {text!r:.82}")
        if not 0 <= count <= MOST_IGNORED:
            raise ValueError(f"hits to ignore are 0 to {MOST_IGNORED:,}")
        self._ignored.pop(text, None)
        if count:
            self._ignored[text] = count
        self._publish_time()

    # what the page is shown

    @_on_machine
    def say(self, lines: List[str]) -> Dict[str, Any]:
        """Says lines that change nothing to the console. Returns the cycle, and the `answers` as `answers_to` does."""
        return {"cycle": self.console.cycle, "answers": answers_to(self.console, lines)}

    def search(self, lines: List[str], before: Optional[int] = None) -> Dict[str, Any]:
        """Says lines to a second console with the session's script: before a cycle of the past or, if none is named, where the machine
        stands, which stays there. Returns the cycle at which it stands, and the `answers`."""
        cycle, comes, script = self._now()
        place = (cycle, comes) if before is None else (max(0, min(before, cycle)), None)
        return {"cycle": cycle, "answers": self._searcher.answers(script, *place, lines)}

    @_on_machine
    def _now(self) -> Tuple[int, str, str]:
        return self.console.cycle, self.console.next(), self.script()

    def past_views(self) -> List[View]:
        """Returns what the instruments showed from the beginning on, for a film."""
        views: List[View] = self.call(lambda: self._ticker.past_views(self.console.cycle))
        return views

    def _look(self) -> None:
        """Looks at the machine, and publishes what it shows."""
        self._looked = time.monotonic()
        if self.ended is None:
            self._look_inside()
        self._publish_time()
        self._look_took = time.monotonic() - self._looked

    def _look_inside(self) -> None:
        """Publishes what the machine and the instruments show."""
        if self._is_dirty:
            self.news.publish("panel", self.console.panel())
            self._is_dirty = False
        self.news.publish("machine", {"next": self.console.next(), "registers": self.console.registers()._asdict()})
        if self.watch is not None:
            self.news.publish("tables", self.console.tables(self.watch))
        if self._ticker.instruments:
            self.news.publish("instruments", self._ticker.views())
        stands = not self.playing
        self.news.publish("history", self.history if stands else [])
        self.news.publish("ahead", self.console.ahead(AHEAD) if stands and self.console.stop is None else [])

    def _publish_time(self) -> None:
        self.news.publish("breakpoints", self.breakpoints)
        self.news.publish("ignored", self._ignored)
        self.news.publish("time", {
            "cycle": self.console.cycle, "furthest": self.furthest, "playing": self.playing,
            "speed": self._clock.speed, "pace": round(self._clock.pace, 2), "stop": self.console.stop, "ended": self.ended,
            "trouble": self.trouble, "hit": self.hit, "waiting": len(self._keyboard.waiting), "pro": self._keyboard.pro_comes_down,
            "events": len(self.journal.events), "limit": self.journal.point.limit,
            "undo": self._undo[-1].end if self._undo else None,
        })
