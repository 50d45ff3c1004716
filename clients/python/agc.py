"""A client of agc-console: an Apollo Guidance Computer that listens, from Python.

    from agc import Console

    with Console("examples/keys/rope") as agc:
        agc.go(10)
        agc.key("4")
        for write in agc.writes(until=1000):
            print(write.cycle, oct(write.channel), oct(write.value))
        print(agc.panel()["NOUN"], agc.cell("0101"))
        print(agc.script())

`sample` runs `agc-study sample`: what a program computes, over time, with units.

This file stands over the standard library alone. A console is one process, `agc-console ROPE SCRIPT`, to which each
call says one command and whose answer it reads to its last line. Cycles are machine cycles, 85,333 a second. Words,
channels and addresses are Python's integers here (0o54171); a place may be the console's own text, too ("E3,1400").
What the console refuses is a `Refused`, and what the process itself says as it ends an `Ended`; a call that is broken
off, as by a time-out, ends the console. `script` still returns the session's script after that. A loop with many events is
faster after `defer`: they then go to the console with the next other command, and so do the runs of `go_later`. A console is to be used by one thread at a
time; only `kill` is for any. Start `agc-console --help` once before, so that it is built.
"""

import contextlib
import heapq
import io
import os
import shutil
import signal
import subprocess
import tempfile
from collections import deque
from types import TracebackType
from typing import IO, Any, Callable, Deque, Dict, Iterator, List, NamedTuple, Optional, Sequence, Tuple, Type, Union

__all__ = [
    "Answer", "Breakpoint", "Came", "Console", "Ended", "Error", "Hit", "Location", "NotSaved", "Number", "Refused", "Registers",
    "Row", "Samples", "Where", "Write", "sample",
]

__version__ = "1.0.0"

Path = Union[str, "os.PathLike[str]"]

CONSOLE, STUDY = "agc-console", "agc-study"
"""The programs."""

EVENTS = frozenset(("key", "pro", "input", "pulse", "raise", "poke"))
"""The commands that inject an event."""

Place = Union[int, str]
"""An address alone, as 0o4100 or 0o100, or a place as docs/CONSOLE.md names it: "4100", "12,2000" or "E3,1400"; with names
also "LOOP", or some words beyond or before it, "LOOP+3"."""

Row = Dict[str, float]
"""A row of samples: the cycle and the seconds, and each quantity by the name of its column. Cycles, bits and octal codes are integers."""

LAST_CYCLE = 1_000_000_000_000
"""The last cycle of all: a machine without a limit stops there."""

LONGEST_ROPE = 1 << 20
"""More bytes than any rope has."""

MOST_AT_ONCE = 200  # commands of 120 bytes at most, which a pipe takes
READ_AT_ONCE = 1 << 16  # bytes of answers

CLOSING = 5
"""The seconds that a console may take to end before it is killed."""

MOST_WAITING = 1000
"""The commands that may wait, after `defer`: they fit into a pipe."""

SURE_EVENTS = 60_000
"""Up to this many events, a session surely has room. Later ones are sent one by one, because each may be refused."""


class Error(Exception):
    """What went wrong with a console."""


class Refused(Error):
    """A command was answered by an error. A faulty line changes nothing. If an event comes too late, the events of the
    script that were due have happened; if memory ran out in `go`, `step` or `until`, the machine may have run further,
    and some writes are not reported. `cycle` is right again after the next answer."""

    def __init__(self, sentence: str, name: str = "") -> None:
        super().__init__(sentence)
        self.name = name
        """The name of the fault, as docs/CONSOLE.md lists them: "NotHit", "BadPlace"; "memory" if memory ran out."""


class Ended(Error):
    """The console has ended, or never began: there is no such program, its rope, its script or its limit is refused, it
    is closed, or a call was broken off before its answer was whole. Of `sample`: the program refused something, or ended before
    the last row."""

    def __init__(self, message: str, status: Optional[int]) -> None:
        super().__init__(message)
        self.status = status
        """The status with which the process ended; None if it never began."""


class NotSaved(Error):
    """The script could not be written to a file, of which nothing is left."""


class Write(NamedTuple):
    """A channel write: the cycle at which its order began, the channel, and the channel's word after it."""

    cycle: int
    channel: int
    value: int


class Registers(NamedTuple):
    """The central registers. A and Q have sixteen bits; EB and FB are the banks that they name."""

    a: int
    l: int
    q: int
    z: int
    eb: int
    fb: int
    bb: int


class Answer(NamedTuple):
    """The lines of an answer, the cycle that the machine has reached, and why it has stopped, if it has."""

    lines: List[str]
    cycle: int
    stop: Optional[str]


class Event(NamedTuple):
    """An event of the script: its cycle, and its line."""

    cycle: int
    line: str


class Came(NamedTuple):
    """How a run to something ended: whether it came, and the channel writes on the way."""

    came: bool
    writes: List[Write]


class Breakpoint(NamedTuple):
    """A numbered breakpoint: its number, and what it stops at, as the console prints it: "order 02,4071", "write 010 44017",
    "cell 0100", "interrupt T4RUPT", "panel" or "panel R1 +00012"."""

    number: int
    what: str


class Hit(NamedTuple):
    """How a run to a breakpoint ended: the breakpoint that was hit, None if there was none, and the channel writes on the
    way."""

    breakpoint: Optional[Breakpoint]
    writes: List[Write]


class Number(NamedTuple):
    """A cell as a number: its place as the console prints it, its word, and the word as a signed decimal number. That is
    text, because +0 and -0 are two numbers: "0" and "-0"."""

    place: str
    word: int
    decimal: str


class Location(NamedTuple):
    """A place as the console prints it, and its name, as "KEYIN" or "KEYIN+10"; None if no name is near it."""

    place: str
    name: Optional[str]


class Where(NamedTuple):
    """Where the program is: the location of the next order and, during a service, that of the interrupted order. If a
    bank was selected for this one, the location has only its address, as "3131", and no name: its bank is not known."""

    order: Location
    interrupted: Optional[Location]


class Console:
    """A machine to sit before. Of `with`, it is closed at the end."""

    def __init__(
        self,
        rope: Path,
        script: Path = os.devnull,
        *,
        limit: Optional[int] = None,
        form: Optional[str] = None,
        names: Optional[Path] = None,
        program: Union[None, Path, Sequence[str]] = None,
        detached: bool = False,
    ) -> None:
        """Begins a session. The program is `agc-console` two levels above the folder of this file, or the one on the
        path; `program` names another one, or its words. `names` is a file of names, which then may replace places, and
        show beside the places of orders in what `step` and `next` return. A `detached` console does not see a Control-C
        in the terminal: its caller ends it."""
        self.rope, self._options = rope, {"limit": limit, "form": form, "names": names, "program": program}
        self.rope_bytes = _bytes_of(rope)
        """The bytes of the rope as the session began; None if it is no regular file."""
        words = _program(program)
        if limit is not None:
            words.append(f"--limit={limit}")
        if form is not None:
            words.append(f"--form={form}")
        if names is not None:
            words.append(f"--names={os.fspath(names)}")
        words += ["--", os.fspath(rope), os.fspath(script)]
        self._cycle = 0
        self._stop: Optional[str] = None
        self._is_deferring = False
        self._room = 0  # for events that may wait
        self._waiting: List[str] = []
        self.passed: List[Write] = []
        """The writes of the runs that `go_later` put off, when they have come. The caller clears it."""
        self.on_answer: Optional[Callable[[str, Answer], None]] = None
        """Called with each command and its answer, if set; not for refused commands."""
        self._quiet = False
        self._owner = os.getpid()
        self._base: List[Event] = []
        self._injected: List[Tuple[int, str]] = []  # each event, and the cycle to which the machine had come after it
        self._is_detached = detached
        self._errors = _message_file()
        try:
            self._process = subprocess.Popen(
                words, bufsize=0, stdin=subprocess.PIPE, stdout=subprocess.PIPE, stderr=self._errors, start_new_session=detached
            )
        except OSError as error:
            self._errors.close()
            raise Ended(f"{words[0]}: {error.strerror}", None) from None
        assert isinstance(self._process.stdin, io.FileIO) and isinstance(self._process.stdout, io.FileIO)
        self._commands: io.FileIO = self._process.stdin
        self._answers: io.FileIO = self._process.stdout
        self._lines: Deque[str] = deque()  # lines of answers that were read and not taken
        self._begun = b""  # what was read of the next line
        try:
            self._base = [_event_of(line) for line in self.say("script").lines]
        except BaseException:
            self.close()
            raise

    def __enter__(self) -> "Console":
        return self

    def __exit__(
        self, kind: Optional[Type[BaseException]], error: Optional[BaseException], trace: Optional[TracebackType]
    ) -> None:
        self.close()

    @property
    def cycle(self) -> int:
        """The cycle that the machine has reached, from the last answer."""
        self._send_waiting()
        return self._cycle

    @property
    def stop(self) -> Optional[str]:
        """Why the machine has stopped: Limit, DivisionUndefined or Edrupt; None while it runs."""
        self._send_waiting()
        return self._stop

    def close(self) -> None:
        """Ends the session. A second call does nothing. `script` still returns the script afterwards."""
        if os.getpid() == self._owner:
            with contextlib.suppress(Error):
                self._send_waiting()
        with contextlib.suppress(BrokenPipeError):
            # A child that was forked keeps the pipe open, so that the console would wait for more commands. The child
            # itself ends nothing: the session belongs to the process that began it.
            if not self._commands.closed and os.getpid() == self._owner:
                self._send(b"quit\n")
        self._commands.close()
        self._answers.close()
        try:
            self._process.wait(CLOSING)
        except subprocess.TimeoutExpired:
            self.kill()
            self._process.wait()
        self._errors.close()

    def kill(self) -> None:
        """Ends the process at once. It may be called by any thread: a call that waits for an answer raises `Ended`."""
        with contextlib.suppress(OSError):  # it has just ended
            if self._process.poll() is not None:
                return
            if self._is_detached and hasattr(os, "killpg"):
                os.killpg(self._process.pid, signal.SIGKILL)  # with what its launcher has started
            else:
                self._process.kill()

    def again(self, script: Path = os.devnull) -> "Console":
        """Begins another console of the same rope, with the same options, at cycle 0. The script is not taken along. The
        rope is as this session began with it, even if its file has changed since."""
        if self.rope_bytes is None:
            return Console(self.rope, script, detached=True, **self._options)  # type: ignore[arg-type]
        try:
            with tempfile.TemporaryDirectory() as folder:
                copy = os.path.join(folder, "rope")
                with open(copy, "wb") as file:
                    file.write(self.rope_bytes)
                other = Console(copy, script, detached=True, **self._options)  # type: ignore[arg-type]
        except OSError as error:
            raise Ended(f"no copy of the rope for another console: {error.strerror or error}", None) from None
        other.rope = self.rope
        return other

    @property
    def alive(self) -> bool:
        """Whether the process still runs."""
        return self._process.poll() is None

    def _break_off(self) -> None:
        """Ends a console whose answer was not read to its end: what comes next would be taken for another's."""
        self._waiting = []
        self.kill()
        self.close()

    # what all commands go through

    def say(self, command: str) -> Answer:
        """Says a command, as docs/CONSOLE.md has them, and returns its answer; `Refused` if that is an error."""
        answer = Answer(self._lines_of(command), self._cycle, self._stop)
        if self.on_answer is not None:
            self.on_answer(command, answer)
        return answer

    def _run(self, command: str) -> List[Write]:
        """Says a command that runs the machine. Returns the channel writes on the way."""
        return _writes(self._lines_of(command) if self.on_answer is None else self.say(command).lines)

    def _lines_of(self, command: str) -> List[str]:
        """Says a command, and returns the lines of its answer."""
        line, refused = _line(command), None
        waiting, self._waiting = self._waiting, []
        if self._commands.closed:
            raise Ended("the console is closed", self._process.returncode)
        try:
            self._send("\n".join([*waiting, ""]).encode() + line if waiting else line)
            if waiting:
                refused = self._take_waiting(waiting)
            lines = self._answer()
            if not command.startswith("go "):  # which is the most frequent one, and keeps nothing
                self._keep(command.split(), self._cycle)
        except BrokenPipeError:
            raise self._ended() from None
        except Error:
            raise
        except BaseException:
            self._break_off()
            raise
        if refused is not None:
            raise refused
        return lines

    def say_all(self, commands: Sequence[str]) -> List[Answer]:
        """Says commands at once, which is quicker than one after another, and returns their answers. If some are refused,
        the others are done all the same, and the first refusal is raised at the end."""
        self._send_waiting()
        answers: List[Answer] = []
        refusals: List[Refused] = []
        for first in range(0, len(commands), MOST_AT_ONCE):
            self._say_some(commands[first:first + MOST_AT_ONCE], answers, refusals)
        if refusals:
            raise refusals[0]
        return answers

    def _say_some(self, commands: Sequence[str], answers: List[Answer], refusals: List[Refused]) -> None:
        """Says a few commands at once: they fit into a pipe, so that the console never waits for us as we write."""
        lines = b"".join(map(_line, commands))
        if self._commands.closed:
            raise Ended("the console is closed", self._process.returncode)
        done: List[Tuple[str, Answer]] = []
        try:
            self._send(lines)
            for command in commands:
                try:
                    done.append((command, Answer(self._answer(), self._cycle, self._stop)))
                except Refused as refused:
                    refusals.append(refused)
                else:
                    self._keep(command.split(), self._cycle)
        except BrokenPipeError:
            raise self._ended() from None
        except Error:
            raise
        except BaseException:
            self._break_off()
            raise
        for command, answer in done:
            answers.append(answer)
            if self.on_answer is not None:
                self.on_answer(command, answer)

    def _take_waiting(self, commands: List[str]) -> Optional[Refused]:
        """Reads the answers to commands that have waited. Returns why the first of the refused ones was refused."""
        first = None
        injected, on_answer, ready = self._injected, self.on_answer, self._lines
        for command in commands:
            lines: List[str] = []
            if ready and ready[0].startswith("at "):  # the most frequent answer
                self._cycle, self._stop = int(ready.popleft()[3:]), None
            else:
                try:
                    lines = self._answer()
                except Refused as refused:
                    first = first or refused
                    continue
            if not command.startswith("go "):
                injected.append((self._cycle, command))
            elif lines:
                self.passed += _writes(lines)
            if on_answer is not None:
                on_answer(command, Answer(lines, self._cycle, self._stop))
        return first

    def _send_waiting(self) -> None:
        """Sends the commands that wait."""
        if self._waiting:
            self.passed += _writes(self.say(self._waiting.pop()).lines)

    def _inject(self, command: str) -> None:
        """Injects an event: with the next command, if events are deferred and there is surely room for this one."""
        if command.isascii() and "\n" not in command and self._waits(command):
            return
        self.say(command)

    def _waits(self, command: str) -> bool:
        """Whether a command waits for the next one, because events are deferred and there is surely room for it."""
        if self._room <= 0 or self._stop is not None:
            return False
        self._room -= 1
        self._waiting.append(command)
        return True

    def _count_room(self) -> None:
        """Counts the events that may wait: as long as they are deferred, and the session surely has room."""
        room = SURE_EVENTS - len(self._base) - len(self._injected)
        self._room = min(room, MOST_WAITING) if self._is_deferring else 0

    def _keep(self, words: List[str], cycle: int) -> None:
        """Keeps what the script of the session is made of, so that it is available after the console has ended, too."""
        if words[0] in EVENTS:
            self._injected.append((cycle, " ".join(words)))
            self._count_room()
        elif words[0] == "back":
            # only `back C` drops the events at the cycle
            way = words[2:] if words[1] == "list" else words[1:]
            last = cycle - 1 if way[0].isdigit() else cycle
            self._injected = [pair for pair in self._injected if _event_after(*pair).cycle <= last]
            self._count_room()
        elif words[0] == "quiet":
            self._quiet = words[1:] != ["off"]

    def _answer(self) -> List[str]:
        """Reads an answer. Returns its lines but for the last, which says the cycle and the stop."""
        lines: List[str] = []
        while True:
            while not self._lines:
                self._read_more()
            line = self._lines.popleft()
            if line.startswith("at "):
                self._cycle, self._stop = int(line[3:]), None
                return lines
            if line.startswith("stop "):
                _, self._stop, _, cycle = line.split(" ")
                self._cycle = int(cycle)
                return lines
            if line.startswith("error: "):
                raise _refused(line[len("error: "):])
            lines.append(line)

    def _send(self, lines: bytes) -> None:
        """Writes commands to the console. A signal may cut a write short."""
        while lines:
            lines = lines[self._commands.write(lines):]

    def _read_more(self) -> None:
        """Reads what the console has printed by now, or waits for it."""
        found = self._answers.read(READ_AT_ONCE)
        if not found:
            raise self._ended()
        whole, end, self._begun = (self._begun + found).rpartition(b"\n")
        if end:
            self._lines.extend(whole.decode().split("\n"))

    def _ended(self) -> Ended:
        return _ended(self._errors, self._process.wait(), "the console")

    # running, and going back

    def go(self, cycles: int) -> List[Write]:
        """Runs for a number of cycles. Returns the channel writes on the way, like all methods that run the machine."""
        return self._run(f"go {cycles}")

    def go_to(self, cycle: int) -> List[Write]:
        """On until a cycle is reached or passed: the last order, interrupt or step may end past it."""
        return self._run(f"go to {cycle}")

    def go_later(self, cycle: int) -> None:
        """As `go_to`; but after `defer` the run waits with the events for the next other call, and its writes are then in
        `passed`. So several steps, with the events between them, cost one exchange."""
        command = f"go to {cycle}"
        if not self._waits(command):
            self.passed += self._run(command)

    def step(self, boundaries: int = 1, *, cell: Optional[Place] = None) -> List[str]:
        """Takes a number of boundaries, each an order, an event, a timer's step or an interrupt. Returns their lines, as
        `agc-study trace` prints them; with `cell`, only the lines of boundaries that change it, each followed by the cell's line."""
        return self.say(f"step {boundaries}" + ("" if cell is None else f" cell {_place(cell)}")).lines

    def over(self, within: Optional[int] = None, *, job: Optional[Place] = None) -> Came:
        """Runs over the call that comes next, to the order behind it: one of three places, in a service of an interrupt only if the
        machine is in one now. With `job`, a cell, only where that has its present word, as PRIORITY of core set 0. If no call comes
        next, takes one boundary."""
        return self._call("over", job, within)

    def finish(self, within: Optional[int] = None, *, job: Optional[Place] = None) -> Came:
        """Runs out of the routine, to the place that Q names, as `over` does."""
        return self._call("finish", job, within)

    def _call(self, step: str, job: Optional[Place], within: Optional[int]) -> Came:
        answer = self.say(_step_by_calls(step, job) + _limits(0, within))
        return Came("came yes" in answer.lines, _writes(answer.lines))

    def until(self, place: Place, within: Optional[int] = None, *, condition: Optional[str] = None, ignore: int = 0) -> Came:
        """Runs until the order at a place is in hand, with a condition such as "COUNT < 5" only while that holds; 1,000,000
        cycles at most, or as many as are named. With `ignore` it passes over this number of hits; the other runs to a hit do, too."""
        return self._until(_order(place, condition), ignore, within)

    def until_write(self, channel: int, within: Optional[int] = None, *, ignore: int = 0) -> Came:
        """On until the next write to a channel, 5 to 0o777. Another channel is refused."""
        return self._until(f"write {channel:o}", ignore, within)

    def until_cell(self, place: Place, within: Optional[int] = None, *, ignore: int = 0) -> Came:
        """On until the next change of a cell."""
        return self._until(f"cell {_place(place)}", ignore, within)

    def _until(self, what: str, ignore: int, within: Optional[int]) -> Came:
        answer = self.say(f"until {what}{_limits(ignore, within)}")
        return Came("came yes" in answer.lines, _writes(answer.lines))

    # breakpoints

    def break_at(self, place: Place, *, condition: Optional[str] = None) -> Breakpoint:
        """Sets a breakpoint at the order at a place: `continue_` stops before that order. A condition is a cell, one of <, >,
        = and !=, and a word, octal or decimal with its sign, as "COUNT < 5" or "0100 = -3"; it has to hold then."""
        return self._break(_order(place, condition))

    def break_write(self, channel: int, word: Optional[int] = None) -> Breakpoint:
        """Sets a breakpoint at a write to a channel, 5 to 0o777, of this word if one is named: `continue_` stops after it."""
        return self._break(_with_word(f"write {channel:o}", word))

    def break_cell(self, place: Place) -> Breakpoint:
        """Sets a breakpoint at a change of a cell: `continue_` stops after it. Writing the same word again is no change."""
        return self._break(f"cell {_place(place)}")

    watch = break_cell

    def break_interrupt(self, name: str) -> Breakpoint:
        """Sets a breakpoint at an interrupt, as "T4RUPT" or "KEYRUPT1": `continue_` stops before it is taken."""
        return self._break(f"interrupt {name}")

    def break_panel(self, text: Optional[str] = None) -> Breakpoint:
        """Sets a breakpoint at a write that changes the panel, or that brings this line to it, as "PROG 12", "R1 +00012",
        "FLASH on" or, for one lamp, "LAMPS OPR ERR": `continue_` stops after it."""
        return self._break("panel" if text is None else f"panel {text}")

    def _break(self, what: str) -> Breakpoint:
        return _breakpoint(self.say(f"break {what}").lines[0])

    def breaks(self) -> List[Breakpoint]:
        """Returns the breakpoints by their numbers."""
        return [_breakpoint(line) for line in self.say("breaks").lines]

    def delete(self, breakpoint: Union[int, Breakpoint]) -> None:
        """Deletes a breakpoint, or the one with this number."""
        number = breakpoint.number if isinstance(breakpoint, Breakpoint) else breakpoint
        self.say(f"delete {number}")

    def continue_(self, within: Optional[int] = None, *, ignore: int = 0) -> Hit:
        """Runs to the first breakpoint that is hit; 1,000,000 cycles at most, or as many as are named. It takes one boundary
        at least, so that it leaves the place at which it stopped before. With `ignore` it passes over this number of hits."""
        answer = self.say(f"continue{_limits(ignore, within)}")
        hits = [line for line in answer.lines if line.startswith("hit ")]
        return Hit(None if hits == ["hit none"] else _breakpoint(hits[0]), _writes(answer.lines))

    def quiet(self, on: bool = True) -> None:
        """From now on methods that run the machine return no channel writes; `quiet(False)` ends that. `writes` needs them,
        and raises ValueError while the console is quiet."""
        if not isinstance(on, bool):
            raise TypeError("quiet or not: True or False")
        self.say("quiet" if on else "quiet off")

    def writes(self, until: int = LAST_CYCLE, channel: Optional[int] = None) -> Iterator[Write]:
        """Yields the next channel writes, one by one, up to a cycle or the stop. With `channel`, only those of that
        channel, and the machine runs to each one as it is taken, so that events can be injected after it. Without, the
        machine runs a hundredth of a second at a time, and is behind all writes of it as the first is yielded."""
        while self.stop is None and self.cycle < until:
            if self._quiet:
                raise ValueError("the console is quiet: it prints no writes")
            left = until - self.cycle
            if channel is None:
                yield from self.go(min(left, 853))
            else:
                came = self.until_write(channel, min(left, 1_000_000))
                yield from (write for write in came.writes if write.channel == channel)

    def back(self, cycle: int, *, dropped: bool = False) -> List[str]:
        """Goes back to the state before a cycle that is not ahead. Events injected from it on are dropped; with `dropped`
        it returns their lines, as in `script`."""
        return self.say(f"back list {cycle}" if dropped else f"back {cycle}").lines

    def back_until(self, place: Place, *, condition: Optional[str] = None, ignore: int = 0) -> bool:
        """Goes back to the last time that the order at a place was in hand, with a condition as for `break_at` while that held.
        The methods `back_until_..` and `back_step` drop the events injected after that cycle, and return whether there was one
        before now; if not, they change nothing. With `ignore` they pass over this number of hits."""
        return self._back(f"until {_order(place, condition)}{_limits(ignore)}")

    def back_until_write(self, channel: int, word: Optional[int] = None, *, ignore: int = 0) -> bool:
        """Goes back to before the last write to a channel, 5 to 0o777, of this word if one is named."""
        return self._back(_with_word(f"until write {channel:o}", word) + _limits(ignore))

    def back_until_cell(self, place: Place, *, ignore: int = 0) -> bool:
        """Goes back to before the last change of a cell."""
        return self._back(f"until cell {_place(place)}{_limits(ignore)}")

    def back_until_interrupt(self, name: Optional[str] = None, *, ignore: int = 0) -> bool:
        """Goes back to before the last interrupt was taken, or the last one of this name."""
        return self._back(("until interrupt" if name is None else f"until interrupt {name}") + _limits(ignore))

    def back_until_panel(self, *, ignore: int = 0) -> bool:
        """Goes back to before the last change of the panel."""
        return self._back(f"until panel{_limits(ignore)}")

    def back_step(self, boundaries: int = 1) -> bool:
        """Goes back by this number of boundaries, or a little more: to the first boundary of the same cycle."""
        return self._back(f"step {boundaries}")

    def back_over(self, *, job: Optional[Place] = None) -> bool:
        """Goes back over the call that the order in hand follows, or by a boundary if it follows none. `job` as for `over`."""
        return self._back(_step_by_calls("over", job))

    def back_finish(self, *, job: Optional[Place] = None) -> bool:
        """Goes back to the call from which Q returns. `job` as for `over`."""
        return self._back(_step_by_calls("finish", job))

    def _back(self, what: str) -> bool:
        try:
            self.say(f"back {what}")
        except Refused as refused:
            if refused.name == "NotHit":
                return False
            raise
        return True

    # what happens to the machine, now

    def defer(self, on: bool = True) -> None:
        """From now on the events of the methods below, and `go_later`, wait for the next other call, and go to the console with
        its command: many events cost one exchange. `defer(False)` ends that. What is injected is the same. But an event that is refused
        raises `Refused` from that other call, whose command has happened all the same."""
        if not isinstance(on, bool):
            raise TypeError("deferred or not: True or False")
        self._send_waiting()
        self._is_deferring = on and self._options["limit"] is None
        self._count_room()

    def key(self, name: str) -> None:
        """A key goes down: "0" to "9", "+", "-", "VERB", "NOUN", "ENTR", "CLR", "RSET" or "KEYREL"."""
        self._inject(f"key {name}")

    def pro(self, down: bool) -> None:
        """The PRO key goes down (True), or comes up (False)."""
        if not isinstance(down, bool):
            raise TypeError("PRO is down or not: True or False")
        self._inject("pro down" if down else "pro up")

    def input(self, channel: int, word: int) -> None:
        """A channel takes a word from outside."""
        self._inject(f"input {channel:o} {word:05o}")

    def pulse(self, counter: int, kind: str) -> None:
        """A counter is pulsed: pinc, minc, pcdu, mcdu, shinc or shanc. It costs a cycle."""
        self._inject(f"pulse {counter:o} {kind}")

    def raise_interrupt(self, number: int) -> None:
        """The interrupt with this number, 1 to 10, is requested."""
        self._inject(f"raise {number}")

    def poke(self, bank: int, offset: int, word: int) -> None:
        """A cell of an erasable bank takes a word."""
        self._inject(f"poke {bank:o} {offset:o} {word:05o}")

    # what can be seen

    def panel(self) -> Dict[str, str]:
        """The display: PROG, VERB, NOUN, R1, R2, R3, FLASH and LAMPS with the text that `agc` prints."""
        return dict(line.split(" ", 1) for line in self.say("panel").lines)

    def tables(self, spec: str) -> List[str]:
        """The lines of the Executive's tables, of which the spec is that of `agc --watch`."""
        if spec.count(",") < 2:  # the console would take it for the place of a breakpoint
            raise Refused("tables are seven octal numbers with commas between", "BadSpec")
        return self.say(f"watch {spec}").lines

    def registers(self) -> Registers:
        """The central registers."""
        return Registers(*(int(word, 8) for word in self.say("registers").lines[0].split()[1::2]))

    def next(self) -> str:
        """What comes next, in a trace's words: "4000 14000 TCF 4000", or "- interrupt KEYRUPT1"."""
        return self.say("next").lines[0].split(" ", 1)[1]

    def ahead(self, boundaries: int = 1) -> List[str]:
        """Returns the trace lines of the coming boundaries, as `step` would print them. None is taken."""
        return self.say(f"ahead {boundaries}").lines

    def where(self) -> Where:
        """Where the program is. Names need a file of names."""
        order, *service = (line.replace(" (its bank is not known)", "") for line in self.say("where").lines)
        return Where(_location(order.split(" ")[1:]), _location(service[0].split(" ")[2:]) if service else None)

    def cell(self, place: Place) -> int:
        """The word of a cell of erasable memory: 0o100, "0100" or "E3,1400"."""
        return self.cells(place, 1)[0]

    def cells(self, place: Place, count: int) -> List[int]:
        """The words of `count` cells, from this one on."""
        return [int(line.rsplit(" ", 1)[1], 8) for line in self.say(f"cell {_place(place)} {count}").lines]

    def print(self, place: Place, count: int = 1) -> List[Number]:
        """Returns `count` cells from this one on as words and as signed decimal numbers."""
        parts = [line.split(" ") for line in self.say(f"print {_place(place)} {count}").lines]
        return [Number(place, int(word, 8), decimal) for _, place, word, decimal in parts]

    def channel(self, channel: int) -> int:
        """The word of a channel."""
        return int(self.say(f"channel {channel:o}").lines[0].rsplit(" ", 1)[1], 8)

    def channels(self, channels: Sequence[int]) -> List[int]:
        """Returns the words of some channels."""
        answers = self.say_all([f"channel {channel:o}" for channel in channels])
        return [int(answer.lines[0].split()[2], 8) for answer in answers]

    def count_of_writes(self) -> int:
        """How many channel writes there were."""
        return int(self.say("writes").lines[0].split()[1])

    def script(self) -> str:
        """The script that repeats this session: `agc ROPE SCRIPT --limit CYCLE` makes the same run. If an order stopped
        the machine, or something was injected at the present cycle, add one to the limit. After the console has ended,
        it is the script of all calls that returned."""
        try:
            lines = self.say("script").lines
        except Ended:
            injected = [_event_after(*pair) for pair in self._injected]
            lines = [event.line for event in heapq.merge(self._base, injected, key=lambda event: event.cycle)]
        return "".join(line + "\n" for line in lines)

    def save(self, file: Path) -> None:
        """Writes `script` to a new file. If there is such a file, FileExistsError is raised, and it stays as it is. If it
        cannot be written whole, as on a full disk, `NotSaved` is raised, and there is no such file."""
        script = self.script()
        try:
            with open(file, "x", encoding="ascii") as saved:
                try:
                    saved.write(script)
                    saved.flush()
                except BaseException:
                    os.unlink(file)
                    raise
        except FileExistsError:
            raise
        except OSError as error:
            raise NotSaved(f"{os.fspath(file)}: {error.strerror}") from None


def _line(command: str) -> bytes:
    """A command for the console; ValueError if it is empty, a comment or more than one line."""
    if "\n" in command or not command[:1].isalpha() and command.lstrip()[:1] in ("", "#"):
        raise ValueError(f"no command: {command!r}")
    try:
        return command.encode() + b"\n"
    except UnicodeEncodeError:
        raise ValueError(f"no command: {command!r}") from None


def _bytes_of(rope: Path) -> Optional[bytes]:
    """Returns the bytes of a rope's file; None if it is no regular file, or if the console will refuse it."""
    try:
        if os.path.isfile(rope) and os.path.getsize(rope) <= LONGEST_ROPE:
            with open(rope, "rb") as file:
                return file.read()
    except OSError:
        pass
    return None


def _message_file() -> IO[bytes]:
    """Returns a file for what a console says on standard error, because a full pipe would block it. It is in memory, if
    there are such files, so that a full disk is no hindrance."""
    try:
        if hasattr(os, "memfd_create"):
            return open(os.memfd_create("agc-console"), "w+b")
        return tempfile.TemporaryFile()
    except OSError as error:
        raise Ended(f"there is no file for the console's messages: {error.strerror or error}", None) from None


def _ended(errors: IO[bytes], status: int, program: str) -> Ended:
    """The exception for a program that has ended, with what it said on standard error."""
    errors.seek(0)
    message = errors.read().decode(errors="replace").strip()
    return Ended(message or f"{program} ended with status {status}", status)


def _event_of(line: str) -> Event:
    """An event from a line of the script."""
    return Event(int(line.split(" ", 1)[0]), line)


def _event_after(cycle: int, command: str) -> Event:
    """The event of a command after which the machine is at this cycle: a pulse costs one."""
    begun = cycle - 1 if command.startswith("pulse") else cycle
    return Event(begun, f"{begun} {command}")


def _refused(reason: str) -> Refused:
    """The exception for an error: "NotHit: no boundary before now hits it", or "memory"."""
    name, colon, sentence = reason.partition(": ")
    if not colon:
        return Refused(f"out of {name}", name)
    return Refused(f"usage: {sentence}" if name == "Usage" else sentence, name)


def _place(place: Place) -> str:
    """A place as the console reads it."""
    return f"{place:04o}" if isinstance(place, int) else place


def _limits(ignore: int, within: Optional[int] = None) -> str:
    """Returns `ignore N` and `within N` for a command, each only if it is not the default."""
    return (f" ignore {ignore}" if ignore else "") + ("" if within is None else f" within {within}")


def _order(place: Place, condition: Optional[str]) -> str:
    """The place of an order, with a condition if one is named."""
    return _place(place) if condition is None else f"{_place(place)} if {condition}"


def _step_by_calls(step: str, job: Optional[Place]) -> str:
    """A step by calls; in the present job alone if a cell is named whose word distinguishes jobs."""
    return step if job is None else f"{step} job {_place(job)}"


def _with_word(command: str, word: Optional[int]) -> str:
    """A command with a word after it, if one is named."""
    return command if word is None else f"{command} {word:05o}"


def _location(words: List[str]) -> Location:
    """The location of words like "4104 KEYIN +10", in which the name may be missing."""
    return Location(words[0], "".join(words[1:]) or None)


def _breakpoint(line: str) -> Breakpoint:
    """The breakpoint of a line like "break 2 write 010" or "hit 2 write 010"."""
    _, number, what = line.split(" ", 2)
    return Breakpoint(int(number), what)


def _writes(lines: List[str]) -> List[Write]:
    """The channel writes of an answer's lines."""
    found: List[Write] = []
    for line in lines:
        if line.startswith("write "):
            _, cycle, channel, value = line.split(" ")
            found.append(Write(int(cycle), int(channel, 8), int(value, 8)))
    return found


def _check_version(program: str, name: str) -> None:
    """Checks that a program found beside this client or on the path has the client's version."""
    try:
        done = subprocess.run([program, "--version"], stdin=subprocess.DEVNULL, stdout=subprocess.PIPE, stderr=subprocess.PIPE)
    except OSError as error:
        raise Ended(f"{program}: {error.strerror}", None) from None
    answer = done.stdout.decode(errors="replace").strip()
    if answer != f"{name} {__version__}":
        found = answer or done.stderr.decode(errors="replace").strip() or f"status {done.returncode}"
        what = "the console" if name == CONSOLE else f"the {name}"
        raise Ended(f"{program} is not {what} of this client, version {__version__}: {found}", done.returncode)


def _program(named: Union[None, Path, Sequence[str]], name: str = CONSOLE) -> List[str]:
    """The words that start a program."""
    if named is None:
        here = os.path.dirname(os.path.realpath(__file__))
        beside = os.path.join(here, "..", "..", name)
        found = beside if os.access(beside, os.X_OK) else shutil.which(name)
        if found is None:
            raise Ended(f"{name} is neither in the folder of this client nor on the path", None)
        _check_version(found, name)
        return [found]
    if isinstance(named, (str, os.PathLike)):
        return [os.fspath(named)]
    return list(named)


def _octal(text: str) -> int:
    return int(text, 8)


class Samples:
    """The rows of `agc-study sample`. Each loop over them runs the program anew; one that is broken off ends it."""

    def __init__(self, words: List[str], quantities: str) -> None:
        """The words start the program; `quantities` is the file that says what it prints."""
        self.words = words
        self._quantities = quantities

    def __iter__(self) -> Iterator[Row]:
        readers = self._readers()
        with self._running() as (names, output):
            kinds = [readers.get(name, float) for name in names]
            for line in output:
                yield {name: kind(text) for name, kind, text in zip(names, kinds, line.split(","))}

    def frame(self) -> Any:
        """Returns the rows as a frame of pandas: a column each, in the order of the file."""
        try:
            import pandas
        except ImportError:
            raise Error("a frame needs pandas, which is not there: install it (Debian: python3-pandas), or loop over the rows") from None
        readers = self._readers()
        with self._running() as (names, output):
            octals = [name for name in names if readers.get(name) is _octal]
            kinds = {name: "int64" if name in readers else "float64" for name in names if name not in octals}
            try:
                return pandas.read_csv(output, header=None, names=names, dtype=kinds, converters=dict.fromkeys(octals, _octal), float_precision="round_trip")
            except pandas.errors.EmptyDataError:
                return pandas.DataFrame({name: pandas.Series(dtype=kinds.get(name, "int64")) for name in names})

    def _readers(self) -> Dict[str, Callable[[str], int]]:
        """How the columns that have integers are read."""
        readers: Dict[str, Callable[[str], int]] = {"cycle": int}
        try:
            with open(self._quantities, encoding="ascii", errors="replace") as file:
                lines = [line.partition("#")[0].split() for line in file]
        except OSError:
            return readers  # the program says what is wrong
        for fields in lines:
            if fields[2:3] == ["bits"]:
                readers[fields[0]] = int
            elif fields[2:3] == ["octal"]:
                readers[fields[0]] = _octal
        return readers

    @contextlib.contextmanager
    def _running(self) -> Iterator[Tuple[List[str], IO[str]]]:
        """Runs the program: the names of the columns, and the lines after these. It must have ended well at their end."""
        with _message_file() as errors:
            try:
                process = subprocess.Popen(self.words, stdin=subprocess.DEVNULL, stdout=subprocess.PIPE, stderr=errors)
            except OSError as error:
                raise Ended(f"{self.words[0]}: {error.strerror}", None) from None
            assert process.stdout is not None
            try:
                with io.TextIOWrapper(process.stdout, encoding="ascii", newline="\n") as output:
                    heading = output.readline()
                    if heading:
                        yield heading.rstrip("\n").split(","), output
                if process.wait() != 0 or not heading:
                    raise _ended(errors, process.returncode, "the program")
            finally:
                process.kill()
                process.wait()


def sample(
    rope: Path,
    script: Path,
    limit: int,
    quantities: Path,
    *,
    every: Optional[int] = None,
    at: Optional[Place] = None,
    changes: bool = False,
    names: Optional[Path] = None,
    options: Sequence[str] = (),
    program: Union[None, Path, Sequence[str]] = None,
) -> Samples:
    """What a program computes over time: the rows of `agc-study sample`, of which `frame()` is a frame of pandas.

        for row in sample("examples/descent/rope", "landing", 15_000_000, "examples/descent/quantities",
                          every=85333, names="examples/descent/names"):
            print(row["seconds"], row["altitude"])

    A row comes `every` number of cycles, `at` each arrival of the order at a place, or with `changes` after each change
    of a quantity. `options` are other words of the command line, as ("--from", "100000"). The program is `agc-study` beside
    the console of this client, or on the path; `program` names another one. What it refuses is an `Ended`."""
    chosen = [*([] if every is None else [f"--every={every}"]), *([] if at is None else [f"--at={_place(at)}"]), *["--changes"] * changes]
    if len(chosen) != 1:
        raise TypeError("one of every, at and changes says which rows there are")
    words = [*_program(program, STUDY), "sample", *chosen, f"--limit={limit}", f"--quantities={os.fspath(quantities)}"]
    if names is not None:
        words.append(f"--names={os.fspath(names)}")
    return Samples([*words, *options, "--", os.fspath(rope), os.fspath(script)], os.fspath(quantities))
