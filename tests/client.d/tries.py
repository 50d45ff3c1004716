"""The client of agc-console, call by call."""

import contextlib
import os
import pickle
import resource
import shutil
import signal
import subprocess
import sys
import tempfile
import threading
import time

import agc as client
from agc import Breakpoint, Came, Console, Ended, Hit, Location, NotSaved, Number, Refused, Registers, Where, Write
from judge import AGC, CONSOLE, TOP, attempt, depends_on_time, finish, judge

program, console, top = AGC, CONSOLE, TOP


def raised(kind, call, *words):
    """The text of the exception of this kind that a call raises, or what it returns."""
    try:
        return call(*words)
    except kind as error:
        return str(error)


def refused(call, *words):
    """The name and the sentence of the fault for which a call is refused, or what it returns."""
    try:
        return call(*words)
    except Refused as error:
        return error.name, str(error)


def example(name, **named):
    return Console(os.path.join(top, "examples", name, "rope"), program=console, **named)


def example_of(program):
    return Console(os.path.join(top, "examples", "keys", "rope"), program=program)


def timed(call, *words, seconds=0.05):
    """Calls, for a twentieth of a second at most, or as many seconds as are named."""

    def late(number, frame):
        raise TimeoutError("time")

    signal.signal(signal.SIGALRM, late)
    signal.setitimer(signal.ITIMER_REAL, seconds)
    try:
        return call(*words)
    finally:
        signal.setitimer(signal.ITIMER_REAL, 0)


def script_of(name):
    return os.path.join(top, "examples", name, "script")


def try_keys():
    """The session of examples/console/keys."""
    with example("keys") as agc:
        judge("it begins at 0", (0, None), (agc.cycle, agc.stop))
        judge("no writes yet", [], agc.go(10))
        agc.key("4")
        judge("what comes next", "- interrupt KEYRUPT1", agc.next())
        judge("a write", [Write(cycle=30, channel=0o10, value=0o44017)], agc.go(30))
        judge("the panel", ("_4", "off", "none"), tuple(agc.panel()[name] for name in ("NOUN", "FLASH", "LAMPS")))
        judge("on to a cycle", ([], 200), (agc.go_to(200), agc.cycle))
        agc.key("2")
        judge("until a write", Came(True, [Write(220, 0o10, 0o44771)]), agc.until_write(0o10))
        judge("the count", 2, agc.count_of_writes())
        judge("a cell", 2, agc.cell("0101"))
        judge("cells", [4, 2], agc.cells("100", 2))
        judge("cells by an address", [4, 2], agc.cells(0o100, 2))
        judge("a channel", 2, agc.channel(0o15))
        judge("the script", "10 key 4\n200 key 2\n", agc.script())
        agc.back(200)
        judge("back", (200, 1, "10 key 4\n"), (agc.cycle, agc.count_of_writes(), agc.script()))
        judge("back to the interrupt of the key", (True, 10), (agc.back_until_interrupt(), agc.cycle))
        judge("its key comes again", ("- event key 4", "10 key 4\n"), (agc.next(), agc.script()))
        judge("and writes again", [Write(cycle=30, channel=0o10, value=0o44017)], agc.go(30))


def try_events():
    """Each event, and its line in the script."""
    with example("watch") as agc:
        agc.input(0o30, 0o37776)
        agc.pro(True)
        judge("PRO is down", 0o57777, agc.channel(0o32))
        agc.pro(False)
        judge("PRO by a name", "PRO is down or not: True or False", raised(TypeError, agc.pro, "up"))
        agc.pulse(0o37, "pinc")
        judge("a pulse costs a cycle", (1, 1), (agc.cycle, agc.cell("37")))
        agc.poke(3, 0, 0o12345)
        agc.raise_interrupt(8)
        wanted = "0 input 30 37776\n0 pro down\n0 pro up\n0 pulse 37 pinc\n1 poke 3 0 12345\n1 raise 8\n"
        judge("the script of events", wanted, agc.script())
        lines = ["1 - interrupt DOWNRUPT | A 000000 L 00000 Q 000000 Z 4041 EB 0 FB 00"]
        judge("a step", lines, agc.step())
        judge("registers", Registers(a=0, l=0, q=0, z=0o4041, eb=0, fb=0, bb=0), agc.registers())
        judge("steps", 2, len(agc.step(2)))
        judge("until a place", (Came(True, []), 0), (agc.until("4000"), agc.registers().a))
        judge("until an address", (Came(True, []), 0), (agc.until(0o4000), agc.registers().a))
        judge("tables", 12, len(agc.tables("1,0,2,1,100,1,200")))


def try_deferred():
    """Deferred events: the script of try_events and its writes, with fewer exchanges; refused ones; the end."""
    wanted = "0 input 30 37776\n0 pro down\n0 pro up\n0 pulse 37 pinc\n1 poke 3 0 12345\n1 raise 8\n"
    with example("watch") as agc:
        said = []
        agc.on_answer = lambda command, answer: said.append((command, answer.cycle))
        agc.defer()
        agc.input(0o30, 0o37776)
        agc.pro(True)
        agc.pro(False)
        agc.pulse(0o37, "pinc")
        judge("they wait", [], said)
        judge("a look sends them", (1, None), (agc.cycle, agc.stop))
        agc.poke(3, 0, 0o12345)
        agc.raise_interrupt(8)
        judge("a cell is read after them", 0o12345, agc.cell("E3,1400"))
        answers = [("input 30 37776", 0), ("pro down", 0), ("pro up", 0), ("pulse 37 pinc", 1), ("poke 3 0 12345", 1), ("raise 8", 1)]
        judge("each has its answer, in order", answers, said[:6])
        judge("the script of events", wanted, agc.script())
        agc.key("ENTER")
        agc.key("4")
        judge("a refused one", "unknown key; did you mean ENTR?", raised(Refused, agc.go, 9))
        judge("the next call has happened", True, agc.cycle >= 10)
        judge("and the events after it", wanted + "1 key 4\n", agc.script())
        judge("two lines are no key", "no command: 'key 1\\nkey 1'", raised(ValueError, agc.key, "1\nkey 1"))
        judge("deferred or not", "deferred or not: True or False", raised(TypeError, agc.defer, "yes"))
        agc.raise_interrupt(4)
        agc.defer(False)
        judge("the end of it sends them", ("raise 4", True), (said[-1][0], agc.script().endswith(" raise 4\n")))
    with example("keys") as agc:
        agc.defer()
        for _ in range(2500):
            agc.pulse(0o37, "pinc")
        agc.key("4")
    judge("a close sends them", (2501, "2500 key 4"), (len(agc.script().splitlines()), agc.script().splitlines()[-1]))
    with example("timers", script=script_of("timers")) as agc:
        wanted = [*agc.go_to(700), *agc.go_to(1400)]
        agc.raise_interrupt(4)
        wanted, last, told = wanted + agc.go_to(2000), agc.go_to(9000), agc.script()
    with example("timers", script=script_of("timers")) as agc:
        agc.go_later(700)
        judge("a run that is not deferred", (wanted[:1], 700), (agc.passed, agc.cycle))
        agc.passed.clear()
        agc.back(0)
        said = []
        agc.on_answer = lambda command, answer: said.append(command)
        agc.defer()
        agc.go_later(700)
        agc.go_later(1400)
        agc.raise_interrupt(4)
        agc.go_later(2000)
        judge("runs wait, too", ([], []), (said, agc.passed))
        judge("the next one goes on from there", last, agc.go_to(9000))
        judge("their writes", wanted, agc.passed)
        judge("they are done in order", ["go to 700", "go to 1400", "raise 4", "go to 2000", "go to 9000"], said)
        judge("and the script is the same", told, agc.script())
        agc.passed.clear()
        agc.back(0)
        agc.go_later(700)
        judge("a look sends a run", (700, wanted[:1]), (agc.cycle, agc.passed))
    with example("division") as agc:
        agc.defer()
        agc.go(100)
        judge("a stopped machine refuses at once", "the machine takes no event any more", raised(Refused, agc.key, "1"))
    with example("keys", limit=10) as agc:
        agc.defer()
        agc.go(10)
        judge("and so does one at its limit", True, raised(Refused, agc.key, "1") is not None)


def try_until():
    """The sessions of examples/console/until and stop."""
    with example("timers", script=script_of("timers")) as agc:
        judge("until a cell changes", (Came(True, []), 647), (agc.until_cell("100"), agc.cycle))
        judge("what does not come", Came(False, []), agc.until("4100", within=0))
        writes = [Write(654, 0o11, 1), Write(1508, 0o11, 2)]
        judge("the second write", (Came(True, writes), 1510), (agc.until_write(0o11, ignore=1), agc.cycle))
        judge("the first again", (True, 654), (agc.back_until_write(0o11, ignore=1), agc.cycle))
        agc.back(0)
        line, cell = agc.step(1600, cell="100")[-2:]
        judge("what changes a cell", ("1499 4100", "cell 0100 00002"), (line[:9], cell))
        judge("back to its first change", (True, 645), (agc.back_until_cell("100", ignore=1), agc.cycle))
        judge("to its second", (True, 1501), (agc.until_cell("100", ignore=1).came, agc.cycle))
        judge("back to an order", (True, 645), (agc.back_until("4100", ignore=1), agc.cycle))
        judge("and to the next but one", (True, 2352), (agc.until("4100", ignore=1).came, agc.cycle))
        number = agc.break_at("4100")
        agc.back(0)
        judge("past a breakpoint", (number, 1499), (agc.continue_(ignore=1).breakpoint, agc.cycle))
    with example("division", limit=100, form="classic") as agc:
        judge("until the stop", Came(False, [Write(3, 0o10, 2)]), agc.until_write(0o11))
        judge("the stop", ("DivisionUndefined", 6), (agc.stop, agc.cycle))
        judge("no event", ("Stopped", "the machine takes no event any more"), refused(agc.key, "1"))
        agc.back(5)
        judge("back from the stop", (None, 5), (agc.stop, agc.cycle))


def try_writes():
    """The iterator, with an event between two writes; and the told script in agc."""
    with example("timers", script=script_of("timers")) as agc:
        writes = agc.writes(until=10000, channel=0o11)
        first = next(writes)
        judge("the first write", (Write(654, 0o11, 1), 656), (first, agc.cycle))
        agc.poke(0, 0o100, 0o77)
        found = [first, *writes]
        judge("the second write has what was given", Write(1508, 0o11, 0o100), found[1])
        judge("the writes end", True, agc.cycle >= 10000)
        with tempfile.NamedTemporaryFile("w") as told:
            told.write(agc.script())
            told.flush()
            rope = os.path.join(top, "examples", "timers", "rope")
            words = [program, rope, told.name, "--limit", str(agc.cycle), "--log"]
            log = subprocess.run(words, capture_output=True, text=True, check=True).stdout.splitlines()[9:]
        judge("agc makes the same run", log, [f"{write.cycle} {write.channel:03o} {write.value:05o}" for write in found])
    with example("timers", script=script_of("timers")) as agc:
        judge("all writes", [Write(654, 0o11, 1), Write(1508, 0o11, 2)], list(agc.writes(until=2000)))
    with example("division") as agc:
        judge("writes up to the stop", [Write(3, 0o10, 2)], list(agc.writes()))


def try_faults():
    """What is refused, and consoles that have ended."""
    with example("keys") as agc:
        judge("a fault", ("BadChannel", "a channel is octal, 0 to 777"), refused(agc.channel, 0o1000))
        no_writes = "BadChannel", "only channels 5 to 777 octal show writes"
        judge("a channel that shows no writes", no_writes, refused(agc.until_write, 4))
        judge("and a loop over its writes", no_writes, refused(lambda: list(agc.writes(channel=4))))
        ahead = "Ahead", "the machine has not reached this cycle; go to C runs on to it"
        judge("a cycle ahead", ahead, refused(agc.back, agc.cycle + 1))
        judge("a key with another name", ("BadEvent", "unknown key; did you mean ENTR?"), refused(agc.key, "ENTER"))
        judge("the form of a command", ("Usage", "usage: channel CCC"), refused(agc.say, "channel"))
        no_tables = "tables are seven octal numbers with commas between"
        for spec in ("", "0100", "12,2000", "1,2,3"):
            name, sentence = refused(agc.tables, spec)
            judge(f"tables at {spec!r}", ("BadSpec", no_tables), (name, sentence[:len(no_tables)]))
        same = pickle.loads(pickle.dumps(client.Refused("a sentence: of two parts", "BadSpec")))
        judge("a fault that was pickled", ("BadSpec", "a sentence: of two parts"), (same.name, str(same)))
        judge("no breakpoint was set", [], agc.breaks())
        judge("two lines are no command", "no command: 'go 1\\ngo 1'", raised(ValueError, agc.say, "go 1\ngo 1"))
        judge("nothing has changed", (0, 0), (agc.say("writes").cycle, agc.count_of_writes()))
        agc.close()
        agc.close()
        judge("a closed console", "the console is closed", raised(Ended, agc.go, 1))
    with example("keys") as agc:
        judge("quit ends it", "the console ended with status 0", raised(Ended, agc.say, "quit"))
        judge("it stays so", "the console ended with status 0", raised(Ended, agc.go, 1))
    missing = "no-such-program: No such file or directory"
    judge("no program", missing, raised(Ended, lambda: example_of("no-such-program")))
    with example("keys") as agc:
        judge("a call that takes too long", "time", raised(TimeoutError, timed, agc.go, 10**9))
        judge("ends the console", "the console is closed", raised(Ended, agc.channel, 0o30))
    try:
        Console("/dev/null", program=[console])
        judge("an empty rope", "refused", "taken")
    except Ended as error:
        judge("an empty rope", ("agc-console: rope: Empty", 1), (str(error), error.status))
    judge("a limit of 0", "agc-console: limit: Zero", raised(Ended, lambda: example("keys", limit=0)))


def try_names():
    """places by their names"""
    names = os.path.join(top, "examples", "console", "names", "names")
    with example("study/trace-key", names=names) as agc:
        idle = "0 4000 IDLE         14000 TCF 4000 | A 000000 L 00000 Q 000000 Z 4001 EB 0 FB 00"
        judge("a name beside its place", [idle], agc.step())
        agc.key("VERB")
        judge("a name for a place", True, agc.until("KEYIN").came)
        judge("a name for a cell", 0, agc.cell("COUNT+1"))


def a_countdown():
    """The countdown of examples/debugging, with its names; the cycles are those of its source."""
    return example("debugging", script=script_of("debugging"), names=os.path.join(top, "examples", "debugging", "names"))


def try_breakpoints():
    """breakpoints of each kind, in the countdown"""
    with a_countdown() as agc:
        lamp = Breakpoint(1, "write 011 00100")
        write = Breakpoint(2, "write 010 30031")
        order = Breakpoint(3, "order 02,4066")
        cell = Breakpoint(4, "cell 0100")
        interrupt = Breakpoint(5, "interrupt T4RUPT")
        judge("a breakpoint at the write that lights a lamp", lamp, agc.break_write(0o11, 0o100))
        judge("at a write of a word", write, agc.break_write(0o10, 0o30031))
        judge("at an order", order, agc.break_at("TICK"))
        judge("at a cell", cell, agc.watch("LEFT"))
        judge("at an interrupt", interrupt, agc.break_interrupt("T4RUPT"))
        judge("breakpoints run nothing", 0, agc.cycle)
        judge("the cell changes", (Hit(cell, []), 5), (agc.continue_(), agc.cycle))
        agc.delete(cell)
        judge("not within so many cycles", (Hit(None, [Write(11, 0o10, 0o30033)]), 105), (agc.continue_(100), agc.cycle))
        judge("the interrupt comes next", (Hit(interrupt, []), 85121), (agc.continue_(), agc.cycle))
        judge("its name", "- interrupt T4RUPT", agc.next())
        judge("the order comes next", (Hit(order, []), 85125), (agc.continue_(), agc.cycle))
        judge("the write has come", (Hit(write, [Write(85144, 0o10, 0o30031)]), 85146), (agc.continue_(), agc.cycle))
        judge("those that are left", [lamp, write, order, interrupt], agc.breaks())
        for number in (2, 3, 5):
            agc.delete(number)
        no_number = "NoBreakpoint", "no breakpoint has this number; breaks lists them"
        judge("a number that is gone", no_number, refused(agc.delete, 2))
        rest = [Write(170478, 0o10, 0o30003), Write(255811, 0o10, 0o30025), Write(300010, 0o11, 0o100)]
        judge("the lamp", (Hit(lamp, rest), 300012), (agc.continue_(), agc.cycle))
        judge("a number is given once", Breakpoint(6, "write 010"), agc.break_write(0o10))
        judge("no such interrupt", "BadInterrupt", refused(agc.break_interrupt, "T4")[0])


def try_conditions():
    """orders with conditions, forwards and backwards, in the countdown"""
    with a_countdown() as agc:
        last = Breakpoint(1, "order 02,4066 if 0100 < 00002")
        key = Breakpoint(2, "order 02,4104 if 0100 = 77777")
        judge("a condition on a breakpoint", last, agc.break_at("TICK", condition="LEFT < 2"))
        judge("with a decimal word", key, agc.break_at(0o4104, condition="LEFT = -0"))
        agc.quiet()
        judge("the turn at 1", (Hit(last, []), 255792), (agc.continue_(), agc.cycle))
        judge("the key at -0", (Hit(key, []), 300004), (agc.continue_(), agc.cycle))
        judge("back to the turn at 2", (True, 170459), (agc.back_until("TICK", condition="LEFT = 2"), agc.cycle))
        judge("there is no other", (False, 170459), (agc.back_until("TICK", condition="LEFT = 2"), agc.cycle))
        came = agc.until("TICK", 100000, condition="LEFT != 2")
        judge("forwards again", (Came(True, []), 255792), (came, agc.cycle))
        judge("what does not come", Came(False, []), agc.until("TICK", 10, condition="LEFT > +3"))
        judge("no such sign", "BadRelation", refused(lambda text: agc.break_at("TICK", condition=text), "LEFT ~ 2")[0])
        judge("a word too large", "BadWord", refused(lambda text: agc.break_at("TICK", condition=text), "LEFT < 100000")[0])
        judge("both are left", [last, key], agc.breaks())


def try_panel_breakpoints():
    """breakpoints at the panel, in the countdown"""
    with a_countdown() as agc:
        lamp = Breakpoint(1, "panel LAMPS OPR ERR")
        one = Breakpoint(2, "panel R1 _____1")
        change = Breakpoint(3, "panel")
        judge("a breakpoint at a lamp", lamp, agc.break_panel("LAMPS OPR ERR"))
        judge("at a line", one, agc.break_panel("R1 _____1"))
        counted = [Write(11, 0o10, 0o30033), Write(85144, 0o10, 0o30031), Write(170478, 0o10, 0o30003)]
        judge("the line is shown", (Hit(one, counted), 170480), (agc.continue_(), agc.cycle))
        judge("at any change", change, agc.break_panel())
        judge("the panel changes", (Hit(change, [Write(255811, 0o10, 0o30025)]), 255813), (agc.continue_(), agc.cycle))
        agc.delete(change)
        judge("the lamp lights", (Hit(lamp, [Write(300010, 0o11, 0o100)]), 300012), (agc.continue_(), agc.cycle))
        judge("both stay as they were", [lamp, one], agc.breaks())
        judge("no such line", "BadLine", refused(agc.break_panel, "R1 +1")[0])


def try_backwards():
    """ways back to what happened last, in the countdown; the cycles are those of its source"""
    wait = Location("4065", "WAIT")
    with a_countdown() as agc:
        judge("where it begins", Where(Location("4000", None), None), agc.where())
        judge("nothing has happened", [False] * 3, [agc.back_step(), agc.back_until("4000"), agc.back_until_cell("LEFT")])
        agc.go_to(400000)
        judge("while it waits", Where(wait, None), agc.where())
        judge("back to the lamp", (True, 300010), (agc.back_until_panel(), agc.cycle))
        judge("within a service", Where(Location("4114", "LIGHT+1"), wait), agc.where())
        judge("one boundary back", (True, 300009), (agc.back_step(), agc.cycle))
        judge("three more", (True, 300004), (agc.back_step(3), agc.cycle))
        judge("back to a change of a cell", (True, 255803), (agc.back_until_cell("LEFT"), agc.cycle))
        judge("it has not come yet", 1, agc.cell("LEFT"))
        judge("at an order that may be wrong", Where(Location("4074", "TICK+6"), wait), agc.where())
        judge("back to an order", (True, 255792), (agc.back_until("TICK"), agc.cycle))
        judge("by its address", (True, 170459), (agc.back_until(0o4066), agc.cycle))
        judge("back to an interrupt", (True, 170455), (agc.back_until_interrupt("T4RUPT"), agc.cycle))
        judge("and to the one before", (True, 85121), (agc.back_until_interrupt(), agc.cycle))
        agc.go_to(170459)
        judge("the same at once", (True, 85121), (agc.back_until_interrupt("T4RUPT", ignore=1), agc.cycle))
        judge("no such word was written", (False, 85121), (agc.back_until_write(0o10, 0o30003), agc.cycle))
        judge("back to the write of a word", (True, 11), (agc.back_until_write(0o10, 0o30033), agc.cycle))
        judge("nothing was written before", (False, 11), (agc.back_until_write(0o10), agc.cycle))
        judge("so many boundaries back are none", (False, 11), (agc.back_step(1000), agc.cycle))
        for call, word, fault in (
            (agc.back_until_write, 4, "BadChannel"), (agc.back_until_cell, "START", "NotErasable"), (agc.back_until, "NOWHERE", "BadPlace"),
            (agc.back_until_interrupt, "T4", "BadInterrupt"), (agc.back_step, -1, "BadNumber"),
        ):
            judge(f"a fault: {word}", fault, refused(call, word)[0])
        judge("and nothing is done", 11, agc.cycle)
    with example("division", limit=100) as agc:
        agc.go(100)
        judge("back from a stop", (True, 3, None), (agc.back_until_write(0o10), agc.cycle, agc.stop))


def try_ahead():
    """boundaries that are shown and not taken; each order of the idle loop takes a cycle"""
    rope = os.path.join(top, "examples", "study", "trace-key", "rope")
    with Console(rope, program=console) as agc:
        order = "4000 14000 TCF 4000 | A 000000 L 00000 Q 000000 Z 4001 EB 0 FB 00"
        judge("the next two", [f"0 {order}", f"1 {order}"], agc.ahead(2))
        judge("and the next one", ([f"0 {order}"], 0), (agc.ahead(), agc.cycle))
        agc.key("1")
        judge("after a key", ["0 - interrupt KEYRUPT1"], [line.split(" |")[0] for line in agc.ahead()])
        judge("they come", agc.ahead(3), agc.step(3))


def try_banks():
    """the session of examples/console/banks"""
    folder = os.path.join(top, "examples", "console", "banks")
    with Console(os.path.join(folder, "rope"), names=os.path.join(folder, "names"), program=console) as agc:
        agc.go_to(10)
        judge("in a bank", Where(Location("00,2000", "WAIT"), None), agc.where())
        agc.key("4")
        agc.go_to(20)
        judge("it interrupted an order in some bank", Where(Location("4062", "KEYIN+2"), Location("2000", None)), agc.where())


def try_numbers():
    """cells as numbers"""
    with a_countdown() as agc:
        agc.until_cell("LEFT")
        judge("a positive number", [Number("0100", 3, "3")], agc.print("LEFT"))
        agc.poke(0, 0o100, 0o77777)
        agc.poke(0, 0o101, 0o77775)
        wanted = [Number("0100", 0o77777, "-0"), Number("0101", 0o77775, "-2"), Number("0102", 0, "0")]
        judge("-0, a negative number and +0", wanted, agc.print(0o100, 3))


def try_quiet():
    """a console that prints no writes"""
    with a_countdown() as agc:
        agc.quiet()
        judge("no writes", ([], Came(True, [])), (agc.go(100), agc.until_write(0o10)))
        judge("they have happened", 2, agc.count_of_writes())
        quiet = "the console is quiet: it prints no writes"
        judge("a loop over writes", quiet, raised(ValueError, lambda: list(agc.writes(until=200000))))
        judge("quiet by a name", "quiet or not: True or False", raised(TypeError, agc.quiet, "off"))
        agc.quiet(False)
        judge("writes again", [Write(170478, 0o10, 0o30003)], list(agc.writes(until=200000)))


def try_signals():
    """a command that is longer than a pipe, and is written among signals: each may cut a write short"""
    came = []
    with example("keys") as agc:
        signal.signal(signal.SIGALRM, lambda number, frame: came.append(number))
        signal.setitimer(signal.ITIMER_REAL, 0.001, 0.001)
        patience = threading.Timer(60, agc.kill)
        patience.start()
        try:
            long = refused(agc.say, "go " + "1" * (1 << 24))
        finally:
            patience.cancel()
            signal.setitimer(signal.ITIMER_REAL, 0)
        judge("it arrives whole, and is too long", "LineTooLong", long[0])
        judge("there were signals", True, came != [])
        agc.key("4")
        judge("the session goes on", "0 key 4\n", agc.script())


def try_odd_words():
    """what cannot be sent, and files whose names look like options"""
    with example("keys") as agc:
        agc.go(10)
        judge("a key that has no bytes", "no command: 'key \\ud800'", raised(ValueError, agc.key, "\ud800"))
        judge("a key beyond ASCII", ("NotAscii", "a line is ASCII only"), refused(agc.key, "é"))
        agc.key("4")
        judge("the session goes on", "10 key 4\n", agc.script())
    rope = os.path.join(top, "examples", "study", "trace-key", "rope")
    listens = os.path.abspath(console) if os.sep in console else console
    before = os.getcwd()
    with tempfile.TemporaryDirectory() as folder:
        os.chdir(folder)
        try:
            with open("-n", "w") as names:
                names.write("4000 HERE\n")
            with Console(rope, names="-n", program=listens) as agc:
                judge("a file of names called -n", "4000 HERE         14000 TCF 4000", agc.next())
        finally:
            os.chdir(before)


def forked(act):
    """A child of this process that does this, and then waits to be killed."""
    child = os.fork()
    if child == 0:
        try:
            act()
            signal.pause()
        finally:
            os._exit(0)
    return child


def try_children():
    """children that were forked while a console was open, and have its pipes too"""
    agc = example("keys")
    child = forked(lambda: None)
    try:
        judge("a close while a child lives", None, raised(TimeoutError, lambda: timed(agc.close, seconds=10)))
    finally:
        os.kill(child, signal.SIGKILL)
        os.waitpid(child, 0)
    with example("keys") as agc:
        read_end, write_end = os.pipe()

        def closes():
            agc.close()
            os.write(write_end, b"closed")

        child = forked(closes)
        judge("a child closes its console", b"closed", os.read(read_end, 6))
        judge("the session goes on without the child", ([], 1), (agc.go(1), agc.cycle))
        os.kill(child, signal.SIGKILL)
        os.waitpid(child, 0)
        os.close(read_end)
        os.close(write_end)


class Broken(Exception):
    """What goes wrong within a session."""


def try_left_scripts():
    """the script of a console that has ended"""
    try:
        with example("keys") as agc:
            agc.go(10)
            agc.key("4")
            raise Broken()
    except Broken:
        judge("the script after an exception", "10 key 4\n", agc.script())
    with example("keys") as agc:
        agc.go(10)
        agc.key("4")
        judge("a call that takes too long", "time", raised(TimeoutError, timed, agc.go, 10**9))
    judge("the script after a call that was broken off", "10 key 4\n", agc.script())
    with tempfile.NamedTemporaryFile("w") as first:
        first.write("0 pulse 37 pinc\n0 poke 0 100 1\nevery 20 20 60 input 30 5\n")
        first.flush()
        with example("keys", script=first.name) as agc:
            agc.key("1")  # after the script's pulse, so at cycle 1
            agc.pulse(0o37, "minc")
            agc.go_to(40)
            agc.pro(True)
            agc.go_to(50)
            agc.raise_interrupt(8)
            judge("an event that is dropped", ["50 raise 8"], agc.back(45, dropped=True))
            judge("nothing to drop", ([], []), (agc.back(45, dropped=True), agc.back(45)))
            agc.input(0o31, 7)
            agc.step(3)
            agc.raise_interrupt(8)
            judge("dropped by a search", ["48 raise 8"], agc.say("back list until 4000").lines)
            agc.pro(False)
            agc.back_step()  # to before this event, which stays
            refused(agc.key, "ENTER")
            told = agc.script()
        # the idle order takes one cycle, and so the machine stands at each of these cycles
        wanted = (
            "0 pulse 37 pinc\n0 poke 0 100 00001\n1 key 1\n1 pulse 37 minc\n20 input 30 00005\n40 input 30 00005\n"
            "40 pro down\n45 input 31 00007\n47 pro up\n60 input 30 00005\n"
        )
        judge("the script of events before, between and after the script's own", (wanted, wanted), (told, agc.script()))


def try_save():
    """the script in a file"""
    with tempfile.TemporaryDirectory() as folder:
        name = os.path.join(folder, "saved")
        with example("keys") as agc:
            agc.go(10)
            agc.key("4")
            agc.save(name)
            agc.key("5")
            judge("a file that exists", True, "exists" in raised(FileExistsError, agc.save, name))
            with open(name) as saved:
                judge("the saved script stays", "10 key 4\n", saved.read())
        agc.save(name + "2")
        with Console(os.path.join(top, "examples", "keys", "rope"), name + "2", program=console) as again:
            judge("the saved script is the session's", agc.script(), again.script())


@contextlib.contextmanager
def full_disk():
    """Within it this process writes to no file, as on a full disk, and finds no folder for temporary files."""
    usual, before = tempfile.tempdir, resource.getrlimit(resource.RLIMIT_FSIZE)
    tempfile.tempdir = "/no/such/folder"
    resource.setrlimit(resource.RLIMIT_FSIZE, (0, before[1]))
    try:
        yield
    finally:
        tempfile.tempdir = usual
        resource.setrlimit(resource.RLIMIT_FSIZE, before)


def try_full_disk():
    """a disk that is full: a session begins, and goes on; what cannot be written is said by the client's own errors"""
    with tempfile.TemporaryDirectory() as folder:
        name = os.path.join(folder, "saved")
        with full_disk(), example("keys") as agc:
            agc.go(10)
            agc.key("4")
            judge("the script is not saved", f"{name}: File too large", raised(NotSaved, agc.save, name))
            judge("and no file is left", [], os.listdir(folder))
            judge("nor one in no folder", "/no/such/file: No such file or directory", raised(NotSaved, agc.save, "/no/such/file"))
            wanted = "no copy of the rope for another console: No such file or directory"
            judge("another console", wanted, raised(Ended, agc.again))
            judge("the session goes on", [Write(cycle=30, channel=0o10, value=0o44017)], agc.go(30))
        agc.save(name)
        with open(name) as saved:
            judge("the next try saves", "10 key 4\n", saved.read())
    usual = os.memfd_create
    del os.memfd_create  # as on other systems
    try:
        with full_disk():
            wanted = "there is no file for the console's messages: No such file or directory"
            judge("without files in memory", wanted, raised(Ended, example, "keys"))
        with example("keys") as agc:
            judge("files on the disk", ([], 1), (agc.go(1), agc.cycle))
    finally:
        os.memfd_create = usual


def try_deaths():
    """consoles that cannot start, die or stand still"""
    with tempfile.TemporaryDirectory() as folder:
        plain = os.path.join(folder, "plain")
        with open(plain, "w") as file:
            file.write("no program\n")
        for what, words, reason in (
            ("a folder", folder, "Permission denied"), ("no program", plain, "Permission denied"),
            ("nothing", os.path.join(folder, "none"), "No such file or directory"),
            ("a way through a file", os.path.join(plain, "none"), "Not a directory"),
        ):
            judge(f"{what} as the console", f"{words}: {reason}", raised(Ended, example_of, words))
    with example("keys") as agc:
        agc.go(10)
        agc.key("4")
        os.kill(agc._process.pid, signal.SIGKILL)
        judge("a console that was killed", ["the console ended with status -9"] * 2, [raised(Ended, agc.go, 1), raised(Ended, agc.panel)])
        judge("its script", "10 key 4\n", agc.script())
    agc = example("keys", detached=True)
    threading.Timer(0.2, agc.kill).start()
    began = time.monotonic()
    judge("kill by another thread", "the console ended with status -9", raised(Ended, agc.step, 10**9))
    agc.close()
    judge("it was at once", True, time.monotonic() - began < 2)
    usual, client.CLOSING = client.CLOSING, 0.2
    try:
        agc = example("keys")
        os.kill(agc._process.pid, signal.SIGSTOP)
        judge("a console that stands still is closed", None, raised(TimeoutError, lambda: timed(agc.close, seconds=10)))
        judge("and gone", False, agc.alive)
    finally:
        client.CLOSING = usual


def try_rope_changes():
    """another console has the rope with which the session began, whatever its file has now"""
    with tempfile.TemporaryDirectory() as folder:
        rope = os.path.join(folder, "rope")
        shutil.copy(os.path.join(top, "examples", "keys", "rope"), rope)
        with Console(rope, program=console) as agc:
            agc.key("4")
            wanted = agc.go(40)
            shutil.copy(os.path.join(top, "examples", "verbs", "rope"), rope)
            with agc.again() as other:
                other.key("4")
                judge("the same writes", (wanted, rope), (other.go(40), other.rope))
            os.unlink(rope)
            with agc.again() as other:
                other.key("4")
                judge("without the file", (wanted, True), (other.go(40), wanted != []))
    with tempfile.NamedTemporaryFile() as empty:
        judge("an empty rope", "agc-console: rope: Empty", raised(Ended, lambda: Console(empty.name, program=console)))
    judge("no rope", "agc-console: cannot read rope", raised(Ended, lambda: Console("/no/such/rope", program=console)))


def try_versions():
    """a client that starts the console beside it looks at its version"""
    client = sys.modules[Console.__module__].__file__
    with tempfile.TemporaryDirectory() as folder:
        beside = os.path.join(folder, "clients", "python")
        os.makedirs(beside)
        shutil.copy(client, beside)
        for version, wanted in (("0.9.0", "is not the console of this client"), ("1.0.0", "ended")):
            with open(os.path.join(folder, "agc-console"), "w") as stand_in:
                stand_in.write(f"#!/bin/sh\n[ \"$1\" != --version ] || {{ echo agc-console {version} && exit; }}\necho ended >&2\nexit 1\n")
            os.chmod(stand_in.name, 0o755)
            done = subprocess.run(
                [sys.executable, "-B", "-c", "from agc import Console\nConsole('rope')"],
                cwd=beside, stdout=subprocess.PIPE, stderr=subprocess.PIPE, env={**os.environ, "PYTHONPATH": beside},
            )
            judge(f"a console of version {version}", True, wanted in done.stderr.decode().splitlines()[-1])


depends_on_time()
for each in (
    try_versions, try_keys, try_events, try_deferred, try_until, try_writes, try_names, try_breakpoints, try_conditions,
    try_panel_breakpoints, try_backwards, try_ahead, try_banks, try_numbers, try_quiet, try_signals, try_odd_words, try_children, try_left_scripts, try_save, try_full_disk,
    try_deaths, try_rope_changes, try_faults,
):
    attempt(each)
finish()
