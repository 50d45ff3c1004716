"""Random sessions of agc-console against the plain run of agc on the script that each tells, and odd uses of it.

The words are seeds; behind `calls` only for sessions that step by calls.
"""

import os
import pty
import random
import re
import subprocess
import sys
import time

import control_c
from judge import AGC, CONSOLE, STUDY, TOP, attempt, depends_on_time, finish, judge, scratch_folder
from notes import try_notes
from places import try_places
from reading import LAMPS, faults_of, wrong_line
from replays import REPLAYS, try_kinds, try_replay
from searches import search
from session import Session, meaning
from walks import walk

agc, study, console, top, scratch = AGC, STUDY, CONSOLE, TOP, scratch_folder()
only_calls = sys.argv[1:2] == ["calls"]
seeds = [int(seed) for seed in sys.argv[1 + only_calls :]] or range(500 if only_calls else 200)
# The seeds whose sessions step by calls: with those of the others a filter over traces follows 500 sessions.
calling = seeds if sys.argv[1:] else range(300)

LAST_CYCLE = 1_000_000_000_000
TABLES = "0,100,4,0,100,0,200"
GIVEN = ("key ", "pro ", "input ", "pulse ", "raise ", "poke ")
TRACED = re.compile(r"(\d+) .* > (\d{3}) (\d{5}) \| ")


def random_rope(dice):
    """A rope of random words, most of them orders that do much, with RESUME at some vectors."""
    words = [0] * 0o100
    for place in range(len(words)):
        words[place] = dice.choice(
            [
                dice.randrange(0o100000),
                0o00006,
                0o01010,
                0o01011,
                0o05000 + dice.randrange(5, 0o200),
                0o24100 + dice.randrange(8),
                0o30100 + dice.randrange(8),
                0o34000 + dice.randrange(0o100),
                0o54100 + dice.randrange(8),
                0o60100 + dice.randrange(8),
                0o14000 + dice.randrange(0o100),
            ]
        )
    for vector in range(0o4, 0o54, 4):
        if dice.random() < 0.8:
            words[vector] = 0o50017
    words[0] = 0o14054
    return b"".join((word << 1).to_bytes(2, "big") for word in words)


def files_of(dice, seed):
    """A rope and a script: those of an example, or random ones."""
    script = os.path.join(scratch, f"{seed}.script")
    with open(script, "w") as file:
        cycle = 0
        for _ in range(dice.choice([0, 0, 3, 20])):
            cycle += dice.randrange(2000)
            file.write(f"{cycle} {an_event(dice)}\n")
    if dice.random() < 0.5:
        rope = os.path.join(scratch, f"{seed}.rope")
        with open(rope, "wb") as file:
            file.write(random_rope(dice))
        return rope, script
    example = os.path.join(top, "examples", dice.choice(["keys", "timers", "count-4", "downlink", "division", "watch"]))
    return os.path.join(example, "rope"), dice.choice([script, os.path.join(example, "script")])


def an_event(dice):
    """What a script may say after a cycle."""
    kind = dice.randrange(6)
    if kind == 0:
        return "key " + dice.choice("0 1 2 3 4 5 6 7 8 9 + - VERB NOUN ENTR CLR RSET KEYREL".split())
    if kind == 1:
        return dice.choice(["pro down", "pro up"])
    if kind == 2:
        return f"input {dice.choice([5, 7, 0o13, 0o16, 0o30, 0o32, 0o777]):o} {dice.randrange(0o100000):o}"
    if kind == 3:
        pulse = dice.choice("pinc minc pcdu mcdu shinc shanc".split())
        return f"pulse {dice.randrange(0o24, 0o61):o} {pulse}"
    if kind == 4:
        return f"raise {dice.randrange(1, 11)}"
    bank = dice.choice([0, 0, 0, 3, 7])
    return f"poke {bank} {dice.choice([0o27, 0o31, 0o100, 0o101, 0o377]):o} {dice.randrange(0o100000):o}"


def a_place(dice):
    place = dice.choice(["4000", "4054", "4020", "4100", "100", "10,2000", "E3,1400", "0027"])
    return place if dice.random() < 0.7 else f"{place} if {a_cell(dice)} {dice.choice(['<', '>', '=', '!='])} {dice.choice(['5', '-3', '77777'])}"


def a_cell(dice):
    return dice.choice(["100", "101", "27", "0", "E3,1400", "777"])


def a_breakpoint(dice):
    interrupt = dice.choice(["T4RUPT", "KEYRUPT1", "RUPT10"])
    return dice.choice([a_place(dice), "write 10", "write 11 00001", f"cell {a_cell(dice)}", f"interrupt {interrupt}"])


def a_line(dice):
    """A line of the panel."""
    name = dice.choice(["PROG", "VERB", "NOUN", "R1", "R2", "R3", "FLASH", "LAMPS"])
    if name == "LAMPS":
        return f"LAMPS {dice.choice(LAMPS)}"
    if name == "FLASH":
        return f"FLASH {dice.choice(['on', 'off'])}"
    digits = "".join(dice.choices("___0123456789?", k=2 if len(name) == 4 else 5))
    return f"{name} {digits if len(name) == 4 else dice.choice('+-_') + digits}"


def a_break(dice):
    """What `break` takes."""
    return dice.choice(["panel", f"panel {a_line(dice)}", *(a_breakpoint(dice) for _ in range(5))])


def a_way_back(dice, cycle):
    until = dice.choice(["interrupt", "panel", *(a_breakpoint(dice) for _ in range(6))])
    calls = dice.choice(["over", "finish", "over job 100"])
    way = dice.choice([str(dice.randrange(cycle + 500)), f"until {until}", "step", f"step {dice.randrange(1, 60)}", calls])
    return dice.choice(["back ", "back list "]) + way


def a_command(dice, cycle):
    """Any command, wrong ones among them, and now and then none."""
    kind = dice.randrange(23)
    within = dice.choice(["", f" within {dice.randrange(5000)}"])
    if kind < 4:
        return f"go {dice.choice([0, 1, 7, 100, 853, 5000, 30000])}"
    if kind == 4:
        return f"go to {dice.randrange(cycle + 3000)}"
    if kind == 5:
        return dice.choice(["step", "ahead", *(f"{name} {dice.randrange(60)}" for name in ("step", "ahead"))])
    if kind == 6:
        return f"until {a_place(dice)} within {dice.randrange(5000)}"
    if kind == 7:
        return f"until write {dice.choice(['10', '11', '7', '5'])}{within}"
    if kind == 8:
        return f"until cell {a_cell(dice)} within {dice.randrange(5000)}"
    if kind < 14:
        return an_event(dice)
    if kind == 14:
        return a_way_back(dice, cycle)
    if kind == 15:
        looks = ["panel", "registers", "next", "where", "writes", "script", "help", f"watch {TABLES}", "", "# so"]
        return dice.choice(looks)
    if kind == 16:
        return dice.choice([f"cell {a_cell(dice)}", f"cell 100 {dice.randrange(1, 9)}", "channel 10", "channel 777"])
    if kind == 17:
        return dice.choice([f"break {a_break(dice)}", "breaks", f"print {a_cell(dice)}"])
    if kind < 20:
        return f"continue within {dice.randrange(5000)}"
    if kind == 20:
        return dice.choice(["over", "finish"]) + dice.choice(["", " job 100"]) + f" within {dice.randrange(5000)}"
    return wrong_line(dice)


def shown_in(command, lines):
    """The channel writes that an answer tells, as agc's log has them."""
    if command.startswith("step"):
        return [f"{found[1]} {found[2]} {found[3]}" for found in map(TRACED.match, lines) if found]
    return [line[len("write ") :] for line in lines if line.startswith("write ")]


def steps_as_shown(session, command, coming):
    """Takes the steps that an `ahead` has shown, and returns their channel writes; both print the same lines."""
    step = command.replace("ahead", "step")
    lines = session.say(step)
    judge(f"{command}, then {step}", lines, coming)
    return shown_in(step, lines)


class Told:
    """What a session should tell: its script, and the channel writes that its commands have told."""

    def __init__(self, session):
        self.session = session
        self.script = self.asked()
        self.given = []
        self.writes = []

    def asked(self):
        return [meaning(line) for line in self.session.say("script")]

    def take_event(self, command, before):
        """An event stands in the script at its cycle, after what is due by then, and nothing else has changed."""
        cycle = self.session.cycle - command.startswith("pulse ")
        pulses = sum(event[1] == "pulse" for event in self.script)
        judge(f"{command} happens now", True, before <= cycle <= before + pulses)
        event = (cycle, *meaning(command))
        at = sum(other[0] <= cycle for other in self.script)
        self.script.insert(at, event)
        self.given.append(event)
        judge(f"the script after {command}", self.script, self.asked())

    def take_back(self, command, lines):
        """What was given at the cycle or later is dropped, after a search what was given later; so is what was written."""
        cycle = cycle_of(command, self.session.cycle)
        cut = cycle if way_of(command).isdigit() else cycle + 1
        dropped = [event for event in self.given if event[0] >= cut]
        listed = dropped if command.startswith("back list ") else []
        judge(f"what {command} lists", listed, [meaning(line) for line in lines])
        for event in dropped:
            self.script.remove(event)
        self.given = [event for event in self.given if event[0] < cut]
        judge(f"the script after {command}", self.script, self.asked())
        self.writes = [write for write in self.writes if int(write.split()[0]) < cycle]


def cycle_of(command, cycle):
    """The cycle that a `back C` names. The other ways back end at the one at which something began."""
    named = way_of(command)
    return int(named) if named.isdigit() else cycle


def way_of(command):
    """The first word that says how a `back` goes: a cycle, `until`, `step`, `over` or `finish`."""
    return command.split()[2 if command.startswith("back list ") else 1]


def try_wrong_line(session, line):
    """A line at fault is answered by one of its faults, and changes nothing."""
    before = session.cycle, session.stop
    lines = session.say(line)
    judge(f"a fault of {line!r:.140}", (None, True), (lines, (session.error or "").split(":")[0] in faults_of(line)))
    session.say("")
    judge(f"an error changes nothing: {line!r:.140}", before, (session.cycle, session.stop))


def goes_on(session, dice, limit):
    """Says random commands, and returns what was told."""
    told = Told(session)
    for _ in range(dice.randrange(1, 60)):
        command = a_command(dice, session.cycle)
        if isinstance(command, bytes):
            try_wrong_line(session, command)
            continue
        before = session.cycle, session.stop
        lines = session.say(command)
        if command.startswith("back ") and (lines is None or cycle_of(command, before[0]) > before[0]):
            fault = "Ahead" if cycle_of(command, -1) > before[0] else "NotHit"
            judge(f"{command} at {before[0]} is refused", (None, fault), (lines, (session.error or "").split(":")[0]))
            session.say("")
            judge("nothing is done", before, (session.cycle, session.stop))
        elif lines is None:
            late = before[1] is not None or session.cycle >= limit
            judge(f"only an event that comes too late is refused: {command}", True, late and command.startswith(GIVEN))
            judge(f"why {command} is refused", "Stopped", session.error.split(":")[0])
        elif command.startswith(GIVEN):
            told.take_event(command, before[0])
        elif command.startswith("back "):
            told.take_back(command, lines)
        elif command.startswith("ahead"):
            judge(f"{command} changes nothing", before, (session.cycle, session.stop))
            told.writes += steps_as_shown(session, command, lines)
        else:
            told.writes += shown_in(command, lines)
    # what was given last has happened, and no boundary is half a cycle's
    told.writes += shown_in("go", session.say("go 1"))
    return told


def try_seed(seed):
    """A session, then the plain run of what it tells, and the session again from a file."""
    dice = random.Random(seed)
    rope, script = files_of(dice, seed)
    limit = dice.choice([LAST_CYCLE, LAST_CYCLE, 5000, 100])
    words = [rope, script, "--limit", str(limit)]
    session = Session(console, words)
    told = goes_on(session, dice, limit)
    panel = session.say("panel")
    count = session.say("writes")
    tables = session.say(f"watch {TABLES}")
    events = session.say("script")
    came = session.cycle, session.stop
    judge(f"seed {seed}: the end", (b"", 0), session.close())

    name = os.path.join(scratch, f"{seed}.told")
    with open(name, "w") as file:
        file.writelines(line + "\n" for line in events)
    # A machine that has stopped at a cycle has a limit above it, but where the limit itself was the stop.
    end = limit if came[1] == "Limit" else came[0] + (came[1] is not None)
    plain = subprocess.run(
        [agc, rope, name, "--limit", str(end), "--log", "--watch", TABLES], capture_output=True, text=True
    )
    lines = plain.stdout.splitlines()
    stop = f"STOP {came[1] or 'Limit'} CYCLE {came[0]} WRITES {count[0].split()[1] if count else None}"
    judge(f"seed {seed}: the panel", lines[:8], panel)
    judge(f"seed {seed}: the stop", lines[8:9], [stop])
    log = lines[9 : 9 + int(count[0].split()[1])]
    judge(f"seed {seed}: each write is told once", log, told.writes)
    judge(f"seed {seed}: the tables", lines[9 + len(log) :], tables)

    again = subprocess.run([console, *words], input=session.said, capture_output=True)
    judge(f"seed {seed}: all at once", (0, session.answered, b""), (again.returncode, again.stdout, again.stderr))


def try_odd_uses():
    """Streams that end, are closed or take nothing, and many commands."""
    rope = os.path.join(top, "examples", "keys", "rope")
    words = f'"{console}" "{rope}" /dev/null'

    def ended(line):
        run = subprocess.run(["bash", "-c", line], capture_output=True)
        return run.returncode, run.stdout, run.stderr

    judge("no commands", (0, b"", b""), ended(f"{words} </dev/null"))
    judge("no line feed at the end", (0, b"at 7\n", b""), ended(f"printf 'go 7' | {words}"))
    judge("a line of 120 bytes and its end", (0, b"at 0\n", b""), ended(f"printf '%120s\\r\\n' | {words}"))
    judge(
        "a line of 121 bytes",
        (0, b"error: LineTooLong: a line has at most 120 bytes\nat 1\n", b""),
        ended(f"printf '%121s\\ngo 1\\n' | {words}"),
    )
    judge(
        "a line of a million bytes",
        (0, b"error: LineTooLong: a line has at most 120 bytes\nat 1\n", b""),
        ended(f"printf '%1000000s\\ngo 1\\n' | {words}"),
    )
    judge(
        "a byte 0",
        (0, b"error: UnknownCommand: unknown command; help lists the commands\nat 1\n", b""),
        ended(f"printf '\\0\\ngo 1\\n' | {words}"),
    )
    unread = b"agc-console: cannot read commands\n"
    judge("commands from a folder", (1, b"", unread), ended(f"{words} </"))
    judge("a closed standard input", (1, b"", unread), ended(f"{words} <&-"))
    judge("a closed standard output", (3, b"", b""), ended(f"echo go 1 | {words} >&-"))
    judge("nothing after quit", (0, b"at 1\n", b""), ended(f"printf 'go 1\\nquit\\ngo 1\\n' | {words}"))
    judge(
        "a million commands in 64 megabytes",
        (0, b"at 1000000\n", b""),
        ended(f"ulimit -v 65536; yes 'go 1' | head -n 1000000 | {words} | tail -n 1"),
    )


def try_terminal():
    """On a terminal an error has no name, and all else is as in a pipe."""
    rope = os.path.join(top, "examples", "keys", "rope")
    commands = b"go 3\nfly\nsave\nchannel 1000\nback 4\nback until 4100\nkey 4\nscript\n"
    terminal, output = pty.openpty()
    subprocess.run([console, rope, os.devnull], input=commands, stdout=output)
    os.close(output)
    shown = b""
    while part := read_from(terminal):
        shown += part
    os.close(terminal)
    wanted = [
        "at 3",
        "error: unknown command; help lists the commands",
        "error: usage: save FILE",
        "error: a channel is octal, 0 to 777",
        "error: the machine has not reached this cycle; go to C runs on to it",
        "error: no boundary before now hits it",
        "at 3",
        "3 key 4",
        "at 3",
    ]
    judge("a session on a terminal", wanted, shown.decode().splitlines())


def read_from(terminal):
    """Returns what a terminal shows next, nothing after its last program has ended."""
    try:
        return os.read(terminal, 4096)
    except OSError:
        return b""


def try_save():
    """`save` writes the script to a new file, and no other."""
    rope = os.path.join(top, "examples", "keys", "rope")
    saved = os.path.join(scratch, "saved")
    session = Session(console, [rope, os.devnull])
    session.say("go 10")
    session.say("key 4")
    judge("a script is saved", ([], 10), (session.say(f"save {saved}"), session.cycle))
    with open(saved) as file:
        judge("the saved script", "10 key 4\n", file.read())
    session.say("go 30")
    panel = session.say("panel")
    words = [agc, rope, saved, "--limit", str(session.cycle)]
    run = subprocess.run(words, capture_output=True, text=True).stdout.splitlines()
    judge("agc shows the same panel of it", panel, [line for line in run if line in panel])
    session.say("key 5")
    exists = "NotSaved: there is a file with this name; save writes only new ones"
    judge("a file that exists", (None, exists), (session.say(f"save {saved}"), session.error))
    with open(saved) as file:
        judge("it stays", "10 key 4\n", file.read())
    judge("a folder", (None, exists), (session.say(f"save {scratch}"), session.error))
    away = os.path.join(scratch, "no", "folder")
    failed = "NotSaved: the file could not be written"
    judge("no folder for it", (None, failed), (session.say(f"save {away}"), session.error))
    os.symlink(away, os.path.join(scratch, "link"))
    judge("a link to nothing", (None, exists), (session.say(f"save {scratch}/link"), session.error))
    judge("a full device", (None, exists), (session.say("save /dev/full"), session.error))
    judge("no name", (None, "Usage: save FILE"), (session.say("save"), session.error))
    judge("two words", (None, "Usage: save FILE"), (session.say("save a b"), session.error))
    judge("the session goes on", (["10 key 4", "40 key 5"], 40), (session.say("script"), session.cycle))
    judge("the end of a saved session", (b"", 0), session.close())
    cut = os.path.join(scratch, "cut")
    line = f"trap '' XFSZ; ulimit -f 0; printf 'key 4\\nsave {cut}\\n' | '{console}' '{rope}' /dev/null"
    run = subprocess.run(["bash", "-c", line], capture_output=True, text=True)
    judge("a write that fails", (f"at 0\nerror: {failed}\n", False), (run.stdout, os.path.exists(cut)))


def try_full_script():
    """A script takes 65,536 events, be they given or not, and one that is dropped makes room again."""
    script = os.path.join(scratch, "full")
    with open(script, "w") as file:
        file.write("every 1 1000 66534 raise 8\n")
    session = Session(console, [os.path.join(top, "examples", "keys", "rope"), script])
    judge("65,535 events and one", [], session.say("raise 1"))
    judge("one more", (None, "TooMany: a script has at most 65536 events"), (session.say("raise 1"), session.error))
    judge("it is not told", 65536, len(session.say("script")))
    session.say("back 0")
    judge("room again", ([], None), (session.say("raise 1"), session.say("raise 1")))
    judge("the end of a full script", (b"", 0), session.close())


def try_full_breakpoints():
    """There are 64 breakpoints at most. One that is deleted makes room, and its number is not given again."""
    session = Session(console, [os.path.join(top, "examples", "keys", "rope"), os.devnull])
    set_ones = [session.say("break write 10") for _ in range(64)]
    judge("64 breakpoints", [[f"break {number} write 010"] for number in range(1, 65)], set_ones)
    full = "TooManyBreakpoints: there are at most 64; delete N makes room"
    judge("one more", (None, full), (session.say("break 4000"), session.error))
    judge("none is lost", 64, len(session.say("breaks")))
    judge("room again", ([], ["break 65 order 02,4000"]), (session.say("delete 64"), session.say("break 4000")))
    judge("the last one", ["break 65 order 02,4000"], session.say("breaks")[-1:])
    judge("the end of 64 breakpoints", (b"", 0), session.close())


def try_hidden_minus():
    """A minus relay that plus hides changes nothing that the panel shows. CA takes two cycles, EXTEND one, WRITE two."""
    source = os.path.join(scratch, "minus.agc")
    rope = os.path.join(scratch, "minus.rope")
    orders = "".join(f" CA {word}\n EXTEND\n WRITE 10\n" for word in ("PLUS", "MINUS", "PROG12"))
    with open(source, "w") as file:
        file.write(f"{orders}WAIT TCF WAIT\nPLUS OCT 36000\nMINUS OCT 32000\nPROG12 OCT 54171\n")
    with open(rope, "wb") as file:
        subprocess.run([study, "weave", source], stdout=file, check=True)
    session = Session(console, [rope, os.devnull])
    session.say("break panel")
    session.say("continue")
    judge("plus is shown", 5, session.cycle)
    session.say("continue")
    judge("minus behind plus is not, PROG 12 is", 15, session.cycle)
    session.say("back until panel")
    judge("back until the panel changed", 13, session.cycle)
    session.say("back until panel")
    judge("and before that", 3, session.cycle)
    judge("the end of a hidden minus", (b"", 0), session.close())


def try_an_hour_back():
    """An hour of machine time, and back to its middle and to its start, also by a search. How long it takes is told."""
    session = Session(console, [os.path.join(top, "examples", "keys", "rope"), os.devnull])
    session.say("key 4")
    commands = ("go 307200000", 307200000), ("back 307199999", 307199999), ("back until cell 101", 7), ("back 0", 0)
    for command, cycle in commands:
        begun = time.monotonic()
        lines = session.say(command)
        took = time.monotonic() - begun
        print(f"console: {command}: {took:.1f} seconds")
        judge(command, ([], cycle), ([line for line in lines if not line.startswith("write 20 ")], session.cycle))
        judge(f"{command} takes less than three minutes", True, took < 180)
    judge("the end of an hour", (b"", 0), session.close())


def try_calls(each):
    """A session of a seed that mostly steps by calls."""
    search(console, study, "", "", random.Random(f"calls {each}"), an_event, scratch, by_calls=True)


def try_sessions(each):
    """The other sessions of a seed."""
    try_seed(each)
    dice = random.Random(-1 - each)
    walk(console, study, files_of(dice, each)[0], dice, an_event, scratch)
    rope, script = files_of(dice, each)
    search(console, study, rope, script, dice, an_event, scratch)
    if each < REPLAYS or len(sys.argv) > 1:
        try_replay(each, random_rope, an_event)


for follow, numbers in ((try_calls, calling), (try_sessions, () if only_calls else seeds)):
    for number in numbers:
        try:
            follow(number)
        except (EOFError, IndexError, subprocess.CalledProcessError) as error:
            judge(f"seed {number}", "answers", repr(error))
if len(sys.argv) == 1:
    try_kinds()
    depends_on_time()
    try_odd_uses()
    attempt(try_terminal)
    for kind in control_c.kinds():
        attempt(control_c.try_session, *kind)
        attempt(control_c.try_ends, *kind)
    try_save()
    try_full_script()
    try_full_breakpoints()
    try_hidden_minus()
    try_places(console, study, top)
    attempt(try_notes)
    attempt(try_an_hour_back)
finish()
