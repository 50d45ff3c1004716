"""Sessions with instruments. All sockets are on 127.0.0.1. What is to come is waited for, for LONGEST seconds at most.
"""

import atexit
import contextlib
import io
import os
import random
import re
import resource
import shlex
import signal
import socket
import struct
import subprocess
import sys
import time
import types
import urllib.request

from agc import Console
from agc_web import instruments, protocol
from agc_web.session import Session
from dsky import KEYS, LONGEST, PRO_DOWN, PRO_MASK, PRO_UP, RELEASE, Dsky
from judge import AGC, CONSOLE, TOP, attempt, depends_on_time, finish, judge, scratch_folder, slowness, soon

agc, console, top, scratch = AGC, CONSOLE, TOP, scratch_folder()


def rope_of(name):
    return os.path.join(top, "examples", name, "rope")


def rope_from(name, *octal):
    """A rope of our own: these words from 4000 on."""
    path = os.path.join(scratch, name)
    with open(path, "wb") as file:
        file.write(b"".join(struct.pack(">H", 2 * int(word, 8)) for word in octal))
    return path


def with_vectors(*begin):
    """These words from 4000 on, and RESUME at each interrupt's vector."""
    words = [*begin] + ["00000"] * (0o51 - len(begin))
    for vector in range(0o4, 0o51, 4):
        words[vector] = "50017"
    return words


def idle_rope():
    """TCF 4000."""
    return rope_from("idle", *with_vectors("14000"))


def writing_rope():
    """EXTEND, WRITE 10, TCF 4000: a write every four cycles."""
    return rope_from("writing", *with_vectors("00006", "01010", "14000"))


def far_rope():
    """Writes 1 to the channels 163, 400, 4 and 377 some seven times a second, which are 12000 cycles."""
    words = with_vectors("14100")
    words += ["00000"] * (0o100 - len(words))
    words += ["34177", "10000", "14101", "34176"]  # CA 4177, CCS A, TCF 4101: as many times as that says; CA 4176
    for channel in ("01163", "01400", "01004", "01377"):
        words += ["00006", channel]
    words += ["14100"]
    words += ["00000"] * (0o176 - len(words)) + ["00001", "07640"]
    return rope_from("far", *words)


ECHOES = (
    ("00015", 0o35), ("00016", 0o77), ("00030", 0o5), ("00032", 0o6), ("00033", 0o120),  # READ a channel
    ("30032", 0o12), ("30037", 0o14), ("30045", 0o34),  # CA a counter
    ("30100", 0o100), ("30101", 0o101), ("30102", 0o102),  # CA how many interrupts there were
)
"""What the rope below echoes: the order that reads it, and the channel that it is written to."""


def echo_rope():
    """Echoes inputs and counters, some thirty times a second, and counts the interrupts of the two keyboards and of
    the uplink in the cells 100, 101 and 102: the vectors 4024, 4030 and 4034 have INCR of them, and RESUME."""
    words = with_vectors("14100")
    for vector, count in ((0o24, "24100"), (0o30, "24101"), (0o34, "24102")):
        words[vector:vector + 2] = [count, "50017"]
    words += ["00000"] * (0o100 - len(words))
    words += ["34177", "10000", "14101"]  # CA 4177, CCS A, TCF 4101: as many times as the word at 4177 says
    for order, channel in ECHOES:
        words += ["00006"] * (order[:2] == "00") + [order, "00006", f"{0o1000 + channel:05o}"]
    words += ["14100"]
    words += ["00000"] * (0o177 - len(words)) + ["01750"]
    return rope_from("echo", *words)


def free_port():
    """The first of ten ports that nobody has."""
    for _ in range(50):
        first = random.randrange(20000, 32000)
        held = []
        try:
            for port in range(first, first + 10):
                held.append(socket.socket())
                held[-1].setsockopt(socket.SOL_SOCKET, socket.SO_REUSEADDR, 1)
                held[-1].bind(("127.0.0.1", port))
            return first
        except OSError:
            continue
        finally:
            for each in held:
                each.close()
    raise OSError("there are no ten free ports")


class Program:
    """agc_web.instruments as a process, with a rope, on ten ports; it saves its script."""

    saved = 0
    started: list = []

    def __init__(self, rope, *words, script=None, save=True, folder=None):
        Program.saved += 1
        self.rope = rope
        self.file = os.path.join(scratch, f"saved-{Program.saved}")
        self.port = free_port()
        self.told = os.path.join(scratch, f"told-{Program.saved}")
        line = [sys.executable, "-m", "agc_web.instruments", rope, *([script] if script else [])]
        line += ["--port", str(self.port), "--program", console, *words]
        line += ["--save", self.file] if save else []
        with open(self.told, "w") as told:
            self.process = subprocess.Popen(line, stdout=subprocess.PIPE, stderr=told, text=True, cwd=folder)
        Program.started.append(self.process)
        self.wait_for("instruments: ports")

    @classmethod
    def kill_all(cls):
        """Kills those that a try that failed has left."""
        for process in cls.started:
            if process.poll() is None:
                process.kill()
                process.communicate()
        cls.started.clear()

    def lines(self):
        """What was said on standard error."""
        with open(self.told) as told:
            return told.read().splitlines()

    def wait_for(self, text):
        """Waits for a line on standard error that has this text; returns whether it came."""
        end = time.monotonic() + LONGEST
        while not any(text in line for line in self.lines()):
            if time.monotonic() > end:
                return False
            time.sleep(0.02)
        return True

    def dsky(self, number=0, **named):
        """A client of one of the ports, which has received its first words."""
        return Dsky(self.port + number, **named).welcomed()

    def children(self):
        """The processes that the program has started."""
        with open(f"/proc/{self.process.pid}/task/{self.process.pid}/children") as children:
            return [int(child) for child in children.read().split()]

    def end(self, number=signal.SIGTERM):
        """Ends the program; returns its status. What it said stands in `out`, the script in `script`."""
        self.process.send_signal(number)
        return self.ended()

    def ended(self):
        """Waits for the end of the program."""
        try:
            self.out, _ = self.process.communicate(timeout=LONGEST)
        except subprocess.TimeoutExpired:
            self.process.kill()
            self.out, _ = self.process.communicate()
        self.script = ""
        if os.path.exists(self.file):
            with open(self.file) as file:
                self.script = file.read()
        return self.process.returncode

    def commands(self):
        """The commands of the script, without their cycles."""
        return [line.split(" ", 1)[1] for line in self.script.splitlines()]

    def limit(self):
        """The limit of the line that repeats the session."""
        return int(self.out.split("--limit ")[1].split()[0])

    def repeated(self):
        """What agc prints for the script that was saved: the panel's lines, and the channel and word of each write."""
        words = [agc, self.rope, self.file, "--limit", str(self.limit()), "--log"]
        lines = subprocess.run(words, capture_output=True, text=True, check=True).stdout.splitlines()
        log = [tuple(int(word, 8) for word in line.split()[1:]) for line in lines[9:]]
        return lines[:6], log

    def at_the_end(self):
        """The machine at the end of the script that was saved."""
        machine = Console(self.rope, self.file, program=console)
        machine.go_to(self.limit())
        return machine


# the protocol's tables

BYTES = (
    ("016880d1", 0o15, 0o21, False),
    ("0145a1f9", 0o10, 0o54171, False),
    ("235280c0", 0o32, 0o20000, True),
    ("035080c0", 0o32, 0, False),
    ("0e5881d8", 0o163, 0o130, False),
    ("135080c1", 0o232, 1, False),
    ("0f5fb5e3", 0o173, 0o76543, False),
    ("1f7fbfff", 0o377, 0o77777, False),
    ("3f7fbfff", 0o377, 0o77777, True),
    ("004080c0", 0, 0, False),
)


def try_bytes():
    """packets and their bytes"""
    for text, channel, word, is_mask in BYTES:
        judge(f"the bytes {text}", (channel, word, is_mask), tuple(protocol.Packet.decode(bytes.fromhex(text))))
        judge(f"the packet of {text}", text, protocol.Packet(channel, word, is_mask).encode().hex())


def packets_of(pieces):
    """What a reader makes of these pieces: channels and words, or None from the piece on that is out of step."""
    reader, found = protocol.PacketReader(), []
    for piece in pieces:
        try:
            found += [packet[:2] for packet in reader.feed(piece)]
        except protocol.Fault:
            return [*found, None]
    return found


def try_steps():
    """streams in step, however they are cut, and streams that are not: no packet of the piece that is out of step is taken"""
    whole = [(0o15, 0o21), (0o10, 0o54171)]
    first, second = "016880d1", "0145a1f9"
    stream = bytes.fromhex(first + second)
    for at in range(len(stream) + 1):
        for to in range(at, len(stream) + 1):
            judge(f"a stream cut at {at} and {to}", whole, packets_of([stream[:at], stream[at:to], stream[to:]]))
    for what, text, taken in (
        ("half a packet before", "0168" + first + second, []),
        ("three quarters before", "016880" + first + second, []),
        ("the end of one before", "80d1" + first + second, []),
        ("a byte left out", first + "0145f9" + second, whole[:1]),
        ("a byte twice", "01688080d1" + second, []),
        ("one byte more", first + "c0" + second, whole[:1]),
        ("rubbish", "ff" + first, []),
        ("a request of a browser", b"POST / HTTP/1.1\r\n\r\n".hex() + first, []),
        ("a secure connection of a browser", "160301" + first, []),
    ):
        data = bytes.fromhex(text)
        judge(f"a stream: {what}", [None], packets_of([data]))
        judge(f"a stream byte by byte: {what}", [*taken, None], packets_of([bytes([byte]) for byte in data]))


CODES = {
    "0": 0o20, "1": 0o1, "2": 0o2, "3": 0o3, "4": 0o4, "5": 0o5, "6": 0o6, "7": 0o7, "8": 0o10, "9": 0o11, "VERB": 0o21,
    "NOUN": 0o37, "+": 0o32, "-": 0o33, "CLR": 0o36, "ENTR": 0o34, "RSET": 0o22, "KEYREL": 0o31,
}
COMMANDS = (
    *((0o15, code, 0, [f"key {name}"]) for name, code in CODES.items()),
    (0o15, 0o20, 0o20, ["key 0"]),
    (0o15, 0o12, 0, ["input 15 00012", "raise 5"]),
    (0o15, 0, 0o21, ["input 15 00000"]),
    (0o15, 0, 0, []),
    (0o16, 0o37, 0, ["input 16 00037", "raise 6"]),
    (0o16, 0, 0o37, ["input 16 00000"]),
    (0o32, 0o57777, 0o77777, ["pro down"]),
    (0o32, 0o77777, 0o57777, ["pro up"]),
    (0o32, 0o57776, 0o77777, ["input 32 57776"]),
    (0o32, 0o77777, 0o77777, []),
    (0o30, 0o12345, 0, ["input 30 12345"]),
    (0o5, 1, 0, ["input 5 00001"]),
    (0o177, 1, 0, ["input 177 00001"]),
    (0o173, 0o76543, 0o76543, ["poke 0 45 76543", "raise 7"]),
    (0o224, 0, 0, ["pulse 24 pinc"]),
    (0o232, 1, 0, ["pulse 32 pcdu"]),
    (0o237, 2, 0, ["pulse 37 minc"]),
    (0o233, 3, 0, ["pulse 33 mcdu"]),
    (0o245, 5, 0, ["pulse 45 shinc"]),
    (0o245, 6, 0, ["pulse 45 shanc"]),
    (0o234, 0o21, 0, ["pulse 34 pcdu"]),
    (0o260, 0o23, 0, ["pulse 60 mcdu"]),
    (0o232, 4, 0, "DINC is no pulse of a script"),
    (0o232, 7, 0, "a pulse of kind 7 is unknown"),
    (0o232, 0o22, 0, "a pulse of kind 22 is unknown"),
    (0o223, 0, 0, "counter 23 takes no pulse: those of a script are 24 to 60"),
    (0o261, 0, 0, "counter 61 takes no pulse: those of a script are 24 to 60"),
    (0o4, 1, 0, "channel 4 takes no input: a script's begin at 5"),
    (0, 1, 0, "channel 0 takes no input: a script's begin at 5"),
)


def try_commands():
    """what each input is to the machine"""
    for channel, word, before, wanted in COMMANDS:
        try:
            came = protocol.commands_for(channel, word, before)
        except protocol.Inexpressible as fault:
            came = str(fault)
        judge(f"{word:o} into channel {channel:o} after {before:o}", wanted, came)
    for word, mask, before, wanted in (
        (0o12345, 0o77777, 0o77777, 0o12345), (0, 0o20000, 0o77777, 0o57777), (0o77777, 0o20000, 0, 0o20000),
        (0o77777, 0, 0o12345, 0o12345), (0o12345, 0o707, 0o54321, 0o54325),
    ):
        judge(f"{word:o} by the mask {mask:o} over {before:o}", wanted, protocol.merged(word, mask, before))


def try_lamps():
    """channel 163: 1.28 seconds are 1310720 pulses, 12 a cycle, and 983040 of them, 81920 cycles, are lit"""
    for lamps, cycle, wanted in (
        (0, 0, 0), (0o177, 0, 0o130), (0o177, 81919, 0o130), (0o177, 81920, 0o50), (0o177, 109226, 0o50),
        (0o177, 109227, 0o130), (0o177, 191146, 0o130), (0o177, 191147, 0o50), (0o7, 0, 0), (0o10, 90000, 0o10),
        (0o20, 0, 0o20), (0o20, 90000, 0), (0o40, 0, 0), (0o40, 90000, 0o40), (0o100, 0, 0o100), (0o100, 90000, 0),
        (0o77600, 0, 0),
    ):
        judge(f"the lamps {lamps:o} at cycle {cycle}", wanted, protocol.shown_lamps(lamps, cycle))


def limit_of(*sent):
    """What comes of these bytes and times before a client that has just come, at the second 0: how many inputs, or why
    it loses its connection."""
    client = instruments.Client(None, 1, 0.0)
    try:
        return [len(client.inputs(bytes.fromhex(text), now)) for text, now in sent]
    except instruments.Fault as fault:
        return str(fault)


def try_limits():
    """what a client may send: 10000 at once and a second, an input but a pulse counts ten"""
    word, pulse, floods = "034080c0", "135080c1", "it floods the machine"
    for what, wanted, sent in (
        ("1000 inputs", [1000], [(word * 1000, 0)]),
        ("1001 inputs", floods, [(word * 1001, 0)]),
        ("10000 pulses", [10_000], [(pulse * 10_000, 0)]),
        ("10001 pulses", floods, [(pulse * 10_001, 0)]),
        ("10000 masks", [0], [(PRO_MASK * 10_000, 0)]),
        ("10001 masks", floods, [(PRO_MASK * 10_001, 0)]),
        ("5000 pulses in the next half second", [10_000, 5_000], [(pulse * 10_000, 0), (pulse * 5_000, 0.5)]),
        ("5001 pulses in the next half second", floods, [(pulse * 10_000, 0), (pulse * 5_001, 0.5)]),
        ("nothing is saved up for longer", floods, [("", 100), (pulse * 10_001, 100)]),
        ("a byte out of step", "it sends rubbish", [("ff", 0)]),
        ("a byte out of step after packets", "it sends rubbish", [(pulse * 20 + "ff", 0)]),
        ("packets before it, in a piece of their own", "it sends rubbish", [(pulse * 20, 0), ("ff" + pulse, 0)]),
    ):
        judge(what, wanted, limit_of(*sent))
    client = instruments.Client(None, 1, 0.0)
    client.inputs(bytes.fromhex(pulse + "1350"), 10.0)
    judge("half a packet for five seconds", None, client.check(15.0))
    try:
        judge("half a packet for longer", "a fault", client.check(15.1))
    except instruments.Fault as fault:
        judge("half a packet for longer", "it left a packet half sent", str(fault))
    said, seconds = io.StringIO(), iter([7.0] * 500 + [8.5] * 500)
    try:
        setattr(instruments, "time", types.SimpleNamespace(monotonic=lambda: next(seconds)))
        with contextlib.redirect_stderr(said):
            log = instruments.Log()
            for number in range(1000):
                log(str(number))
    finally:
        setattr(instruments, "time", time)
    lines = said.getvalue().splitlines()
    judge("100 lines a second, in two seconds", 202, len(lines))
    judge("and no more", ["instruments: more lines of this second are left out"] * 2, [lines[100], lines[201]])


def try_addresses():
    """which addresses other computers reach"""
    wanted = {
        "127.0.0.1": False, "127.9.9.9": False, "::1": False, "localhost": False, "0.0.0.0": True, "192.168.1.5": True,
        "::": True, "somewhere.example": True,
    }
    judge("addresses that are reached", wanted, {each: instruments.is_reachable(each) for each in wanted})


# sessions

WELCOME = [(0o10, word) for word in (
    0o04000, 0o10000, 0o14000, 0o20000, 0o24000, 0o30000, 0o34000, 0o40000, 0o44000, 0o50000, 0o54000, 0o60000,
)] + [(channel, 0) for channel in (0o5, 0o6, 0o7, 0o11, 0o12, 0o13, 0o14, 0o34, 0o35, 0o163)]

ALL_LIT = ["PROG 88", "VERB 88", "NOUN 88", "R1 +88888", "R2 +88888", "R3 +88888"]


def lit_and_dark(dsky):
    """For how many seconds the lamps were lit and dark, in whole periods."""
    changes = [(word, at) for channel, word, at in dsky.packets[dsky.first:] if channel == 0o163][1:]
    changes = changes[:len(changes) - 1 + len(changes) % 2]
    spans = {0o130: 0.0, 0o50: 0.0}
    for (word, since), (_, until) in zip(changes, changes[1:]):
        spans[word] += until - since
    return spans[0o130], spans[0o50], len(changes) // 2


def try_keys():
    """keys in, digits out, the lamps, and the script that repeats it"""
    program = Program(rope_of("verbs"))
    dsky = program.dsky()
    judge("what a new client receives", WELCOME, [packet[:2] for packet in dsky.packets[:dsky.first]])
    for byte in bytes.fromhex(KEYS["VERB"] + KEYS["1"] + RELEASE + KEYS["6"] + RELEASE):
        dsky.socket.sendall(bytes([byte]))
        time.sleep(0.005)
    judge("VERB 16, a byte at a time", True, dsky.until(lambda each: each.shown()[1] == "VERB 16"))
    dsky.keys("NOUN", "0", "9", "VERB", "3", "5", "ENTR")
    judge("seven keys in one piece", True, dsky.until(lambda each: each.shown() == ALL_LIT))
    judge("all digits", ALL_LIT, dsky.shown())
    judge("the flash", True, dsky.until(lambda each: len(each.words(0o163)) >= 11))
    judge("lamps as they blink", {0o130, 0o50}, set(dsky.words(0o163)[1:]))
    lit, dark, periods = lit_and_dark(dsky)
    # a computer with much else to do shows the times from outside no better; `try_lamps` has them by the cycle
    judge(f"lit for longer than dark ({lit:.2f} s and {dark:.2f})", True, lit > dark)
    judge(f"a period of 1.28 s or more ({(lit + dark) / periods:.2f})", True, 1 < (lit + dark) / periods < 4)
    late = program.dsky(1)
    rows = {word >> 11: word for word in dsky.words(0o10)}
    judge("a late client has the last word of each row", [rows[row] for row in sorted(rows)], late.words(0o10))
    judge("a late client has the lamps' channel", [0o177], late.words(0o11))
    judge("a late client shows the same", ALL_LIT, late.shown())
    dsky.keys("RSET")
    judge("RSET puts the lamps of channel 11 out", True, dsky.until(lambda each: each.words(0o163)[-1] == 0))
    judge("and those of relay row 12", True, dsky.until(lambda each: each.words(0o10)[-1] == 0o60000))
    judge("the status", 0, program.end())
    wanted = ["key VERB", "key 1", "input 15 00000", "key 6", "input 15 00000", "key NOUN", "key 0", "key 9", "key VERB"]
    wanted += ["key 3", "key 5", "key ENTR", "key RSET"]
    judge("the script's commands", wanted, program.commands())
    pressed = [int(line.split()[0]) for line in program.script.splitlines() if " key " in line]
    judge("keys are a tenth of a second apart", True, min(b - a for a, b in zip(pressed, pressed[1:])) >= 8533)
    panel, log = program.repeated()
    judge("the script repeats the writes", log, dsky.writes())
    judge("the script repeats the panel", panel, dsky.shown())
    judge("there were writes", True, len(log) > 20)


def echoed(dsky, **wanted):
    """Waits until the echo of each channel is this word; returns what they are in the end."""
    channels = {name: int(name[2:], 8) for name in wanted}

    def last(each):
        return {name: (each.words(channel) or [None])[-1] for name, channel in channels.items()}

    dsky.drain()
    dsky.until(lambda each: last(each) == wanted)
    return last(dsky)


def is_part(part, whole):
    """Whether some of the whole, one after another, are the part."""
    return any(whole[at:at + len(part)] == part for at in range(len(whole) - len(part) + 1))


def judge_echo(what, dsky, **wanted):
    judge(what, wanted, echoed(dsky, **wanted))


def try_second_keyboard():
    """channel 16, codes without a name, and masks of two clients"""
    program = Program(echo_rope())
    one, two = program.dsky(0), program.dsky(9)
    one.send("017080df")  # channel 16, code 37
    judge_echo("a key of the second keyboard", one, ch77=0o37, ch101=1, ch100=0)
    two.send("016880ca")  # channel 15, code 12
    judge_echo("a code without a name", one, ch35=0o12, ch100=1, ch101=1)
    two.send("016880c0", "017080c0")
    judge_echo("releases raise nothing", one, ch35=0, ch77=0, ch100=1, ch101=1)
    one.send("016880c1", "017080c1", "017080c2")
    judge_echo("both keyboards at once", one, ch35=1, ch77=2, ch100=2, ch101=3)
    two.send("235080c1", "035080c0")  # the mask 1 for channel 32, and bit 1 off
    judge_echo("one bit by a mask", two, ch6=0o77776)
    one.send(PRO_MASK, PRO_DOWN, "034080ff")  # PRO; channel 30 takes 77, whole
    judge_echo("another bit by another client's mask", two, ch6=0o57776, ch5=0o77)
    two.send("035080c0")  # changes nothing: bit 1 is off
    one.send(PRO_UP)
    judge_echo("PRO comes up", two, ch6=0o77776)
    one.send(PRO_DOWN)
    judge_echo("PRO goes down", one, ch6=0o57776)
    two.send("035080c1")  # bit 1 on
    judge_echo("bit 1 on", one, ch6=0o57777)
    two.close()
    judge("the second client goes", True, program.wait_for("it has gone"))
    before = len(one.words(6))
    one.until(lambda each: len(each.words(6)) > before + 3)
    judge("PRO stays down: the first client holds it", [0o57777] * 3, one.words(6)[-3:])
    judge("the status", 0, program.end())
    wanted = [
        "input 16 00037", "raise 6", "input 15 00012", "raise 5", "input 15 00000", "input 16 00000", "key 1",
        "input 16 00001", "raise 6", "input 16 00002", "raise 6", "input 32 77776", "pro down", "input 30 00077", "pro up",
        "pro down", "input 32 57777",
    ]
    # the two keyboards do not wait for each other
    judge("the script of both keyboards and masks", sorted(wanted), sorted(program.commands()))
    judge("there were writes", True, len(one.writes()) > 50)
    judge("the script repeats the writes", True, is_part(one.writes(), program.repeated()[1]))


def try_pro():
    """PRO by mask, and a client that goes while it holds PRO"""
    program = Program(echo_rope())
    dsky, other = program.dsky(), program.dsky(1)
    dsky.send(PRO_MASK, PRO_DOWN)
    judge_echo("PRO is down", other, ch6=0o57777)
    dsky.send(PRO_UP)
    judge_echo("PRO is up", other, ch6=0o77777)
    dsky.send(PRO_DOWN, PRO_DOWN)
    judge_echo("PRO is down again", other, ch6=0o57777)
    dsky.close()
    judge_echo("it comes up with its client gone", other, ch6=0o77777)
    judge("the status", 0, program.end())
    judge("PRO", ["pro down", "pro up", "pro down", "pro up"], program.commands())


def try_counters():
    """counters, the uplink, and inputs that no script can say"""
    program = Program(echo_rope())
    dsky = program.dsky()
    dsky.send(*["135080c1"] * 300)  # PCDU at 32
    dsky.send(*["135080d3"] * 100)  # fast MCDU at 32
    dsky.send(*["137880c0"] * 7, *["137880c2"] * 2)  # PINC and MINC at 37
    judge_echo("counters", dsky, ch12=200, ch14=5)
    dsky.send("0f5fb5e3")  # 76543 for INLINK
    judge_echo("a word by the uplink", dsky, ch34=0o76543, ch102=1)
    # shifted left with 0 and then with 1 entered, in fifteen bits; each carries a 1 out
    dsky.send("146880c5")
    judge_echo("SHINC of INLINK", dsky, ch34=0o75306, ch102=2)
    dsky.send("146880c6")
    judge_echo("SHANC of INLINK", dsky, ch34=0o72615, ch102=3)
    refused = ["135080c4", "135080c7", "125880c0", "165880c0", "004880c1", "006080c1"]
    dsky.send(*refused)
    judge("refused", True, program.wait_for("channel 4 takes no input"))
    dsky.close()
    judge("it has gone", True, program.wait_for("6 of its inputs were refused"))
    judge("the status", 0, program.end())
    wanted = ["pulse 32 pcdu"] * 300 + ["pulse 32 mcdu"] * 100 + ["pulse 37 pinc"] * 7 + ["pulse 37 minc"] * 2
    wanted += ["poke 0 45 76543", "raise 7", "pulse 45 shinc", "pulse 45 shanc"]
    judge("the script of counters", wanted, program.commands())
    told = [line.split("refused: ")[1] for line in program.lines() if "refused: " in line]
    wanted = [
        "DINC is no pulse of a script", "a pulse of kind 7 is unknown",
        "counter 23 takes no pulse: those of a script are 24 to 60",
        "counter 63 takes no pulse: those of a script are 24 to 60",
        "channel 1 takes no input: a script's begin at 5", "channel 4 takes no input: a script's begin at 5",
    ]
    judge("the lines of what was refused", wanted, told)
    judge("they are counted", "instruments: 6 inputs were refused", program.lines()[-1])
    with program.at_the_end() as machine:
        judge("the counters", (200, 5, 0o72615), tuple(machine.cell(at) for at in ("32", "37", "45")))


def try_four():
    """four clients at once, one of them killed, and a second one on a port"""
    program = Program(rope_of("keys"))
    dskys = [program.dsky(number) for number in range(3)]
    child = os.fork()
    if child == 0:
        try:
            fourth = program.dsky(3)
            fourth.send("0168")  # half a packet
            time.sleep(LONGEST)
        finally:
            os._exit(0)
    judge("the fourth came", True, program.wait_for(f"port {program.port + 3}: a client has come"))
    dskys[0].keys("4")
    for number, dsky in enumerate(dskys):
        judge(f"client {number} sees NOUN _4", True, dsky.until(lambda each: each.shown()[2] == "NOUN _4"))
    os.kill(child, signal.SIGKILL)
    os.waitpid(child, 0)
    judge("the fourth has gone", True, program.wait_for(f"port {program.port + 3}: "))
    dskys[1].keys("7")
    for number, dsky in enumerate(dskys):
        judge(f"client {number} sees NOUN 47", True, dsky.until(lambda each: each.shown()[2] == "NOUN 47"))
    again = None
    end = time.monotonic() + LONGEST
    while again is None and time.monotonic() < end:
        try:
            again = program.dsky(3)
        except (AssertionError, OSError):
            time.sleep(0.05)
    judge("the port of the killed one is free", ["NOUN 47"], again.shown()[2:3])
    second = Dsky(program.port)
    judge("a second client on a port is turned away", (False, []), (second.lasts(), second.packets))
    judge("and told", True, program.wait_for(f"port {program.port} has a client already"))
    for _ in range(20):
        Dsky(program.port + 4).close()
    dskys[2].keys("9")
    for number, dsky in enumerate((*dskys, again)):
        judge(f"client {number} sees NOUN 79", True, dsky.until(lambda each: each.shown()[2] == "NOUN 79"))
    judge("the status", 0, program.end())
    judge("the script", ["key 4", "key 7", "key 9"], program.commands())
    judge("each has the same writes", [program.repeated()[1]] * 3, [dsky.writes() for dsky in dskys])


def pour(dsky, data):
    """Sends this many bytes, as far as the other end takes them; returns whether it lost its connection."""
    try:
        for at in range(0, len(data), 65536):
            dsky.socket.sendall(data[at:at + 65536])
            dsky.take(0)
    except OSError:
        return True
    return not dsky.lasts()


def try_request():
    """a request whose body is keys: in one piece, or head and body apart, it presses none; a sound client then types"""
    program = Program(rope_of("keys"))
    head = b"POST / HTTP/1.1\r\nHost: 127.0.0.1\r\nContent-Length: 184\r\n\r\n"
    keys = bytes.fromhex(KEYS["1"] * 46)
    for what, pieces in (("in one piece", [head + keys]), ("in two pieces", [head, keys]), ("after half a key", [keys[:2] + head + keys])):
        dsky = program.dsky(1)
        with contextlib.suppress(OSError):
            for piece in pieces:
                dsky.socket.sendall(piece)
                time.sleep(0.05)
        judge(f"a request {what} loses its connection", False, dsky.lasts())
    judge("it is told", 3, sum("it sends rubbish, and loses its connection" in line for line in program.lines()))
    sound = program.dsky(1)
    data = bytes.fromhex(KEYS["4"] + RELEASE + KEYS["2"] + RELEASE)
    for at in range(0, len(data), 3):
        sound.socket.sendall(data[at:at + 3])
        time.sleep(0.02)
    judge("a sound client types, its bytes cut in threes", True, sound.until(lambda each: each.shown()[2] == "NOUN 42"))
    judge("the status", 0, program.end())
    judge("its keys alone were pressed", ["key 4", "key 2"], [each for each in program.commands() if each.startswith("key")])


def try_rubbish():
    """random bytes, bytes that are no packets, half packets, and floods: the client goes, and nothing else happens"""
    program = Program(rope_of("keys"))
    witness = program.dsky(0)
    noise = random.Random(58)
    rubbish = {
        "ends of packets": bytes(noise.randrange(0x40, 0x100) for _ in range(4000)),
        "first halves of packets": bytes.fromhex("0168") * 2000,
        "packets without their third byte": bytes.fromhex("0168c4") * 2000,
    }
    for what, data in rubbish.items():
        judge(f"{what}: it loses its connection", True, pour(program.dsky(1), data))
    judge("it is told", 3, sum("it sends rubbish, and loses its connection" in line for line in program.lines()))
    for seed in range(5):
        data = random.Random(seed).getrandbits(8 * 100_000).to_bytes(100_000, "big")
        judge(f"random bytes {seed}: it loses its connection", True, pour(program.dsky(2), data))
    judge("it is told, too", 8, sum("it sends rubbish, and loses its connection" in line for line in program.lines()))
    flood = bytes.fromhex(KEYS["1"]) * 200_000
    judge("a flood of keys: it loses its connection", True, pour(program.dsky(3), flood))
    flood = bytes.fromhex("235280c0") * 200_000
    judge("a flood of masks: it loses its connection", True, pour(program.dsky(4), flood))
    flood = bytes.fromhex("135080c1" + "135080c3") * 100_000
    judge("a flood of pulses: it loses its connection", True, pour(program.dsky(5), flood))
    judge("they are told", 3, sum("it floods the machine, and loses its connection" in line for line in program.lines()))
    begun = time.monotonic()
    witness.keys("4")
    judge("the first client is still served", True, witness.until(lambda each: each.shown()[2].endswith("4")))
    soon("and soon", begun, 5)
    judge("the status", 0, program.end())
    judge("no keys of the flood are left over", True, program.commands().count("key 1") <= 3)
    judge("the flood of pulses was cut", True, sum("pulse" in each for each in program.commands()) <= 20_000)
    judge("the script repeats the writes", program.repeated()[1], witness.writes())


class Beside:
    """Instruments of a session in this process, whose time stands still at first."""

    def __init__(self, rope, script=os.devnull, before=lambda machine: None):
        """`before` happens before there are instruments."""
        self.port = free_port()
        self.machine = Console(rope, script, program=console, detached=True)
        self.session = Session(self.machine)
        self.session.inject(before)
        self.said = io.StringIO()
        sys.stderr = self.said
        self.served = instruments.attach(self.session, self.port)

    def __enter__(self):
        return self

    def __exit__(self, *_):
        self.served.close()
        self.session.close()
        self.machine.close()
        sys.stderr = sys.__stderr__

    def go_to(self, cycle):
        self.session.inject(lambda machine: machine.go_to(cycle))

    def script(self, events):
        """The lines of the script, once there are this many, or after LONGEST."""
        end = time.monotonic() + LONGEST
        while self.session.script().count("\n") < events and time.monotonic() < end:
            time.sleep(0.01)
        time.sleep(0.1)  # so that one event too many is seen
        return self.session.script().splitlines()


def try_keeping_waiting():
    """a client that never reads, and one that leaves a packet half sent"""
    usual, instruments.HALFWAY = instruments.HALFWAY, 0.5
    try:
        with Beside(writing_rope()) as beside:
            reader = Dsky(beside.port).welcomed()
            idle = Dsky(beside.port + 1, receive_buffer=4096)
            rounds = 0
            while "it does not read, and loses its connection" not in beside.said.getvalue() and rounds < 500:
                rounds += 1
                reader.packets.clear()
                beside.session.inject(lambda machine: machine.go(8400))  # 2000 writes, and the steps of timers
                reader.until(lambda each: len(each.packets) >= 2000)
            # 65536 packets wait here, and some more in the system
            judge(f"who does not read loses its connection ({2000 * rounds} writes)", True, 65_536 < 2000 * rounds < 500_000)
            judge("the reader keeps its own", (True, True), (reader.is_open, len(reader.packets) >= 2000))
            judge("the other one has lost it", False, idle.lasts(LONGEST))
            reader.send("0168")
            judge("half a packet loses the connection", False, reader.lasts(LONGEST))
            told = f"instruments: port {beside.port}: it left a packet half sent, and loses its connection"
            judge("it is told", 1, beside.said.getvalue().splitlines().count(told))
    finally:
        instruments.HALFWAY = usual


def try_due():
    """a script's events of the present cycle come before an input, whose mask leaves bits of their words"""
    script = os.path.join(scratch, "due")
    with open(script, "w") as file:
        file.write("every 2 0 4000 input 33 00000\nevery 2 1 4001 input 33 77777\n")
    wanted = {1000: "input 33 00002", 1001: "input 33 77776"}
    for cycle, command in wanted.items():
        with Beside(idle_rope(), script) as beside:
            beside.go_to(cycle)
            dsky = Dsky(beside.port).welcomed()
            dsky.send("235880c3", "035880c2")  # the mask 3 for channel 33, and of its two bits the second on
            added = [line for line in beside.script(4003) if line.endswith(("00002", "77776"))]
            judge(f"an input at cycle {cycle}", [f"{cycle} {command}"], added)


def try_gaps():
    """keys wait for the keys before them: 8533 cycles, and a release 853"""
    with Beside(idle_rope()) as beside:
        dsky = Dsky(beside.port).welcomed()
        dsky.send(KEYS["VERB"], RELEASE, KEYS["3"], "017080df", "017080de")
        judge("at cycle 0", ["0 key VERB", "0 input 16 00037", "0 raise 6"], beside.script(3))
        for cycle, events in ((852, 3), (853, 4), (8532, 4), (8533, 7)):
            beside.go_to(cycle)
            wanted = ["0 key VERB", "0 input 16 00037", "0 raise 6", "853 input 15 00000"]
            wanted += ["8533 key 3", "8533 input 16 00036", "8533 raise 6"]
            judge(f"at cycle {cycle}", wanted[:events], beside.script(events))
        other = Dsky(beside.port + 1).welcomed()
        other.keys("6", "7")
        other.socket.sendall(b"\xff" * 40)
        judge("who sends rubbish goes", False, other.lasts())
        other = Dsky(beside.port + 2).welcomed()
        other.keys("8")
        other.close()
        time.sleep(0.2)
        judge("no key comes too early", 7, len(beside.script(7)))
        beside.go_to(3 * 8533)
        keys = [line for line in beside.script(8) if "key" in line]
        judge("keys of who sent rubbish are dropped, of who has gone are pressed", ["25599 key 8"], keys[2:])
        dsky.keys(*["1"] * 70)
        end = time.monotonic() + LONGEST
        while beside.served.desk.refused < 6 and time.monotonic() < end:
            time.sleep(0.02)
        judge("64 keys wait, and those after them are refused", 6, beside.served.desk.refused)
        judge("no key is given before its time", 8, len(beside.script(8)))
        refused = f"instruments: port {beside.port}: input refused: 64 keys wait already"
        judge("each is told", 6, beside.said.getvalue().splitlines().count(refused))


def typed(program):
    """A client that has typed 4, which the rope shows in NOUN."""
    dsky = program.dsky()
    dsky.keys("4")
    judge("NOUN _4", True, dsky.until(lambda each: each.shown()[2] == "NOUN _4"))
    return dsky


def try_saving():
    """files that cannot be saved to, ports that are taken, and ends"""
    program = Program(rope_of("keys"), folder=scratch)
    judge("it ends", 0, program.end())
    judge("the line in another folder", f"{top}/agc {program.rope} {program.file} --limit", program.out.rsplit(" ", 1)[0])
    program = Program(rope_of("keys"), folder=top)
    typed(program)
    judge("Control-C ends it", 0, program.end(signal.SIGINT))
    judge("the line that repeats it", f"./agc {program.rope} {program.file} --limit", program.out.rsplit(" ", 1)[0])
    judge("its script", ["key 4"], program.commands())
    with open(os.path.join(scratch, "usual"), "w") as usual:
        modes = [os.stat(name).st_mode for name in (usual.name, program.file)]
    judge("who may read it", modes[0], modes[1])
    base = [sys.executable, "-m", "agc_web.instruments", idle_rope(), "--program", console, "--port", str(free_port())]
    kept = program.script
    for what, words, wanted in (
        ("a file with something in it", ["--save", program.file], f"{program.file}: has something in it: name another file"),
        ("a folder", ["--save", scratch], f"{scratch}: is a folder"),
        ("a device", ["--save", "/dev/full"], "/dev/full: is no regular file"),
        ("no folder", ["--save", f"{scratch}/no/file"], f"{scratch}/no/file: No such file or directory"),
        ("no rope", ["--limit", "0"], "agc-console: limit: Zero"),
    ):
        run = subprocess.run([*base, *words], capture_output=True, text=True, timeout=LONGEST)
        judge(what, (1, "", f"instruments: {wanted}\n"), (run.returncode, run.stdout, run.stderr))
    with open(program.file) as file:
        judge("the file is as it was", kept, file.read())
    port = free_port()
    with socket.socket() as taken:
        taken.bind(("127.0.0.1", port + 9))
        taken.listen(1)
        run = subprocess.run([*base, "--port", str(port)], capture_output=True, text=True, timeout=LONGEST)
        told = f"instruments: port {port + 9} of 127.0.0.1: Address already in use\n"
        judge("a port that is taken", (1, "", told), (run.returncode, run.stdout, run.stderr))
    # 192.0.2.1 is nobody's address: nothing listens there
    words = [*base, "--listen", "192.0.2.1", "--port", "20000"]
    run = subprocess.run(words, capture_output=True, text=True, timeout=LONGEST)
    told = [
        "instruments: warning: whoever reaches 192.0.2.1 can use the machine: the protocol knows no passwords",
        "instruments: port 20000 of 192.0.2.1: Cannot assign requested address",
    ]
    judge("an address that others reach", (1, "", told), (run.returncode, run.stdout, run.stderr.splitlines()))
    program = Program(rope_from("a rope", *with_vectors("14000")))
    judge("a name with a blank", 0, program.end())
    judge("it is quoted", ["./agc", program.rope, program.file, "--limit"], shlex.split(program.out)[:4])
    program = Program(rope_of("keys"), save=False)
    typed(program)
    judge("without --save", 0, program.end())
    judge("the script is printed", True, bool(re.fullmatch(r"\d+ key 4\n", program.out)))
    program = Program(rope_of("keys"))
    typed(program)
    with open(program.file, "w") as file:
        file.write("of somebody else")
    judge("a file that somebody else has written to", 3, program.end())
    judge("it stays so", "of somebody else", program.script)
    judge("the script is printed in its place", True, bool(re.fullmatch(r"\d+ key 4\n", program.out)))


def try_far():
    """writes that have no packet"""
    program = Program(far_rope())
    dsky = program.dsky()
    judge("channel 377", True, dsky.until(lambda each: dsky.words(0o377)[-3:] == [1, 1, 1]))
    judge("no others", {0o377}, {channel for channel, _ in dsky.writes()})
    judge("nor the lamps", [0], dsky.words(0o163))
    judge("the status", 0, program.end())
    judge("the log has them", {0o163, 0o400, 0o377}, {channel for channel, _ in program.repeated()[1]})


def try_speed():
    """ten times the hardware's pace"""
    begun = time.monotonic()
    program = Program(idle_rope(), "--speed", "10")
    dsky = program.dsky()
    dsky.drain()
    time.sleep(1)
    judge("the status", 0, program.end())
    times = program.limit() / 85_333
    judge(f"ten times as fast ({times:.1f} s of machine time)", True, 4 / slowness() < times < 11 * (time.monotonic() - begun))


def try_ends():
    """a machine that stops, and a console that is killed"""
    program = Program(rope_of("division"))
    judge("it is told", True, program.wait_for("the machine has stopped: DivisionUndefined at cycle 6"))
    dsky = program.dsky()
    dsky.keys("4")
    judge("a key is refused then", True, program.wait_for("input refused: the machine takes no event any more"))
    judge("the status", 0, program.end())
    program = Program(rope_of("keys"), "--limit", "5000")
    judge("its limit stops it", True, program.wait_for("the machine has stopped: Limit at cycle 5000"))
    judge("the status", 0, program.end())
    judge("the limit that repeats it", 5000, program.limit())
    program = Program(rope_of("keys"))
    dsky = typed(program)
    inside = program.children()
    for child in inside:
        os.kill(child, signal.SIGKILL)
    judge("a console that is killed ends it", (True, 1), (len(inside) > 0, program.ended()))
    judge("it is told", "instruments: agc-console has ended: ", program.lines()[-1][:36])
    judge("the client sees the end", False, dsky.lasts())
    judge("its script is saved", ["key 4"], program.commands())


def try_standing_still():
    """a console that stands still, and signals that come at once: the script is saved, and within two seconds"""
    for what, stops, signals in (
        ("a console that stands still", True, [signal.SIGTERM]),
        ("and a second signal", True, [signal.SIGINT, signal.SIGTERM]),
        ("three signals at once", False, [signal.SIGINT, signal.SIGTERM, signal.SIGHUP]),
    ):
        program = Program(rope_of("keys"))
        dsky = typed(program)
        console_process = program.children()[0]
        if stops:
            os.kill(console_process, signal.SIGSTOP)
            dsky.keys("7")  # which the machine does not take any more
            time.sleep(0.2)
        begun = time.monotonic()
        for number in signals:
            os.kill(program.process.pid, number)
        judge(f"{what}: the status", 0, program.ended())
        soon(f"{what}: it ends soon", begun, 2)
        judge(f"{what}: the script is saved", ["key 4"], program.commands())
        judge(f"{what}: nothing else is said", [], [line for line in program.lines() if not line.startswith("instruments: port")])
        end = time.monotonic() + LONGEST  # a process that has ended stays in /proc for a moment
        while os.path.exists(f"/proc/{console_process}") and time.monotonic() < end:
            time.sleep(0.02)
        judge(f"{what}: no console is left", False, os.path.exists(f"/proc/{console_process}"))
    program = Program(rope_of("keys"))
    typed(program)
    # as if the disk were full, which holds for the file of its standard error, too
    resource.prlimit(program.process.pid, resource.RLIMIT_FSIZE, (0, resource.RLIM_INFINITY))
    judge("a full disk: the status", 3, program.end())
    judge("a full disk: the script is printed", True, bool(re.fullmatch(r"\d+ key 4\n", program.out)))
    judge("a full disk: no file is left", False, os.path.exists(program.file))


def try_hangup():
    """a terminal that is closed: it ends the program, but not with nohup"""
    program = Program(rope_of("keys"))
    typed(program)
    judge("a hang-up ends it", 0, program.end(signal.SIGHUP))
    judge("its script is saved", ["key 4"], program.commands())
    usual = signal.signal(signal.SIGHUP, signal.SIG_IGN)  # as nohup does for its program
    try:
        program = Program(rope_of("keys"))
    finally:
        signal.signal(signal.SIGHUP, usual)
    program.process.send_signal(signal.SIGHUP)
    time.sleep(0.5)
    judge("with nohup it goes on", None, program.process.poll())
    judge("Control-C ends it", 0, program.end(signal.SIGINT))


def try_going_back():
    """a session with a page: time goes back, and what was dropped comes back"""
    with Beside(rope_of("keys")) as beside:
        session = beside.session
        wanted = [("127.0.0.1", beside.port + each) for each in range(10)]
        judge("the addresses", wanted, [each.getsockname() for each in beside.served._listeners])
        session.play()
        dsky = Dsky(beside.port).welcomed()
        dsky.keys("4")
        judge("NOUN _4", True, dsky.until(lambda each: each.shown()[2] == "NOUN _4"))
        session.pause()
        between = beside.machine.cycle
        session.play()
        dsky.keys("7")
        judge("NOUN 47", True, dsky.until(lambda each: each.shown()[2] == "NOUN 47"))
        session.press("1")
        judge("a key of the page", True, dsky.until(lambda each: each.shown()[2] == "NOUN 71"))
        session.go_there(between, sure=True)
        judge("back: NOUN _4", True, dsky.until(lambda each: each.shown()[2] == "NOUN _4"))
        judge("the script goes back, too", 1, session.script().count("key"))
        late = Dsky(beside.port + 1).welcomed()
        judge("a client that comes then", "NOUN _4", late.shown()[2])
        session.undo(sure=True)
        judge("undone: NOUN 71", True, dsky.until(lambda each: each.shown()[2] == "NOUN 71"))
        session.go_there(0, sure=True)
        judge("back to the start", True, dsky.until(lambda each: each.shown()[2] == "NOUN __"))
        judge("nothing was refused", 0, beside.served.desk.refused)
    judge("the client sees the end", False, dsky.lasts())
    told = beside.said.getvalue().splitlines()
    judge("what is said", f"instruments: ports {beside.port} to {beside.port + 9} of 127.0.0.1", told[0])


def try_long_ago():
    """going back after a long run: what clients are to see is found beside the machine, which goes on"""
    script = os.path.join(TOP, "examples", "count-4", "script")
    with Beside(rope_of("count-4"), script) as beside:
        dsky, session = Dsky(beside.port).welcomed(), beside.session
        session.inject(lambda machine: machine.quiet())
        begun = time.monotonic()
        session.inject(lambda machine: machine.go_to(4 * 10**8))
        run = time.monotonic() - begun
        session.inject(lambda machine: machine.quiet(False))
        took = min(three_steps(session) for _ in range(5))
        judge(f"three steps take {took:.2f} s, the run took {run:.2f}", True, took < run / 2)
        wanted = session.inject(lambda machine: machine.panel())
        judge("the client sees what is shown", True, dsky.until(lambda each: each.shown()[3] == f"R1 {wanted['R1']}"))


def three_steps(session):
    """How long three steps take, of which each is shown."""
    begun = time.monotonic()
    for _ in range(3):
        session.step()
        time.sleep(0.03)
    return time.monotonic() - begun


def try_late():
    """instruments that come to a machine that has shown something already"""
    def before(machine):
        machine.go_to(10)
        machine.key("4")
        machine.go_to(100)

    with Beside(rope_of("keys"), before=before) as beside:
        judge("what was shown before", "NOUN _4", Dsky(beside.port).welcomed().shown()[2])


def script_at(url):
    """The script that agc-web has at this address."""
    with urllib.request.urlopen(url.replace("/?", "/script?"), timeout=LONGEST) as answer:
        return answer.read().decode()


def try_page():
    """agc-web with instruments: time has not begun, and a key goes down at once"""
    port = free_port()
    words = [sys.executable, "-m", "agc_web", rope_of("keys"), "--port", str(free_port()), "--instruments", str(port)]
    page = subprocess.Popen(words, stdout=subprocess.PIPE, stderr=subprocess.PIPE, text=True)
    try:
        judge("it begins", f"instruments: ports {port} to {port + 9} of 127.0.0.1", page.stderr.readline().rstrip())
        dsky = Dsky(port).welcomed()
        judge("what a new client receives", WELCOME, [packet[:2] for packet in dsky.packets])
        url = page.stdout.readline().split()[0]
        dsky.keys("4")
        dsky.send("037880c0")  # the word 0 for channel 37, which has it already
        dsky.send("037880c1")
        end = time.monotonic() + LONGEST
        while script_at(url).count("\n") < 2 and time.monotonic() < end:
            time.sleep(0.05)
    finally:
        page.send_signal(signal.SIGINT)
        out, _ = page.communicate(timeout=LONGEST)
    judge("its script", "0 key 4\n0 input 37 00001\n", "".join(line for line in out.splitlines(True) if line[0].isdigit()))
    judge("the client sees the end", False, dsky.lasts())


depends_on_time(Program.kill_all)
atexit.register(Program.kill_all)
for each in (
    try_bytes, try_steps, try_commands, try_lamps, try_limits, try_addresses, try_keys, try_second_keyboard, try_pro,
    try_counters, try_four, try_request, try_rubbish, try_keeping_waiting, try_due, try_gaps, try_saving, try_far, try_speed,
    try_ends, try_standing_still, try_hangup, try_going_back, try_long_ago, try_late, try_page,
):
    begun = time.monotonic()
    attempt(each)
    if os.environ.get("TIMES"):
        print(f"{each.__name__} {time.monotonic() - begun:.1f} s", file=sys.stderr)
finish()
