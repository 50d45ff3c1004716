"""Sessions before agc-dsky of which each growth of memory, each read and each write is refused in turn.

The words are: the program (not its launcher), the shim that refuses, a rope. For each session it prints 'passed', or a
line that says what was not as it should be.
"""

import os
import pty
import re
import select
import subprocess
import sys
import termios
import time
import tty

program, shim, rope = sys.argv[1:4]

LONGEST = 120
# Sessions are drawn as long as they last, so that there is always one growth more: this many are tried.
MOST = {"GROWTH": 60, "READ": 12, "WRITE": 12}
REFUSALS = {
    "GROWTH": {"agc-dsky: memory", f"agc-dsky: {rope}: rope: Memory"},
    "READ": {f"agc-dsky: {rope}: cannot read rope"},
    "WRITE": set(),
}


def session(kind, number):
    """The status of a session in which a key is typed, the insides are looked at, time stops and q is typed, what stood on the
    terminal, what was said on standard error, whether anything was refused, and whether the modes are as before."""
    master, slave = pty.openpty()
    tty.setraw(slave)
    modes = termios.tcgetattr(slave)
    modes[6][termios.VMIN], modes[6][termios.VTIME] = 0, 0
    termios.tcsetattr(slave, termios.TCSANOW, modes)
    before = termios.tcgetattr(slave)
    (seen, mark), (heard, err) = os.pipe(), os.pipe()
    settings = {"TERM": "xterm", "LD_PRELOAD": shim, f"REFUSE_{kind}": str(number), "REFUSE_MARK": str(mark)}
    environment = {name: value for name, value in os.environ.items() if name != "NO_COLOR"}
    process = subprocess.Popen([program, rope], stdin=slave, stdout=slave, stderr=err,
                               env={**environment, **settings}, pass_fds=(mark,))
    os.close(mark)
    os.close(err)
    screen, typed, end = b"", [(b"CYCLE", b"v"), (b"[VERB]", b"i"), (b"next ", b" "), (b"PAUSED", b"q")], time.monotonic() + LONGEST
    asked = time.monotonic()
    while process.poll() is None and time.monotonic() < end:
        if select.select([master], [], [], 0.01)[0]:
            screen += os.read(master, 1 << 16)
        # What a refused key or line does not bring is not waited for.
        if typed and (typed[0][0] in screen or time.monotonic() > asked + 0.5):
            os.write(master, typed.pop(0)[1])
            asked = time.monotonic()
    process.kill()
    status = process.wait()
    while select.select([master], [], [], 0)[0]:
        screen += os.read(master, 1 << 16)
    said = os.read(heard, 1 << 12).decode()
    refused = os.read(seen, 1 << 12).decode()
    is_same = termios.tcgetattr(slave) == before
    for each in (master, slave, seen, heard):
        os.close(each)
    return status, screen.decode(errors="replace"), said, refused, is_same


def is_put_back(screen):
    """A screen of the program's own, if there was one, is left at the end."""
    return screen.count("\x1b[?1049h") == screen.count("\x1b[?1049l")


def fault(kind, status, screen, said, is_same):
    """What is not as it should be, or nothing."""
    lines = said.splitlines()
    after = screen.rpartition("\x1b[?1049l")[2]
    script = after.partition("again: ")[0].replace("\r", "").replace("agc-dsky: with the lines above in a file SCRIPT,\n", "")
    if not is_same or (kind != "WRITE" and not is_put_back(screen)):
        return "the terminal is not put back"
    if status == 0 and not lines and re.fullmatch(r"(\d+ key VERB\n)?", script) and "as a film: " in after:
        return None
    if status == 1 and len(lines) == 1 and lines[0] in REFUSALS[kind]:
        return None
    if status == 3 and (kind != "GROWTH" or set(lines) <= REFUSALS[kind]):
        return None
    return f"status {status}, said {said!r}, at the end {after[-200:]!r}"


for kind, most in MOST.items():
    for number in range(1, most + 1):
        status, screen, said, refused, is_same = session(kind, number)
        if not refused:
            break
        wrong = fault(kind, status, screen, said, is_same)
        print(f"dsky, {kind.lower()} {number} refused: {wrong}" if wrong else "passed", flush=True)
