"""Control-C ends agc-console in the middle of a long run, and what it had saved and printed is there.

    interrupted.py FOLDER PROGRAM
"""

import signal
import subprocess
import sys
from pathlib import Path
from typing import Any

from judge import TOP, check, finish, judge

SECONDS = 60
folder, program = Path(sys.argv[1]), sys.argv[2]
folder.mkdir()


def heed_control_c():
    """A judge in the background ignores control-C, and so would its programs."""
    signal.signal(signal.SIGINT, signal.SIG_DFL)


pipe = subprocess.PIPE
words = [program, f"{TOP}/examples/keys/rope", "/dev/null"]
with subprocess.Popen(words, cwd=folder, stdin=pipe, stdout=pipe, stderr=subprocess.DEVNULL, preexec_fn=heed_control_c) as console:
    commands: Any = console.stdin
    answers: Any = console.stdout
    commands.write(b"key 4\ngo 10\nsave saved\nkey 5\n")
    commands.flush()
    judge("the answers before control-C", [b"at 0\n", b"at 11\n", b"at 11\n", b"at 11\n"], [answers.readline() for _ in range(4)])
    commands.write(b"go 900000000000\n")
    commands.flush()
    try:
        console.wait(1)
    except subprocess.TimeoutExpired:
        pass
    check("it runs", console.poll() is None)
    console.send_signal(signal.SIGINT)
    try:
        console.wait(SECONDS)
    except subprocess.TimeoutExpired:
        check("control-C ends it", False)
        console.kill()
    judge("no answer comes after control-C", b"", answers.read())
judge("what is saved", {"saved": "0 key 4\n"}, {path.name: path.read_text() for path in folder.iterdir()})
finish()
