"""The pilots of `flights`: processes that fly batches. Each worker keeps one, of PyPy if there is one, which flies in two thirds
of the time.

A pilot needs no file but its Python: the modules come to it as texts, this one too. Both sides write lines of JSON: the worker
its setup and then batches, the pilot a row, or a text that says what went wrong, after each flight.
"""

import base64
import contextlib
import functools
import json
import os
import shutil
import subprocess
import sys
import tempfile
import threading

FAST = "pypy3"

BEGIN = """
import json, sys, types
for name, text in json.loads(sys.stdin.readline()):
    module = sys.modules[name] = types.ModuleType(name)
    module.__file__ = name + ".py"
    exec(compile(text, module.__file__, "exec"), vars(module))
sys.modules["pilots"].fly_batches()
"""

AT_WORK = threading.local()


# the worker's side


@functools.lru_cache(maxsize=None)
def flies(python):
    """Returns whether this Python is there, and young enough."""
    command = [python, "-c", "import sys; sys.exit(sys.version_info < (3, 7))"]
    with contextlib.suppress(OSError):
        return subprocess.run(command, stdin=subprocess.DEVNULL, stderr=subprocess.DEVNULL).returncode == 0
    return False


def python_for(named):
    """Returns the Python that flies: the named one, or PyPy, or the worker's own."""
    if named:
        return named
    found = shutil.which(FAST)
    return found if found and flies(found) else sys.executable


class Pilot:
    """The process that flies for a thread of a worker."""

    def __init__(self, setup):
        self.setup = setup
        program, modules, files, python = setup
        # A Control-C in the terminal is for `flights`, whose end closes the pilot's input.
        self.process = subprocess.Popen(
            [python_for(python), "-c", BEGIN], stdin=subprocess.PIPE, stdout=subprocess.PIPE, text=True, start_new_session=True
        )
        self.say(list(modules.items()))
        self.say([program, {name: base64.b64encode(data).decode() for name, data in files.items()}])

    def say(self, what):
        """Writes a line to the pilot."""
        with contextlib.suppress(BrokenPipeError):  # it has ended, as the next answer says
            self.process.stdin.write(json.dumps(what) + "\n")
            self.process.stdin.flush()

    def fly(self, batch):
        """Returns the rows of a batch."""
        self.say(batch)
        rows = []
        for number, _ in batch:
            line = self.process.stdout.readline()
            if not line.endswith("\n"):
                raise RuntimeError(f"flight {number}: the Python that flies has ended: {self.process.args[0]}")
            row = json.loads(line)
            if isinstance(row, str):
                raise RuntimeError(f"flight {number}: {row}")
            rows.append(row)
        return rows

    def end(self):
        """Closes the pilot's input, and waits for its end."""
        self.process.communicate()


def fly_batch(setup, batch):
    """Returns the rows of these flights, which are pairs of a number and its cells, by the pilot of this thread."""
    pilot = getattr(AT_WORK, "pilot", None)
    if pilot is None or pilot.setup != setup:
        if pilot is not None:
            pilot.end()
        pilot = AT_WORK.pilot = Pilot(setup)
    try:
        return pilot.fly(batch)
    except BaseException:
        pilot.end()
        AT_WORK.pilot = None
        raise


# the pilot's side


def fly_batches():
    """Flies batches until the input ends, which it does with the worker."""
    with contextlib.suppress(AttributeError, OSError):
        # Not woken by each line of an answer, but when the console waits for commands again: half as many turns.
        os.sched_setscheduler(0, os.SCHED_BATCH, os.sched_param(0))
    program, files = json.loads(sys.stdin.readline())
    files = {name: base64.b64decode(data) for name, data in files.items()}
    with tempfile.TemporaryDirectory() as folder, contextlib.suppress(BrokenPipeError):
        for line in sys.stdin:
            for number, row in json.loads(line):
                result = result_of(number, row, files, program, folder)
                print(json.dumps(result), flush=True)
                if isinstance(result, str):
                    return


def result_of(number, row, files, program, folder):
    """Returns the row of a flight, or why it has failed."""
    flying = sys.modules["flying"]
    try:
        results, _ = flying.fly_row(row, files, flying.program_behind(program), folder)
    except Exception as error:
        known = isinstance(error, (RuntimeError, sys.modules["agc"].Ended))
        return str(error) if known else f"{type(error).__name__}: {error}"
    return [str(number), *row.values(), *results]
