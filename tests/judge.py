"""The frame of a judge in Python: it counts checks, gives a folder for files, and prints the last line.

The judge's script in tests/ starts it, and exports the paths of the programs (judge.sh).
"""

import atexit
import os
import shutil
import signal
import subprocess
import sys
import tempfile
import time
import traceback
from pathlib import Path

TOP = str(Path(__file__).resolve().parent.parent)
NAME = Path(sys.argv[0]).resolve().parent.stem  # `film` for tests/film.d/tries.py
OWNER = os.getpid()
AGC, STUDY, CONSOLE, DSKY = (os.environ.get(name, "") for name in ("AGC", "STUDY", "CONSOLE", "DSKY"))
MOST_AGAIN = 3  # tries of a judge that are made again
BESIDE = os.environ.pop("JUDGE_BESIDE", None)  # of a process that makes tries beside others: its pipes, see `beside`
passed = failed = 0
folders: list[str] = []
missed: list[str] = []  # the checks that failed
again = 0  # tries that may still be made again
close_left = None
next_tries, tries_again, counts = map(int, BESIDE.split()) if BESIDE else (-1, -1, -1)


def check(what, holds):
    """Counts a check, and reports it if it does not hold."""
    global passed, failed
    if holds:
        passed += 1
    else:
        failed += 1
        missed.append(what)
        # A judge may have redirected sys.stderr.
        print(f"{NAME}: {what}", file=sys.__stderr__, flush=True)
    return holds


def judge(what, wanted, found):
    """Counts a check, and reports it if something else than wanted was found."""
    if wanted == found:
        return check(what, True)
    return check(f"{what}: wanted {wanted!r:.2000}, found {found!r:.2000}", False)


def near(what, wanted, found, tolerance):
    """Counts a check of a number."""
    return check(f"{what}: {found} is not within {tolerance} of {wanted}", abs(found - wanted) <= tolerance)


def depends_on_time(close=None):
    """Says that this judge depends on a browser, a terminal, sockets or the clock. A try that fails is then made once more: see
    `attempt`. `close` closes what a try that failed has left open."""
    global again, close_left
    again, close_left = MOST_AGAIN, close


def attempt(group, *words):
    """Makes a try: runs a function with checks. An exception that it does not catch is a failed check. In a judge that
    `depends_on_time`, a try that failed is made once more from the start. Its checks of the second time count, and a line says
    which failed the first time. Three tries at most are made again, so that a broken machine is not hidden."""
    global passed, failed
    before, standing = (passed, failed), {folder: set(os.listdir(folder)) for folder in folders}
    make(group, words)
    if failed == before[1] or not may_repeat():
        return
    since = "; ".join(missed[before[1]:])
    passed, failed = before
    del missed[failed:]
    clear(group, standing)
    make(group, words)
    print(f"{NAME}: made again: {group.__name__}, since: {' '.join(since.split()):.1000}", flush=True)


def may_repeat():
    """Whether one more try may be made again; counts it."""
    global again
    if not again or BESIDE and not os.read(tries_again, 1):
        return False
    again -= 1
    return True


def beside(tries, most):
    """Yields tries, for a judge that makes them one after another. Those of a judge that mainly waits are made beside one another:
    `most` processes run the judge's program once more, each with a folder of its own and this function, which yields there what no
    other process has begun. Here nothing is left to yield then: the counts of the processes have been added."""
    if BESIDE:
        while number := os.read(next_tries, 1):
            yield tries[number[0]]
    elif min(most, len(tries)) > 1:
        make_beside(len(tries), min(most, len(tries)))
    else:
        yield from tries


def make_beside(count, most):
    """Makes `count` tries in `most` processes, and adds what these have counted."""
    global passed, failed
    with tempfile.TemporaryFile() as counted:
        given = [filled(bytes(range(count))), filled(bytes(again)), counted.fileno()]
        more = {**os.environ, "JUDGE_BESIDE": " ".join(map(str, given))}
        processes = [subprocess.Popen([sys.executable, *sys.argv], env=more, pass_fds=given) for _ in range(most)]
        atexit.register(end_all, processes)
        ends = [each.wait() for each in processes]
        counted.seek(0)
        found = [tuple(map(int, line.split())) for line in counted]
    os.close(given[0])
    os.close(given[1])
    passed, failed = passed + sum(each[0] for each in found), failed + sum(each[1] for each in found)
    if len(found) < most:
        check(f"not all processes came to their end: {ends}", False)


def filled(data):
    """Returns the end of a pipe that has these bytes, and no more will come."""
    end, other = os.pipe()
    os.write(other, data)
    os.close(other)
    return end


def end_all(processes):
    """Ends the processes that still run."""
    for each in processes:
        if each.poll() is None:
            each.terminate()
            each.wait()


def make(group, words):
    """Runs a function with checks."""
    try:
        group(*words)
    except Exception:
        check(f"{group.__name__}: {traceback.format_exc()}", False)


def clear(group, standing):
    """Closes and removes what the try has left: the folders have the files again that stood there before."""
    try:
        if close_left:
            close_left()
    except Exception:
        check(f"what {group.__name__} left cannot be closed: {traceback.format_exc()}", False)
    for folder, names in standing.items():
        for name in set(os.listdir(folder)) - names:
            path = os.path.join(folder, name)
            if os.path.isdir(path) and not os.path.islink(path):
                remove(path)
            else:
                os.unlink(path)


def slowness():
    """Returns how many times as long something may take now as on a machine whose processors are free: 1 there. It is measured by a
    busy loop, and by how many wait for a processor."""
    began, used = time.monotonic(), time.thread_time()
    while time.thread_time() < used + 0.1:
        pass
    lost = (time.monotonic() - began) / 0.1
    waiting = os.getloadavg()[0] / len(os.sched_getaffinity(0))
    return max(1.0, 2 * max(lost, waiting) - 1)


def soon(what, began, seconds):
    """Checks that something which began at this time is done within this many seconds; longer if other programs have the
    processors."""
    took = time.monotonic() - began
    return check(f"{what}: it took {took:.2f} s, more than {seconds}", took < seconds or took < seconds * slowness())


def scratch_folder():
    """Makes a folder for files, which is removed when the judge ends."""
    folder = tempfile.mkdtemp(prefix=f"{NAME}.")
    folders.append(folder)
    atexit.register(remove, folder)
    return folder


def remove(folder):
    """Removes a folder, though a program in the background may still write into it."""
    shutil.rmtree(folder, ignore_errors=True)
    if os.path.exists(folder):
        time.sleep(1)
        shutil.rmtree(folder, ignore_errors=True)


def finish():
    """Prints the last line, and ends the judge."""
    if BESIDE:
        os.write(counts, f"{passed} {failed}\n".encode())
        sys.exit(0)
    print(f"{passed} passed, {failed} failed", flush=True)
    sys.exit(failed > 0 or passed == 0)


def end_by_signal(number, _):
    """Ends the judge, with its folder removed. A process that it forked ends at once."""
    if os.getpid() != OWNER:
        os._exit(128 + number)
    sys.exit(128 + number)


# Without this tempfile tries folders by a file in each, which stays there if a signal comes.
tempfile.tempdir = os.environ.get("TMPDIR") or "/tmp"
for each_pipe in map(int, BESIDE.split() if BESIDE else ()):
    os.set_inheritable(each_pipe, False)
signal.signal(signal.SIGTERM, end_by_signal)
if signal.getsignal(signal.SIGINT) == signal.SIG_IGN:
    # A script's command in the background ignores Control-C, and so would the programs that the judge starts and ends by it.
    signal.signal(signal.SIGINT, signal.default_int_handler)
if signal.getsignal(signal.SIGHUP) == signal.SIG_IGN:
    # So does one that nohup has started with the end of its terminal.
    signal.signal(signal.SIGHUP, signal.SIG_DFL)
