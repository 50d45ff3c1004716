"""Tries `agc.sample` of the Python client against the CSV that `agc-study sample` prints."""

import os
import subprocess
import sys
import time
from pathlib import Path
from typing import Any, Callable, Dict, List

from agc import Ended, Error, Samples, sample
from judge import STUDY, TOP, check, judge, scratch_folder
from runs import EXAMPLES

ROPE, SCRIPT = EXAMPLES / "timers" / "rope", EXAMPLES / "timers" / "script"
CHOICES: List[Dict[str, Any]] = [{"every": 500}, {"at": "4100"}, {"changes": True}]
WRONG: List[Dict[str, Any]] = [{}, {"every": 5, "changes": True}, {"every": 5, "at": "4000"}]
TEXT = "clock TIME2 double 2684354.56 s\nsome 0100 vector B3\nbit TIME4 bits 15-1\ncode TIME4 octal 15-1\n"
READERS: Dict[str, Callable[[str], Any]] = {"cycle": int, "bit": int, "code": lambda text: int(text, 8)}


def raised(kind: Any, call: Any) -> Any:
    """The exception of this kind that a call raises, or what it returns."""
    try:
        return call()
    except kind as error:
        return error


def try_client() -> None:
    """Tries rows, choices, faults, and a loop that is broken off."""
    file = Path(scratch_folder(), "quantities")
    file.write_text(TEXT)
    for chosen, words in zip(CHOICES, (["--every", "500"], ["--at", "4100"], ["--changes"])):
        csv = subprocess.run([STUDY, "sample", ROPE, SCRIPT, "--limit", "5000", "--quantities", file, *words], capture_output=True, text=True, check=True)
        names, *lines = [line.split(",") for line in csv.stdout.splitlines()]
        wanted = [{name: READERS.get(name, float)(text) for name, text in zip(names, line)} for line in lines]
        found = list(sample(ROPE, SCRIPT, 5000, file, program=STUDY, **chosen))
        judge(f"client {words}: the rows", wanted, found)
        kinds = [type(found[0][name]) for name in ("cycle", "seconds", "clock", "some.x", "bit", "code")] if found else []
        check(f"client {words}: integers and floats: {kinds}", kinds == [int, float, float, float, int, int])
    part = list(sample(ROPE, SCRIPT, 5000, file, every=500, options=["--from=1000", "--to=2000"], program=STUDY))
    check(f"client: options: {part}", part[0]["cycle"] >= 1000 and part[-1]["cycle"] <= 2000 and len(part) == 3)
    try_refusals(file)
    try_break(file)


def try_refusals(file: Path) -> None:
    """Tries what is refused."""
    for chosen in WRONG:
        error = raised(TypeError, lambda: sample(ROPE, SCRIPT, 5000, file, program=STUDY, **chosen))
        check(f"client: {chosen}: {error!r}", isinstance(error, TypeError))
    file.write_text(TEXT + "again 0100 quad B3\n")
    error = raised(Ended, lambda: list(sample(ROPE, SCRIPT, 5000, file, every=5, program=STUDY)))
    check(f"client: a faulty line: {error!r}", isinstance(error, Ended) and error.status == 2 and "line 5: " in str(error))
    error = raised(Ended, lambda: list(sample(ROPE, SCRIPT, 5000, "/no/such/file", every=5, program=STUDY)))
    check(f"client: no file: {error!r}", isinstance(error, Ended) and error.status == 2 and "/no/such/file" in str(error))
    error = raised(Ended, lambda: list(sample(ROPE, SCRIPT, 5000, file, every=5, program="/no/such/program")))
    check(f"client: no program: {error!r}", isinstance(error, Ended) and error.status is None)
    script = "import sys\nsys.modules['pandas'] = None\nfrom agc import Error, sample\ntry:\n    sample('r', 's', 1, 'q', every=1, program='p').frame()\n"
    script += "except Error as error:\n    print(error)\n"
    paths = {"PYTHONPATH": str(Path(TOP, "clients", "python"))}
    done = subprocess.run([sys.executable, "-B", "-c", script], capture_output=True, text=True, env={**os.environ, **paths})
    check(f"client: without pandas: {done}", "python3-pandas" in done.stdout)
    judge("client: it is an Error", True, issubclass(Ended, Error))


def children() -> List[int]:
    """The processes that this one has."""
    return [int(word) for word in Path(f"/proc/{os.getpid()}/task/{os.getpid()}/children").read_text().split()]


def try_break(file: Path) -> None:
    """Breaks a loop off: the program ends."""
    file.write_text(TEXT)
    rows: Samples = sample(ROPE, SCRIPT, 1_000_000_000, file, every=5, program=STUDY)
    began = time.monotonic()
    seen = []
    for row in rows:
        seen.append(row["cycle"])
        if len(seen) == 10:
            break
    del row
    again = next(iter(rows))["cycle"]
    judge("client: a second loop begins anew", 0, again)
    check(f"client: a loop that is broken off ends: {time.monotonic() - began:.1f} s", time.monotonic() - began < 60)
    judge("client: and its program", [], children())
