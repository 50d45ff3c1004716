"""What the parts of ports/build share: the places, commands, digests."""

import hashlib
import os
import shutil
import subprocess
from functools import lru_cache
from pathlib import Path
from typing import Any

HERE = Path(__file__).resolve().parent
TOP = HERE.parent
KIT = Path(shutil.which("rt") or "rt").resolve().parent.parent
CLANG = str(KIT / "toolchain/bin/clang")
CACHE = Path(os.environ.get("XDG_CACHE_HOME") or Path.home() / ".cache") / "agc-ports"


class Failure(Exception):
    """A sentence that says what cannot be made, and why."""


def say(text: str) -> None:
    print(f"ports: {text}", flush=True)


def run(*words: object, cwd: Path | None = None, executable: str | None = None) -> str:
    """Runs a command, and returns what it prints, on standard error too."""
    texts = [str(each) for each in words]
    how: dict[str, Any] = {"stdin": subprocess.DEVNULL, "stdout": subprocess.PIPE, "stderr": subprocess.STDOUT}
    try:
        ran: Any = subprocess.run(texts, cwd=cwd, executable=executable, text=True, errors="replace", **how)
    except OSError as error:
        raise Failure(f"{texts[0]} cannot be run: {error.strerror}") from error
    if ran.returncode:
        raise Failure(f"{' '.join(texts)[:200]} failed:\n{ran.stdout[-3000:]}")
    return str(ran.stdout)


def digest(*parts: str | bytes) -> str:
    """Returns the SHA-256 of one part, or of several, each after its length."""
    texts = [each.encode() if isinstance(each, str) else each for each in parts]
    if len(texts) > 1:
        texts = [b"%d %s" % (len(each), each) for each in texts]
    return hashlib.sha256(b"".join(texts)).hexdigest()


def shell(program: str, call: str) -> str:
    """Calls a function of launch/prebuilt.sh for a program, and returns what it prints."""
    return run("/bin/bash", "-c", f'top=$0; . "$top/launch/prebuilt.sh"; choose {program}; {call}', TOP)


@lru_cache(maxsize=None)
def kit() -> str:
    return run(KIT / "bin/rt", "version").strip()


@lru_cache(maxsize=None)
def sources(program: str) -> str:
    """Returns the digest of what prebuilt/PROGRAM.sources is for the sources here."""
    return digest(shell(program, "sources"))
