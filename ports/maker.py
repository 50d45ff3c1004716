"""Makes a program for a target: proof, code and linked files, each kept by a digest of all that it is made from."""

import importlib.machinery
import importlib.util
import os
import shutil
import sys
import tempfile
import threading
from collections import defaultdict
from functools import lru_cache
from pathlib import Path
from typing import Any, Callable

from common import CACHE, CLANG, HERE, KIT, TOP, Failure, digest, kit, run, say, shell, sources
from retarget import header, retarget
from targets import TARGETS, Target

KEPT = 200
MACHINES = {
    "aarch64": ["--target", "aarch64-unknown-linux-gnu"],
    # the first processor of its kind, so that the program needs no look at it
    "x86_64": ["--target", "x86_64-unknown-linux-gnu", "--cpu", "x86-64"],
}


def recipe(target: Target) -> str:
    """Returns the digest of what of this folder makes the target's programs."""
    files = [*target.files, *["retarget.py"] * bool(target.flags)]
    words = (target.machine, target.triple, target.commands, target.flags, target.shim_flags)
    return digest(repr(words), *[(HERE / each).read_bytes() for each in files])


@lru_cache(maxsize=None)
def packages(target: Target) -> str:
    """Returns the versions of the target's packages."""
    return " ".join(run("dpkg-query", "-W", "-f", "${Package}=${Version}\n", *target.packages).split())


def has_packages(name: str) -> bool:
    """Whether the target's packages are here."""
    try:
        return bool(packages(TARGETS[name]))
    except Failure:
        return False


class Cache:
    """What earlier runs made, each thing in a folder that is named by a digest of all that it was made from."""

    def __init__(self, scratch: Path, anew: bool) -> None:
        self.scratch, self.anew = scratch, anew

    def kept(self, key: str) -> Path | None:
        """Returns the folder of this key, if it was made."""
        for each in (self.scratch / key, CACHE / key):
            if each.is_dir() and (each.parent != CACHE or not self.anew):
                return each
        return None

    def folder(self, key: str, make: Callable[[Path], None]) -> Path:
        """Returns the folder of this key, which `make` fills if it was not made before."""
        kept = self.kept(key)
        if kept:
            return kept
        part = Path(tempfile.mkdtemp(dir=self.scratch))
        make(part)
        made = part.rename(self.scratch / key)
        try:
            CACHE.mkdir(parents=True, exist_ok=True)
            with tempfile.TemporaryDirectory(dir=CACHE, prefix="new-") as room:
                copy = shutil.copytree(made, Path(room) / key)
                shutil.rmtree(CACHE / key, ignore_errors=True)
                copy.rename(CACHE / key)
            for old in sorted(CACHE.glob("[!n]*"), key=os.path.getmtime)[:-KEPT]:
                shutil.rmtree(old, ignore_errors=True)
        except OSError as error:
            say(f"{CACHE} keeps nothing ({error.strerror}), so a later run makes it again")
        return made


def is_proved_here(lines: set[str]) -> bool:
    """Whether the gate has just proved the crates of these lines of crates.txt in this tree: it says so by PROVED_HERE, and their
    libraries are there. A library with a stamp is of a check by hand, perhaps of older sources."""
    names = [line.partition(":")[0].strip() for line in lines]
    folders = {each: TOP / "crates" / each for each in names if (TOP / "crates" / each / "src/lib.rt").exists()}
    made = [(each / "out/rlib" / f"{name}.rlib", each / "out/rlib/stamp") for name, each in folders.items()]
    return bool(os.environ.get("PROVED_HERE")) and all(library.exists() and not stamp.exists() for library, stamp in made)


class Tree:
    """The crates that some programs need, proved by `rt ci`: here, if the gate has just done that, or in a copy without the edits
    that must fail."""

    def __init__(self, top: Path) -> None:
        self.top, self.lock, self.is_proved = top, threading.Lock(), False
        self.programs: list[str] = []

    def prove(self) -> None:
        """Has `rt ci` prove the crates, once."""
        with self.lock:
            if self.is_proved:
                return
            needed = {line for each in self.programs for line in shell(each, "needed").splitlines()}
            if is_proved_here(needed):
                self.top, self.is_proved = TOP, True
                return
            say(f"proving {', '.join(self.programs)}, as far as this machine has not kept the proofs")
            lines = [each for each in (TOP / "crates.txt").read_text().splitlines() if each in needed]
            for line in lines:
                crate = f"crates/{line.partition(':')[0].strip()}"
                shutil.copytree(TOP / crate, self.top / crate, ignore=shutil.ignore_patterns("out", "must-fail"))
            (self.top / "crates.txt").write_text("\n".join(lines) + "\n")
            shutil.copy(TOP / "HANDLES", self.top)
            run(KIT / "bin/rt", "ci", cwd=self.top)
            self.is_proved = True

    def words(self, crate: str) -> list[str]:
        """Returns the words that rt gives to `rattle check` for this crate."""
        loader = importlib.machinery.SourceFileLoader("rtlib", str(KIT / "bin/rtlib.py"))
        spec = importlib.util.spec_from_loader("rtlib", loader)
        rtlib: Any = importlib.util.module_from_spec(spec) if spec else None
        sys.modules["rtlib"] = rtlib
        loader.exec_module(rtlib)
        made = rtlib.Crate(str(self.top / "crates" / crate), str(self.top), {})
        made.out = sys.stderr
        words: list[str] = made.words(["--jobs", "2"], keeps=False)
        return words

    def build(self, program: str, machine: str, room: Path) -> None:
        """Makes program.o and module.ll, the code of a program for this machine, by `rattle build`."""
        self.prove()
        crate = program.replace("-", "_")
        say(f"compiling {program} for {machine}")
        tools = room / "tools"
        (tools / "bin").mkdir(parents=True)
        for each in ("lib", "bin/ld.lld", "bin/llvm-ar", "bin/rattle-x64"):
            (tools / each).symlink_to(KIT / "toolchain" / each)
        # a clang that also keeps its module
        keeper = tools / "bin/clang"
        keeper.write_text(f'#!/bin/bash\n[ ! -f module.bc ] || cp module.bc "{room}/module.bc"\nexec "{CLANG}" "$@"\n')
        keeper.chmod(0o755)
        # the second machine takes what the first one's check kept of the crate
        kept = ["--incremental", self.top / "crates" / crate / "out/checked"]
        words = [*self.words(crate), *kept, *MACHINES[machine], "--toolchain", tools, "--backend", "llvm"]
        said = run(KIT / "bin/rattle", "build", *words, "-o", room / "program.o", cwd=self.top / "crates" / crate)
        if not any(line.startswith("logic=proved ") for line in said.splitlines()):
            raise Failure(f"rattle build does not say that {program} is proved:\n{said[-3000:]}")
        run(CLANG, "--target=x86_64-unknown-linux-gnu", "-x", "ir", room / "module.bc", "-S", "-emit-llvm", "-Xclang",
            "-disable-llvm-passes", "-Wno-override-module", "-o", room / "module.ll")
        (room / "module.bc").unlink()
        shutil.rmtree(tools)


class Maker:
    """Makes the programs of the targets."""

    def __init__(self, scratch: Path, anew: bool) -> None:
        self.cache, self.tree = Cache(scratch, anew), Tree(scratch / "tree")
        self.turns: defaultdict[str, threading.Lock] = defaultdict(threading.Lock)

    def facts(self, target: Target, program: str) -> dict[str, str]:
        """Returns what a program is made from, as its manifest says it."""
        return {"kit": kit(), "sources": sources(program), "ports": recipe(target), "packages": packages(target)}

    def key(self, target: Target, program: str) -> str:
        return digest("made", *self.facts(target, program).values(), program, target.triple)

    def prepare(self, wanted: list[tuple[str, str]]) -> None:
        """Has the tree take the programs of these that are still to be made."""
        made = [it for it in wanted if not has_packages(it[0]) or self.cache.kept(self.key(TARGETS[it[0]], it[1]))]
        self.tree.programs = sorted({program for name, program in wanted if (name, program) not in made})

    def code(self, target: Target, program: str) -> Path:
        """Returns the folder with program.o, the program's code for the target."""

        def build(room: Path) -> None:
            self.tree.build(program, target.machine, room)

        def compile_module(room: Path) -> None:
            proved = self.cache.folder(proved_key, build)
            module = room / "module.ll"
            module.write_text(retarget((proved / "module.ll").read_text(), header(CLANG, target.triple)))
            run(CLANG, f"--target={target.triple}", *target.flags.split(), "-c", "-x", "ir", module, "-o", room / "program.o")
            module.unlink()

        proved_key = digest("proved", kit(), sources(program), *MACHINES[target.machine])
        if not target.flags:
            return self.cache.folder(proved_key, build)
        retargeted = digest("module", proved_key, target.triple, target.flags, (HERE / "retarget.py").read_bytes())
        return self.cache.folder(retargeted, compile_module)

    def made(self, target: Target, program: str) -> Path:
        """Returns the folder with the program's files for the target, and its facts."""

        def make(room: Path) -> None:
            with self.turns[program]:
                code = self.code(target, program) / "program.o"
            say(f"linking {program} for {target.triple}")
            shims: list[Path] = []
            for each in target.files:
                shims.append(room / f"{Path(each).stem}.o")
                run(CLANG, f"--target={target.triple}", *target.shim_flags.split(), "-c", HERE / each, "-o", shims[-1])
            for command in target.commands:
                words = command.format(code=code, shims=" ".join(map(str, shims)), made=room / program, kit=KIT).split()
                run(*words, executable=CLANG if words[0].endswith(("ld", "lld")) else None)
            for shim in shims:
                shim.unlink()
            facts = {**self.facts(target, program), "object": digest(code.read_bytes())}
            (room / "facts").write_text("".join(f"# {program} {what} {value}\n" for what, value in facts.items()))

        return self.cache.folder(self.key(target, program), make)
