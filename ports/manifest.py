"""The manifests of prebuilt/, and the comparison of its programs with what is made here."""

import os
import shutil
from collections import defaultdict
from pathlib import Path

from common import TOP, Failure, digest, kit, run, say, sources
from maker import Maker, has_packages, packages, recipe
from targets import EVERY, TARGETS


class Manifest:
    """prebuilt/TARGET/MANIFEST: after '# PROGRAM' what each program was made from, and the SHA-256 of its files."""

    def __init__(self, name: str) -> None:
        self.folder, self.target = TOP / "prebuilt" / name, TARGETS[name]
        self.facts: dict[str, dict[str, str]] = {}
        self.digests: dict[str, str] = {}
        path = self.folder / "MANIFEST"
        for line in path.read_text().splitlines() if path.exists() else []:
            if line.startswith("# "):
                program, fact, value = line[2:].split(" ", 2)
                self.facts.setdefault(program, {})[fact] = value
            else:
                value, file = line.split("  ")
                self.digests[file] = value

    def files(self, program: str) -> list[str]:
        return [program + end for end in self.target.ends]

    def is_whole(self, program: str) -> bool:
        """Whether the program's files are those that the manifest names."""
        try:
            return all(digest((self.folder / each).read_bytes()) == self.digests[each] for each in self.files(program))
        except (KeyError, OSError):
            return False

    def take(self, program: str, made: Path) -> None:
        """Takes a program that was made."""
        self.folder.mkdir(exist_ok=True)
        lines = [line[2:].split(" ", 2) for line in (made / "facts").read_text().splitlines()]
        self.facts[program] = {fact: value for _, fact, value in lines}
        for each in self.files(program):
            shutil.copy(made / each, self.folder / each)
            (self.folder / each).chmod(0o644 if each.endswith(".wasm") else 0o755)
            self.digests[each] = digest((made / each).read_bytes())
        text = [f"# {it} {fact} {value}\n" for it, facts in sorted(self.facts.items()) for fact, value in facts.items()]
        text += [f"{value}  {each}\n" for each, value in sorted(self.digests.items())]
        (self.folder / "MANIFEST").write_text("".join(text))


class Comparison:
    """The comparison of prebuilt/ with what is made here."""

    def __init__(self, maker: Maker) -> None:
        self.maker, self.passed, self.failed = maker, 0, 0
        self.left_out: defaultdict[str, list[str]] = defaultdict(list)

    def check(self, holds: bool, fault: str) -> None:
        if holds:
            self.passed += 1
        else:
            self.failed += 1
            say(fault)

    def comparable(self) -> list[tuple[str, str]]:
        """Checks that each program is whole, and returns those that can be made from the same sources here."""
        found = []
        for name, program in EVERY:
            manifest = Manifest(name)
            given = manifest.facts.get(program)
            if not given:
                continue
            self.check(manifest.is_whole(program), f"prebuilt/{name}/MANIFEST names another {program} than the one beside it")
            if given["kit"] != kit():
                self.left_out["they are from another kit"].append(f"{name}/{program}")
            elif given["sources"] != sources(program) or given["ports"] != recipe(TARGETS[name]):
                self.left_out["there are newer sources"].append(f"{name}/{program}")
            else:
                found.append((name, program))
        return found

    def choose(self, found: list[tuple[str, str]], is_all: bool) -> list[tuple[str, str]]:
        """Returns those of these that are kept here, and one of the others, by the digest of the commit; or all."""
        kept = [it for it in found if self.maker.cache.kept(self.maker.key(TARGETS[it[0]], it[1]))]
        others = [it for it in found if it not in kept]
        if is_all or len(others) < 2:
            return found
        commit = run("git", "-C", TOP, "rev-parse", "HEAD") if (TOP / ".git").exists() else ""
        chosen = others[int(digest(commit), 16) % len(others)]
        why = "this machine has kept none of them, and one is made for each commit (ports/build --compare --all makes all)"
        self.left_out[why] = ["/".join(it) for it in others if it != chosen]
        return [*kept, chosen]

    def compare(self, name: str, program: str) -> None:
        """Makes a program, and compares it."""
        manifest = Manifest(name)
        given, made = manifest.facts[program], self.maker.made(TARGETS[name], program)
        self.check(f"# {program} object {given['object']}\n" in (made / "facts").read_text(),
                   f"{name}/{program}: the code made from the same sources differs from that of the prebuilt one")
        if given["packages"] != packages(TARGETS[name]):
            why = f"Debian's libraries are others, so only the code was compared: {packages(TARGETS[name])}"
            self.left_out[why].append(f"{name}/{program}")
            return
        for each in manifest.files(program):
            self.check(digest((made / each).read_bytes()) == manifest.digests[each],
                       f"{name}/{each}: the one made from the same sources differs from the prebuilt one")


def compare(maker: Maker, is_all: bool) -> bool:
    """Compares the programs of prebuilt/, and says which ones were not made, and why."""
    comparison = Comparison(maker)
    found = []
    for name, program in comparison.comparable():
        if has_packages(name):
            found.append((name, program))
        elif os.environ.get("CI") == "true":
            comparison.check(False, f"{name}/{program} cannot be made: install {' '.join(TARGETS[name].packages)}")
        else:
            comparison.left_out[f"packages are missing ({' '.join(TARGETS[name].packages)})"].append(f"{name}/{program}")
    chosen = comparison.choose(found, is_all)
    maker.prepare(chosen)
    for name, program in chosen:
        try:
            comparison.compare(name, program)
        except Failure as failure:
            comparison.check(False, f"{name}/{program}: {failure}")
    for why, names in comparison.left_out.items():
        say(f"not compared, because {why}: {' '.join(names)}")
    print(f"{comparison.passed} passed, {comparison.failed} failed")
    return comparison.failed == 0
