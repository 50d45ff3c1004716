"""Each program of prebuilt/ is the one that its manifest names, for launch/compare and for the launchers; with one byte turned
it is not."""

import shutil
import subprocess
import sys
from pathlib import Path

from judge import TOP, check, finish, judge, scratch_folder

sys.path.insert(0, f"{TOP}/ports")
from manifest import Manifest  # noqa: E402
from targets import TARGETS  # noqa: E402

tree = Path(scratch_folder())
for folder in ("prebuilt", "launch"):
    shutil.copytree(f"{TOP}/{folder}", tree / folder)


def starts(path, program):
    """Whether a launcher takes the program at this path for the one that its manifest names."""
    script = 'top=$0; . "$top/launch/prebuilt.sh"; choose "$1"; prebuilt=$2; is_whole'
    return subprocess.run(["/bin/bash", "-c", script, tree, program, path]).returncode == 0


def try_program(path, program, is_whole):
    """A program is whole, and is not with its first, middle or last byte turned."""
    right = path.read_bytes()
    check(f"{path.parent.name}/{path.name} is the one that its manifest names", is_whole())
    for place in (0, len(right) // 2, len(right) - 1):
        turned = bytearray(right)
        turned[place] ^= 1
        path.write_bytes(turned)
        check(f"{path.parent.name}/{path.name} with byte {place} turned is found", not is_whole())
    path.write_bytes(right)


def try_target(name):
    """The programs for another machine."""
    manifest = Manifest(name)
    manifest.folder = tree / "prebuilt" / name
    if not manifest.folder.exists():
        print(f"skipped: prebuilt/{name}, because ports/build has not made it yet")
        return
    judge(f"{name}: each file is in the manifest", sorted([*manifest.digests, "MANIFEST"]), sorted(it.name for it in manifest.folder.iterdir()))
    for program in manifest.facts:
        for file in manifest.files(program):
            path = manifest.folder / file
            try_program(path, program, lambda: manifest.is_whole(program))
            if file == program:
                try_program(path, program, lambda: starts(path, program))


for name in TARGETS:
    try_target(name)
for path in sorted((tree / "prebuilt/x86_64-linux").iterdir()):
    try_program(path, path.name, lambda: starts(path, path.name))
finish()
