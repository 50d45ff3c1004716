"""Weaves sources of the example: by agc-study as they are, or with the words of `lines` for their interpretive lines."""

import os
import re
import shutil
import subprocess

import lines
from judge import STUDY, TOP, judge

EXAMPLE = os.path.join(TOP, "examples", "interpreter")
HERE = os.path.dirname(os.path.realpath(__file__))


def read(name, mode="r"):
    with open(os.path.join(EXAMPLE, name), mode) as file:
        return file.read()


def weave(folder, name):
    """Weaves a source of a folder. Returns the weaver's end, and the path of the rope, which has its names beside it."""
    rope = os.path.join(folder, "rope")
    with open(rope, "wb") as file:
        words = [STUDY, "weave", os.path.join(folder, name), "--write-names", rope + ".names", "--force", *sums_for(name)]
        return subprocess.run(words, stdout=file, stderr=subprocess.PIPE), rope


def sums_for(name):
    """The option of `weave` for a source of which each bank ends with a check word."""
    return ["--sums"] if name == "orbit.agc" else []


def copied(folder):
    """Copies the example's sources to a new folder, and returns it."""
    os.mkdir(folder)
    for name in os.listdir(EXAMPLE):
        if name.endswith(".agc"):
            shutil.copy(os.path.join(EXAMPLE, name), folder)
    return folder


def included(source):
    """The names of the files that a source includes."""
    names = re.findall(r"^\$(\S+)", source, re.M)
    return [*names, *(more for name in names for more in included(read(name)))]


def woven_by_lines(folder, name, change=lambda text: text, own=None):
    """Weaves a source of the example, or an own one, with the words of `lines` for its interpretive lines. Returns the path of
    the rope."""
    copied(folder)
    own = own or read(name)
    sources = {name: change(own), **{each: change(read(each)) for each in included(own)}}
    places = None
    for _ in range(2):
        for each, source in sources.items():
            with open(os.path.join(folder, each), "w") as file:
                file.write(lines.woven(source, places))
        done, rope = weave(folder, name)
        judge(f"{name} is woven", (0, b""), (done.returncode, done.stderr))
        with open(rope + ".names") as file:
            places = lines.Places(file.read())
    return rope
