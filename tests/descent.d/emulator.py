"""The emulator in C beside this file, which was written from docs/SPECIFICATION.md alone and shares no code with agc."""

import os
import subprocess

from judge import judge

SOURCE = os.path.join(os.path.dirname(os.path.realpath(__file__)), "emulator.c")


def compile_emulator(program):
    """Compiles the emulator to a program of this path."""
    words = ["cc", "-O2", "-Wall", "-Wextra", "-Werror", "-o", program, SOURCE]
    done = subprocess.run(words, capture_output=True, text=True)
    judge("the emulator compiles", (0, ""), (done.returncode, done.stderr))
