"""Rewrites a program's LLVM module for another 64-bit little-endian machine.

The toolchain gives its compiler a module for x86-64 Linux. Sizes and offsets are numbers of bytes in it, so only the names
of the machine differ elsewhere: the two lines of the header, and the attributes for x86-64.
"""

import re
import subprocess


def header(clang: str, triple: str) -> list[str]:
    """Returns the lines that name the machine of a module. The compiler writes them for this one."""
    words = [clang, f"--target={triple}", "-x", "c", "-S", "-emit-llvm", "-o", "-", "/dev/null"]
    made = subprocess.run(words, capture_output=True, text=True, check=True).stdout
    return re.findall(r"^target (?:datalayout|triple) = .*$", made, re.M)


def retarget(module: str, lines: list[str]) -> str:
    """Returns the module with these lines as its header."""
    attributes = r' ?"(?:probe-stack|stack-probe-size|target-cpu|target-features)"="[^"]*"'
    made = []
    for line in module.splitlines(keepends=True):
        if line.startswith("attributes #"):
            line = re.sub(attributes, "", line)
        for head in lines:
            if line.startswith(head.partition("=")[0]):
                line = f"{head}\n"
        made.append(line)
    return "".join(made)
