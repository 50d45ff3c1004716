"""Where agc-console says that a program of several banks is, also within services, laid beside the trace with names."""

import os
import random
import re
import subprocess

from judge import judge
from session import Session

WORD = re.compile(r".*? [0-7]{5} ")
ORDER = re.compile(r"\d+ ([^ -]\S*) (\S+(?: \+\d+)?)? +[0-7]{5} ")
STRETCH = 20000


def named_orders(lines, at):
    """Yields the place and the name of each order from a line on, but not those of services that begin there or later."""
    serves = False
    for line in lines[at:]:
        found = ORDER.match(line)
        if " - interrupt " in line:
            serves = True
        elif found and not serves:
            yield f"{found[1]} {found[2]}" if found[2] else found[1]
        serves = serves and " RESUME " not in line


def where_of(lines, at):
    """The answer to `where` before a line: the order in hand and, within a service, the one in hand after its RESUME, of
    which only the address is known if a bank was selected for it."""
    answer = [f"where {next(named_orders(lines, at))}"]
    last = [line for line in lines[:at] if " - interrupt " in line or " RESUME " in line][-1:]
    if last and " - interrupt " in last[0]:
        resumes = next(index for index in range(at, len(lines)) if " RESUME " in lines[index])
        bank, comma, address = next(named_orders(lines, resumes + 1)).partition(",")
        answer.append(f"service interrupted {f'{address[:4]} (its bank is not known)' if comma else bank}")
    return answer


def try_places(console, study, top):
    """Stops the landing program here and there, every other time soon after an interrupt."""
    dice = random.Random(1)
    folder = os.path.join(top, "examples", "descent")
    rope, script, names = (os.path.join(folder, name) for name in ("rope", "script", "names"))
    session = Session(console, [rope, script, "--names", names])
    session.say("go to 2000000")
    for name in ("T3RUPT", "T4RUPT", "T5RUPT", "KEYRUPT1"):
        session.say(f"break interrupt {name}")
    for number in range(40):
        if number % 2:
            session.say(f"continue within {STRETCH}")
            session.say(f"step {dice.randrange(1, 6)}")
        else:
            session.say(f"go {dice.randrange(STRETCH)}")
        comes, cycle = session.say("next")[0][len("next ") :], session.cycle
        # the trace names operands, too
        comes = WORD.match(comes)[0] if WORD.match(comes) else comes
        words = ["--names", names, "--from", str(cycle - STRETCH), "--limit", str(cycle + STRETCH)]
        done = subprocess.run([study, "trace", rope, script, *words], capture_output=True, text=True, check=True)
        lines = done.stdout.splitlines()
        at = next(index for index, line in enumerate(lines) if line.startswith(f"{cycle} {comes}"))
        judge(f"where the program is at {cycle}", where_of(lines, at), session.say("where"))
    judge("the end of a landing", (b"", 0), session.close())
