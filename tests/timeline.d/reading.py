"""Reads what the Executive did from the lines of `agc-study jobs` and `trace`, without the page's own rules.

Which job is in a set: the program's own exchange of two core sets is in the trace, and so is what T3RUPT calls.
"""
import re
import subprocess
from bisect import bisect_right

from judge import STUDY

SLICE = 4096
SET_CELLS = 12
NEVER = 1 << 62
ORDER = re.compile(r"\d+ \S+ (.*?) +[0-7]{5} ")


def printed(*words):
    """The lines that agc-study prints."""
    return subprocess.run([STUDY, *words], capture_output=True, text=True, check=True).stdout.splitlines()


def cycle_of(line):
    return int(line.split(" ", 1)[0])


class Reading:
    """A part of a run: its options, the lines of `jobs`, and what the trace says."""

    def __init__(self, files, part, watch, names):
        self.words = [*files, *part, "--names", names]
        self.jobs = printed("jobs", *self.words, "--watch", watch)
        self.sets = [line.split() for line in self.jobs if " SET " in line]
        self.services, self.stolen = [], {}
        self.calls = []  # the cycles at which T3RUPT calls a task, and their names
        self._read_trace(self.at("TASKOVER-1")[0].split()[1])

    def _read_trace(self, call):
        """Takes the interrupts, the cycles that counters took, and the tasks that the order at the place `call` goes to."""
        last = called = None  # the boundary before, and the cycle of a call whose task has not begun
        with subprocess.Popen([STUDY, "trace", *self.words], stdout=subprocess.PIPE, text=True) as trace:
            for line in trace.stdout:
                cycle, place, kind, *rest = line.split(" | ")[0].split()
                if last is not None:
                    self._pass(last, int(cycle))
                last = int(cycle), place, kind, rest
                if (place, kind) == ("-", "interrupt"):
                    self.services.append([int(cycle), None, rest[0]])
                elif place != "-":
                    if called is not None and kind != "TASKOVER":
                        self.calls.append((called, ORDER.match(line)[1]))
                    called = int(cycle) if place == call else None

    def _pass(self, boundary, end):
        """Takes a boundary that ended at a cycle."""
        cycle, place, kind, rest = boundary
        if place == "-" and kind in ("event", "timer") and end > cycle:
            self.stolen[cycle // SLICE] = self.stolen.get(cycle // SLICE, 0) + end - cycle
        if place != "-" and "RESUME" in rest:
            self.services[-1][1] = end

    def at(self, place):
        """The lines of the orders at a place."""
        return [line for line in printed("trace", *self.words, "--at", place) if line.split()[1] != "-"]

    def held(self, number, cycle):
        """The words of a core set at a cycle."""
        found = None
        for at, _, which, *words in self.sets:
            if int(at) > cycle:
                break
            if int(which) == number:
                found = words
        return found

    def is_quiet(self, cycle, around):
        """Whether no set changes this near a cycle."""
        cycles = [int(words[0]) for words in self.sets]
        return bisect_right(cycles, cycle - around) == bisect_right(cycles, cycle + around)

    def exchanges(self):
        """When set 0 and another one changed places: the first and the last cycle, and the number of the other."""
        begins = [(cycle_of(line), int(re.search(r"\| A 0*([0-7]+) ", line)[1], 8) // SET_CELLS) for line in self.at("CHANG2+2")]
        ends = [cycle_of(line) for line in self.at("DISPATCH")]
        return [(cycle, next(end for end in ends if end > cycle), other) for cycle, other in begins if other]

    def jobs_at(self, cycles):
        """The names of the jobs in the sets at each of some rising cycles: a job has the name of the place where it began."""
        exchanges = [*self.exchanges(), (NEVER, NEVER, 0)]
        jobs, found, changes = {}, [], iter([*self.sets, [str(NEVER)]])
        change = next(changes)
        for cycle in cycles:
            while min(int(change[0]), exchanges[0][1]) <= cycle:
                if exchanges[0][1] <= int(change[0]):
                    other = exchanges.pop(0)[2]
                    jobs[0], jobs[other] = jobs.get(other), jobs.get(0)
                else:
                    self._take(change, exchanges[0], jobs)
                    change = next(changes)
            found.append({number: name for number, name in jobs.items() if name})
        return found

    def _take(self, change, exchange, jobs):
        """Takes a change of a set that is no part of an exchange: a job begins or ends there."""
        cycle, number, state = int(change[0]), int(change[2]), change[3]
        if exchange[0] <= cycle:
            return
        if state == "FREE":
            jobs[number] = None
        elif not jobs.get(number):
            jobs[number] = self._name(number, cycle)

    def _name(self, number, cycle):
        """The name of the place where a job begins, which is written after its priority."""
        words = self.held(number, cycle + 40)
        return " ".join(words[6:])
