"""Tries of examples/interpreter: small programs in both halves of the memory, their results against double arithmetic."""

import os
import random
import re
import shutil
import subprocess
import sys
from pathlib import Path

import cases
import chains
import costs
import language
import logs
import orbits
import run
import traced
from agc import Console
from judge import CONSOLE, STUDY, attempt, check, finish, judge, near, scratch_folder
from model import UNIT, Model, whole
from programs import HIGH_BANKS, LOW_BANKS, Line, Program, always_in_reach, banks_full, scalar, text
from weaving import EXAMPLE, HERE, copied, read, sums_for, weave, woven_by_lines

CELLS, BEGUN, SHOWN = 0o60, 0o55, 0o56  # the channels on which the driver writes
MOST_CYCLES = 20_000_000  # more than all programs of a rope take
MOST_TRACED = 400_000  # cycles of a rope that are traced
WORKAREA, STATE = 0o200, 0o55  # the work area's address, and the first word of switches behind it
SEED, CHAINS = int(os.environ.get("SEED", 1)), int(os.environ.get("CHAINS", 200))
OLD = b"no order or directive has this name"
scratch = scratch_folder()


def woven(placed, folder, source=None):
    """Weaves the interpreter, the driver and some programs. Returns the path of the rope."""
    shutil.copy(os.path.join(HERE, "driver.agc"), copied(folder))
    with open(os.path.join(folder, "programs.agc"), "w") as file:
        file.write(source or text(placed))
    done, rope = weave(folder, "driver.agc")
    judge(f"{os.path.basename(folder)} is woven", (0, b""), (done.returncode, done.stderr))
    return rope


class Found:
    """What a program has left: cells by their addresses, as the driver writes them, each block from its last cell down."""

    def __init__(self, words):
        blocks = []
        for count in (11, 1, 57, 24, 12):
            blocks.append(words[:count][::-1])
            words = words[count:]
        self.mpac, (self.mode, self.loc, self.banks, self.pushed), (self.overflow,) = blocks[0][:7], blocks[0][7:], blocks[1]
        self.cells = {}
        for first, block in zip((0, cases.RESULT, cases.LOWER), blocks[2:]):
            self.cells.update(enumerate(block, first))

    def number(self, words):
        return sum(whole(word) * 2.0 ** (-14 * (n + 1)) for n, word in enumerate(words))

    def accumulator(self):
        if whole(self.mode) < 0:
            return [self.number(self.mpac[n:n + 2]) for n in (0, 3, 5)]
        return self.number(self.mpac[:3])

    def value(self, address, words):
        return self.number([self.cells[address + n] for n in range(words)])

    def switches(self):
        """The numbers of the switches that are on."""
        words = [self.cells[STATE + n] for n in range(12)]
        return {15 * n + bit for n, word in enumerate(words) for bit in range(15) if word >> (14 - bit) & 1}


def results(rope):
    """Runs a rope. Returns what each program has left, and the last number that the driver wrote."""
    found, words, number = [], [], 0
    with Console(rope, program=[CONSOLE]) as console:
        while console.cycle < MOST_CYCLES:
            writes = console.go(300_000)
            for write in writes:
                if write.channel == CELLS:
                    words.append(write.value)
                elif write.channel == BEGUN:
                    if write.value != len(found):
                        return found, f"after program {number} the driver begins {write.value}"
                    words, number = [], write.value
                elif write.channel == SHOWN:
                    found.append(Found(words))
                else:
                    return found, None
            if not writes:
                break
        cells = console.cells("0100", 0o70)
        return found, f"program {number} stays, CODE {cells[3]:o}, LOC {cells[0o64]:o}, BANKSET {cells[0o65]:o}"


def close(what, wanted, found):
    """Checks a number against the model's."""
    return check(f"{what}: {found / UNIT:.2f} units is not {wanted.number / UNIT:.2f}, +-{wanted.error / UNIT:.2f}",
                 abs(found - wanted.number) <= wanted.error + UNIT / 100)


def compare(half, program, found):
    """Checks what a program has left."""
    model = Model().run(program)
    sure = model.mode == whole(found.mode) and model.overflow == (found.overflow not in (0, 0o77777))
    check(f"{half}, {program.name}: mode {found.mode:o}, overflow {found.overflow:o}", sure)
    if not sure:
        return
    if model.mode < 0:
        for n, (wanted, part) in enumerate(zip(model.mpac, found.accumulator())):
            close(f"{half}, {program.name}: MPAC's part {n}", wanted, part)
    else:
        close(f"{half}, {program.name}: MPAC", model.mpac, found.accumulator())
    for address, (value, words) in model.memory.items():
        close(f"{half}, {program.name}: {address:o}", value, found.value(address, words))
    judge(f"{half}, {program.name}: the push-down list", model.top, found.pushed - WORKAREA)
    words = {address: whole(found.cells[address]) for address in model.words}
    judge(f"{half}, {program.name}: single words", model.words, words)
    judge(f"{half}, {program.name}: switches", model.switches, found.switches())


def in_both_halves(programs, name):
    """Runs programs in each half of the memory, and checks what they leave."""
    for half, banks in (("low", LOW_BANKS), ("high", HIGH_BANKS)):
        found, why = results(woven(banks_full(programs, banks), os.path.join(scratch, name + half)))
        judge(f"{half}: all programs end", (len(programs), None), (len(found), why))
        for program, each in zip(programs, found):
            compare(half, program, each)


def try_programs():
    """Small programs."""
    programs = cases.programs()
    check(f"the page says {len(programs)} programs", f"{len(programs)} small programs" in read("README.md"))
    run_codes = {language.OPERATIONS[name][0] for each in programs for line in each.statements if isinstance(line, Line) for name in line.names}
    judge("operations that no program has", [], [name for name, (code, _) in language.OPERATIONS.items() if code not in run_codes])
    for n in range(0, len(programs), 400):  # more may not fit into a rope
        in_both_halves(programs[n:n + 400], f"small{n}")


def try_chains():
    """Programs of many random operations."""
    programs = list(chains.programs(random.Random(SEED), CHAINS))
    for n in range(0, CHAINS, 30):  # more may not fit into a rope
        in_both_halves(programs[n:n + 30], f"chains{n}")


def try_traced():
    """`trace --interpretive` prints each operation that a filter over the interpreter's cells finds, of each program."""
    programs = [*cases.programs()[:300], *chains.programs(random.Random(SEED + 1), CHAINS)]
    for n in range(0, len(programs), 30):  # more may not fit into a rope
        half, banks = (("low", LOW_BANKS), ("high", HIGH_BANKS))[n // 30 % 2]
        folder = os.path.join(scratch, f"traced{n}")
        rope = woven(banks_full(programs[n:n + 30], banks), folder)
        found = list(traced.operations(rope, MOST_TRACED, folder))
        lines = traced.printed(rope, MOST_TRACED)
        judge(f"{half} {n}: operations", len(found), len(lines))
        check(f"{half} {n}: there are too few", len(found) > 100)
        wrong = [(line, operation) for line, operation in zip(lines, found) if not traced.is_line_of(line, operation)]
        judge(f"{half} {n}: the first line that is not its operation's", [], wrong[:1])


# Those of main.agc, as its lines say: STODL stores in RATE and loads 36D, which cells.agc calls LENGTH.
OPERATIONS = ["VLOAD RVEC", "VSU SITE", "UNIT", "DOT VVEC", "SL1", "STODL RATE LENGTH", "STORE RANGE", "EXIT"]


def try_listed():
    """With a listing each operation of main.agc has the line in which it is written, and a part of the run its operations alone."""
    folder = copied(os.path.join(scratch, "listed"))
    listing = os.path.join(folder, "listing")
    rope = os.path.join(folder, "rope")
    words = [STUDY, "weave", os.path.join(folder, "main.agc"), "--write-names", rope + ".names", "--write-listing", listing]
    with open(rope, "wb") as file:
        subprocess.run(words, stdout=file, check=True)
    source = read("main.agc").splitlines()
    lines = traced.printed(rope, 5000, "--listing", listing)
    judge("main.agc has eight operations", 8, len(lines))
    for line in lines:
        operation, _, where = line.partition(" # ")
        name, number, text = where.split(" ", 2)
        judge("the file and the line", ("main.agc", source[int(number.rstrip(":")) - 1].split()), (name, text.split()))
        check(f"{where} has {operation}", operation.split(" ")[2] in text.split())
    plain = [line.partition(" # ")[0] for line in lines]
    of_operation = lambda line: line.split(" | ")[0].split(" ", 2)[2]
    judge("operations with their operands", OPERATIONS, [of_operation(line) for line in plain])
    with open(rope + ".names") as file:
        places = {name: place.split(",")[-1] for place, name in map(str.split, file)}
    spec = ",".join(places[name] for name in traced.SPEC.split(","))
    without = subprocess.run([STUDY, "trace", rope, os.devnull, "--limit", "5000", "--interpretive", spec], capture_output=True, text=True).stdout.splitlines()
    wanted = [operation.split(" ")[0] for operation in OPERATIONS]
    judge("without names an operation has no operand", wanted[:5] + wanted[7:], [of_operation(line) for line in without[:5] + without[7:]])
    judge("and a store its cell alone", ["STODL 1402", "STORE 1400"], [of_operation(line) for line in without[5:7]])
    first, last = int(plain[2].split()[0]), int(plain[4].split()[0])
    judge("a part", [*plain[2:4], plain[4].partition(" > ")[0] + " > - | " + plain[4].rpartition(" | ")[2]], traced.printed(rope, 5000, "--from", str(first), "--to", str(last)))


def try_fixed_fixed():
    """Programs in bank 03 at addresses from 6000 on, which need no bank."""
    names = ("DDV 0", "UNIT 1", "CALL", "STQ", "CGOTO 1", "CCALL 2", "SET BON 15", "TIX,1", "VXSC pops 1")
    programs = [program for program in cases.programs() if program.name in names]
    judge("there are such programs", len(names), len(programs))
    encoders, source = always_in_reach(programs)
    found, why = results(woven(encoders, os.path.join(scratch, "fixed"), source))
    judge("bank 03: all programs end", (len(programs), None), (len(found), why))
    for program, each in zip(programs, found):
        check(f"bank 03, {program.name}: LOC", each.loc >= 0o6000 or program.name in ("CALL", "STQ", "CGOTO 1", "CCALL 2", "SET BON 15", "TIX,1"))
        compare("bank 03", program, each)


def measured():
    """The table of what the operations cost."""
    rope = woven(banks_full(costs.programs(), LOW_BANKS), os.path.join(scratch, "costs"))
    trace = [STUDY, "trace", rope, os.devnull, "--limit", "400000", "--names", rope + ".names"]
    return costs.table(costs.costs(subprocess.run(trace, capture_output=True, text=True, check=True).stdout.splitlines()))


def try_costs():
    """The page's table of costs is what is measured."""
    judge("the page's costs", "\n".join(measured()), read("README.md").partition("# Operations")[2].split("\n\n")[2])


def bank_sums(rope):
    """The sum of each bank of a rope that has words: in ones' complement, with the end-around carry. The banks of a file are 02,
    03, 00, 01, 04 and on."""
    sums = {}
    for place in range(0, len(rope), 2048):
        total = 0
        for at in range(place, min(place + 2048, len(rope)), 2):
            total += int.from_bytes(rope[at:at + 2], "big") >> 1
            total = (total & 0o77777) + (total >> 15)
        number = place // 2048
        bank = number + 2 if number < 2 else number - 2 if number < 4 else number
        if any(rope[place:place + 2048]):
            sums[bank] = total
    return sums


def try_rope():
    """The ropes and their names are those of the sources, and the page counts the interpreter's words."""
    for source, rope, names in (("main.agc", "rope", "names"), ("orbit.agc", "orbit.rope", "orbit.names")):
        made = woven_by_lines(os.path.join(scratch, source), source)
        judge(f"{rope} is that of its source", read(rope, "rb"), Path(made).read_bytes())
        judge(f"so are {names}", read(names), Path(made + ".names").read_text())
        done = subprocess.run([STUDY, "weave", os.path.join(EXAMPLE, source), *sums_for(source)], capture_output=True)
        if OLD in done.stderr:
            print("skipped: this agc-study weaves no interpretive lines", flush=True)
        else:
            judge(f"agc-study weaves {rope}", (read(rope, "rb"), b""), (done.stdout, done.stderr))
    sums = bank_sums(read("orbit.rope", "rb"))
    judge("each used bank of orbit.rope has its number as its sum", [2, 3, 5, 6, 7], [bank for bank, total in sums.items() if bank == total])
    judge("no other bank is used", 5, len(sums))
    woven_words = read("rope", "rb")
    words = [int.from_bytes(woven_words[n:n + 2], "big") >> 1 for n in range(0, 4096, 2)]
    place = {name: int(place[3:], 8) - 0o4000 for place, name in map(str.split, read("names").splitlines()) if place[0] == "0"}
    ends = [max(n for n in range(first, first + 1024) if words[n]) + 1 for first in (0, 1024)]
    count = f"{ends[0] - place['INTPRET'] + ends[1] - 1024:,} words"
    check(f"the page says {count}", count in read("README.md"))


def try_page():
    """The words on the page are the encoder's, and the program finds what was worked out by hand."""
    rows = re.findall(r"^\| 04,(\d+) \| (\d+) \|", read("README.md"), re.M)
    places = {name: 0o4 * 0o2000 + place - 0o2000 for name, place in (("R", 0o2014), ("SITE", 0o2022), ("V", 0o2030))}
    words = [language.pair("VLOAD", "VSU"), language.address(places["R"], True), language.address(places["SITE"], True)]
    words += [language.pair("UNIT", "DOT"), language.address(places["V"], True), language.pair("SL1"), language.store("STODL", 0o1402)]
    words += [language.address(36, False), language.store("STORE", 0o1400), language.pair("EXIT")]
    judge("the page's words", [(f"{0o2001 + n:o}", f"{word:05o}") for n, word in enumerate(words)], rows[1:-1])
    with Console(os.path.join(EXAMPLE, "rope"), names=os.path.join(EXAMPLE, "names"), program=[CONSOLE]) as console:
        judge("the program ends", True, console.until("STAY", 100_000).came)
        distance, rate = (sum(whole(word) / 16384 ** n for n, word in enumerate(console.cells(name, 2), 1)) for name in ("RANGE", "RATE"))
        near("RANGE", 500_000, distance * 2**20, 0.01)
        near("RATE", -320, rate * 2**11, 0.0001)
        judge("the page's cycle", True, f"at {console.cycle}" in read("README.md"))


def try_tutorial():
    """The tutorial's programs leave the numbers that the page shows."""
    block = r"[Aa]s `(\w+\.agc)`:\n\n```\n(.*?)```\n\n    \$ \S+/run\.py \S+/(\w+\.agc) (.*?)\n(.*?)\n\n"
    found = re.findall(block, read("TUTORIAL.md"), re.S)
    judge("steps", read("TUTORIAL.md").count("\n## "), len(found))
    for name, source, again, wanted, shown in found:
        rope = woven_by_lines(os.path.join(scratch, "step-" + name), name, own=source)
        judge(f"{name}: the command's file", name, again)
        judge(name, [each.strip() for each in shown.splitlines()], run.lines(rope, rope + ".names", wanted.split(), program=[CONSOLE]))


def law():
    """The time to go and the law's accelerations forward and up after a second of the landing, in double arithmetic."""
    speeds = 150 + 10 * 0.0585, -45 + 20 * 0.0585 - 1.62
    places = -7500 + (150 + speeds[0]) / 2, 2300 + (-45 + speeds[1]) / 2
    time = 3 * -places[0] / (speeds[0] + 4)
    return time, *(6 / time * (2 * way / time - speed) for way, speed in ((-places[0], speeds[0] + 2), (30 - places[1], speeds[1] - 2)))


def try_law():
    """The landing's law in both languages: its results, words and cycles are those of the page."""
    rope = woven_by_lines(os.path.join(scratch, "law"), "law.agc")
    with open(rope + ".names") as file:
        place = {name: int(place[3:], 8) for place, name in map(str.split, file) if place.startswith("04,")}
    with Console(rope, names=rope + ".names", program=[CONSOLE]) as console:
        cycles = {}
        for name in ("BEGUN", "STEPPED", "LAWED", "BASIC", "BSTEPPED", "STAY"):
            check(f"law.agc comes to {name}", console.until(name, 20_000).came)
            cycles[name] = console.cycle
        found = [sum(whole(word) * 16.0 / 16384 ** n for n, word in enumerate(console.cells(name, 2), 1)) for name in ("ACCEL", "ACCEL+4", "BACCEL", "BACCEL+4")]
        near("the time to go", law()[0], 256 * sum(whole(word) / 16384 ** n for n, word in enumerate(console.cells("TGO", 2), 1)), 1e-5)
    for n, (wanted, most) in enumerate(((law()[1], 1e-7), (law()[2], 1e-7), (law()[1], 0.0012), (law()[2], 0.0012))):
        near(f"the law's acceleration {n}", wanted, found[n], most)
    words = lambda *parts: sum(place[end] - place[begin] for begin, end in parts)
    rows = re.findall(r"^\| (?:step|law with time to go), (?:words|cycles) \| (\d+) \| (\d+) \|", read("README.md"), re.M)
    measured = [
        (words(("BEGUN", "STEPPED")), words(("BASIC", "BSTEPPED"), ("STEP", "LAW"))), (cycles["STEPPED"] - cycles["BEGUN"], cycles["BSTEPPED"] - cycles["BASIC"]),
        (words(("STEPPED", "LAWED")), words(("BSTEPPED", "STAY"), ("LAW", "LAWEND"))), (cycles["LAWED"] - cycles["STEPPED"], cycles["STAY"] - cycles["BSTEPPED"]),
    ]  # fmt: skip
    judge("the page's words and cycles", [tuple(map(str, row)) for row in measured], rows)


def try_unknown():
    """A code without an operation, and a word without a meaning, stop the machine."""
    for word, trap in ((0o77777 - 0o167, "BADCODE"), (0o77777 - 0o166, "BADCODE"), (0, "BADWORD"), (0o77777, "BADWORD")):
        encoder = banks_full([Program("unknown", Line("DLOAD", scalar(0.5)))], LOW_BANKS)[0]
        encoder.words[2] = word
        rope = woven([encoder], os.path.join(scratch, f"unknown{word:o}"))
        with Console(rope, names=rope + ".names", program=[CONSOLE]) as console:
            judge(f"{word:05o}: {trap}", True, console.until(trap, 20_000).came)
            judge(f"{word:05o}: it stays there", trap, console.where().order.name)
            judge(f"{word:05o}: LOC", 0o2003 + (trap == "BADCODE"), console.cell("LOC"))
            if trap == "BADCODE":
                judge(f"{word:05o}: CODE", 0o77777 - word - 1, console.cell("CODE"))


def main():
    if sys.argv[1:] == ["costs"]:
        print("\n".join(measured()))
        sys.exit()
    if sys.argv[1:] == ["logs"]:
        logs.make()
        sys.exit()
    for each in (try_programs, try_chains, try_traced, try_listed, try_fixed_fixed, try_costs, try_rope, try_page, *orbits.TRIES, try_tutorial, try_law, logs.try_logs, try_unknown):
        if len(sys.argv) == 1 or each.__name__ in sys.argv[1:]:
            attempt(each)
    finish()


if __name__ == "__main__":
    main()
