"""Tries the page of `agc-study jobs --timeline` on the flight of the alarm 1202.

    tries.py FOLDER BROWSER

The folder has the script of the flight, `with`. What the page's data and bars are to be is read from `jobs` and `trace`, and when
the PROG lamp goes on from `agc --log`; how many jobs there are at the alarms is in examples/descent/alarm/README.md.
"""
import os
import random
import re
import subprocess
import sys
import tempfile
from collections import Counter

from browser import Browser
from judge import AGC, STUDY, TOP, attempt, check, depends_on_time, finish, judge
from reading import SLICE, Reading

FOLDER, PROGRAM = sys.argv[1:]
EXAMPLE = os.path.join(TOP, "examples", "descent")
FILES = [os.path.join(EXAMPLE, "rope"), os.path.join(FOLDER, "with")]
FIRST, LAST = 4960000, 5770000
PART = ["--limit", "6400000", "--from", str(FIRST), "--to", str(LAST)]
WATCH, NAMES = "0,200,10,0,340,0,350", os.path.join(EXAMPLE, "names")
MARKS = ("BAILOUT", "READACCS")
ALARM, AFTER = 5321924, 5753050  # the call that finds no core set, and a cycle at which five SERVICERs wait
SECOND = 1024000 / 12
AROUND = 400  # cycles without a change of a set around a cycle that is looked at
FRAMES, LONGEST_FRAME = 20, 100  # drawings that are timed, and milliseconds of the processor for each
PAGE = os.path.join(FOLDER, "timeline.html")
OPTIONS = [*FILES, *PART, "--watch", WATCH, "--names", NAMES]
BLOCK = re.compile('(<script type="text/plain" id="jobs">\n)(.*?)(</script>)', re.DOTALL)
# The bars of the sets that the page has: the set, from, to, the job, state, priority and the two places.
BARS = """sets.flatMap(({ bars }, set) => bars.map((bar) => [set, bar.from, bar.to, bar.job.name, bar.state, bar.priority,
    [bar.place.loc, bar.place.bankset], [bar.then.loc, bar.then.bankset]]))"""


def made(page, *more):
    """Makes the page. Returns what the program printed, and its status."""
    words = [STUDY, "jobs", *OPTIONS, *(word for mark in MARKS for word in ("--mark", mark)), "--timeline", page, *more]
    done = subprocess.run(words, capture_output=True, text=True, check=False)
    return done.returncode, done.stdout, done.stderr


def text_of(page):
    with open(page, encoding="utf-8") as file:
        return file.read()


def data_of(page):
    return BLOCK.search(text_of(page))[2].splitlines()


def with_data(name, lines):
    """Writes the page with other data."""
    path = os.path.join(FOLDER, name)
    with open(path, "w", encoding="utf-8") as file:
        file.write(BLOCK.sub(lambda found: found[1] + "\n".join(lines) + "\n" + found[3], text_of(PAGE)))
    return path


def opened(page, hash_text=""):
    browser.open(page, hash_text)
    settle()


def settle():
    """Waits for the next drawing."""
    browser.value("new Promise((done) => requestAnimationFrame(() => requestAnimationFrame(() => done(0))))")


def view():
    return [float(browser.value(f"document.body.dataset.{name}")) for name in ("from", "to")]


def x_of(cycle):
    """The place of a cycle in the window."""
    return browser.value(f"find('chart').getBoundingClientRect().left + xOf({cycle})")


def y_of(row):
    """The middle of a row, or of the band of the stolen cycles, in the window."""
    middle = "bandTop + BAND / 2" if row == "stolen" else f"lanes.find((lane) => lane.row === {row}).y + ROW / 2"
    return browser.value(f"find('chart').getBoundingClientRect().top + {middle}")


def pointed(cycle, row):
    """What the page says of this place in a row."""
    browser.mouse("mouseMoved", x_of(cycle), y_of(row))
    return browser.value("find('about').textContent")


def lit_cycles():
    """The cycles of the log at which the PROG lamp goes on: bit 9 of relay row 12, on channel 10."""
    log = subprocess.run([AGC, *FILES, "--limit", "6400000", "--log"], capture_output=True, text=True, check=True).stdout
    lit = [(int(cycle), int(word, 8) >> 8 & 1) for cycle, word in re.findall("^([0-9]+) 010 ([0-7]{5})$", log, re.MULTILINE) if int(word, 8) >> 11 == 12]
    return [cycle for i, (cycle, is_lit) in enumerate(lit) if is_lit and not (i and lit[i - 1][1])]


def try_file():
    if os.path.exists(PAGE):
        os.unlink(PAGE)
    status, out, err = made(PAGE)
    judge("the page is made", (0, "", ""), (status, out, err))
    before = text_of(PAGE)
    status, out, err = made(PAGE, "--mark", "LRTASK")
    judge("an existing file is kept", (2, "", f"error: invalid value '{PAGE}' for '--timeline <NEW>': the file exists"), (status, out, err.split("\n")[0]))
    check("an existing file is as it was", before == text_of(PAGE))


def try_data():
    lines = data_of(PAGE)
    judge("the lines of the tables", reading.jobs, [line for line in lines if re.match(r"\d+ (SET|LST)", line)])
    wanted = [f"{cycle} RUPT {name}" for cycle, _, name in reading.services] + [f"{end} RESUME" for _, end, _ in reading.services if end]
    judge("the interrupts", sorted(wanted), sorted(line for line in lines if re.search(" (RUPT|RESUME)", line)))
    marks = [f"{line.split()[0]} MARK {number}" for number, mark in enumerate(MARKS) for line in reading.at(mark)]
    judge("the marks", sorted(marks), sorted(line for line in lines if " MARK " in line))
    lit = lit_cycles()
    judge("one alarm lights the lamp, soon after the 1202", (1, True), (len(lit), 0 < lit[0] - ALARM < SECOND / 4))
    judge("the alarms", [f"{cycle} ALARM" for cycle in lit], [line for line in lines if " ALARM" in line])
    found = {int(line.split()[0]) // SLICE: int(line.split()[2]) for line in lines if " STOLEN " in line}
    judge("the stolen cycles", reading.stolen, found)
    judge("the end", f"to {LAST}", lines[-1])


def is_shown(bar, state, words):
    """Whether a bar, or none, is what `jobs` prints of a set."""
    if state == "FREE" or bar is None:
        return state == "FREE" and bar is None
    priority, _, loc, _, bankset = words[:5]
    return bar[4:6] == [state, priority] and [loc, bankset] in bar[6:]


def try_bars():
    opened(PAGE)
    judge("no error of the page", [], browser.errors())
    bars = browser.value(BARS)
    chance = random.Random(7)
    cycles = sorted(cycle for cycle in chance.sample(range(FIRST + AROUND, LAST), 500) if reading.is_quiet(cycle, AROUND))
    check(f"{len(cycles)} cycles to look at", len(cycles) > 150)
    named = reading.jobs_at(cycles)
    wrong, wrong_jobs = [], []
    for cycle, jobs in zip(cycles, named):
        there = {bar[0]: bar for bar in bars if bar[1] <= cycle < bar[2]}
        for number in range(8):
            state, *words = reading.held(number, cycle)
            bar = there.get(number)
            if not is_shown(bar, state, words):
                wrong.append((cycle, number, state, words, bar))
            # A job of before the part has the name of the place where it goes on.
            elif bar and jobs.get(number) not in (None, bar[3]):
                wrong_jobs.append((cycle, number, jobs[number], bar[3]))
    judge("the sets and their bars", [], wrong)
    judge("the jobs in the sets", [], wrong_jobs)
    check("of most jobs the beginning was seen", sum(len(jobs) for jobs in named) > len(cycles))
    judge("idle", [reading.held(0, cycle)[0] != "READY" for cycle in cycles], browser.value(f"{cycles}.map((cycle) => idle.at(cycle) !== null)"))
    found = browser.value("services.bars.map(({ from, to, name }) => [from, to, name])")
    judge("the bars of interrupts", [[begun, end or LAST, name] for begun, end, name in reading.services], found)


def try_tasks():
    opened(PAGE)
    calls = browser.value("tasks.ticks.map(({ cycle, name }) => [cycle, name])")
    judge("the tasks that T3RUPT calls", [name for _, name in reading.calls], [name for _, name in calls if name != "TASKOVER"])
    tasks = [cycle for cycle, name in calls if name != "TASKOVER"]
    check("each call is where its order is", all(0 <= wanted - cycle < 20 for (wanted, _), cycle in zip(reading.calls, tasks)))


def jobs_in_use(cycle):
    """The jobs in the sets at a cycle, by name."""
    return dict(Counter(bar[3] for bar in browser.value(BARS) if bar[1] <= cycle < bar[2]))


def try_alarm():
    opened(PAGE)
    judge("the jobs at the alarm 1202", {"SERVICER": 3, "RANGEJOB": 4, "DISPJOB": 1}, jobs_in_use(ALARM))
    judge("the jobs before the alarm 1201", {"SERVICER": 5}, jobs_in_use(AFTER))
    counts = browser.value(f"[{ALARM}, {AFTER}].map((cycle) => executive.used.counts[countUpTo(executive.used.cycles, cycle) - 1])")
    judge("the sets in use at both", [8, 5], counts)
    judge("no cell is left at the first alone", 1, browser.value("executive.used.counts.filter((count) => count === 8).length"))
    started = [bar[1] for bar in browser.value(BARS) if bar[3] == "SERVICER" and bar[5] == "20" and bar[0] > 0]
    begun = [cycle_of(line) for line in reading.at("READACCS")]
    found = [any(0 < cycle - at < 200 for cycle in started) for at in begun]
    refused = [cycle_of(line) for line in reading.at("BAILOUT")]
    judge("each READACCS that finds room starts a SERVICER", [not any(0 < cycle - at < 200 for cycle in refused) for at in begun], found)
    judge("one alone finds none: 1201", 1, found.count(False))
    most = browser.value("[...find('jobs-table').rows].find((row) => row.cells[0].textContent === 'SERVICER').cells[2].textContent")
    judge("the most SERVICERs at a time", "5", most)
    red = f"""(() => {{ const [r, g] = pen.getImageData(Math.round(xOf({ALARM + 100}) * devicePixelRatio), 12 * devicePixelRatio, 1, 1).data;
        return r > 200 && g < 150; }})()"""
    opened(PAGE, f"from={ALARM - 20000}&to={ALARM + 20000}")
    check("no core set left is red", browser.value(red))


def try_lamp():
    """The alarm has a line in a colour of its own, its words when one points at it, and a button; other pages have none of these."""
    lit, = lit_cycles()
    opened(PAGE, f"from={lit - 50000}&to={lit + 50000}")
    found = pointed(lit, "alarms")
    judge("pointing at the alarm", f"PROG: an alarm: the PROG lamp goes on\nat cycle {lit}, {lit / SECOND:.6f} s", found)
    pink = f"""[-20, 0, 20].map((off) => {{
        const y = lanes.find(({{ row }}) => row === sets[7]).y + ROW / 2; // which is empty there
        const [r, g, b] = pen.getImageData(Math.floor(xOf({lit})) + off, y, 1, 1).data;
        return r > 100 && g < 120 && b > 60 && r > 1.5 * g && b > g; }})"""
    judge("the line", [False, True, False], browser.value(pink))
    text = f"{lit / SECOND:.3f} s, cycle {lit}"
    judge("the words", f"Alarms, at which the PROG lamp goes on: {text}", browser.value("find('alarms').textContent"))
    browser.value("find('all').click()")
    settle()
    browser.value("find('alarms').querySelector('button').click()")
    settle()
    begun, end = view()
    check(f"the button shows the second around it: {begun} to {end}", abs((begun + end) / 2 - lit) < 2 and abs(end - begun - SECOND) < 2)
    try_no_lamp()


def try_no_lamp():
    """A part that begins with the lamp on has no alarm, and neither has a page of an older program."""
    later = os.path.join(tempfile.mkdtemp(dir=FOLDER), "later.html")
    words = [*FILES, "--limit", "6400000", "--from", "5400000", "--to", "5450000", "--watch", WATCH, "--timeline", later]
    subprocess.run([STUDY, "jobs", *words], check=True)
    judge("the lamp went on before", [], [line for line in data_of(later) if " ALARM" in line])
    older = with_data("older.html", [line for line in data_of(PAGE) if " ALARM" not in line])
    for page in (later, older):
        opened(page)
        judge("no alarm", ([], "", False), (browser.value("alarms.ticks"), browser.value("find('alarms').textContent"), browser.value("find('alarms').checkVisibility()")))
    check("the bars are there", len(browser.value(BARS)) > 100)


def cycle_of(line):
    return int(line.split(" ", 1)[0])


def try_pointing():
    opened(PAGE, f"from={ALARM - 100000}&to={ALARM + 5000}")
    waiting = next(bar for bar in browser.value(BARS) if bar[0] == 4 and bar[1] <= ALARM - 20000 < bar[2])
    begun, end = waiting[1:3]
    facts = r"SET 4: SERVICER \(number \d+ of this name\), priority 14, ready\nLOC 02067 60103 PRLAND \+11.*\n"
    wanted = facts + rf"from cycles {begun} to {end}: {end - begun} cycles, {(end - begun) / SECOND * 1000:.3f} ms"
    found = pointed(ALARM - 20000, "sets[4]")
    check(f"pointing at a waiting job says {found!r}", re.fullmatch(wanted, found))
    service = next(service for service in reading.services if service[0] > ALARM - 3000)
    opened(PAGE, f"from={service[0] - 100}&to={service[0] + 900}")
    found = pointed(service[0] + 20, "services")
    wanted = f"{service[2]}: an interrupt\nfrom cycles {service[0]} to {service[1]}: "
    check(f"pointing at an interrupt says {found!r}", found.startswith(wanted))
    opened(PAGE, f"from={ALARM - 500}&to={ALARM + 500}")
    found = pointed(ALARM, "marks")
    check(f"pointing at a mark says {found!r}", found.startswith(f"BAILOUT: a marked order\nat cycle {ALARM},"))
    found = pointed(ALARM + 100, "stolen")
    share = reading.stolen[(ALARM + 100) // SLICE] / SLICE
    check(f"pointing at the band says {found!r}", f"counters take {100 * share:.1f} of 100 cycles" in found)


def try_moving():
    opened(PAGE)
    judge("the whole part", [FIRST, LAST], view())
    browser.value("document.activeElement.blur()")
    browser.press("+")
    settle()
    begun, end = view()
    judge("+ shows half", (LAST - FIRST) / 2, end - begun)
    browser.press("ArrowRight")
    settle()
    judge("the arrow moves by a quarter", [begun + (end - begun) / 4, end + (end - begun) / 4], view())
    x, y = x_of(ALARM), y_of("sets[2]")
    browser.ask("Input.dispatchMouseEvent", type="mouseWheel", x=x, y=y, deltaX=0, deltaY=-400)
    settle()
    begun, end = view()
    check("the wheel zooms", abs((end - begun) / (LAST - FIRST) * 2 - 1.0015 ** -400) < 0.001)
    check("the wheel keeps the cycle where it is", abs(x_of(ALARM) - x) < 1)
    browser.mouse("mousePressed", x, y)
    browser.mouse("mouseMoved", x - 120, y)
    browser.mouse("mouseReleased", x - 120, y)
    settle()
    check("dragging moves", abs(x_of(ALARM) - (x - 120)) < 1)
    browser.press("-")
    settle()
    check("- shows twice as much", view()[1] - view()[0] > 1.9 * (end - begun))
    browser.press("Home")
    settle()
    judge("Home shows the whole part", [FIRST, LAST], view())
    browser.value("find('in').click()")
    settle()
    check("a button zooms", view()[1] - view()[0] < LAST - FIRST)


def try_hosts():
    opened(PAGE)
    judge("nothing is loaded", 0, browser.value("performance.getEntriesByType('resource').length"))
    policy = browser.value("document.querySelector('meta[http-equiv]').content")
    check(f"the policy {policy}", re.fullmatch("default-src 'none'; script-src 'sha256-[^' ]+'; style-src 'sha256-[^' ]+'", policy))
    blocked = """new Promise((done) => {
        document.addEventListener('securitypolicyviolation', (event) => done(event.effectiveDirective));
        setTimeout(() => done('allowed'), 20000);
        document.body.append(Object.assign(new Image(), { src: 'https://example.org/image.png' })); })"""
    judge("the policy blocks an image", "img-src", browser.value(blocked))


def script_seconds():
    """The seconds of the processor that scripts of the page have taken."""
    return {each["name"]: each["value"] for each in browser.ask("Performance.getMetrics")["metrics"]}["ScriptDuration"]


def try_many_bars():
    """100,000 bars: half of them jobs that come and go, half interrupts."""
    head = [line for line in data_of(PAGE) if not line[0].isdigit() and not line.startswith("to ")]
    lines = [f"{FIRST} SET {number} FREE" for number in range(8)]
    for k in range(50000):
        at = FIRST + 1000 * (k + 1)
        lines += [f"{at} RUPT T4RUPT", f"{at + 91} RESUME", f"{at + 200} SET {k % 8} READY {k % 30 + 1:02o} LOC {2000 + k % 700} BANKSET 12003 JOB{k % 50}",
                  f"{at + 700} SET {k % 8} FREE"]
    page = with_data("many.html", [*head, *lines, f"to {FIRST + 50002000}"])
    opened(page)
    judge("no error with many bars", [], browser.errors())
    judge("all bars are there", 100000, browser.value("sets.reduce((sum, { bars }) => sum + bars.length, services.bars.length)"))
    browser.ask("Performance.enable", timeDomain="threadTicks")
    for length in (50002000, 5000000, 200000):
        before = script_seconds()
        browser.value(f"for (let i = 0; i < {FRAMES}; i += 1) {{ show(run.from + i * {length} / 90, {length}); draw(); }}")
        took = (script_seconds() - before) / FRAMES * 1000
        check(f"{length} cycles of 100,000 bars are drawn in {took} ms of the processor", 0 < took < LONGEST_FRAME)
    rectangles = int(browser.value("show(run.from, 50002000), draw(), document.body.dataset.rectangles"))
    check(f"bars narrower than a pixel are merged: {rectangles}", rectangles < 20000)


def try_cut_page():
    page = with_data("cut.html", data_of(PAGE)[:-1])
    opened(page)
    check("a page that is cut off says so", "cut off" in browser.value("find('trouble').textContent"))


depends_on_time()
attempt(try_file)
reading = Reading(FILES, PART, WATCH, NAMES)
attempt(try_data)
with tempfile.TemporaryDirectory() as home:
    browser = Browser(PROGRAM, home, 1400, 900)
    for group in (try_bars, try_tasks, try_alarm, try_lamp, try_pointing, try_moving, try_hosts, try_many_bars, try_cut_page):
        attempt(group)
    browser.close()
finish()
