"""Measures what agc.html promises, in Chromium and in Firefox, from its file and without a network: seconds until the DSKY is drawn, lamps,
milliseconds from a key to a lamp, the pace of a landing, seconds to go back an hour, memory, and a rope that floods with writes.

Each limit is checked. Those of times and of the pace are stretched on a busy machine, as `judge.slowness` says, by BUSY at most, with
FIGURES=1 by NEARLY. FIGURES=1 measures longer, prints each figure with its limit, says which one does not count because the machine was too
busy, and makes two more tries, try_hour_chromium and try_hour_firefox: an hour of machine time that ends with a landing.
"""
import base64
import contextlib
import json
import os
import shutil
import statistics
import tempfile
import time

from firefox import Firefox
from flights import SCRIPT
from judge import TOP, check, judge, slowness
from local import FILE, OFFLINE, web
from site_of import wait
from window import Window

HOUR = 307_200_000  # cycles
LANDED = 14_500_000  # a cycle shortly before the craft of the seed below stands on the ground
SEED = 7
COLLECTED = 30  # seconds after which a browser has collected what a page no longer uses
KILOBYTES = 1024  # of a megabyte
LIMITS = {'opening': 1.5, 'key': 50, 'pace': 100, 'back': 5, 'memory': 200, 'frame': 500, 'stop': 1000}
# Times a limit at most: with FIGURES=1, and else. With fifteen processes that waited for two processors each figure was within its limit or
# just above it, and with twenty a key took twice its limit.
NEARLY, BUSY = 1.5, 10
LAMPS = ['ALT', 'COMP ACTY', 'GIMBAL LOCK', 'ISS', 'KEY REL', 'NO ATT', 'OPR ERR', 'PROG', 'TEMP', 'TRACKER', 'UPLINK ACTY', 'VEL']
# Notes when the DSKY was drawn first with its session.
OPENED = '''
    const look = () => {
        if (!document.querySelector('#face .dsky') || !document.getElementById('state')?.textContent) { requestAnimationFrame(look); return; }
        const { port1, port2 } = new MessageChannel();
        port1.onmessage = () => { window.openedAt = Date.now(); };
        port2.postMessage(0);
    };
    if (location.hash === '#measured') requestAnimationFrame(look);
'''


def home(name):
    """Makes a folder for a browser's profile."""
    return tempfile.mkdtemp(prefix=f'{name}.', dir=web.FOLDER)


class Chromium(Window):
    """A page of the whole Chromium that users have, without a network."""

    worker = 'DedicatedWorker'  # the name of a worker's thread, fifteen characters at most

    def __init__(self):
        super().__init__(os.environ['CHROMIUM'], home('chromium'), *web.SIZE)
        self.ask('Network.enable')
        self.ask('Network.emulateNetworkConditions', **OFFLINE)
        self.ask('Page.addScriptToEvaluateOnNewDocument', source=f'{{{OPENED}}}')

    def processes(self):
        """Returns the processes that have pages."""
        usual, self.session = self.session, None
        found = self.ask('SystemInfo.getProcessInfo')['processInfo']
        self.session = usual
        return [each['id'] for each in found if each['type'] == 'renderer']


class FirefoxPage(Firefox):
    """The same of Firefox, whose settings have no network."""

    worker = 'DOM Worker'

    def __init__(self):
        super().__init__(shutil.which('firefox-esr'), home('firefox'))
        self.ask('script.addPreloadScript', functionDeclaration=f'() => {{{OPENED}}}')

    def load(self, url):
        self.ask('browsingContext.navigate', context=self.page, url=url, wait='complete')

    def processes(self):
        return below(self.process.pid)


# what /proc knows


def below(process):
    """Returns the processes that a process has started, and those that these have."""
    started = {}
    for name in filter(str.isdigit, os.listdir('/proc')):
        with contextlib.suppress(OSError), open(f'/proc/{name}/stat') as file:
            started.setdefault(int(file.read().rsplit(')', 1)[1].split()[1]), []).append(int(name))
    found = [process]
    for each in found:
        found.extend(started.get(each, ()))
    return found[1:]


def used(process, thread=None):
    """Returns the seconds of a processor that a process, or one of its threads, has used; 0 if it has ended."""
    try:
        with open(f'/proc/{process}/task/{thread}/stat' if thread else f'/proc/{process}/stat') as file:
            return sum(map(int, file.read().rsplit(')', 1)[1].split()[11:13])) / os.sysconf('SC_CLK_TCK')
    except OSError:
        return 0


def tab(page):
    """Returns the process of the tab: the one that works most while the tab does."""
    before = {each: used(each) for each in page.processes()}
    page.value('(() => { let sum = 0; for (let i = 0; i < 3e8; i += 1) sum ^= i; return sum; })()')
    return max(before, key=lambda each: used(each) - before[each])


def megabytes(page):
    """Returns the memory of the tab."""
    with open(f'/proc/{tab(page)}/smaps_rollup') as file:
        return next(int(line.split()[1]) for line in file if line.startswith('Pss:')) / KILOBYTES


def worker_seconds(process, name):
    """Returns the seconds of a processor that each thread of a process with a name has used."""
    folder = f'/proc/{process}/task'
    return {thread: used(process, thread) for thread in os.listdir(folder) if name_of(f'{folder}/{thread}') == name}


def name_of(folder):
    """Returns the name of a thread."""
    try:
        with open(f'{folder}/comm') as file:
            return file.read().strip()
    except OSError:
        return ''


# the figures


def show(browser, what, value, limit):
    """Prints a figure and its limit, and the load of the machine."""
    if web.FIGURES:
        print(f'page: {browser}: {what}: {value}; limit: {limit}; load {os.getloadavg()[0]:.1f}', flush=True)


def hold(browser, what, found, limit):
    """Checks that a time is below its limit, which is longer on a busy machine."""
    slow = 1 if found < limit else slowness()
    stretched = limit * min(slow, NEARLY if web.FIGURES else BUSY)
    check(f'{browser}: {what}: {found:.3f}, limit {limit}, stretched on this machine to {stretched:.3f}', found < stretched)
    if web.FIGURES and slow > NEARLY:
        print(f'page: {browser}: {what}: this figure does not count: the machine is so busy that it may take {slow:.1f} times as long', flush=True)


def files_of(name, **more):
    """Returns the expression of an example's files."""
    return f'{{ ...filesOfExample({json.dumps(name)}), ...{json.dumps(more)} }}'


def landing(first=50000):
    """Returns the files of a landing whose first key goes down at a cycle."""
    lines = [line.split(' ', 1) for line in SCRIPT.splitlines()]
    script = ''.join(f'{int(cycle) - 50000 + first} {command}\n' for cycle, command in lines)
    return files_of('descent', script=script, options={'seed': SEED})


def empty_tab(page):
    """Returns the megabytes of a tab with an empty file."""
    path = os.path.join(web.FOLDER, 'empty.html')
    with open(path, 'w') as file:
        file.write('<!doctype html><title>Empty</title>\n')
    page.load(f'file://{path}')
    time.sleep(2)
    return megabytes(page)


def open_page(page):
    """Opens agc.html; returns the seconds from before that to the frame in which the DSKY stands there with its session."""
    page.load('about:blank')
    began = time.time()
    page.load(f'file://{FILE}#measured')
    wait(lambda: page.value('window.openedAt'))
    took = page.value('openedAt') / 1000 - began
    with open(os.path.join(TOP, 'tests', 'page.d', 'figures.js'), encoding='utf-8') as file:
        text = file.read()
    page.value(f'(() => {{ {text}; window.Figures = Figures; return 0; }})()')
    return took


def measure_opening(page, browser, first):
    """The DSKY is there soon, also in a tab that opens the page again; the first opening was in a new browser."""
    times = [first]
    for _ in range(4 if web.FIGURES else 1):
        page.value('(() => { keeping.is = false; localStorage.clear(); return 0; })()')
        times.append(open_page(page))
    show(browser, 'opening', f'in a new browser {first:.2f} s, median {statistics.median(times):.2f} s, worst {max(times):.2f} s of {len(times)}', f'{LIMITS["opening"]} s')
    hold(browser, 'opening', max(times), LIMITS['opening'])


def measure_hour(page, browser, files, what, empty, least=1):
    """After an hour of machine time the page has little memory: at once, or so many seconds later, once the browser has collected what
    the page no longer uses. It goes back all of that time."""
    took = page.value(f'Figures.run({files}, {HOUR + 1_000_000})')
    time.sleep(1)
    sizes = [megabytes(page) - empty]
    time.sleep(least - 1)
    sizes.append(megabytes(page) - empty)
    later = f', {sizes[1]:.0f} MB after {least} s' if least > 1 else ''
    show(browser, f'memory after an hour of {what}, run in {took:.0f} s', f'{sizes[0]:.0f} MB above the {empty:.0f} MB of an empty tab{later}', f'{LIMITS["memory"]} MB')
    check(f'{browser}: memory after an hour of {what}: {sizes[1]:.0f} MB, limit {LIMITS["memory"]}', sizes[1] < LIMITS['memory'])
    times = []
    for _ in range(3 if web.FIGURES else 1):
        end = page.value('now.cycle')
        times.append(page.value(f'Figures.back(now.cycle - {HOUR})'))
        judge(f'{browser}: it went back', True, page.value('now.cycle') <= end - HOUR)
        page.value("session.do('undo').then(() => 0)")
        judge(f'{browser}: it came again', end, page.value('now.cycle'))
    show(browser, f'back an hour of {what}', f'median {statistics.median(times):.2f} s, worst {max(times):.2f} s of {len(times)}', f'{LIMITS["back"]} s')
    hold(browser, f'back an hour of {what}', max(times), LIMITS['back'])


def measure_keys(page, browser):
    """VERB 35 lights every lamp. Then ENTR lights the lamps and RSET puts them out, each soon."""
    page.value(f"Figures.open({files_of('verbs')}).then(() => session.do('play')).then(() => 0)")
    for key in ('v', '3', '5', 'Enter'):
        page.type(key)
    wait(lambda: len(page.value('Figures.lit()')) == len(LAMPS))
    lit = page.value('Figures.lit()')
    show(browser, 'VERB 35', f'{len(lit)} lamps lit', f'all {len(LAMPS)}')
    judge(f'{browser}: VERB 35', LAMPS, sorted(lit))
    page.value('(() => { Figures.noteLamps(); return 0; })()')
    times = []
    for number in range(20):
        time.sleep(0.25)
        page.type('Enter' if number % 2 else 'r')
        wait(lambda: page.value('Figures.times.length') > number)
    times = page.value('Figures.times')
    judge(f'{browser}: each key is seen', 20, len(times))
    show(browser, 'key to lamp', f'median {statistics.median(times):.0f} ms, worst {max(times):.0f} ms of {len(times)}', f'{LIMITS["key"]} ms')
    hold(browser, 'key to lamp, median', statistics.median(times), LIMITS['key'])


def measure_pace(page, browser):
    """A landing with its craft, as fast as it goes, reaches 100 times the hardware's pace. Checked is what the worker's thread would reach
    with a processor of its own: other programs, and tries beside this one, slow the pace by the clock."""
    process = tab(page)
    before = worker_seconds(process, page.worker)
    flown = page.value(f'Figures.fly({landing()}, 1000, {LANDED}, {20 if web.FIGURES else 4})')
    # other workers do not run any more
    took = sum(seconds - before.get(thread, 0) for thread, seconds in worker_seconds(process, page.worker).items())
    pace, alone = (flown['cycles'] / seconds / web.A_SECOND for seconds in (flown['seconds'], took))
    what, flights = f'{LIMITS["pace"]} times', f'{flown["flights"]} flights of {flown["seconds"]:.1f} s'
    show(browser, 'pace of a landing by the clock (not checked)', f'{pace:.1f} times the hardware in {flights}', what)
    show(browser, 'pace of a landing by processor time of its worker', f'{alone:.0f} times the hardware', what)
    hold(browser, 'processor time of a landing, in parts of what the limit allows', LIMITS['pace'] / alone, 1)


def measure_flood(page, browser, instrument):
    """A rope that writes a channel every four cycles, as fast as it goes, lets the page draw, and stops soon."""
    with open(os.path.join(TOP, 'benches', 'writes.rope'), 'rb') as file:
        code = base64.b64encode(file.read()).decode()
    files = {name: None for name in ('names', 'watch', 'guide', 'quantities', 'nouns', 'form', 'example', 'options')}
    more = json.dumps({**files, 'title': 'flood', 'script': '', 'instrument': instrument})
    flood = page.value(f"Figures.flood({{ ...{more}, rope: bytesOf('{code}') }}, 5)")
    pace, kind = flood['cycles'] / 5 / web.A_SECOND, 'with a craft' if instrument else 'alone'
    text = f'{flood["longest"]:.0f} ms between two frames at most, stopped after {flood["stop"]:.0f} ms'
    show(browser, f'a flood of writes {kind}, {pace:.0f} times the hardware', text, f'{LIMITS["frame"]} ms, {LIMITS["stop"]} ms')
    check(f'{browser}: the flood {kind} runs', flood['cycles'] > 0)
    hold(browser, f'the flood {kind}: frame', flood['longest'], LIMITS['frame'])
    hold(browser, f'the flood {kind}: stop', flood['stop'], LIMITS['stop'])


def measure_all(kind, browser):
    """Measures all in one browser."""
    page = kind()
    empty = empty_tab(page)
    first = open_page(page)
    measure_hour(page, browser, files_of('verbs'), 'verbs', empty)
    measure_opening(page, browser, first)
    measure_keys(page, browser)
    measure_pace(page, browser)
    for instrument in (None, 'lander'):
        measure_flood(page, browser, instrument)
    page.close()


def measure_landing(kind, browser):
    """Measures the memory after an hour that ends with a landing."""
    page = kind()
    empty = empty_tab(page)
    open_page(page)
    measure_hour(page, browser, landing(HOUR - LANDED), 'descent with a landing at its end', empty, COLLECTED)
    page.close()


def try_promises_chromium():
    """The promises in Chromium."""
    measure_all(Chromium, 'Chromium')


def try_promises_firefox():
    """The promises in Firefox."""
    measure_all(FirefoxPage, 'Firefox')


def try_hour_chromium():
    """An hour with a landing in Chromium."""
    measure_landing(Chromium, 'Chromium')


def try_hour_firefox():
    """An hour with a landing in Firefox."""
    measure_landing(FirefoxPage, 'Firefox')


TRIES_OF_FIREFOX = (try_promises_firefox, *[try_hour_firefox] * bool(web.FIGURES))
TRIES = (
    try_promises_chromium, *[try_hour_chromium] * bool(web.FIGURES), *(TRIES_OF_FIREFOX if shutil.which('firefox-esr') else ()),
)
