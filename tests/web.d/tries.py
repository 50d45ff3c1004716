"""Tries agc-web: in a browser, and by requests that are to be refused.

What is wanted is worked out by hand from the examples' sources and from docs/WEB.md, or is what agc, agc-console and
agc-study make of the script that the page lets one download.
"""
import http.client
import http.server
import importlib.util
import json
import os
import pty
import random
import re
import shlex
import signal
import socket
import statistics
import subprocess
import sys
import threading
import time

from agc import Console, Refused
from agc_web.server import Server
from agc_web.session import KEYS, Session, Unable
from dsky import KEYS as KEY_PACKETS, Dsky
from judge import AGC, CONSOLE, TOP, attempt, beside, check, depends_on_time, finish, judge, near, scratch_folder, slowness, soon
from site_of import LONGEST, Site, example, free_ports, keys_in, started, wait
from window import Window
import buttons
import causes
import ends
import filmed
import found
import guides
import lesson
import listed
import listens
import looks
import nouns
import operands
import quantities
import rooms
import stepped
import storms
import texts
import timelines
import times
import views
import whys

HERE = os.path.dirname(os.path.abspath(__file__))
FOLDER, BROWSER = scratch_folder(), os.environ['BROWSER']
PICTURES, FIGURES = os.environ.get('PICTURES'), os.environ.get('FIGURES')
AT_ONCE = int(os.environ.get('AT_ONCE', 2))  # tries: most of their time they wait
A_SECOND = 1024000 / 12  # cycles
FULL = '1000000000 poke 0 100 1\n' * 65536  # a script that takes no more
FULL_SAYS = 'Time stops: the script is full, with 65,536 events. Going back makes room.'
TENTH = 8533
SIZE = (1000, 700)
PHONE = (390, 844)

spec = importlib.util.spec_from_file_location('film_tries', os.path.join(HERE, '..', 'film.d', 'tries.py'))
assert spec and spec.loader
film = importlib.util.module_from_spec(spec)
spec.loader.exec_module(film)


def figure(what, value):
    if FIGURES:
        print(f'web: {what}: {value}')


class Page:
    """The page of a site in a window of a browser."""

    count = 0
    opened: list = []

    def __init__(self, site, size=SIZE):
        Page.count += 1
        home = os.path.join(FOLDER, f'home{Page.count}')
        os.mkdir(home)
        self.site, self.window = site, Window(BROWSER, home, *size)
        Page.opened.append(self)
        self.load()

    def load(self, url=None):
        self.window.load(url or self.site.url)
        with open(os.path.join(HERE, '..', 'film.d', 'look.js'), encoding='utf-8') as look:
            self.value(look.read() + "; Look.run = () => document.getElementById('face'); undefined")

    def value(self, script):
        return self.window.value(script)

    def text(self, id):
        return self.value(f"document.getElementById('{id}')?.innerText ?? null")

    def texts(self, selector):
        return self.value(f"[...document.querySelectorAll({json.dumps(selector)})].map((each) => each.textContent)")

    def cycle(self):
        return int(self.text('cycle').split(' ')[1].replace(',', ''))

    def middle(self, selector):
        """Returns the middle of an element that is seen and not covered, as a pointer finds it."""
        find = f"""(() => {{
            const element = [...document.querySelectorAll({json.dumps(selector)})].find((each) => each.checkVisibility());
            if (!element) return null;
            element.scrollIntoView({{ block: 'nearest' }});
            const box = element.getBoundingClientRect();
            const [x, y] = [(box.left + box.right) / 2, (box.top + box.bottom) / 2];
            const top = document.elementFromPoint(x, y);
            return element.contains(top) ? [x, y] : null;
        }})()"""
        found = [None]

        def is_steady():
            """Whether it is where it was at the last look: the page may still move it."""
            found.append(self.value(find))
            return found[-1] is not None and found[-1] == found[-2]

        if not wait(is_steady):
            raise ValueError(f'{selector} is not there to be clicked')
        return found[-1]

    def click(self, selector):
        self.window.click(*self.middle(selector))

    def key(self, name):
        """Clicks a key of the DSKY."""
        self.click(f"[data-key='{name}'] button")

    def type(self, *names):
        self.window.type(*names)

    def see(self, script, wanted, seconds=None):
        """Waits until a script gives this; returns what it gave last."""
        wait(lambda: self.value(script) == wanted, seconds)
        return self.value(script)

    def state(self, wanted):
        return self.see("document.getElementById('state').textContent", wanted)

    def panel(self):
        """Returns the panel that the face shows by its segments and lamps: of all places, and the lamps that are lit."""
        lamps = self.value("Look.lamps('left')")
        lit = [name for name, colour in lamps if colour != film.DARK]
        if self.value("Look.activity('left')") == film.GREEN:
            lit.append('COMP ACTY')
        return self.value("Look.places('left')"), sorted(lit)

    def answer(self, sure):
        """Answers the question whether to go back."""
        judge('the page asks before it drops keys', True, wait(lambda: self.value("document.getElementById('ask').open")))
        self.click('#ask-yes' if sure else '#ask button[value=no]')

    def pause(self):
        """Stops time by the keyboard, if it does not stand."""
        self.value('turn.then(() => 0)')  # the session has done what it was asked
        if self.site.state()['time']['playing']:
            self.see('now.playing', True)
            self.type('Space')
        judge('time stands', 'paused', self.state('paused'))
        settle(self)

    def run_on(self, cycles):
        """Waits until time has gone on by so many cycles since the last event of the script. Time does not keep up with a clock on
        the wall if the processors are busy."""
        lines = self.site.script().splitlines()
        end = (int(lines[-1].split(' ')[0]) if lines else self.cycle()) + cycles
        judge('time goes on', True, wait(lambda: self.cycle() >= end))

    def close(self):
        Page.opened.remove(self)
        judge('errors of the page', [], self.window.errors())
        self.window.close()

    @classmethod
    def close_all(cls):
        """Closes the windows that a test that failed has left open."""
        for page in cls.opened:
            page.window.close()
        cls.opened.clear()


def settle(page):
    """Waits until the page shows the cycle of the server."""
    wait(lambda: page.cycle() == page.site.state()['time']['cycle'])


def agc_panel(rope, script, limit):
    """Returns the panel that agc prints: the segments of all places, the lamps that are lit, and the lines."""
    path = os.path.join(FOLDER, 'downloaded')
    with open(path, 'w') as file:
        file.write(script)
    words = [AGC, rope, path, '--limit', str(max(limit, 1))]
    lines = subprocess.run(words, capture_output=True, text=True, check=True).stdout.splitlines()
    lamps = [lamp for lamp in lines[7][6:].split(', ') if lamp in [*film.LAMPS, 'COMP ACTY']]
    return film.segments_of('\n'.join(lines[:6])), sorted(lamps), lines[:8]


def replayed(rope, script, cycle):
    """Returns a console that has run a script to a cycle."""
    path = os.path.join(FOLDER, 'replayed')
    with open(path, 'w') as file:
        file.write(script)
    console = Console(rope, path, program=[CONSOLE])
    console.go_to(cycle)
    return console


def compare_with_agc(what, page, rope):
    """Compares the face with what agc prints of the script as it is downloaded, and the panel's text."""
    script, cycle = page.site.script(), page.cycle()
    places, lamps, lines = agc_panel(rope, script, cycle)
    judge(f'{what}: the face', (places, lamps), page.panel())
    judge(f'{what}: the text for screen readers', lines, page.value("document.getElementById('live-panel').textContent").splitlines())
    return script


# the session of a user


def try_session():
    """Types and clicks VERB 35 ENTR, RSET and NOUN 09 on the rope that knows them; then goes back and forth."""
    rope = example('verbs', 'rope')
    site = started(rope)
    figure('seconds until the page is served', round(site.seconds, 2))
    judge('the page is served soon', True, site.seconds < 5 * slowness())
    page = Page(site)
    script = session_of(page, rope)
    try_film(page, rope)
    page.close()
    judge('a window that closes ends nothing', 200, site.request('GET', '/')[0])
    judge('what the page had', script, site.script())
    status, out, err = site.end()
    judge('Control-C: the script is printed', (0, '', True), (status, err, out.endswith('\n' + script)))


def session_of(page, rope):
    """What a user does on a page with the rope of `verbs`; tests/page does the same. Returns the script."""
    judge('it begins paused, at cycle 0', ('paused', 0), (page.state('paused'), page.cycle()))
    compare_with_agc('at first', page, rope)
    page.click('#play')
    judge('it plays', 'running', page.state('running'))
    for name in 'v35':
        page.type(name)
    dark = film.segments_of(film.panel(VERB='35'))
    judge('VERB 35 stands there', dark, page.see("Look.places('left')", dark))
    page.type('Enter')
    lit = film.segments_of(film.panel(PROG='88', VERB='88', NOUN='88', R1='+88888', R2='+88888', R3='+88888'))
    judge('all is lit', lit, page.see("Look.places('left')", lit))
    judge('verb and noun flash', 'VERB NOUN', page.see("Look.blinking('left')", 'VERB NOUN'))
    page.pause()
    script = compare_with_agc('after VERB 35 ENTR', page, rope)
    judge('the script', ['key VERB', 'key 3', 'key 5', 'key ENTR'], keys_in(script))
    page.type('Space')
    for name in ('RSET', 'NOUN', '0', '9'):
        page.key(name)
    noun = film.segments_of(film.panel(VERB='35', NOUN='09'))
    page.see("Look.places('left').slice(4, 6).join()", ','.join(noun[4:6]))
    page.run_on(3 * TENTH)  # a tenth of a second back is after the last key
    page.pause()
    script = compare_with_agc('after RSET NOUN 09', page, rope)
    judge('keys that are clicked', ['key RSET', 'key NOUN', 'key 0', 'key 9'], keys_in(script)[4:])
    gaps = [int(line.split(' ')[0]) for line in script.splitlines()]
    judge('keys are a tenth of a second apart', True, all(after - before >= TENTH for before, after in zip(gaps, gaps[1:])))
    try_inside(page, rope, script)
    try_back(page, rope, script)
    return page.site.script()


def try_inside(page, rope, script):
    """Steps, registers, boundaries, and what comes next."""
    before = page.cycle()
    page.click('#step')
    judge('a boundary of the idle loop takes a cycle', before + 1, page.see(CYCLE, before + 1))
    page.type('.')
    judge('and so by the key', before + 2, page.see(CYCLE, before + 2))
    with replayed(rope, script, before + 2) as console:
        judge('what comes next', console.next(), page.text('next'))
        registers = console.registers()._asdict()
        shown = {name: int(page.text(f'register-{name}'), 8) for name in registers}
        judge('the registers', registers, shown)
        negative = registers['a'] - 0o177777 if registers['a'] >= 0o100000 else registers['a']
        judge('A in decimal', str(negative).replace('-', '−'), page.text('decimal-a'))
        coming = [line.split(' | ')[0] for line in console.step(12)]
    wait(lambda: len(page.texts('#ahead li')) == 12)
    judge('the coming boundaries', coming, [line_of(page, '#ahead li', i) for i in range(12)])
    with replayed(rope, script, before - 110) as console:
        past = [line.split(' | ')[0] for line in console.step(200)]
    past = [line for line in past if int(line.split(' ')[0]) < before + 2][-100:]
    judge('the last hundred boundaries', past, [line_of(page, '#history li', i) for i in range(100)])


def line_of(page, selector, number):
    """Returns a boundary as the page shows it, without its registers."""
    at, what = page.value(f"""(() => {{
        const line = document.querySelectorAll('{selector}')[{number}];
        return [line?.querySelector('.at').textContent, line?.querySelector('.what').textContent];
    }})()""")
    return f'{(at or "").replace(",", "")} {what}'


def see_history(page):
    """Waits until the page lists the hundred boundaries up to the present one."""
    wait(lambda: len(page.texts('#history li')) == 100 and 0 < page.cycle() - int(line_of(page, '#history li', 99).split(' ')[0]) < 9)


CYCLE = "Number(document.getElementById('cycle').textContent.split(' ')[1].replaceAll(',', ''))"


def try_back(page, rope, script):
    """Back by a tenth, by a boundary that is clicked, by the slider; asks, stays, drops and brings back."""
    end = page.cycle()
    page.click('[data-back="0.1"]')
    judge('back by a tenth', end - TENTH, page.see(CYCLE, end - TENTH))
    page.click('#undo')
    judge('undo', end, page.see(CYCLE, end))
    button = '#history li:nth-child(60) button'
    see_history(page)
    wanted = int(line_of(page, '#history li', 59).split(' ')[0])
    page.click(button)
    judge('back to a boundary', wanted, page.see(CYCLE, wanted))
    page.click('#undo')
    judge('undo that', end, page.see(CYCLE, end))
    last = int(script.splitlines()[-1].split(' ')[0])
    middle = int(script.splitlines()[4].split(' ')[0]) - 1000  # before RSET
    drag(page, middle / end)
    page.answer(False)
    judge('who stays loses nothing', (end, script), (page.see(CYCLE, end), page.site.script()))
    judge('the slider is where it was', end, page.see("Number(document.getElementById('slider').value)", end))
    drag(page, middle / end)
    page.answer(True)
    wait(lambda: page.cycle() < last)
    settle(page)
    near('where the slider goes', middle, page.cycle(), end * 0.01)
    kept = [line for line in script.splitlines() if int(line.split(' ')[0]) < page.cycle()]
    judge('what was pressed since is dropped', kept, page.site.script().splitlines())
    compare_with_agc('before RSET', page, rope)
    page.type('u')
    judge('undo brings the keys back', (end, script), (page.see(CYCLE, end), page.site.script()))
    compare_with_agc('after undo', page, rope)
    drag(page, 0.98)
    wait(lambda: page.cycle() < end)
    settle(page)
    see_history(page)
    drag(page, 1, page.cycle() / end)
    judge('on again by the slider', end, page.see(CYCLE, end))
    see_history(page)
    judge('the boundaries are listed there', True, 0 < end - int(line_of(page, '#history li', 99).split(' ')[0]) < 9)
    page.type('u')
    judge('undo that', (end, script), (page.see(CYCLE, end), page.site.script()))
    judge('a second undo has nothing to do', True, page.see("document.getElementById('undo').hidden", True))


def try_changes():
    """Back to what the panel of a countdown showed before; the cycles are those of its source's writes."""
    site = started(example('debugging', 'rope'), example('debugging', 'script'))
    page = Page(site)
    site.do('speed', times=10)
    site.do('break', place='write 11')
    site.do('play')
    judge('after the write that lights the lamp', 300012, page.see(CYCLE, 300012))
    page.click('#back-to-change')
    judge('before it', 300010, page.see(CYCLE, 300010))
    page.type('D')
    judge('before the write of R1', 255811, page.see(CYCLE, 255811))
    site.do('key', name='1')
    script = site.script()
    page.type('D')
    page.answer(False)
    judge('who stays keeps the key', (255811, script), (page.see(CYCLE, 255811), site.script()))
    page.type('D')
    page.answer(True)
    judge('before the write of the digit before', (170478, 1), (page.see(CYCLE, 170478), len(keys_in(site.script()))))
    page.click('#undo')
    judge('undo brings the key back', (255811, script), (page.see(CYCLE, 255811), site.script()))
    site.do('go', cycle=11, sure=True)
    judge('nothing has changed yet', (409, 11), (site.do('back'), site.state()['time']['cycle']))
    page.close()
    site.end()


def drag(page, part, start=1):
    """Drags the slider to a part of the time so far, from where it stands."""
    box = page.value("(({ left, right, top, bottom }) => [left, right, top, bottom])(document.getElementById('slider').getBoundingClientRect())")
    left, right, height = box[0] + 8, box[1] - 8, (box[2] + box[3]) / 2
    page.window.mouse('mousePressed', left + (right - left) * start, height)
    page.window.mouse('mouseMoved', (left + right) / 2, height)
    page.window.mouse('mouseMoved', left + (right - left) * part, height)
    page.window.mouse('mouseReleased', left + (right - left) * part, height)


def try_film(page, rope):
    """The film of the session is the one that agc-study makes of the script."""
    page.click('#script-tab')
    judge('the script in its tab', page.site.script(), page.see("document.getElementById('script').textContent", page.site.script()))
    url = page.value("document.getElementById('film').href")
    status, headers, text = page.site.request('GET', url.split(page.site.host)[1])
    path = os.path.join(FOLDER, 'filmed')
    with open(path, 'w') as file:
        file.write(page.site.script())
    words = [os.path.join(TOP, 'agc-study'), 'film', rope, path, '--limit', page.text('limit')]
    wanted = subprocess.run(words, capture_output=True, text=True, check=True).stdout
    judge('the film', (200, film.frames_in(wanted, 'left')), (status, film.frames_in(text, 'left')))
    judge('the film is kept apart', True, headers['Content-Security-Policy'].startswith('sandbox allow-scripts;'))
    page.window.ask('Browser.grantPermissions', permissions=['clipboardReadWrite', 'clipboardSanitizedWrite'], origin=f'http://{page.site.host}')
    page.click('#copy')
    judge('the script is copied', page.site.script(), page.see('navigator.clipboard.readText()', page.site.script()))
    download = page.value("document.getElementById('download').href")
    judge('the download', page.site.script(), page.site.request('GET', download.split(page.site.host)[1])[2])


def try_pro():
    """PRO is held as long as it is held, by pointer and by key; a window that goes lets it up."""
    site = started(example('verbs', 'rope'))
    page = Page(site)
    page.type('Space')
    page.state('running')
    x, y = page.middle("[data-key='PRO'] button")
    began = time.monotonic()
    page.window.mouse('mousePressed', x, y)
    time.sleep(1.2)
    judge('PRO looks held', 'PRO', page.see("Look.down('left')", 'PRO'))
    page.window.mouse('mouseReleased', x, y)
    held = time.monotonic() - began
    page.see("Look.down('left')", '')
    page.window.key('p', 'keyDown')
    time.sleep(0.3)
    page.window.key('p', 'keyUp')
    page.see("Look.down('left')", '')
    page.window.key('p', 'keyDown')
    wait(lambda: len(keys_in(site.script())) == 5)
    page.run_on(2000)
    page.window.key(' ', 'keyDown')
    page.window.key(' ', 'keyUp')
    page.state('paused')
    down = int(site.script().splitlines()[-1].split(' ')[0])
    site.do('go', cycle=down + 1000)
    wanted = [f'{down} pro down', f'{down + 1000} pro up']
    judge('PRO that was held comes up where time goes back to', wanted, site.script().splitlines()[4:])
    page.window.key('p', 'keyUp')
    site.do('go', cycle=down - 1, sure=True)
    site.do('play')
    page.window.key('p', 'keyDown')
    wait(lambda: keys_in(site.script())[-1:] == ['pro down'] and len(keys_in(site.script())) == 5)
    page.close()
    wait(lambda: len(keys_in(site.script())) == 6)
    script = site.script()
    judge('PRO goes down and up', ['pro down', 'pro up'] * 3, keys_in(script))
    cycles = [int(line.split(' ')[0]) for line in script.splitlines()]
    near('how long PRO was held', held, (cycles[1] - cycles[0]) / A_SECOND, 0.6 * slowness())
    site.end()


def try_keys_rope():
    """Memory, cells, channels and breakpoints on the rope that shows each key in NOUN; two windows."""
    rope = example('keys', 'rope')
    site = started(rope, '--names', example('console', 'names', 'names'))
    page, other = Page(site), Page(site)
    page.type('Space')
    page.state('running')
    page.type('4', '2')
    for each, name in ((page, 'one'), (other, 'the other')):
        wanted = film.segments_of(film.panel(NOUN='42'))
        judge(f'{name} window shows 42', wanted, each.see("Look.places('left')", wanted))
    other.pause()
    judge('the first window stands too', 'paused', page.state('paused'))
    try_words(page)
    try_breaks(page, site)
    typed = '4271530986' * 3
    before = len(keys_in(site.script()))
    page.type(*typed)
    judge('keys wait while time stands', 'paused, 29 keys wait', page.state('paused, 29 keys wait'))
    page.click('#play')
    wait(lambda: len(keys_in(site.script())) == before + len(typed))
    judge('keys that are typed fast keep their order', [f'key {name}' for name in typed], keys_in(site.script())[before:])
    page.pause()
    other.close()
    page.close()
    site.end()


def try_words(page):
    """After the keys 4 and 2: cells 0100 and 0101 have the last key, and so has channel 15; channel 10 has its relay word,
    NOUN 42 (relay row 9 in bits 15 to 12, the codes of 4 and 2 in bits 10 to 6 and 5 to 1)."""
    page.click('#memory-tab')
    words = "[...document.querySelectorAll('#memory tbody tr')].map((row) => [...row.children].map((cell) => cell.textContent))[8].slice(0, 4)"
    wanted = ['0100', '00002', '00002', '00000']
    judge('memory', wanted, page.see(words, wanted))
    page.click('#channels-tab')
    for channel, word in ((0o15, '00002'), (0o10, '44771')):
        judge(f'channel {channel:o}', word, page.see(f"document.getElementById('channel-{channel}').textContent", word))
    page.click('#watch-tab')
    for place in ('COUNT', '0101', 'nothing'):
        page.click('#watch-place')
        page.type(*place)
        page.type('Enter')
    rows = "[...document.querySelectorAll('#watched tr')].map((row) => [...row.children].slice(0, 3).map((cell) => cell.textContent))"
    wanted = [['COUNT', '00002', '2'], ['0101', '00002', '2']]
    judge('watched cells', wanted, page.see(rows + '.slice(0, 2)', wanted))
    judge('a cell that is none', True, wait(lambda: page.value(rows)[2][1:2] == ['–']))
    page.type('Escape')
    judge('Escape leaves a field', 'BODY', page.value('document.activeElement.tagName'))
    page.click('#memory-tab')
    page.value("""window.bright = new Set();
        new MutationObserver(() => document.querySelectorAll('#memory td.changed').forEach((cell) => bright.add(cell.textContent)))
            .observe(document.getElementById('memory'), { attributes: true, childList: true, subtree: true }); undefined""")
    page.click('#play')
    page.type('7')
    judge('a cell that changes is bright', True, page.see("bright.has('00007')", True))
    page.pause()


def try_many_cells():
    """More cells than a request takes are watched, and all of them are current."""
    site = started(example('keys', 'rope'))
    page = Page(site)
    page.value("sessionStorage.setItem('watched', JSON.stringify([...Array(130).keys()].map((i) => octal(192 + i, 4)))); undefined")
    page.load()
    page.see("document.getElementById('watch-tab') !== null", True)
    page.click('#watch-tab')
    words = "[...document.querySelectorAll('#watched .word')].map((cell) => cell.textContent)"
    with replayed(example('keys', 'rope'), '', 0) as console:
        wanted = [f'{word:05o}' for word in console.cells('0300', 130)]
    judge('130 cells', wanted, page.see(words, wanted))
    page.close()
    site.end()


def try_breaks(page, site):
    """KEYIN, the key's vector, is three cycles after the key; its relay word is written 22 after the key, or a cycle
    or two more for steps of timers that come between. With both breakpoints the first one stops time first."""
    page.click('#breaks-tab')
    page.click('#break-place')
    page.type(*'KEYIN', 'Enter')
    judge('a breakpoint', ['order at KEYIN'], page.see("[...document.querySelectorAll('#breaks code')].map((each) => each.textContent)", ['order at KEYIN']))
    page.click('#break-place')
    page.type(*'nowhere', 'Enter')
    judge('no breakpoint', True, wait(lambda: page.text('trouble').startswith('unknown name')))
    page.value("now.trouble = 'one'; showFault('two'); undefined")
    judge('each trouble has its line', 'one\ntwo', page.text('trouble'))
    page.value("now.trouble = ''; showFault(''); undefined")
    page.value("document.getElementById('break-place').value = ''; document.activeElement.blur()")
    press_and_hit(page, site, '1')
    judge('the order comes next', True, wait(lambda: page.text('next').startswith('4024 KEYIN')))
    judge('the boundary before it', True, wait(lambda: line_of(page, '#history li', len(page.texts('#history li')) - 1).endswith('interrupt KEYRUPT1')))
    page.click('#play')
    page.run_on(5000)  # the service of the key ends
    page.pause()
    judge('a second breakpoint', 200, site.do('break', place='write 10'))
    press_and_hit(page, site, '3')
    page.click('#play')
    page.state('at breakpoint: write to channel 10')
    settle(page)
    near('the write', last_key(site) + 23, page.cycle(), 1)
    judge('the relay word is there', True, page.see("Look.places('left')", film.segments_of(film.panel(NOUN='13'))) == film.segments_of(film.panel(NOUN='13')))
    shown = "[...document.querySelectorAll('#breaks code')].map((each) => each.textContent)"
    for text, left in (('KEYIN', ['write to channel 10']), ('write 10', [])):
        page.click(f'#breaks [aria-label="Remove the breakpoint {text}"]')
        judge('the breakpoints that are left', left, page.see(shown, left))
    before = len(keys_in(site.script()))
    page.click('#play')
    page.type('5')
    wait(lambda: len(keys_in(site.script())) > before)
    page.run_on(TENTH + 5000)  # the next key need not wait for this one
    judge('nothing stops time any more', 'running', page.state('running'))
    page.pause()


def press_and_hit(page, site, key):
    """Plays, presses a key, and waits for the breakpoint at KEYIN: where the trace has the first order there from the key on."""
    page.click('#play')
    page.state('running')
    page.type(key)
    judge('time stops at KEYIN', 'at breakpoint: order at KEYIN', page.state('at breakpoint: order at KEYIN'))
    settle(page)
    cycles = [int(line.split()[0]) for line in causes.traced(example('keys', 'rope'), site.script(), page.cycle() + 100, '--at', '4024')]
    judge('the cycle of the breakpoint', next(cycle for cycle in cycles if cycle >= last_key(site)), page.cycle())


def last_key(site):
    return int(site.script().splitlines()[-1].split(' ')[0])


# the page itself


def try_sizes():
    """At phone width the whole DSKY is seen; at 1000 x 700 DSKY and time without scrolling. All is named and reachable."""
    site = started(example('verbs', 'rope'))
    page = Page(site, PHONE)
    page.type('Space')
    for key in 'v35':
        page.type(key)
    page.type('Enter')
    lit = film.segments_of(film.panel(PROG='88', VERB='88', NOUN='88', R1='+88888', R2='+88888', R3='+88888'))
    page.see("Look.places('left')", lit)
    seen = """(selector) => [...document.querySelectorAll(selector)].filter((each) => {
        const box = each.getBoundingClientRect();
        return box.left < 0 || box.right > document.documentElement.clientWidth || box.top < 0 || box.bottom > innerHeight || box.width < 4;
    }).map((each) => each.outerHTML.slice(0, 80))"""
    parts = '.dsky, .lamps li, .display svg, .display .name, .acty, .keys > span, .keys button'
    judge('at phone width the whole DSKY is seen', [], page.value(f'({seen})({json.dumps(parts)})'))
    judge('parts of the DSKY', 1 + 14 + 24 + 3 + 1 + 19 + 19, page.value(f'document.querySelectorAll({json.dumps(parts)}).length'))
    judge('nothing is wider than the phone', True, page.value('document.documentElement.scrollWidth <= document.documentElement.clientWidth'))
    outside = """[...document.querySelectorAll('.display, .lamps, .keys, .display > *, .display svg, .lamps li, .keys > span')].filter((each) => {
        const [box, frame] = [each, each.parentElement.closest('.dsky, .display, .lamps, .keys')].map((one) => one.getBoundingClientRect());
        return box.left < frame.left - 3 || box.right > frame.right + 3 || box.top < frame.top - 3 || box.bottom > frame.bottom + 3;
    }).map((each) => each.outerHTML.slice(0, 80))"""
    judge('each part is within its frame', [], page.value(outside))
    narrow = "[...document.querySelectorAll('.display svg')].filter((each) => each.getBoundingClientRect().width < 20).length"
    judge('the digits are wide enough to be read', 0, page.value(narrow))
    overlap = """[...document.querySelectorAll('.lamps li')].filter((each) => each.scrollWidth > each.clientWidth + 1).map((each) => each.textContent)"""
    judge('each lamp has room for its name', [], page.value(overlap))
    picture(page, 'web-phone')
    page.window.resize(*SIZE)
    controls = parts + ', #time, #time button:not([hidden]), #slider, #speed, #inspector'
    judge('at 1000 x 700 all is seen', [], page.value(f'({seen})({json.dumps(controls)})'))
    judge('and nothing scrolls', True, page.value('document.documentElement.scrollHeight <= innerHeight'))
    page.run_on(2 * TENTH)  # so that the next key need not wait
    page.pause()
    try_names(page)
    try_tabs(page)
    try_letters(page, site)
    page.close()
    site.end()


def try_names(page):
    """Whatever can be operated has a name for screen readers."""
    page.window.ask('Accessibility.enable')
    nodes = page.window.ask('Accessibility.getFullAXTree')['nodes']
    roles = ('button', 'slider', 'combobox', 'tab', 'textbox', 'link', 'tabpanel', 'dialog')
    found = [(node['role']['value'], node.get('name', {}).get('value', '')) for node in nodes
             if not node.get('ignored') and node['role']['value'] in roles]
    judge('all that is operated has a name', [], [each for each in found if not each[1].strip()])
    names = [name for role, name in found if role == 'button']
    wanted = {'VERB', 'NOUN', 'plus', 'minus', 'ENTER', 'CLEAR', 'RESET', 'PROCEED', 'KEY REL', *'0123456789'}
    judge('the keys are named', wanted, wanted & set(names))


def try_letters(page, site):
    """Each letter of the keyboard presses its key of the DSKY, small or large; others press none."""
    before = len(keys_in(site.script()))
    page.value('document.activeElement.blur()')
    page.type('Space')
    page.state('running')
    page.type('v', 'n', 'c', 'k', 'r', '+', '-', '0', '9', 'V', 'N', 'x', 'e', 'Enter')
    names = ['VERB', 'NOUN', 'CLR', 'KEYREL', 'RSET', '+', '-', '0', '9', 'VERB', 'NOUN', 'ENTR']
    wait(lambda: len(keys_in(site.script())) == before + len(names))
    judge('the letters', [f'key {name}' for name in names], keys_in(site.script())[before:])
    page.pause()


def try_tabs(page):
    """The Tab key comes to each control, and Space and Enter work there."""
    page.value('document.activeElement.blur()')
    seen = set()
    for _ in range(160):
        page.type('Tab')
        seen.add(page.value("((each) => each.id || each.getAttribute('aria-label') || each.dataset.back || '')(document.activeElement)"))
    wanted = {'play', 'step', 'speed', 'slider', 'help-button', 'orders-tab', 'Back by a second', 'VERB', '5', 'PROCEED', 'ENTER'}
    judge('the Tab key comes to each control', wanted, wanted & seen)
    before = len(keys_in(page.site.script()))
    page.value("document.querySelector(\"[data-key='7'] button\").focus()")
    page.type('Enter')
    wait(lambda: len(keys_in(page.site.script())) > before)
    judge('Enter presses the key that has the focus', 'key 7', keys_in(page.site.script())[-1])
    page.value("document.getElementById('step').focus()")
    cycle = page.cycle()
    page.type('Space')
    judge('Space presses the button that has the focus', True, wait(lambda: page.cycle() > cycle))
    page.value("document.getElementById('orders-tab').focus()")
    page.type('ArrowRight')
    judge('arrows go from tab to tab', 'memory-tab', page.value('document.activeElement.id'))
    page.type('ArrowLeft')
    page.value('document.activeElement.blur()')
    page.type('Space')
    page.state('running')
    page.run_on(2000)  # so that the last hundred boundaries have no key
    page.pause()
    see_history(page)
    page.value("document.querySelector('#history li:last-child button').focus()")
    page.type('ArrowUp', 'ArrowUp')
    judge('the arrow keys go from boundary to boundary', True, page.value("document.activeElement === document.querySelector('#history li:nth-child(98) button')"))
    wanted = int(line_of(page, '#history li', 97).split(' ')[0])
    page.type('Enter')
    judge('by keys alone back to a boundary', wanted, page.see(CYCLE, wanted))


def try_policy():
    """The page loads nothing from elsewhere, and runs no script but its own."""
    site = started(example('verbs', 'rope'))
    page = Page(site)
    policy = site.request('GET', '/')[1]['Content-Security-Policy']
    judge('the policy', True, "default-src 'none'" in policy and 'unsafe' not in policy and '*' not in policy)
    loaded = page.value('performance.getEntriesByType("resource").map((each) => each.name)')
    judge('all is loaded from here', [], [each for each in loaded if not each.startswith(f'http://{site.host}/')])
    judge('and that is all of the page', True, len(loaded) >= 10)
    inline = "(() => { const it = document.createElement('script'); it.textContent = 'window.ran = 1'; document.body.append(it); return window.ran ?? 0; })()"
    judge('a script that is brought in does not run', 0, page.value(inline))
    elsewhere = Elsewhere()
    judge('nor is anything fetched', 'refused', page.value(f"fetch('{elsewhere.url}').then(() => 'fetched', () => 'refused')"))
    judge('nothing came there', 0, elsewhere.count)
    try_other_pages(page, site, elsewhere)
    page.window.errors()
    page.close()
    elsewhere.close()
    site.end()


class Elsewhere:
    """Another server, whose page tries to reach ours."""

    def __init__(self):
        outer = self
        self.count = 0

        class Handler(http.server.BaseHTTPRequestHandler):
            def do_GET(self):
                outer.count += 1
                self.send_response(200)
                self.send_header('Content-Type', 'text/html')
                self.end_headers()
                self.wfile.write(b'<!doctype html><title>elsewhere</title>')

            def log_message(self, *words):
                pass

        self.server = http.server.ThreadingHTTPServer(('127.0.0.1', 0), Handler)
        self.url = f'http://127.0.0.1:{self.server.server_address[1]}/'
        threading.Thread(target=self.server.serve_forever, daemon=True).start()

    def close(self):
        self.server.shutdown()
        self.server.server_close()


def try_other_pages(page, site, elsewhere):
    """A page from elsewhere does nothing here, even with the token; nor does another name for this machine."""
    page.window.load(elsewhere.url)
    for token in ('', f'?token={site.token}'):
        body = '{"do":"key","name":"7"}'
        for more in ('', "credentials: 'include', "):
            sent = f"""fetch('http://{site.host}/do{token}', {{ {more}method: 'POST', mode: 'no-cors', body: '{body}' }}).then((answer) => answer.type, () => 'failed')"""
            page.value(sent)
            read = f"fetch('http://{site.host}/script{token}', {{ {more} }}).then((answer) => answer.text(), () => 'unread')"
            judge('a page from elsewhere reads nothing', 'unread', page.value(read))
        news = f"new Promise((done) => {{ const it = new WebSocket('ws://{site.host}/events{token}'); it.onopen = () => done('open'); it.onerror = () => done('failed'); }})"
        judge('nor the news', 'failed', page.value(news))
    judge('and does nothing', ('', 0), (site.script(), site.state()['time']['waiting']))
    page.window.load(f'http://rebound.test:{site.port}/?token={site.token}')
    judge('another name for this machine', '{"error": "this is not our host"}', page.value('document.body.textContent'))


def try_ports():
    """A page from elsewhere sends packets to the instruments' ports, in each way that a browser has: nothing is pressed. Each
    request has more packets than its head has bytes, and nothing else is on the way."""
    ports = free_ports()
    site, elsewhere = started(example('keys', 'rope'), '--instruments', str(ports)), Elsewhere()
    page = Page(site)
    site.do('play')
    page.window.load(elsewhere.url)
    page.value("""window.bytes = (text, count) => Uint8Array.from({ length: 4 * count }, (_, i) => parseInt(text.slice(i % 4 * 2, i % 4 * 2 + 2), 16));
        window.until = (start) => new Promise((done) => { const it = start(); it.onclose = done; it.onerror = done; });
        undefined""")
    for number in range(10):
        url = f'http://127.0.0.1:{ports + number}/'
        for packet, count in ((KEY_PACKETS['1'], 900), ('135080c1', 9000)):
            body = f"bytes('{packet}', {count})"
            page.value(f"fetch('{url}', {{ method: 'POST', mode: 'no-cors', body: {body} }}).catch(() => 0).then(() => 0)")
            page.value(f"navigator.sendBeacon('{url}', {body})")
            page.value(f"fetch('{url}?' + '%01h%80%c1'.repeat(900), {{ mode: 'no-cors' }}).catch(() => 0).then(() => 0)")
    page.value(f"until(() => new WebSocket('ws://127.0.0.1:{ports}/')).then(() => 0)")
    time.sleep(0.5)
    judge('what a page from elsewhere has sent acts', [], keys_in(site.script())[:3])
    dsky = Dsky(ports).welcomed()
    dsky.keys('4')
    wait(site.script)
    judge('an instrument presses a key there', ['key 4'], keys_in(site.script()))
    dsky.close()
    page.window.errors()
    page.close()
    elsewhere.close()
    site.end()


# requests


def try_refusals():
    """Requests that are refused, with their statuses; none changes anything."""
    site = started(example('verbs', 'rope'))
    key = {'do': 'key', 'name': '7'}
    post = lambda body=key, **headers: site.request('POST', '/do', body, **headers)[0]
    cases = [
        ('no token', 403, lambda: post(X_Token=None)),
        ('a wrong token', 403, lambda: post(X_Token=site.token[:-1] + '.')),
        ('a token that is none', 403, lambda: post(X_Token='ü')),
        ('no token for the page', 403, lambda: site.request('GET', '/', X_Token=None)[0]),
        ('no token for the news', 403, lambda: site.request('GET', '/events', X_Token=None)[0]),
        ('no token for the script', 403, lambda: site.request('GET', '/script?token=', X_Token=None)[0]),
        ('another host', 403, lambda: post(Host='example.com')),
        ('another port', 403, lambda: post(Host='127.0.0.1:1')),
        ('no host', 403, lambda: post(Host=None)),
        ('a host for the page', 403, lambda: site.request('GET', f'/?token={site.token}', Host='example.com')[0]),
        ('another origin', 403, lambda: post(Origin='http://example.com')),
        ('another port as origin', 403, lambda: post(Origin='http://127.0.0.1:1')),
        ('origin null', 403, lambda: post(Origin='null')),
        ('no origin', 403, lambda: post(Origin=None)),
        ('another origin for the script', 403, lambda: site.request('GET', '/script', Origin='http://example.com')[0]),
        ('from another page', 403, lambda: post(Sec_Fetch_Site='cross-site')),
        ('a body that is too long', 413, lambda: post(json.dumps({**key, 'more': ' ' * 4096}).encode())),
        ('a length that is too long', 413, lambda: post(b'', Content_Length='99999999999')),
        ('no length', 411, lambda: post(None)),
        ('a length that is none', 411, lambda: post(b'{}', Content_Length='-1')),
        ('chunks', 411, lambda: post(b'0\r\n\r\n', Transfer_Encoding='chunked')),
        ('another type', 415, lambda: post(Content_Type='text/plain')),
        ('no JSON', 400, lambda: post(b'{"do":"key"')),
        ('no object', 400, lambda: post(b'[1]')),
        ('too deep', 400, lambda: post(b'[' * 4000)),
        ('no command', 400, lambda: post({'do': 'fly'})),
        ('no text as command', 400, lambda: post({'do': 7})),
        ('no key', 400, lambda: post({'do': 'key', 'name': '9 9'})),
        ('PRO as a key', 400, lambda: post({'do': 'key', 'name': 'PRO'})),
        ('a number as key', 400, lambda: post({'do': 'key', 'name': 9})),
        ('no speed', 400, lambda: post({'do': 'speed', 'times': 7})),
        ('a truth as speed', 400, lambda: post({'do': 'speed', 'times': True})),
        ('no cycle', 400, lambda: post({'do': 'go', 'cycle': '1'})),
        ('no breakpoint', 400, lambda: post({'do': 'break', 'place': '4100\nkey 7'})),
        ('a breakpoint elsewhere', 400, lambda: post({'do': 'break', 'place': '7777777'})),
        ('no instrument', 400, lambda: post({'do': 'control', 'instrument': 0, 'name': 'x', 'down': True, 'window': 'w'})),
        ('no lines', 400, lambda: site.request('POST', '/say', {'lines': 'cell 0100'})[0]),
        ('too many lines', 400, lambda: site.request('POST', '/say', {'lines': ['cell 0100'] * 201})[0]),
        ('a number as a line', 400, lambda: site.request('POST', '/say', {'lines': [-1]})[0]),
        ('a line that runs the machine', 400, lambda: site.request('POST', '/say', {'lines': ['cell 0100', 'go 100']})[0]),
        ('two lines as one', 400, lambda: site.request('POST', '/say', {'lines': ['cell 0100\ngo 100']})[0]),
        ('a line that writes a file', 400, lambda: site.request('POST', '/search', {'lines': ['save file']})[0]),
        ('an event in a search', 400, lambda: site.request('POST', '/search', {'lines': ['key 7']})[0]),
        ('a search before no cycle', 400, lambda: site.request('POST', '/search', {'lines': ['panel'], 'before': True})[0]),
        ('nothing to undo', 409, lambda: post({'do': 'undo'})),
        ('no such page', 404, lambda: site.request('GET', '/web/../server.py')[0]),
        ('no such place', 404, lambda: site.request('POST', '/key', key)[0]),
        ('another method', 405, lambda: site.request('PUT', '/do', key)[0]),
        ('a method that is none', 400, lambda: site.request('FLY', '/do', key)[0]),
    ]
    for what, wanted, sent in cases:
        judge(f'the status of {what}', wanted, sent())
        time = site.state()['time']
        judge(f'nothing changes: {what}', ('', 0, 0, False, 1), (site.script(), time['cycle'], time['waiting'], time['playing'], time['speed']))
    judge('a good request', (200, 'key 7'), (post(), keys_in(site.script())[0]))
    try_sockets(site)
    site.end()


def try_port():
    """Browsers leave port 80 out of the host and the origin; at other ports such names are refused."""
    server = Server(None, {}, 0, None)
    connection = http.client.HTTPConnection('127.0.0.1', server.port)
    threading.Thread(target=server.serve_forever, daemon=True).start()
    for port, wanted in ((server.port, 403), (80, 200)):
        server.port = port  # as if it were bound there
        for name in ('127.0.0.1', 'localhost'):
            connection.request('GET', '/', headers={'Host': name, 'Origin': f'http://{name}', 'X-Token': server.gate.token})
            with connection.getresponse() as answer:
                answer.read()
            judge(f'{name} at port {port}', wanted, answer.status)
    connection.close()
    server.shutdown()
    server.server_close()


def try_sockets(site):
    """It listens on 127.0.0.1 alone. Halves of requests and browsers that read nothing hold nobody up."""
    with socket.socket() as other:
        judge('another address of this machine', True, other.connect_ex(('127.0.0.2', site.port)) != 0)
    halves = []
    for text in (b'', b'GET / HT', b'POST /do HTTP/1.1\r\nContent-Length: 40\r\n\r\n{', b'\x16\x03\x01\x00'):
        half = socket.create_connection(('127.0.0.1', site.port))
        half.sendall(text)
        halves.append(half)
    stalled = [site.stream(2048) for _ in range(5)]
    for _ in range(60):  # each step sends a hundred boundaries: more than the buffers of a connection hold
        site.do('step')
    began = time.monotonic()
    judge('a command while browsers stall', 200, site.do('play'))
    soon('it is done soon', began, 5)
    cycles = lambda found: [each['time']['cycle'] for each in found if 'time' in each]
    goes_on = lambda found: len(cycles(found)) > 5 and cycles(found)[-1] - cycles(found)[0] > 0.5 * A_SECOND
    news = site.messages(LONGEST, goes_on)
    site.do('pause')
    judge('another window sees time go on', True, goes_on(news))
    for connection in [*halves, *stalled]:
        connection.close()


# figures


def try_pace():
    """Real time is within 1 percent of the hardware's pace, 10 and 100 times too, and needs little of a processor."""
    site = started(example('verbs', 'rope'))
    page = Page(site)
    for speed in (1, 10, 100, 1000):
        site.do('speed', times=speed)
        site.do('play')
        time.sleep(0.2)
        pace, part = first_good(lambda: measured_pace(site), lambda found: abs(found[0] / speed - 1) < (0.01 if speed < 1000 else 0.1) and (speed > 1 or found[1] < 0.1))
        shown = page.text('pace')
        site.do('pause')
        figure(f'at speed {speed}', f'pace {pace:.4f}, {100 * part:.1f} percent of a processor')
        if speed < 1000 or not shown:
            tolerance = 0.01 if speed < 1000 else 0.1
            check(f'the pace at {speed}: {pace / speed}', abs(pace / speed - 1) <= tolerance or pace / speed < 1 + tolerance and slowness() > 2)
        if speed == 1:
            judge('less than 10 percent of a processor', True, part < 0.1)
    page.close()
    site.end()


def try_writes():
    """An order that writes shows its panel and is reported, in a step, too, and once, although a pause runs the last boundaries anew."""
    rope = example('keys', 'rope')
    wanted = [(20, 0o10, 0o44017)]  # of the key 4 at cycle 0, by the rope's source
    with Console(rope, program=[CONSOLE]) as console:
        console.key('4')
        judge('a plain run', wanted, console.go(40))
    for what, named in (('steps', None), ('steps with names', example('study', 'names-trace', 'names')), ('a pause', None)):
        with Console(rope, names=named, program=[CONSOLE], detached=True) as console:
            session, heard = Session(console), []
            session.on_write(heard.append)
            session.press('4')
            if what == 'a pause':
                session.play()
                wait(lambda: heard)
                before, _, after = session.call(lambda: (console.cycle, session.pause(), console.cycle))
                judge('a pause stands where it was', before, after)
            else:
                for _ in range(20):
                    session.step()
            judge(f'{what}: the panel', '_4', json.loads(session.news.since(0, 0)[1])['panel']['NOUN'])
            judge(f'{what}: what is reported', wanted, heard)
            session.close()


class Odd:
    """An instrument that shows a value from its third tick on."""

    def __init__(self, value):
        self.value, self.ticks = value, 0

    def tick(self, console, cycle):
        self.ticks += 1

    def view(self):
        return {'title': 'Odd', 'rows': [['Value', self.value if self.ticks > 2 else 0]]}


def try_views():
    """What an instrument shows and is no JSON does not end the session: its panel says what is wrong."""
    for value, reason in (({1}, 'TypeError'), (float('nan'), 'ValueError'), (float('inf'), 'ValueError')):
        with Console(example('keys', 'rope'), program=[CONSOLE], detached=True) as console:
            session = Session(console, [Odd(value)])
            session.press('4')
            session.play()
            row = lambda: json.loads(session.news.since(0, 0)[1])['instruments'][0]['rows'][0]
            wait(lambda: row()[0] == 'failed' or not session.is_alive)
            judge(f'{value}: the panel', ('failed', reason), (row()[0], str(row()[1]).split('(')[0]))
            judge(f'{value}: the session goes on', True, session.is_alive)
            if session.is_alive:
                judge(f'{value}: its script', ['key 4'], keys_in(session.script()))
                session.close()


def try_full():
    """A script that is full takes no event of an instrument: time stops, and the page says what helps."""
    path = os.path.join(FOLDER, 'full')
    with open(path, 'w', encoding='ascii') as file:
        file.write(FULL)
    with Console(example('keys', 'rope'), path, program=[CONSOLE], detached=True) as console:
        pulsing = whys.Pulsing()
        pulsing.more = 1
        session = Session(console, [pulsing])
        session.play()
        shown = lambda: json.loads(session.news.since(0, 0)[1])['time']
        wait(lambda: shown()['trouble'])
        judge('a full script', (False, FULL_SAYS), (shown()['playing'], shown()['trouble']))
        session.close()


def try_look():
    """A look at the machine that is refused, and once more as time stops, ends no session: it says why."""
    with Console(example('keys', 'rope'), program=[CONSOLE], detached=True) as console:
        session = Session(console)
        session.press('4')
        session.watch = 'none'  # is refused at each look
        session.play()
        shown = lambda: json.loads(session.news.since(0, 0)[1])['time']
        wait(lambda: shown()['trouble'] or not session.is_alive)
        judge('the thread goes on', True, session.is_alive)
        if session.is_alive:
            wait(lambda: not shown()['playing'])
            judge('time stands, and the page says why', (False, 'tables are seven octal numbers'), (shown()['playing'], shown()['trouble'].split(' with ')[0]))
            session.watch = None
            session.step()
            judge('the script', ['key 4'], keys_in(session.script()))
            console.script = lambda: console.tables('none')  # is refused, as if there were no memory
            judge('the script if it is refused', ['key 4'], keys_in(session.script()))
            session.close()


def try_rate():
    """A machine that writes all the time sends at most fifty messages a second, and not much fewer."""
    site = started(example('count-4', 'rope'), example('count-4', 'script'))
    site.do('speed', times=10)
    site.do('play')
    messages = first_good(lambda: site.messages(2), lambda found: 22 <= len(found) <= 102)
    figure('messages a second', len(messages) / 2)
    judge('at most fifty messages a second', True, 22 / slowness() <= len(messages) <= 102)
    judge('most of them have another panel', True, sum('panel' in each for each in messages) > 20 / slowness())
    site.end()


def first_good(measure, is_good):
    """Measures until it is good, five times at most, as other programs may have the processors; returns the last."""
    for _ in range(5):
        found = measure()
        if is_good(found):
            break
    return found


def measured_pace(site):
    """Returns how many times the hardware's pace the machine goes, and what part of a processor that takes."""
    used, began, start = site.seconds_used(), time.monotonic(), look_at(site)
    time.sleep(3)
    end, seconds = look_at(site), time.monotonic() - began
    return (end - start) / A_SECOND / seconds, (site.seconds_used() - used) / seconds


def look_at(site):
    """Returns the cycle that the machine has come to."""
    return site.say()['cycle']


def try_latency():
    """From a key that goes down in the page to the picture with the segments that it lights: by the page's own clock."""
    site = started(example('keys', 'rope'))
    page = Page(site)
    page.type('Space')
    page.state('running')
    time.sleep(0.5)
    page.value("""window.lit = [];
        addEventListener('keydown', () => { window.pressed = performance.now(); }, true);
        new MutationObserver(() => requestAnimationFrame(() => { if (window.pressed) { window.lit.push(performance.now() - window.pressed); window.pressed = 0; } }))
            .observe(document.querySelector('.display'), { attributes: true, subtree: true }); undefined""")
    lit = first_good(lambda: light_times(page), lambda found: len(found) == 20 and statistics.median(found) < 50)
    figure('milliseconds from key to light', f'median {statistics.median(lit):.1f}, least {min(lit):.1f}, most {max(lit):.1f} of {len(lit)}')
    judge('each key was lit', 20, len(lit))
    judge('a key lights within 50 milliseconds', True, statistics.median(lit) < 50 or statistics.median(lit) < 50 * slowness())
    page.close()
    site.end()


def light_times(page):
    """Presses twenty keys, and returns after how many milliseconds each was lit."""
    page.value('window.lit = []; undefined')
    for number, key in enumerate('4271530986' * 2):
        page.type(key)
        time.sleep(0.25)
        page.see('window.lit.length', number + 1)
    return page.value('window.lit')


# the ends


def try_killed():
    """The page says that the console was killed; the script is still there, and is saved."""
    saved = os.path.join(FOLDER, 'killed')
    site = started(example('keys', 'rope'), '--save', saved)
    page = Page(site)
    page.type('Space')
    page.state('running')
    page.type('4')
    wanted = film.segments_of(film.panel(NOUN='_4'))
    page.see("Look.places('left')", wanted)
    script = site.script()
    for number, words in site.children():
        if any('agc' in word for word in words):
            os.kill(number, 9)
    judge('the page says that the console has ended', True, wait(lambda: 'agc-console has ended' in (page.text('trouble') or '')))
    judge('and shows it', 'ended', page.state('ended'))
    page.type('7')
    judge('the script is still there', ('key 4', script), (keys_in(script)[0], site.script()))
    page.close()
    status, out, err = site.end()
    with open(saved) as file:
        judge('Control-C saves it', (0, '', script), (status, err, file.read()))


def try_end():
    """Control-C: the script is saved, what repeats it is printed, the page says so, and no process is left."""
    saved, rope = os.path.join(FOLDER, 'saved'), example('verbs', 'rope')
    site = started(rope, '--save', saved, folder=TOP)
    page = Page(site)
    page.type('Space')
    page.state('running')
    for key in 'v16':
        page.type(key)
    wanted = film.segments_of(film.panel(VERB='16'))
    judge('VERB 16', wanted, page.see("Look.places('left')", wanted))
    page.pause()
    script, cycle = site.script(), page.cycle()
    children = [number for number, _ in site.children()]
    status, out, err = site.end()
    judge('Control-C: the status and the line', (0, f'./agc {rope} {saved} --limit {cycle}', ''), (status, out.strip(), err))
    with open(saved) as file:
        judge('the script is saved', (script, ['key VERB', 'key 1', 'key 6']), (file.read(), keys_in(script)))
    judge('agc shows the same', wanted, agc_panel(rope, script, cycle)[0])
    # A process that has ended stays in /proc for a moment.
    wait(lambda: not any(os.path.exists(f'/proc/{number}') for number in children))
    judge('no process is left', [], [number for number in children if os.path.exists(f'/proc/{number}')])
    judge('the page says that it is over', True, wait(lambda: 'cannot be reached' in page.text('trouble')))
    page.close()
    again = subprocess.run([os.path.join(TOP, 'agc-web'), rope, '--save', saved], capture_output=True, text=True)
    judge('a file with something in it is not written over', (1, f'agc-web: {saved}: has something in it: name another file\n'), (again.returncode, again.stderr))


def try_blanks():
    """What is printed to repeat a session is a command for the shell here, though the names of files have blanks."""
    rope = os.path.join(FOLDER, 'a rope')
    with open(example('keys', 'rope'), 'rb') as source, open(rope, 'wb') as copy:
        copy.write(source.read())
    for folder, program in ((TOP, './agc'), (FOLDER, os.path.join(TOP, 'agc'))):
        saved = os.path.join(FOLDER, f"the pilot's script for {os.path.basename(folder)}")
        site = started(rope, '--save', saved, folder=folder)
        site.do('key', name='4')
        line = site.end()[1]
        judge(f'the words of the command in {folder}', [program, rope, saved, '--limit', '1'], shlex.split(line))
        done = subprocess.run(line, shell=True, cwd=folder, stdout=subprocess.DEVNULL)
        judge('the shell runs it', 0, done.returncode)


def try_two():
    """Of two sessions that save to the same file, the second one leaves the script of the first, and prints its own."""
    saved = os.path.join(FOLDER, 'of-two')
    first, second = (started(example('keys', 'rope'), '--save', saved) for _ in range(2))
    for site, key in ((first, '4'), (second, '7')):
        site.do('key', name=key)
    judge('the first one saves', 0, first.end()[0])
    told = f'agc-web: {saved}: has something in it: name another file\n'
    judge('the second one prints', (3, '\n0 key 7\n', told), second.end())
    with open(saved) as file:
        judge('the file is as it was', '0 key 4\n', file.read())


def try_command():
    """Mistakes in the command line, and files that are refused."""
    def run(*words):
        done = subprocess.run([os.path.join(TOP, 'agc-web'), *words], capture_output=True, text=True, timeout=20)
        return done.returncode, done.stdout, done.stderr.splitlines()[-1]
    judge('no such rope', (1, '', 'agc-web: cannot read rope'), run('/no/such/rope'))
    judge('tables that cannot be', (1, ''), run(example('verbs', 'rope'), '--watch', '1,2')[:2])
    told = 'agc-web: tables are seven octal numbers with commas between'
    judge('a cell is no table', (1, '', told), run(example('verbs', 'rope'), '--port', '0', '--watch', '0100'))
    judge('no rope', 2, run()[0])
    with socket.socket() as taken:
        taken.bind(('127.0.0.1', 0))
        taken.listen()
        wanted = (3, '', 'agc-web: port: Address already in use')
        judge('a port that is taken', wanted, run(example('verbs', 'rope'), '--port', str(taken.getsockname()[1])))
    wanted = (3, '', 'agc-web: port: ports are 0 to 65535')
    judge('ports that are none', [wanted, wanted], [run(example('verbs', 'rope'), '--port', port) for port in ('65536', '-1')])


def try_serve():
    """A program that has served a page goes on, and Control-C ends it as before."""
    rope = example('keys', 'rope')
    program = f"""if True:
        import agc, agc_web, os, signal, time
        with agc.Console({rope!r}, program={CONSOLE!r}, detached=True) as console:
            script = agc_web.serve(console, port=0)
        try:
            os.kill(os.getpid(), signal.SIGINT)
            time.sleep(1)
            print('nothing happened')
        except KeyboardInterrupt:
            print('it ends')"""
    site = Site([sys.executable, '-c', program])
    site.do('key', name='4')
    judge('Control-C, and once more', (0, '\n0 key 4\nit ends\n', ''), site.end())


def try_gone():
    """A button of an instrument comes up as the window goes that holds it, and not with another window."""
    program = f"""if True:
        import agc, agc_web

        class Buttons:
            down = ()
            def tick(self, console, cycle):
                pass
            def control(self, name, down):
                self.down = sorted({{*self.down, name}} if down else {{*self.down}} - {{name}})
            def view(self):
                return {{'title': 'Buttons', 'rows': [['Down', ' '.join(self.down)]]}}

        with agc.Console({example('keys', 'rope')!r}, program={CONSOLE!r}, detached=True) as console:
            agc_web.serve(console, [Buttons()], port=0)"""
    site = Site([sys.executable, '-c', program])
    down = lambda: site.state()['instruments'][0]['rows'][0][1]
    windows = {name: site.stream(window=name) for name in ('one', 'two')}
    for window, name in (('one', 'left'), ('two', 'right'), ('two', 'up')):
        judge(f'{name} is held', 200, site.do('control', instrument=0, name=name, down=True, window=window))
    judge('up is let up', 200, site.do('control', instrument=0, name='up', down=False, window='two'))
    judge('what is held', 'left right', down())
    site.do('play')  # so that there are news, which find that a window has gone
    for window, wanted in (('one', 'right'), ('two', '')):
        windows[window].close()
        wait(lambda: down() == wanted)
        judge(f'after window {window} has gone', wanted, down())
    site.end()


def try_hangup():
    """A terminal that is closed ends the program, and the script is saved; with nohup the program goes on."""
    rope, script, saved = example('keys', 'rope'), os.path.join(FOLDER, 'before'), os.path.join(FOLDER, 'hung-up')
    with open(script, 'w') as file:
        file.write('5 key 4\n')
    number, terminal = pty.fork()
    if number == 0:
        os.execv(os.path.join(TOP, 'agc-web'), ['agc-web', rope, script, '--port', '0', '--save', saved])
    with open(terminal, 'rb', buffering=0) as lines:
        judge('it has begun', True, lines.readline().startswith(b'http://127.0.0.1:'))
        time.sleep(0.5)  # while the line is still on its way a terminal that goes is a fault of standard output
    judge('it ends', True, wait(lambda: os.waitpid(number, os.WNOHANG)[0] == number))
    with open(saved) as file:
        judge('the script is saved', '5 key 4\n', file.read())
    browser, early = os.path.join(FOLDER, 'hangs-up'), os.path.join(FOLDER, 'hung-up-early')
    with open(browser, 'w') as file:
        file.write('#!/bin/sh\nkill -HUP $PPID\nsleep 1\n')
    os.chmod(browser, 0o755)
    words = [os.path.join(TOP, 'agc-web'), rope, script, '--port', '0', '--save', early, '--open']
    done = subprocess.run(words, stdout=subprocess.DEVNULL, env={**os.environ, 'BROWSER': browser + ' %s'}, timeout=LONGEST)
    with open(early) as file:
        judge('a hang-up while the browser is opened', (0, '5 key 4\n'), (done.returncode, file.read()))
    site = Site(['nohup', os.path.join(TOP, 'agc-web'), rope, '--port', '0'])
    os.killpg(site.process.pid, signal.SIGHUP)
    time.sleep(0.5)
    judge('it goes on with nohup', 200, site.do('key', name='4'))
    judge('Control-C ends it', 0, site.end()[0])


def try_lander():
    """The pilot turns the craft, and goes back with it; the script's flight ends at the angle that is shown."""
    rope = example('lander', 'rope')
    site = Site([sys.executable, '-B', example('lander', 'craft.py'), '--web', '--port', '0', '--angle', '2', '--turning', '0'])
    page = Page(site)
    rows = "Object.fromEntries([...document.querySelectorAll('.rows div')].map((row) => [...row.children].map((each) => each.textContent)))"
    judge('the craft stands beside the DSKY', True, wait(lambda: page.value(rows).get('Angle') == '+2.00°'))
    judge('no such control', 400, site.do('control', instrument=0, name='forward', down=True, window='w'))
    page.type('Space')
    page.state('running')
    page.window.key('ArrowRight', 'keyDown')
    judge('the held angle turns', True, wait(lambda: float(page.value(rows)['Held angle'][:-1]) > 3))
    picture(page, 'web-lander')
    page.window.key('ArrowRight', 'keyUp')
    wait(lambda: float(page.value(rows)['Angle'][:-1]) > 3)
    page.window.key('ArrowRight', 'keyDown')
    page.see("document.querySelectorAll('.controls .held').length", 1)
    page.value("dispatchEvent(new Event('blur')); undefined")
    judge('a window that loses the keyboard lets the button up', True, wait(lambda: stands(page, rows)))
    page.window.key('ArrowRight', 'keyUp')
    page.pause()
    compare_flight(page, site, rope, rows)
    judge('the pilot is asked', 409, site.do('go', cycle=0))
    shown, end, script = page.value(rows), page.cycle(), site.script()
    site.do('go', cycle=60000, sure=True)
    settle(page)
    judge('back to this cycle, within an order', True, 60000 <= page.cycle() < 60006)
    compare_flight(page, site, rope, rows)
    site.do('undo')
    settle(page)
    wait(lambda: page.value(rows) == shown)
    judge('undo brings the craft back', (shown, end, script), (page.value(rows), page.cycle(), site.script()))
    site.do('play')
    page.run_on(TENTH)
    page.pause()
    compare_flight(page, site, rope, rows)
    page.close()
    site.end()


def stands(page, rows):
    """Whether the held angle stays for half a second of machine time, in which a button that is down turns it by 3 degrees."""
    held, cycle = page.value(rows)['Held angle'], page.cycle()
    wait(lambda: page.cycle() > cycle + A_SECOND / 2)
    return page.value(rows)['Held angle'] == held and page.cycle() > cycle + A_SECOND / 2


def compare_flight(page, site, rope, rows):
    """Compares the angle that is shown with CDUX in a run of the script: it counts 32768 to a turn."""
    with replayed(rope, site.script(), page.cycle() + 1) as console:
        pulses = (console.cell('32') + 16384) % 32768 - 16384
        held = (console.cell('100') + 16384) % 32768 - 16384
    wanted = f'{pulses * 360 / 32768:+.2f}°', f'{held * 360 / 32768:+.2f}°'
    wait(lambda: (page.value(rows)['Angle'], page.value(rows)['Held angle']) == wanted)
    found = page.value(rows)
    judge('the angle is that of CDUX', wanted[0], found['Angle'])
    judge('the held angle is that of the machine', wanted[1], found['Held angle'])


def try_late_view():
    """An instrument whose first view fails gets its dial and its buttons with the first one that is good."""
    program = f"""if True:
        import agc, agc_web

        class Late:
            ticks = 0
            def tick(self, console, cycle):
                self.ticks += 1
            def control(self, name, down):
                pass
            def view(self):
                if not self.ticks:
                    raise ValueError('too early')
                dial = {{'angle': 0, 'wanted': 0, 'jets': []}}
                return {{'title': 'The craft', 'rows': [['Good', 'yes']], 'dial': dial, 'controls': [{{'name': 'turn', 'label': 'Turn'}}]}}

        with agc.Console({example('keys', 'rope')!r}, program={CONSOLE!r}, detached=True) as console:
            agc_web.serve(console, [Late()], port=0)"""
    site = Site([sys.executable, '-c', program])
    page = Page(site)
    panel = "[...document.querySelectorAll('#instrument-0-tab, .instrument .dial, .instrument dt, .instrument button')].map((each) => each.textContent)"
    judge('a view that fails', ['Late', 'failed'], page.see(panel, ['Late', 'failed']))
    site.do('step')
    wanted = ['The craft', '', 'Good', 'Turn']
    judge('a good view', wanted, page.see(panel, wanted))
    page.close()
    site.end()


def try_names_and_pictures():
    """A key's service by its names, before RSET puts all lamps out: this is the picture that docs/WEB.md begins with."""
    words, rope, names = example('verbs', 'words'), os.path.join(FOLDER, 'verbs.rope'), os.path.join(FOLDER, 'verbs.names')
    with open(rope, 'wb') as file:
        subprocess.run([os.path.join(TOP, 'agc-study'), 'weave', words, '--write-names', names], stdout=file, check=True)
    site = started(example('verbs', 'rope'), '--names', names, '--watch', '0,100,2,0,130,0,140')
    page = Page(site)
    page.type('Space')
    page.state('running')
    page.type('v', '3', '5', 'Enter')
    lit = film.segments_of(film.panel(PROG='88', VERB='88', NOUN='88', R1='+88888', R2='+88888', R3='+88888'))
    judge('all is lit', lit, page.see("Look.places('left')", lit))
    judge('a breakpoint by its name', 200, site.do('break', place='KEYIN'))
    page.type('r')
    judge('time stops at it', 'at breakpoint: order at KEYIN', page.state('at breakpoint: order at KEYIN'))
    coming = ['4100 KEYIN', '4101 KEYIN +1', '4102 KEYIN +2', '4103 KEYIN +3', '4104 KEYIN +4', '4127 KEYS +18', '4235 RESET']

    def shown():
        """The first seven orders to come, without their words. A timer may step between them."""
        lines = [line_of(page, '#ahead li', i).split(' ', 1)[1] for i in range(len(page.texts('#ahead li')))]
        return [re.sub('  .*', '', line) for line in lines if not line.startswith('- ')][:7]

    wait(lambda: shown() == coming)
    judge('twelve boundaries', 12, len(page.texts('#ahead li')))
    judge('the orders that come, by name', coming, shown())
    picture(page, 'web')
    page.click('#tables-tab')
    with replayed(example('verbs', 'rope'), site.script(), page.cycle()) as console:
        tables = console.tables('0,100,2,0,130,0,140')
    shown_tables = lambda: page.value("document.getElementById('tables').textContent").splitlines()
    wait(lambda: shown_tables() == tables)
    judge("the Executive's tables", tables, shown_tables())
    offered = page.value("[...document.querySelectorAll('#names option')].map((each) => each.value)")
    judge('names are offered', True, {'KEYIN', 'IDLE', 'DIGITS'} <= set(offered))
    page.close()
    site.end()


def try_stop():
    """A machine that stops says why, shows the way to its stop, takes no key, and goes back from there."""
    rope = example('division', 'rope')
    site = started(rope)
    page = Page(site)
    page.type('Space')
    judge('it stops', 'stopped: DivisionUndefined', page.state('stopped: DivisionUndefined'))
    with replayed(rope, '', 100) as console:
        judge('where it stops', (console.cycle, console.stop), (page.cycle(), 'DivisionUndefined'))
    with Console(rope, program=[CONSOLE]) as console:
        way = [line.split(' | ')[0] for line in console.step(100)]
    shown = lambda: [line_of(page, '#history li', i) for i in range(len(page.texts('#history li')))]
    wait(lambda: shown() == way)
    judge('the way there', way, shown())
    page.value("dispatchEvent(new Event('blur')); undefined")
    time.sleep(0.5)
    judge('a window that loses the keyboard and holds nothing lets nothing up', '', page.text('trouble'))
    page.type('7')
    judge('it takes no key', True, wait(lambda: 'has stopped' in page.text('trouble')))
    judge('and no step', 409, site.do('step'))
    page.click('#history li:nth-child(2) button')
    judge('back from the stop', 'paused', page.state('paused'))
    judge('to the boundary', int(way[1].split(' ')[0]), page.cycle())
    page.close()
    site.end()


def try_face():
    """The film's page in its crate is what the files of the face and of the film give."""
    script = os.path.join(TOP, 'clients', 'python', 'agc_web', 'page', 'generate')
    done = subprocess.run([sys.executable, '-B', script, '--check'], capture_output=True, text=True)
    judge('the constants of the film', (0, '7 passed, 0 failed\n', ''), (done.returncode, done.stdout, done.stderr))


def try_random():
    """Random sessions: whatever is pressed, stepped, gone back and undone, the script repeats it."""
    rope = example('verbs', 'rope')
    for seed in seeds(4):
        chance = random.Random(seed)
        session = Session(Console(rope, program=[CONSOLE], detached=True))
        done, dropped = [], []
        try:
            for _ in range(60):
                before = session.script().splitlines()
                done.append(random_act(session, chance))
                what = f'random session {seed} after {done[-3:]}'
                compare_session(what, session, rope)
                compare_scripts(what, done[-1], before, session, dropped)
            what = f'random session {seed} at its end'
            log = compare_end(what, session, rope)
            judge(f'{what}: its own log', log, log_of(session))
        finally:
            session.close()


def seeds(usual):
    """Returns the seeds of random sessions: SESSIONS of them, from SEED on; by default the first few."""
    first = int(os.environ.get('SEED', 0))
    return range(first, first + int(os.environ.get('SESSIONS', usual)))


def random_act(session, chance):
    """Does something at random; returns what."""
    name = chance.choice(['press', 'press', 'press', 'play', 'play', 'step', 'back', 'change', 'on', 'undo', 'break', 'speed'])
    cycle = session.console.cycle
    if name == 'back' and cycle == 0:
        name = 'press'
    try:
        if name == 'press':
            session.press(chance.choice([*KEYS, 'PRO', 'PRO up']))
        elif name == 'play':
            session.play()
            time.sleep(chance.choice([0.01, 0.05, 0.15]))
            session.press(chance.choice(KEYS))
            session.pause()
        elif name == 'back':
            session.go_there(max(0, cycle - chance.choice([1, 3, 100, 5000, 20000, 10 ** 6])), True)
        elif name == 'change':
            session.go_back_to_change(True)
            return 'back'
        elif name == 'on':
            session.go_there(cycle + chance.choice([1, 399, 401, 5000]))
        elif name == 'undo':
            session.undo(True)
        elif name == 'break':
            place = chance.choice(['4100', 'write 10', 'cell 100'])
            (session.remove_breakpoint if place in session.breakpoints else session.add_breakpoint)(place)
        elif name == 'speed':
            session.set_speed(chance.choice([1, 10]))
        else:
            session.step()
    except Unable as unable:
        return f'{name}: {unable}'
    return name


def compare_scripts(what, act, before, session, dropped):
    """Compares the script with the one before: going back keeps what was given before its cycle, and lets PRO come up; undo
    brings back what was dropped; all else only adds to it."""
    after, cycle = session.script().splitlines(), session.console.cycle
    if act == 'back':
        dropped.append(before)
        kept = [line for line in before if int(line.split(' ')[0]) < cycle]
        judge(f'{what}: what is kept', kept, after[:len(kept)])
        judge(f'{what}: what is added', True, after[len(kept):] in ([], [f'{cycle} pro up']))
    elif act == 'undo':
        judge(f'{what}: what comes back', dropped.pop(), after)
    else:
        judge(f'{what}: what was there', before, after[:len(before)])


def compare_session(what, session, rope):
    """Compares a session that stands with the plain run of its script: an event of the present cycle is given there, too."""
    script, cycle = session.script(), session.console.cycle
    with replayed(rope, script, cycle) as console:
        for event in [event for event in session.journal.events if event.cycle == cycle]:
            console.step()
        wanted = (console.cycle, console.panel(), console.registers(), console.cells('0100', 8), console.next())
        found = session.inject(lambda machine: (machine.cycle, machine.panel(), machine.registers(), machine.cells('0100', 8), machine.next()))
    judge(what, wanted, found)
    judge(f'{what}: the journal', sorted(script.splitlines()), sorted(f'{event.cycle} {event.command}' for event in session.journal.events))
    last = [line for line in session.history if ' - key ' not in line and ' - pro ' not in line]
    if last:
        judge(f'{what}: the last boundary', True, cycle - 9 < int(last[-1].split(' ')[0]) < cycle)


def compare_end(what, session, rope):
    """Compares a session that ends with what agc and agc-console make of its script: panel and all erasable memory. Returns the
    log, which both have."""
    script, cycle = session.script(), session.console.cycle
    with replayed(rope, script, 0) as console:
        log = [f'{cycle} {channel:03o} {value:05o}' for cycle, channel, value in console.go_to(cycle)]
        memory = [console.cells(f'E{bank},1400', 256) for bank in range(8)]
    words = [AGC, rope, os.path.join(FOLDER, 'replayed'), '--limit', str(max(cycle, 1)), '--log']
    lines = subprocess.run(words, capture_output=True, text=True, check=True).stdout.splitlines()
    judge(f'{what}: the panel of agc', [f'{name} {text}' for name, text in session.inject(lambda machine: machine.panel()).items()], lines[:8])
    judge(f'{what}: the log of agc', log, lines[9:])
    judge(f'{what}: the memory', memory, session.inject(lambda machine: [machine.cells(f'E{bank},1400', 256) for bank in range(8)]))
    return log


def log_of(session):
    """Returns the channel writes of a session, by its own machine: it goes back to the beginning, and has all events once more."""
    events, end = list(session.journal.events), session.console.cycle
    return session.inject(lambda machine: [line[6:] for line in written_again(machine, events, end)])


def written_again(machine, events, end):
    """Takes a session's machine to its beginning and on to its end; returns the lines of the writes on the way."""
    commands = ['quiet off', 'back 0', *[line for event in events for line in (f'go to {event.cycle}', event.command)], f'go to {end}']
    lines = [line for command in commands for line in machine.say(command).lines]
    return [line for line in lines if line.startswith('write ')]


def try_client():
    """What the page needs of the client: answers are passed on, a second console, and whether the process runs."""
    heard = []
    with Console(example('keys', 'rope'), program=[CONSOLE], limit=500, detached=True) as console:
        console.on_answer = lambda command, answer: heard.append((command, answer.cycle))
        console.go(10)
        console.key('4')
        try:
            console.say('fly')
        except Refused as refused:
            heard.append(refused.name)
        judge('what was answered', [('go 10', 10), ('key 4', 10), 'UnknownCommand'], heard)
        with console.again() as other:
            other.go(1000)
            judge('another console has the same limit', (500, 10), (other.cycle, console.cycle))
            judge('and gives its own answers', 3, len(heard))
        judge('it is over', (True, False), (console.alive, other.alive))
    judge('so is this one', False, console.alive)


def try_install():
    """`pip install` of the client's folder needs no network, and gives the command and the page."""
    if not importlib.util.find_spec('ensurepip'):
        print('skipped: the installation by pip, because there is no ensurepip')
        return
    home = os.path.join(FOLDER, 'installed')
    subprocess.run([sys.executable, '-m', 'venv', home], check=True)
    words = [os.path.join(home, 'bin', 'pip'), 'install', '--quiet', '--no-index', os.path.join(TOP, 'clients', 'python')]
    done = subprocess.run(words, capture_output=True, text=True, env={**os.environ, 'PYTHONPATH': ''})
    judge('pip install', (0, ''), (done.returncode, done.stderr if done.returncode else ''))
    path = os.pathsep.join([TOP, os.environ['PATH']])
    site = Site([os.path.join(home, 'bin', 'agc-web'), example('verbs', 'rope'), '--port', '0'], {**os.environ, 'PATH': path, 'PYTHONPATH': ''})
    judge('the page', 200, site.request('GET', '/')[0])
    judge('its script', 200, site.request('GET', '/web/web.js')[0])
    judge('the film', 200, site.request('GET', '/film')[0])
    judge('its end', 0, site.end()[0])


def picture(page, name):
    """Writes a picture for the docs, if they are asked for."""
    if PICTURES:
        page.window.picture(os.path.join(PICTURES, name + '.png'))


# Those that take longest come first.
TRIES = (
    *buttons.TRIES, *guides.TRIES, *listed.TRIES, *filmed.TRIES, *whys.TRIES, *storms.TRIES, *views.TRIES, try_install, try_pace,
    try_session, try_changes, try_pro, try_keys_rope, try_many_cells, try_sizes, try_policy, try_ports, try_refusals, try_port,
    try_writes, try_views, try_full, try_look, try_rate, try_latency, try_killed, try_end, try_blanks, try_two, try_command,
    try_serve, try_gone, try_hangup, try_lander, try_late_view, try_names_and_pictures, try_stop, try_random, try_face,
    try_client, *ends.TRIES, *rooms.TRIES, *times.TRIES, *found.TRIES, *listens.TRIES, *looks.TRIES, *quantities.TRIES,
    *nouns.TRIES, *timelines.TRIES, *causes.TRIES, *stepped.TRIES, *lesson.TRIES, *operands.TRIES, *texts.TRIES,
)


def close_left():
    """Ends the browsers and the servers that a try has left."""
    Page.close_all()
    Window.kill_all()
    Site.kill_all()


def make_all(tries, close):
    """Makes the tries, or those that TRY names, AT_ONCE beside one another. `close` ends what one of them has left."""
    depends_on_time(close)
    chosen = os.environ.get('TRY')
    for each in beside([each for each in tries if not chosen or each.__name__ in chosen.split(',')], AT_ONCE):
        began = time.monotonic()
        attempt(each)
        figure(f'seconds of {each.__name__}', round(time.monotonic() - began, 1))
        close()


def main():
    make_all(TRIES, close_left)
    finish()


if __name__ == '__main__':
    main()
