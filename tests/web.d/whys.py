"""Searches backwards, going back to any cycle with instruments, and the cause of an alarm."""
import itertools
import json
import os
import random
import re
import sys

from agc import Console
from agc_web.session import Session
from judge import CONSOLE, judge, scratch_folder
from site_of import Site, example, keys_in, started, wait
from views import click, opened, see

FOLDER = scratch_folder()
NAMES = example('console', 'names', 'names')


def found(window, **wanted):
    """Searches; returns the status and the answer."""
    answer = window.value(f'session.find({json.dumps(wanted)})')
    return answer.pop('status'), answer


def orders_before(script, place, end):
    """Returns, of a run that is stepped forward, when the order at a place came each time, and when the order before it began,
    None if there was none."""
    path = os.path.join(FOLDER, 'stepped')
    with open(path, 'w', encoding='ascii') as file:
        file.write(script)
    came, last = [], None
    with Console(example('keys', 'rope'), path, program=[CONSOLE]) as console:
        while console.cycle < end:
            for line in console.step(500):
                cycle, at, *_ = line.split()
                if at == place:
                    came.append((int(cycle), last))
                last = int(cycle) if at != '-' else last
    return came


def try_find():
    """A search finds what a run that is stepped forward finds, changes nothing, and refuses what is no place in the console's
    words. A key's relay word is written 22 cycles after the key, or a few more for steps of timers."""
    site = started(example('keys', 'rope'), '--names', NAMES)
    window = opened(site)
    site.do('key', name='4')
    for _ in range(60):
        site.do('step')
    site.do('key', name='7')
    site.do('play')
    wait(lambda: len(keys_in(site.script())) == 2 and site.state()['time']['cycle'] > int(site.script().splitlines()[1].split()[0]) + 30)
    site.do('pause')
    second = int(site.script().splitlines()[1].split()[0])
    before = (site.script(), site.state()['time']['cycle'])
    (first_key, none), (last_key, order) = orders_before(site.script(), '4024', before[1])
    judge('no order is before the first', None, none)
    judge('the last KEYIN', (200, {'cycle': last_key, 'order': order}), found(window, places=['KEYIN']))
    judge('the one before', (200, {'cycle': first_key, 'order': first_key}), found(window, places=['KEYIN'], before=second))
    status, hit = found(window, places=['KEYIN', 'write 010'])
    judge('the later of two', (200, True), (status, second + 20 <= hit['cycle'] <= second + 25))
    judge('a place that never came', 409, found(window, places=['write 777'])[0])
    with Console(example('keys', 'rope'), names=NAMES, program=[CONSOLE]) as console:
        try:
            console.back_until('NOWHERE')
            said = ''
        except Exception as refused:
            said = str(refused)
    judge('a name that is unknown: what the console says', (400, {'error': said}), found(window, places=['NOWHERE']))
    for places in (None, 'KEYIN', [], [7], ['KEYIN'] * 9, [''], ['KEYIN\nkey 4'], ['x' * 81]):
        judge(f'{places!s:.20} is refused', 400, found(window, places=places)[0])
    judge('before is a cycle', 400, found(window, places=['KEYIN'], before='1')[0])
    judge('nothing has changed', before, (site.script(), site.state()['time']['cycle']))
    window.close()
    site.end()


class Pulsing:
    """An instrument that pulses more or less by what it has seen, and by a button."""

    def __init__(self):
        self.seen, self.more = 0, 0

    def tick(self, console, cycle):
        self.seen = (self.seen * 5 + console.cell('100') + 1) % 31
        for _ in range(self.seen % 3 + self.more):
            console.pulse(0o37, 'pinc')

    def control(self, name, down):
        self.more = (self.more + 1) % 4 if down else self.more

    def view(self):
        return {'title': 'Pulsing'}

    def save(self):
        return self.seen, self.more

    def load(self, state):
        self.seen, self.more = state


def try_exact():
    """With an instrument, going back to any cycle keeps exactly the events before it, and leads there: what then happens
    without the user is what happened before, up to the user's next key or button; and undo brings all back."""
    chance = random.Random(7)
    with Console(example('keys', 'rope'), program=[CONSOLE], detached=True) as console:
        instrument = Pulsing()
        session = Session(console, [instrument])
        acts = []
        for number, cycle in enumerate(sorted(chance.randrange(1000, 180000) for _ in range(24))):
            session.call(lambda: ahead(session, cycle))
            acts.append(console.cycle)
            if number % 3:
                session.press('0123456789'[number % 10])
            else:
                session.control(0, 'more', True)
        session.call(lambda: ahead(session, 200000))
        script, state, end = session.script(), instrument.save(), console.cycle
        acts += [int(line.split()[0]) for line in script.splitlines() if ' key ' in line]  # some had to wait
        judge('there are pulses and keys', True, script.count(' pulse ') > 200 and script.count(' key ') > 10)
        for _ in range(20):
            session.go_there(chance.randrange(500, end), True)
            here = console.cycle
            kept = [line for line in script.splitlines() if int(line.split()[0]) < here]
            judge(f'back to {here}: the script', None, first_difference(kept, session.script().splitlines()))
            again = min([act for act in acts if act >= here] + [end])
            session.call(lambda: ahead(session, again))
            before, after = ([line for line in each.splitlines() if int(line.split()[0]) < again] for each in (script, session.script()))
            judge(f'on from {here} to {again}: the script', None, first_difference(before, after))
            session.undo(True)
            judge('undo', (True, state, end), (script == session.script(), instrument.save(), console.cycle))
        session.close()


def try_undone():
    """After an undo that brings half a minute back, the instrument goes back to the beginning once more, and on as before."""
    with Console(example('keys', 'rope'), program=[CONSOLE], detached=True) as console:
        instrument = Pulsing()
        session = Session(console, [instrument])
        first = instrument.save()
        session.call(lambda: ahead(session, 30 * 85333))
        session.press('4')
        session.call(lambda: ahead(session, 31 * 85333))
        script, state, end = session.script(), instrument.save(), console.cycle
        for cycle in (0, 9 * 85333, 0):
            session.go_there(cycle, True)
            session.undo(True)
            judge(f'back to {cycle}, and undo', (True, state, end), (script == session.script(), instrument.save(), console.cycle))
        session.go_there(0, True)
        judge('back at the beginning', (first, ''), (instrument.save(), session.script()))
        session.call(lambda: ahead(session, 30 * 85333))
        until = [line for line in script.splitlines() if int(line.split()[0]) < 30 * 85333]
        judge('it goes on as before', None, first_difference(until, session.script().splitlines()))
        session.close()


def first_difference(one, other):
    """Returns the first lines that differ; None if all are the same."""
    return next(((a, b) for a, b in itertools.zip_longest(one, other) if a != b), None)


def ahead(session, cycle):
    """Lets time go on to a cycle, on the machine's thread."""
    session.playing = True
    session._advance(cycle)
    session.playing = False


def try_backwards():
    """A breakpoint goes backwards too, takes a name, and says what the console says of an unknown one."""
    site = started(example('keys', 'rope'), '--names', NAMES)
    window = opened(site)
    site.do('key', name='4')
    for _ in range(40):
        site.do('step')
    key = int(site.script().split()[0])
    window.value("document.getElementById('breaks-tab').click(); document.getElementById('break-place').value = 'KEYIN'; undefined")
    window.value("document.getElementById('break-back').click(); undefined")
    judge('back to the last KEYIN', key + 3, see(window, 'now.cycle', key + 3))
    judge('the order comes next', True, see(window, "document.getElementById('next').textContent.startsWith('4024 KEYIN')", True))
    site.do('undo')
    site.do('break', place='write 10')
    see(window, "document.querySelectorAll('#breaks li').length", 1)
    window.value("document.querySelector('#breaks [aria-label=\"Back to the last write to channel 10\"]').click(); undefined")
    judge('back to the write', 'WRITE', see(window, "document.getElementById('next').textContent.trim().split(/ +/).at(-2)", 'WRITE'))
    window.value("document.getElementById('break-place').value = 'KEYEN'; document.getElementById('break-back').click(); undefined")
    judge('an unknown name', 'unknown name; did you mean KEYIN?', see(window, "document.getElementById('trouble').textContent", 'unknown name; did you mean KEYIN?'))
    judge('errors of the page', [], window.errors())
    window.close()
    site.end()


def try_why():
    """At an alarm the page goes back to the call that found no room: from second 6 to 7 all VAC areas are taken, so that READACCS
    finds none for its next SERVICER. FINDVAC is at 4176 by the example's names."""
    path = os.path.join(FOLDER, 'vac')
    with open(path, 'w', encoding='ascii') as file:
        file.write(full_script())
    site = Site([sys.executable, '-B', example('descent', 'craft.py'), '--web', '--port', '0', '--script', path])
    window = opened(site)
    see(window, "document.getElementById('why-tab') !== null", True)
    window.value("find('why-tab').click(); find('why-again').click(); undefined")
    judge('before any alarm', 'There was no alarm up to here.', see(window, "document.getElementById('trouble').textContent", 'There was no alarm up to here.'))
    explain(site, window)
    judge('errors of the page', [], window.errors())
    window.close()
    site.end()


def full_script():
    """Returns the keys of P64, and what takes all VAC areas for a second: a SERVICER that ends frees its area."""
    with open(example('descent', 'script'), encoding='ascii') as file:
        lines = [line for line in file if ' key ' in line or ' pro ' in line]  # without the load, which is the craft's
    times = range(512000, 602000, 1500)
    return ''.join([*lines, *(f'{cycle} poke 1 {offset} 0\n' for cycle in times for offset in ('0', '24', '50', '74', '120'))])


def explain(site, window):
    """Runs to the alarm, has it explained, and returns to the flight."""
    judge('it runs to the alarm', [200] * 3, [site.do('break', place='SETALARM'), site.do('speed', times=10), site.do('play')])
    judge('the alarm comes', True, wait(lambda: window.value('now.hit') != '', 300))
    site.do('unbreak', place='SETALARM')
    site.do('play')
    judge('an alarm', True, wait(lambda: window.value("isLit('PROG')"), 300))
    site.do('pause')
    script = site.script()
    judge('the page offers the reason', True, see(window, "document.getElementById('alarm').hidden", False) is False)
    window.resize(390, 844)
    click(window, 'Why?', '#alarm button')
    text = "document.getElementById('why-text').textContent"
    wait(lambda: 'called' in window.value(text), 300)
    says = r'Alarm 1201: no VAC area was free\. READACCS \+\d+ called FINDVAC, for it wants a core set and a VAC area for one more job, at [67]\.\d+ s, cycle ([\d,]+)\.'
    found = re.fullmatch(says, window.value(text))
    stands = "document.getElementById('why-stands').textContent"
    inside = "(({ top, bottom }) => top >= 0 && bottom <= innerHeight)(document.getElementById('why-says').getBoundingClientRect())"
    judge('on a phone the answer is scrolled to', True, see(window, inside, True))
    window.resize(1000, 700)
    judge('time stands there, it says', ' Time stands before this order.', see(window, stands, ' Time stands before this order.'))
    judge('the cause', True, found is not None)
    cycle = int(found.group(1).replace(',', '')) if found else 0
    judge('time stands there', (cycle, 'TC 4176'), (site.state()['time']['cycle'], ' '.join(site.state()['machine']['next'].split()[-2:])))
    before, kept = ([line for line in each.splitlines() if int(line.split()[0]) < cycle] for each in (script, site.script()))
    judge('what came before it is kept', None, first_difference(before, kept))
    judge('what the craft sent since is dropped', False, any(' raise ' in line for line in site.script().splitlines()[len(kept):]))
    sets = [line for line in site.state()['tables'] if line.startswith('SET ')]
    rows = "[...document.querySelectorAll('#why-sets tr')].map((row) => row.children[2].textContent === 'free')"
    wanted = [line.endswith('FREE') for line in sets]
    judge('a row for each core set', wanted, see(window, rows, wanted))
    judge('the tab', 'why-tab', see(window, "document.querySelector('#tabs [aria-selected=true]').id", 'why-tab'))
    judge('the pulses of the second before', True, wait(lambda: window.value("document.getElementById('why-stolen').textContent").startswith('In the second before, pulses took ')))
    counted = sum(' pulse ' in line and cycle - 256000 / 3 <= int(line.split()[0]) < cycle for line in script.splitlines())
    judge('their number', f'took {counted} of 85,333 cycles', window.value("document.getElementById('why-stolen').textContent.match(/took .* cycles/)[0]"))
    if os.environ.get('PICTURES'):
        window.picture(os.path.join(os.environ['PICTURES'], 'web-why.png'))
    window.value("document.getElementById('why-return').click(); undefined")
    judge('undo returns to the flight', True, wait(lambda: site.script() == script))
    judge('and time stands no longer there', '', see(window, stands, ''))


TRIES = (try_find, try_exact, try_undone, try_backwards, try_why)
