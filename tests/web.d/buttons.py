"""The buttons of the landing's craft: what each gives the machine, and what becomes of the flight.

What is wanted is in examples/descent: a redesignation moves the site by a 32nd of the way to it, a landing is within 40 m of
where the site is then, the rendezvous radar brings the alarm 1202, and each seed has its erasable load.
"""
import os
import re
import subprocess
import sys
import time

from judge import AGC, judge, near, scratch_folder
from site_of import Site, example, keys_in, looked, wait
from views import begin_flight, click, craft_module, look_at_cell, opened, see

FOLDER = scratch_folder()
A_SECOND = 1024000 / 12  # cycles


class Flight:
    """The landing with its page."""

    def __init__(self):
        self.site = Site([sys.executable, '-B', example('descent', 'craft.py'), '--web', '--port', '0'])
        self.window = opened(self.site)

    def rows(self):
        return dict(self.site.state()['instruments'][0]['rows'])

    def outcome(self):
        return self.site.state()['instruments'][0]['outcome']['text']

    def cycle(self):
        return self.site.state()['time']['cycle']

    def program(self):
        return self.site.state()['panel']['PROG']

    def since(self, cycle):
        """Returns the commands of the script from a cycle on."""
        return [command for at, command in (line.split(' ', 1) for line in self.site.script().splitlines()) if int(at) >= cycle]

    def begin(self):
        """Flies on by P64, until the engine is on."""
        begin_flight(self.site, self.window)
        judge('the engine is on', True, wait(lambda: self.rows()['Thrust'] != 'engine off', 600))
        judge('the approach', '64', self.program())

    def run_on(self, seconds):
        """Waits for some seconds of machine time."""
        end = self.cycle() + seconds * A_SECOND
        judge('time goes on', True, wait(lambda: self.cycle() >= end, 600))

    def ends(self):
        """Flies on as fast as it goes; returns whether the flight ends."""
        self.site.do('speed', times=1000)
        with self.window.frozen():
            return wait(self.outcome, 600)

    def click(self, label):
        """Clicks a button of the page; returns the cycle before that."""
        before = self.cycle()
        click(self.window, label)
        return before

    def click_until(self, label, is_so):
        """Clicks a button, at most three times, until something is so: a click misses a button that moves just then."""
        return any(self.click(label) is not None and looked(is_so, 20) for _ in range(3))

    def end(self):
        judge('errors of the page', [], self.window.errors())
        self.window.close()
        self.site.end()


def try_buttons():
    """One flight to a site that is moved, and another one with the alarm 1202, which is aborted."""
    flight = Flight()
    flight.begin()
    moved = redesignate(flight)
    lose_radar(flight)
    judge('it comes to the ground', True, flight.ends())
    flight.site.do('pause')
    found = re.fullmatch(r'Landed: [01]\.\d\d m/s, (\d+) m from the site', flight.outcome())
    judge(f'it lands: {flight.outcome()}', True, found is not None)
    near('where the site was moved to', moved, int(found.group(1)) if found else 0, 70)
    repeat(flight)
    begin_again(flight)
    flight.begin()
    overload(flight)
    abort(flight)
    flight.end()


def redesignate(flight):
    """Twice the site is moved farther: the hand controller is pushed for a fifth of a second, which requests RUPT10. Returns by
    how many metres."""
    moved = 0.0
    flight.site.do('speed', times=1)  # so that a click that comes late moves the site by as much
    for number in (1, 2):
        moved += (float(flight.rows()['To the site'].split(' ')[0]) + moved) / 32
        before = flight.click('Site farther')
        judge('the stick comes back', True, wait(lambda: 'input 31 77777' in flight.since(before)))
        lines = [line for line in flight.site.script().splitlines() if ' input 31 ' in line or line.endswith(' raise 10')]
        judge('pushed, and released', ['input 31 77776', 'raise 10', 'input 31 77777'] * number, [line.split(' ', 1)[1] for line in lines])
        down, _, up = [int(line.split(' ')[0]) for line in lines[-3:]]
        judge(f'for a fifth of a second: {up - down} cycles', True, 0.19 < (up - down) / A_SECOND < 0.22)
        flight.run_on(3)  # guidance has seen it
    return moved


def lose_radar(flight):
    """Without the landing radar no word of it comes; found again, it sends."""
    flight.site.do('speed', times=1)
    flight.click('Lose the landing radar, or find it')
    judge('it is lost', 'lost', see(flight.window, row('Landing radar'), 'lost'))
    lost = flight.cycle()
    flight.run_on(2.5)
    judge('nothing comes of it', 0, flight.since(lost + 1000).count('raise 9'))
    judge('the rest goes on', True, flight.since(lost + 1000).count('raise 8') > 10)
    found = flight.click('Lose the landing radar, or find it')
    judge('it is found', 'on', see(flight.window, row('Landing radar'), 'on'))
    judge('it sends again', True, wait(lambda: 'raise 9' in flight.since(found)))
    flight.site.do('speed', times=10)


def row(name):
    return f"document.querySelector('[data-name=\"{name}\"] dd')?.textContent"


def overload(flight):
    """The rendezvous radar, and a crew that watches the range, are too much: the alarm is 1202, and the flight goes on."""
    before = flight.click('Rendezvous radar: 1202')
    judge('the alarm comes', True, wait(lambda: 'PROG' in flight.site.state()['panel']['LAMPS'], 600))
    judge('it is 1202', 0o1202, look_at_cell(flight.site, 'FAILREG+2'))
    since = flight.since(before)
    judge('the crew watches the range', [f'key {key}' for key in 'VERB 1 6 NOUN 6 8 ENTR'.split()], [each for each in since if each.startswith('key ')])
    judge('the radar sends', True, since.count('pulse 36 pcdu') >= 65)
    judge('the flight goes on', '64', flight.program())
    judge('it is off again', True, wait(lambda: flight.rows()['Rendezvous radar'] == 'off again', 600))


def repeat(flight):
    """agc comes to the same panel by the script."""
    path = os.path.join(FOLDER, 'flown')
    state = flight.site.state()
    with open(path, 'w') as file:
        file.write(flight.site.script())
    words = [AGC, example('descent', 'rope'), path, '--limit', str(state['time']['limit'])]
    lines = subprocess.run(words, capture_output=True, text=True, check=True).stdout.splitlines()
    judge('agc repeats the flight', [f'{name} {value}' for name, value in state['panel'].items()], lines[:8])


def begin_again(flight):
    """Another flight begins, of the next seed's craft; undo brings the one before back."""
    outcome, script, end = flight.outcome(), flight.site.script(), flight.cycle()
    judge('back at the beginning', True, flight.click_until('Again with another seed', lambda: flight.cycle() == 0))
    rows = flight.rows()
    judge('a new craft', ('2300.0 m', 'engine off', 'off', ''), (rows['Altitude'], rows['Thrust'], rows['Rendezvous radar'], flight.outcome()))
    judge('nothing was done yet', '', flight.site.script())
    judge('undo', 200, flight.site.do('undo'))
    judge('brings the flight back', (outcome, script, end), (flight.outcome(), flight.site.script(), flight.cycle()))
    # The button moves as the page hears of it.
    judge('the page shows it', True, wait(lambda: flight.window.value('now.cycle') == end))
    time.sleep(0.5)
    judge('back at the beginning', True, flight.click_until('Again with another seed', lambda: flight.cycle() == 0))
    flight.site.do('step')
    craft = craft_module()
    wanted = [f'poke {bank:o} {offset:o} {word:05o}' for bank, offset, word in craft.load(craft.Craft(seed=3))]
    judge('the load of the next seed but one', wanted, keys_in(flight.site.script())[:len(wanted)])


def abort(flight):
    """The button types V37E70E, and the craft goes to an orbit."""
    flight.site.do('speed', times=1)  # so that a click that comes late comes in flight
    before = flight.click('Abort')
    judge('the first key', True, wait(lambda: any(each.startswith('key ') for each in flight.since(before)), 600))
    flight.site.do('speed', times=10)
    judge('program 70', True, wait(lambda: flight.program() == '70', 600))
    judge('what was typed', [f'key {key}' for key in 'VERB 3 7 ENTR 7 0 ENTR'.split()], [each for each in flight.since(before) if each.startswith('key ')])
    judge('it comes to an orbit', True, flight.ends())
    judge(f'the orbit: {flight.outcome()}', True, re.fullmatch(r'Aborted: orbit of [78]\d by 1[678] km', flight.outcome()) is not None)
    judge('noun 44', True, wait(lambda: flight.site.state()['panel']['NOUN'] == '44', 600))


TRIES = (try_buttons,)
