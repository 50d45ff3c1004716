"""Step, Over and Finish in the tab Source, and back: where they go is what a filter over agc-study's trace of the same run says."""
import os
import subprocess

from agc import Console
from agc_web.session import Session
from causes import traced
from judge import CONSOLE, STUDY, judge, scratch_folder
from listed import shown
from site_of import started, wait
from views import opened, see
from whys import Pulsing, ahead

FOLDER = scratch_folder()
RUN = 12_000  # cycles: WAIT takes some 2,000 of them, two ticks of an instrument
SOURCE = """# Calls in calls, one that skips a word, and one that takes its time.
        SETLOC  0100
KEPT    ERASE
TIMES   ERASE
LEFT    ERASE
        SETLOC  4000
        TCF     MAIN
        SETLOC  4024
        RESUME
        SETLOC  4100
MAIN    TC      OUTER
        TC      SKIP
        OCT     5
        TCF     MAIN
OUTER   EXTEND
        QXCH    KEPT
        TC      INNER
        TC      INNER
        TC      WAIT
        EXTEND
        QXCH    KEPT
        RETURN
INNER   INCR    TIMES
        RETURN
SKIP    INDEX   Q
        TC      1
WAIT    CA      LONG
AGAIN   TS      LEFT
        CCS     LEFT
        TCF     AGAIN
        RETURN
LONG    DEC     400
"""
BACK = "document.querySelector('#listing-steps [data-from=step]')"
WAYS = 'step over over step step finish back-over step step step step step finish back-over step back-finish step over step over step step finish over back-step back-over'.split()


def folder_of():
    """Returns a folder with the rope and its listing."""
    folder = os.path.join(FOLDER, f'calls{len(os.listdir(FOLDER))}')
    os.mkdir(folder)
    with open(os.path.join(folder, 'words'), 'w', encoding='ascii') as file:
        file.write(SOURCE)
    with open(os.path.join(folder, 'rope'), 'wb') as rope:
        subprocess.run([STUDY, 'weave', os.path.join(folder, 'words'), '--write-listing', os.path.join(folder, 'listing')], stdout=rope, check=True)
    return folder


class Run:
    """The boundaries of a run: their cycles, the addresses of orders (None for others), whether an order calls, and Q before it."""

    def __init__(self, rope):
        self.all, q = [], 0
        for line in traced(rope, '', RUN):
            cycle, place, *words = line.split(' | ')[0].split()
            calls = words[1:2] == ['TC'] and int(place, 8) >= 0o2000 <= int(words[2], 8) and int(words[2], 8) not in range(q, q + 3)
            self.all.append((int(cycle), None if place == '-' else int(place, 8), calls, q))
            q = int(line.split(' Q ')[1].split()[0], 8)
        self.calls = {address for _, address, calls, _ in self.all if calls}

    def goes(self, way, cycle):
        """Returns the cycle to which a step goes."""
        here = next(i for i, each in enumerate(self.all) if each[0] >= cycle)
        _, address, calls, q = next(each for each in self.all[here:] if each[1] is not None)
        found = lambda part, first: next(each[0] for each in part if each[1] in range(first, first + 3))
        if way == 'over' and calls:
            return found(self.all[here + 1:], address + 1)
        if way == 'finish':
            return found(self.all[here + 1:], q)
        before = self.all[here - 1::-1]
        if way == 'back-over' and self.calls & {address - 1, address - 2, address - 3}:
            return found(before, address - 3)
        if way == 'back-finish':
            return found(before, q - 3)
        return self.all[here - 1][0] if way.startswith('back') else self.all[here + 1][0]


def of_steps(window, rope):
    """Clicks at the buttons, one after another."""
    run, cycle = Run(rope), 0
    for number, way in enumerate(WAYS):
        kind, _, name = way.rpartition('-')
        window.value(f"document.querySelector('#listing-steps [data-{'from' if kind else 'by'}={name}]').click(); undefined")
        wanted = run.goes(way, cycle)
        judge(f'{number}: {way} from {cycle}', wanted, see(window, 'now.cycle', wanted))
        cycle = wanted
    wanted = run.goes('back-step', run.goes('back-step', cycle))
    window.value(f'{BACK}.click(); {BACK}.click(); undefined')
    judge('two quick clicks', wanted, see(window, 'now.cycle', wanted))


def try_calls():
    """Without instruments; going back asks before it drops a key, and undo brings that back."""
    folder = folder_of()
    site = started(os.path.join(folder, 'rope'))
    window = opened(site)
    shown(window)
    of_steps(window, os.path.join(folder, 'rope'))
    before = window.value('now.cycle')
    site.do('key', name='4')
    site.do('step')
    after = see(window, 'now.cycle > ' + str(before), True) and window.value('now.cycle')
    script = site.script()
    window.value(f'{BACK}.click(); undefined')
    judge('it asks', True, see(window, "document.getElementById('ask').open", True))
    window.value("document.getElementById('ask-yes').click(); undefined")
    judge('the key is dropped', '', wait(lambda: site.script() == '') and site.script())
    site.do('undo')
    judge('undo', (script, True), (site.script(), window.value('now.cycle') <= after))
    site.do('go', cycle=0, sure=True)
    window.value("document.querySelector('#listing-steps [data-from=finish]').click(); undefined")
    said = "document.getElementById('trouble').textContent"
    judge('at the beginning', 'there is no call to go back to', see(window, said, 'there is no call to go back to'))
    judge('errors of the page', [], window.errors())
    window.close()
    site.end()


def try_calls_ticked():
    """With an instrument that pulses on the way, Over and Finish go where single steps go, with the same events and states."""
    rope = os.path.join(folder_of(), 'rope')
    ends = []
    for by_steps in (True, False):
        with Console(rope, program=[CONSOLE], detached=True) as console:
            instrument = Pulsing()
            session = Session(console, [instrument])
            session.call(lambda: ahead(session, 5000))
            session.press('7')
            session.pause()
            for way, places in (('over', range(0o4101, 0o4104)), ('step', ()), ('step', ()), ('finish', range(0o4101, 0o4104))):
                step_to(session, console, range(0o4100, 0o4101) if way == 'over' else ())
                if by_steps and places:
                    session.step()
                    step_to(session, console, places)
                elif way == 'step':
                    session.step()
                else:
                    session.step_by_call(way)
                ends.append((console.cycle, console.next(), session.script(), instrument.save()))
            judge('nothing to undo', True, session.call(lambda: not session._undo))
            session.close()
    half = len(ends) // 2
    judge('there are pulses on the way', True, ends[0][2].count('pulse') > ends[0][2].count('key'))
    judge('with an instrument', ends[:half], ends[half:])


def step_to(session, console, places):
    """Steps until an order at one of these addresses comes, outside of services."""
    while places and not any(console.next().startswith(f'{place:o} ') for place in places):
        session.step()


TRIES = (try_calls, try_calls_ticked)
