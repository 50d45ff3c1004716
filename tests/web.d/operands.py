"""Operands by their names in the lines of orders, and hits of a breakpoint that are passed over."""
import os
import subprocess

from causes import SAID
from judge import STUDY, judge, scratch_folder
from site_of import started
from views import opened, see

FOLDER = scratch_folder()
# 4010 puts 3 into EB, 4012 puts 5 into FB. The loop at 05,2100 takes 1, 2, 2 and 1 cycles; it is first reached after 13:
# CA and TS take 2 each, TCF 1.
WORDS = """4000 34010
4001 54003
4002 55406
4003 55410
4004 34012
4005 54004
4006 12100
4010 01400
4012 12000
05,2100 00006
05,2101 01010
05,2102 30100
05,2103 12100
"""
# WRONG and NEAR are at the same addresses, in other banks.
NAMES = """4000 START
0100 LEFT
E2,1010 WRONG
E3,1406 LOW
E3,1410 FLAGS
04,2100 NEAR
05,2100 FAR
C010 OUT0
"""
# TS 1406 might have changed EB itself, if that was 0 before: so only before it, by the registers, is it sure which cell that is.
ORDERS = [
    '4000 START        34010 CA START +8', '4001 START +1     54003 TS 0003', '4002 START +2     55406 TS 1406',
    '4003 START +3     55410 TS FLAGS', '4004 START +4     34012 CA START +10', '4005 START +5     54004 TS 0004',
    '4006 START +6     12100 TCF FAR', '05,2100 FAR          00006 EXTEND', '05,2101 FAR +1       01010 WRITE OUT0 > 010 12000',
    '05,2102 FAR +2       30100 CA LEFT', '05,2103 FAR +3       12100 TCF FAR',
]
FIRST, ROUND = 13, 6  # cycles: when the loop begins, and how long it takes
WHAT = "[...document.querySelectorAll('#{} .what')].map((each) => each.textContent)"
NEXT = "document.getElementById('next').textContent"
FIELD = "document.querySelector('#breaks input[data-break=\"{}\"]')"


def site_of():
    """Starts the page with the rope and its names."""
    paths = {name: os.path.join(FOLDER, name) for name in ('words', 'rope', 'names')}
    for name, text in (('words', WORDS), ('names', NAMES)):
        with open(paths[name], 'w', encoding='ascii') as file:
            file.write(text)
    with open(paths['rope'], 'wb') as rope:
        subprocess.run([STUDY, 'weave', paths['words']], stdout=rope, check=True)
    return started(paths['rope'], '--names', paths['names'])


def try_operands():
    """The coming orders, the last ones, what comes next and what has changed a cell, with the operands that are sure by name."""
    site = site_of()
    window = opened(site)
    judge('the coming orders', ORDERS, see(window, WHAT.format('ahead') + f'.slice(0, {len(ORDERS)})', ORDERS))
    for at, order in enumerate(ORDERS):
        coming = order.split(' > ')[0].replace('TS 1406', 'TS LOW')
        judge(f'order {at} comes next', coming, see(window, NEXT, coming))
        site.do('step')
    judge('the last orders', ORDERS, see(window, WHAT.format('history'), ORDERS))
    window.value("explain('FLAGS', ['cell FLAGS']); undefined")
    wanted = 'FLAGS was last changed at 0.000 s, cycle 6, by TS FLAGS at START +3. Time stands before it. ↶ Undo going back'
    judge('what changed the cell', wanted, see(window, SAID, wanted))
    for place, name in (('05,2100', 'FAR'), ('E3,1411', 'FLAGS +1'), ('10', 'OUT0')):
        kind = {'E': 'cell ', '1': 'write '}.get(place[0], '')
        site.do('break', place=kind + place)
        names = "[...document.querySelectorAll('#breaks span')].map((each) => each.textContent)"
        judge(f'the breakpoint at {place}', name, see(window, f'{names}.at(-1)', name))
    judge('errors of the page', [], window.errors())
    window.close()
    site.end()


def hits(site, window, wanted, cycle):
    """Plays up to a hit, and returns at which breakpoint and cycle time stops."""
    site.do('play')
    see(window, '[now.playing, now.cycle]', [False, cycle])
    time = site.state()['time']
    judge(f'the hit of {wanted}', (wanted, cycle), (time['hit'], time['cycle']))


def try_ignored():
    """A breakpoint passes over as many hits as its field has, which then has 0; others stop time all the same."""
    site = site_of()
    window = opened(site)
    site.do('break', place='FAR')
    see(window, "document.querySelectorAll('#breaks li').length", 1)
    field = FIELD.format('FAR')
    window.value(f"{field}.value = '3'; {field}.dispatchEvent(new Event('change')); undefined")
    judge('three hits are to be passed over', {'FAR': 3}, see(window, 'shown.ignored', {'FAR': 3}))
    hits(site, window, 'FAR', FIRST + 3 * ROUND)
    judge('none is left', ({}, '0'), (site.state()['ignored'], see(window, f'{field}.value', '0')))
    hits(site, window, 'FAR', FIRST + 4 * ROUND)
    site.do('ignore', place='FAR', hits=100)
    site.do('break', place='write 10')
    # the order at FAR stands there already: WRITE ends three cycles after it, and once more a round later
    hits(site, window, 'write 10', FIRST + 4 * ROUND + 3)
    hits(site, window, 'write 10', FIRST + 5 * ROUND + 3)
    judge('one more hit was passed over', {'FAR': 99}, site.state()['ignored'])
    judge('the field shows what is left', '99', see(window, f'{field}.value', '99'))
    site.do('go', cycle=FIRST)
    judge('going back leaves it', {'FAR': 99}, site.state()['ignored'])
    for place, count in (('FAR', -1), ('FAR', 1_000_001), ('FAR', 1.5), ('FAR', True), ('LEFT', 1)):
        judge(f'ignore {count} at {place}', 400, site.do('ignore', place=place, hits=count))
    site.do('unbreak', place='FAR')
    site.do('break', place='FAR')
    judge('a new breakpoint ignores none', {}, site.state()['ignored'])
    judge('errors of the page', [], window.errors())
    window.close()
    site.end()


TRIES = (try_operands, try_ignored)
