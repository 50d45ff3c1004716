"""Quantities, the plot and the display in words in agc.html: files that are dropped, a landing's curves, a reload and a link.

What is wanted are the words that agc-console has at the cycles of the samples, as decimals by a search of our own.
"""
import json
import math
import os
from fractions import Fraction

import quantities
from agc import Console
from judge import CONSOLE, judge
from local import LocalPage, LocalSite
from nouns import TEXT
from site_of import example, wait
from source import WritingPage

QUANTITIES = '''# of the landing
altitude   ZN     double   B14  m
rate       VZ     double   B8   m/s
tilt       CDUY   unsigned 360  deg
program    MODREG single   B14
'''
COLUMNS = {'altitude': ('ZN', 2, Fraction(1, 2 ** 14)), 'rate': ('VZ', 2, Fraction(1, 2 ** 20)), 'tilt': ('CDUY', 1, Fraction(360, 2 ** 15)), 'program': ('MODREG', 1, Fraction(1))}
"""The place, the words, and what a one in the last place is worth."""


def dropped(page, name, text):
    page.value(f"openFiles([new File([{json.dumps(text)}], {json.dumps(name)})]).then(() => 0)")


def shortest(value, step):
    """Returns the decimal with the fewest digits behind the point that is nearer to a value than half a step."""
    for places in range(100):
        near = [Fraction(round_(value * 10 ** places), 10 ** places) for round_ in (math.floor, math.ceil)]
        found = [each for each in near if abs(each - value) < step / 2]
        if found:
            best = min(found, key=lambda each: (abs(each - value), abs(each)))
            digits = f'{abs(int(best * 10 ** places)):0{places + 1}d}'
            sign = '-' if best < 0 else ''
            return f'{sign}{digits[:len(digits) - places]}{"." if places else ""}{digits[len(digits) - places:] if places else ""}'
    raise ValueError(value)


def values_at(console, cycle):
    """Returns what the quantities are at a cycle, as agc-console has their words."""
    console.go_to(cycle)
    found = {}
    for name, (place, count, step) in COLUMNS.items():
        words = console.cells(place, count)
        own = [word - 0o77777 if word > 0o37777 and name != 'tilt' else word for word in words]
        found[name] = shortest(sum(each * 2 ** (14 * (count - 1 - i)) for i, each in enumerate(own)) * step, step)
    return found


def try_landing():
    """The curves of a landing have the words of their cycles; the file is dropped while it flies, and the flight goes on."""
    page = WritingPage(LocalSite(example('verbs', 'rope')))
    page.value("openExample('descent').then(() => 0)")
    page.see("find('rope').textContent", 'Landing on the Moon')
    page.value("ask('speed', { times: 10 }).then(() => ask('play')).then(() => 0)")
    for name in ('VERB', '3', '7', 'ENTR', '6', '4', 'ENTR'):
        page.value(f"ask('key', {{ name: '{name}' }}).then(() => 0)")
    judge('it asks for PRO', 'on', page.see('shown.panel.FLASH', 'on'))
    judge('in words', True, wait(lambda: page.value(TEXT).startswith('V06 N61: decimal: time to go '), 30))
    before = page.value('now.cycle')
    dropped(page, 'quantities', QUANTITIES)
    judge('the flight goes on', True, wait(lambda: page.value('now.cycle') > before))
    judge('the tab is there', ['Plot', 'instrument-0'], page.value("[find('plot-tab').textContent, inspector.tab]"))
    page.value("find('plot-tab').click(); ask('pro', { down: true }).then(() => ask('pro', { down: false })).then(() => 0)")
    judge('samples come', True, wait(lambda: page.value('plot.samples.length') >= 20))
    page.pause()
    judge('the last one is where time stands', True, wait(lambda: page.value('plot.samples.at(-1).cycle === now.cycle')))
    try_rows(page)
    try_restart(page)
    page.close()


def try_rows(page):
    """Rows of the CSV have the values of the script's run."""
    lines = page.value('plotAsCsv()').splitlines()
    judge('the header', 'cycle,seconds,altitude,rate,tilt,program', lines[0])
    rows = [line.split(',') for line in lines[1:]]
    path = os.path.join(page.folder(), 'flown')
    with open(path, 'w', encoding='ascii') as file:
        file.write(page.value('session.script()'))
    with Console(example('descent', 'rope'), path, names=example('descent', 'names'), program=[CONSOLE]) as console:
        for row in rows[::max(1, len(rows) // 8)][:8]:
            cycle = int(row[0])
            values = values_at(console, cycle)
            judge(f'a row at cycle {cycle}', [shortest(Fraction(3 * cycle, 256000), Fraction(3, 256000)), *values.values()], row[1:])
    judge('it has flown', True, len({row[2] for row in rows}) > 5)


def try_restart(page):
    """A reload and a link keep the files; another session begins without its curves."""
    page.value('keepNow()')
    page.reload()
    rows = f'{quantities.ROWS}.map(([name]) => name)'
    judge('a reload keeps them', list(COLUMNS), page.see(rows, list(COLUMNS)))
    link = page.value('linkOf(session.files, session.kept())')
    page.value("openExample('verbs').then(() => 0)")
    page.see("find('rope').textContent", 'Verbs and nouns')
    judge('another session has none', ([], 0, None), (page.see(rows, []), page.value('plot.samples.length'), page.value("find('plot-tab')")))
    page.window.load('about:blank')
    page.window.load(link)
    wait(lambda: page.text('state') not in (None, ''), 300)
    judge('a link has them', list(COLUMNS), page.see(rows, list(COLUMNS)))


def try_dropped_files():
    """Files are taken by what is in them; faults are said, and a file replaces the one before."""
    page = LocalPage(LocalSite(example('keys', 'rope'), '--names', example('console', 'names', 'names')))
    quantities.try_values(page.value)
    page.value("showTab('watch')")
    dropped(page, 'some.txt', 'key COUNT single B14\nbad COUNZ single B14\n')
    judge('by what is in it', [['key', '0', '']], page.see(quantities.ROWS, [['key', '0', '']]))
    judge('the tab stays', ('watch', 'Plot'), (page.value('inspector.tab'), page.value("find('plot-tab').textContent")))
    said = 'The file of quantities, line 2: COUNZ: unknown name; did you mean COUNT?'
    judge('its fault', said, page.see(quantities.FAULT, said))
    dropped(page, 'own.quantities', 'two COUNT double B28 keys\n')
    judge('another file', [['two', '0', 'keys']], page.see(quantities.ROWS, [['two', '0', 'keys']]))
    judge('without a fault', '', page.see(quantities.FAULT, ''))
    dropped(page, 'other.txt', 'verb 35 lamp test\n')
    judge('nouns by what is in it', 'verb 35 lamp test\n', page.value('shown.about.nouns'))
    judge('the quantities stay', [['two', '0', 'keys']], page.value(quantities.ROWS))
    page.type('Space', '7')
    judge('a value follows', True, wait(lambda: page.value(f'{quantities.ROWS}[0][1]') != '0'))
    page.close()


def try_lamp():
    """The plot has a line at the cycle at which the PROG lamp went on, as agc's log has it. There is no tab Timeline: agc-study makes that."""
    rope, script, lit = quantities.lamp_rope()
    page = LocalPage(LocalSite(rope, script))
    dropped(page, 'quantities', 'count 0100 single B14\n')
    page.value("showTab('plot')")
    page.value("ask('speed', { times: 10 }).then(() => ask('play')).then(() => 0)")
    judge('time runs', True, wait(lambda: page.value('now.cycle') > 700000))
    page.pause()
    judge('the alarm', [lit], page.see('plot.alarms.map(({ cycle }) => cycle)', [lit]))
    words = f'Pink: the PROG lamp goes on at {lit * 3 / 256000:.3f} s.'
    judge('in words', words, page.see("find('plot-alarms').textContent", words))
    judge('no timeline', [None, False], page.value("[find('timeline-tab'), find('timeline').checkVisibility()]"))
    page.close()


TRIES = (try_landing, try_dropped_files, try_lamp)
