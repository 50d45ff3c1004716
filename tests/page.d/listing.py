"""The tab Source of agc.html: the lines of an example and of a program that is written there, lit as it runs, with breakpoints; and
listings that are dropped.

What is wanted is what agc-study traces of the script, looked up in the listing that agc-study writes, by tests/web's own reading.
"""
import json
import os
import subprocess

import listed
from judge import STUDY, judge
from local import LocalPage, LocalSite, web
from site_of import example, wait
from source import BLINK, WritingPage, write

OWN = "[...document.querySelectorAll('#source-own .here')].map((mark) => Number(mark.dataset.line))"
STOPS = "[...document.querySelectorAll('#source-own .stops')].map((mark) => Number(mark.dataset.line))"


def woven(text, name):
    """Returns a folder with the rope of a text in a file of this name, and its listing beside it."""
    folder = os.path.join(LocalPage.folder(), f'woven{len(os.listdir(LocalPage.folder()))}')
    os.mkdir(folder)
    with open(os.path.join(folder, name), 'w', encoding='utf-8') as file:
        file.write(text)
    with open(os.path.join(folder, 'rope'), 'wb') as rope:
        subprocess.run([STUDY, 'weave', name, '--write-listing', 'listing'], stdout=rope, cwd=folder, check=True)
    return folder


def text_of(path):
    with open(path, encoding='utf-8') as file:
        return file.read()


def step(page, count, lit):
    """Steps; returns at each cycle which lines are lit, and what is said of the place."""
    found = {}
    for _ in range(count):
        before = page.value('now.cycle + now.events')
        page.value("ask('step').then(() => 0)")
        wait(lambda: page.value('now.cycle + now.events') != before)
        cycle, lines, where = page.value(f'[now.cycle, {lit}, {listed.WHERE}]')
        found[cycle] = (lines, where)
    return found


def try_example_lines():
    """An example whose source is in the page is followed line by line, and can be changed."""
    page = WritingPage(LocalSite(example('verbs', 'rope')))
    folder = woven(text_of(example('verbs', 'words')), 'Verbs-and-nouns.agc')
    page.value("showTab('source')")
    judge('its lines are there', True, wait(lambda: page.value(listed.ROWS) > 0))
    page.value("ask('key', { name: 'VERB' }).then(() => 0)")
    found = step(page, 40, listed.LIT)
    listed.compare('verbs: lit, step by step', folder, page.site.script(), found)
    lines = listed.read(folder)[0]
    keyin = next(i for i, (_, _, text) in enumerate(lines) if text.startswith('KEYIN'))
    listed.click_line(page.window, keyin)
    judge('a breakpoint', ['02,4100'], page.see('shown.breakpoints', ['02,4100']))
    page.value("ask('play').then(() => ask('key', { name: '3' })).then(() => 0)")
    judge('it is hit', ('02,4100', [keyin]), (page.see('now.hit', '02,4100'), page.see(listed.LIT, [keyin])))
    cycle = page.value('now.cycle')
    judge('where the trace has it', '02,4100', listed.physical(listed.traced(folder, page.site.script(), [cycle])[cycle]))
    page.click('#source-change')
    judge('the source is in the editor', text_of(example('verbs', 'words')), page.see("find('source').value", text_of(example('verbs', 'words'))))
    judge('with the same line lit', [keyin], page.see(OWN, [keyin]))
    judge('and the same breakpoint', [keyin], page.value(STOPS))
    page.close()


def try_ignored(page, folder, place):
    """A breakpoint passes over two hits, as the trace has them, and stops at the third."""
    cycle = page.value('now.cycle')
    traced = web.causes.traced(os.path.join(folder, 'rope'), page.site.script(), cycle + 2_000_000, '--at', place, '--from', str(cycle + 1))
    third = [int(line.split()[0]) for line in traced if ' - ' not in line][2]
    page.value(f"ask('ignore', {{ place: '{place}', hits: 2 }}).then(() => 0)")
    judge('two hits are to be passed over', {place: 2}, page.see('shown.ignored', {place: 2}))
    page.value("ask('play').then(() => 0)")
    judge('the third stops time', [False, third], page.see('[now.playing, now.cycle]', [False, third]))
    judge('none is left', {}, page.value('shown.ignored'))


def try_own_lines():
    """A program that is written in the page is followed in the editor; a click at a number is a breakpoint; a change ends that."""
    page = WritingPage(LocalSite(example('verbs', 'rope')))
    folder = woven(BLINK, 'First-program.agc')
    lines = listed.read(folder)[0]
    page.click('#write-button')
    page.see("find('rope').textContent", 'First program')
    write(page, BLINK)
    page.click('#weave')
    page.state('running')
    page.pause()
    listed.compare('the editor: lit, step by step', folder, page.site.script(), step(page, 25, OWN))
    line = next(i for i, (_, _, text) in enumerate(lines) if text.startswith('PAUSE'))
    page.window.click(page.value("find('source-lines').getBoundingClientRect().left + 20"), height_of(page, line))
    place = next(place for place, of in listed.read(folder)[1].items() if of == line)
    judge('a breakpoint', ([place], [line]), (page.see('shown.breakpoints', [place]), page.see(STOPS, [line])))
    page.value("ask('play').then(() => 0)")
    judge('it is hit', (place, [line]), (page.see('now.hit', place), page.see(OWN, [line])))
    cycle = page.value('now.cycle')
    judge('where the trace has it', place, listed.physical(listed.traced(folder, page.site.script(), [cycle])[cycle]))
    try_ignored(page, folder, place)
    try_name(page, lines)
    if web.PICTURES:
        page.window.picture(os.path.join(web.PICTURES, 'page-source.png'))
    page.reload()
    page.value("showTab('source')")
    judge('after a reload too', [line], page.see(OWN, [line]))
    write(page, BLINK + '# more\n')
    judge('a change ends that', [], page.see(OWN, []))
    page.close()


def try_woven_again():
    """A text that is woven again keeps the breakpoints whose lines or names it still has, and the page says which have gone."""
    page = WritingPage(LocalSite(example('verbs', 'rope')))
    page.click('#write-button')
    page.see("find('rope').textContent", 'First program')
    write(page, BLINK)
    page.click('#weave')
    page.state('running')
    page.pause()
    lines, places = listed.read(woven(BLINK, 'First-program.agc'))
    calls = [i for i, (_, _, text) in enumerate(lines) if text.split() == ['TC', 'PAUSE']]
    given = [next(place for place, line in places.items() if line == index) for index in (calls[1], index_of(lines, 'CA      OFF'), index_of(lines, 'PAUSE'))]
    texts = [*given, 'ROUND if COUNT < 3', 'cell COUNT', 'write 11', 'LONG']
    judge('they are set', [200] * 7, [page.site.do('break', place=text) for text in texts])
    changed = BLINK.replace('        CA      OFF\n', '        CA      ZERO\n').replace('OFF     OCT', 'ZERO    OCT').replace('LONG', 'TIMES').replace('BEGIN   CA', '        NOOP\nBEGIN   CA')
    changed = changed.replace('PAUSE   CA      TIMES', 'PAUSE   CA      TIMES   # a pause')
    write(page, changed)
    page.click('#weave')
    said = f'Breakpoints that are removed, because their lines or names are gone: order at {given[1]} (CA OFF); order at LONG.'
    judge('the page says which have gone', said, page.see("find('notice-text').textContent", said))
    page.site.do('pause')
    lines, places = listed.read(woven(changed, 'First-program.agc'))
    calls = [i for i, (_, _, text) in enumerate(lines) if text.split() == ['TC', 'PAUSE']]
    wanted = [next(place for place, line in places.items() if line == index) for index in (calls[1], index_of(lines, 'PAUSE'))]
    judge('a line is one word further on', [int(place[3:], 8) + 1 for place in (given[0], given[2])], [int(place[3:], 8) for place in wanted])
    judge('the others stay with their lines', [*wanted, *texts[3:6]], page.site.state()['breakpoints'])
    page.value("openSourceExample('stopwatch').then(() => 0)")
    judge('another example has none', [], page.site.state()['breakpoints'])
    page.close()


def index_of(lines, code):
    """Returns the number of the line that begins with this code."""
    return next(i for i, (_, _, text) in enumerate(lines) if text.strip().startswith(code))


def height_of(page, line):
    """Scrolls the editor so that a line is seen, and returns how far down in the window it is."""
    page.value(f"find('source').scrollTop = {18 * max(0, line - 3)}; undefined")
    scrolled = page.value("find('source').scrollTop")
    page.see("find('source-lines').scrollTop", scrolled)
    return page.value("find('source').getBoundingClientRect().top") + 4 + 18 * (line + 0.5) - scrolled


def try_name(page, lines):
    """Pointing at a name in the editor shows its cell."""
    line = next(i for i, (_, _, text) in enumerate(lines) if text.startswith('ROUND'))
    column = lines[line][2].index('COUNT')
    left, width = page.value("[find('source').getBoundingClientRect().left, widthOfSign(find('source'))]")
    page.window.mouse('mouseMoved', left + 6 + width * (column + 2.5), height_of(page, line))
    word = page.value("session.look({ cells: ['0100'] }).then(({ cells }) => cells['0100'])")
    judge('a cell', f'COUNT is E0,0100: {word:05o}, {word}', page.see(listed.NAMES, f'COUNT is E0,0100: {word:05o}, {word}'))


def dropped(page, name, text):
    page.value(f"openFiles([new File([{json.dumps(text)}], {json.dumps(name)})]).then(() => 0)")


def try_dropped():
    """A listing that is opened beside a rope is compared with it; its names are known; one that is wrong or no listing is refused."""
    folder = woven(text_of(example('keys', 'words')), 'keys.agc')
    page = LocalPage(LocalSite(os.path.join(folder, 'rope')))
    listing = text_of(os.path.join(folder, 'listing'))
    dropped(page, 'keys.listing', listing)
    page.value("showTab('source')")
    judge('lines are shown', True, wait(lambda: page.value(listed.ROWS) > 0))
    listed.compare('keys: lit, step by step', folder, page.site.script(), step(page, 5, listed.LIT))
    first = next(name for name in (row.split()[2] for row in listing.split('\n# names\n')[1].splitlines() if row.startswith('# 02,')))
    judge('its names are known', 200, page.site.do('break', place=first))
    page.reload()
    page.value("showTab('source')")
    judge('a reload keeps it', True, wait(lambda: page.value(listed.ROWS) > 0))
    place, word = next(row.split()[:2] for row in listing.splitlines() if not row.startswith((' ', '#')))
    for what, text, why in (
        ('another word', listing.replace(f'{place} {word}', f'{place} 77776', 1), f'it is not of this rope: at {place} it has 77776, and the rope {word}.'),
        ('markup', listed.MARKUP, 'its line 1 is not as weave --write-listing writes it.'),
        ('a NUL', listing + '\0', 'it has a NUL, so it is no text.'),
        ('a million lines', '\n' * 999_999, 'it has 1,000,000 lines, at most 200,000.'),
    ):
        dropped(page, 'wrong.listing', text)
        page.value("showTab('source')")
        judge(what, f'The listing is refused: {why}', page.see(listed.FAULT, f'The listing is refused: {why}'))
        judge(f'{what}: nothing is shown', [True, 0], page.value("[find('listing').hidden, window.ran ?? 0]"))
    page.close()


TRIES = (try_example_lines, try_own_lines, try_woven_again, try_dropped)
