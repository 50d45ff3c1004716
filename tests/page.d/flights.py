"""The instruments of agc.html: from the same seed and keys they give the same script, byte for byte, as those in Python."""
import importlib.util
import os
import sys

from agc import Console
from agc_web.ticks import Ticker
from judge import CONSOLE, TOP, judge
from local import LocalPage, LocalSite, web
from site_of import example, wait
import whys

KEYS = 'VERB 3 7 ENTR 6 4 ENTR'.split()
SCRIPT = ''.join([f'{50000 + 20000 * n} key {key}\n' for n, key in enumerate(KEYS)] + ['230000 pro down\n', '250000 pro up\n'])
SEEDS = tuple(map(int, os.environ.get('SEEDS', '7').split()))
END = int(os.environ.get('END', 1_200_000))  # cycles of a flight that are compared
LONG = 2_600_000  # cycles after which states of past ticks have been filled again


def module_of(name):
    """Returns the module craft.py of an example."""
    folder = os.path.join(TOP, 'examples', name)
    sys.path.insert(0, folder)
    try:
        spec = importlib.util.spec_from_file_location(f'{name}_craft', os.path.join(folder, 'craft.py'))
        assert spec and spec.loader
        module = importlib.util.module_from_spec(spec)
        spec.loader.exec_module(module)
        return module
    finally:
        sys.path.remove(folder)


def flown(name, instrument, script, end):
    """Returns the script of a flight of an instrument in Python, up to a cycle, and the rows that it shows there."""
    path = os.path.join(LocalPage.folder(), 'flight')
    with open(path, 'w') as file:
        file.write(script)
    ticker = Ticker([instrument])
    with Console(example(name, 'rope'), path, program=[CONSOLE]) as console:
        while console.cycle < end:
            ticker.tick_due(console)
            console.go_to(min([end, *ticker.next_cycles()]))
        return console.script().splitlines(), instrument.view()['rows']


def flown_in_page(page, name, script, options, end):
    """Flies an example in the page to a cycle or beyond; returns its script up to there."""
    page.site.open(name, script=script, options=options)
    page.site.do('speed', times=1000)
    page.site.do('play')
    judge(f'{name} flies on', True, wait(lambda: page.site.state()['time']['cycle'] >= end, 300))
    page.site.do('pause')
    return [line for line in page.site.script().splitlines() if int(line.split(' ')[0]) < end]


def compare(page, what, name, instrument, script, options):
    """Compares a flight in Python with one in the page, up to the last event before the end."""
    wanted, _ = flown(name, instrument, script, END)
    found = flown_in_page(page, name, script, options, END)
    wanted = [line for line in wanted if int(line.split(' ')[0]) < END]
    judge(f'{what}: events', True, len(wanted) > 300)
    differs = next((pair for pair in zip(wanted, found) if pair[0] != pair[1]), None)
    judge(f'{what}: the first line that differs, and how many there are', (None, len(wanted)), (differs, len(found)))


def try_flights():
    """The landing from some seeds, and the lander."""
    page = LocalPage(LocalSite(example('verbs', 'rope')))
    craft = module_of('descent')
    for seed in SEEDS:
        compare(page, f'landing {seed}', 'descent', craft.Instrument(craft.Craft(seed=seed), seed), SCRIPT, {'seed': seed})
    craft = module_of('lander')
    compare(page, 'lander', 'lander', craft.Instrument(craft.Craft()), '', None)
    try_past(page)
    try_release(page)
    try_buttons(page)
    page.close()


def try_past(page):
    """The craft goes back to each of its past states: from there the same events come once more."""
    wanted = flown_in_page(page, 'descent', SCRIPT, {'seed': SEEDS[0]}, LONG)
    rows, end = page.site.state()['instruments'][0]['rows'], page.cycle()
    for back in (50_000, 500_000, 800_000, 1_500_000, 2_500_000):
        judge(f'back by {back}', 200, page.site.do('go', cycle=end - back, sure=True))
        judge(f'on by {back}', 200, page.site.do('go', cycle=end, sure=True))
        found = [line for line in page.site.script().splitlines() if int(line.split(' ')[0]) < LONG]
        differs = next((pair for pair in zip(wanted, found) if pair[0] != pair[1]), None)
        judge(f'the first line that differs, how many there are, and the rows, by {back}', (None, len(wanted), rows), (differs, len(found), page.site.state()['instruments'][0]['rows']))


def try_release(page):
    """Going back asks before it drops a press of PRO, but not if PRO has only come up since: a slow page holds it long."""
    page.site.open('verbs')
    page.site.do('play')
    for down in (True, False):
        page.site.do('pro', down=down)
        page.run_on(20_000)
    page.pause()
    script = page.site.script()
    pressed, released = (int(line.split(' ')[0]) for line in script.splitlines())
    judge('back to before PRO came up', 200, page.site.do('go', cycle=released - 100))
    judge('it comes up there', f'{pressed} pro down\n{released - 100} pro up\n', page.site.script())
    judge('undo', (200, script), (page.site.do('undo'), page.site.script()))
    judge('back to before it went down', 409, page.site.do('go', cycle=0))


def try_buttons(page):
    """A button of an instrument is held; going back and undoing it brings back what it did, and so does a reload."""
    page.site.open('lander')
    judge('its tab is chosen', 'Craft', page.see("document.querySelector('#tabs [aria-selected=true]').textContent", 'Craft'))
    judge('and its panel alone is shown', ['instrument-0-panel'], page.value("[...document.querySelectorAll('.panel')].filter((each) => !each.hidden).map((each) => each.id)"))
    page.site.do('play')
    page.window.key('ArrowRight', 'keyDown')
    judge('the button turns what is wanted', True, wait(lambda: page.site.script().count('poke 0 100 ') > 7))
    page.window.key('ArrowRight', 'keyUp')
    page.run_on(3000)
    page.pause()
    script, rows = page.site.script(), page.site.state()['instruments'][0]['rows']
    end = page.cycle()
    judge('back', 200, page.site.do('go', cycle=end - 50000, sure=True))
    judge('undo', 200, page.site.do('undo'))
    judge('undo brings it back', (script, rows), (page.site.script(), page.site.state()['instruments'][0]['rows']))
    page.reload()
    judge('a reload keeps the flight', (script, rows, end), (page.site.script(), page.site.state()['instruments'][0]['rows'], page.cycle()))


def try_why():
    """At an alarm the page says why, as tests/web wants it of agc-web's page."""
    page = LocalPage(LocalSite(example('verbs', 'rope')))
    page.site.open('descent', script=whys.full_script(), options={'seed': 1})
    whys.explain(page.site, page.window)
    page.close()


def try_full():
    """A script that is full stops time by its sentence."""
    page = LocalPage(LocalSite(example('verbs', 'rope')))
    page.site.open('descent', script=web.FULL)
    page.site.do('play')
    judge('a full script', web.FULL_SAYS, page.see("document.getElementById('trouble').textContent", web.FULL_SAYS))
    judge('time stops', 'paused', page.state('paused'))
    page.close()


TRIES = (try_flights, try_why, try_full)
