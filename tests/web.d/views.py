"""What instruments draw: shapes at their places, drawings that are not as they are to be, and the landing of examples/descent.

The places of shapes are worked out by hand: a frame of 100 m by 50 m is as wide as a drawing of twice its height, so that a
metre is a hundredth of the drawing's width.
"""
import importlib.util
import json
import os
import sys

from agc import Console
from agc_web.session import Session
from judge import CONSOLE, judge, scratch_folder
from site_of import Site, example, wait
from window import Window

FOLDER = scratch_folder()
SIZES = ((1280, 800), (1024, 768), (390, 844))
SHOWN = "document.querySelector('.drawing')"

GOOD = [
    {'shape': 'polygon', 'style': 'ground', 'points': [[0, 0], [100, 0], [100, 5], [0, 5]]},
    {'shape': 'line', 'style': 'scale', 'points': [[10, 5], [10, 45]]},
    {'shape': 'path', 'style': 'behind', 'points': [[10, 45], [50, 25], [90, 5]]},
    {'shape': 'circle', 'style': 'craft', 'at': [50, 25], 'radius': 4},
    {'shape': 'text', 'style': 'site', 'at': [90, 30], 'text': 'Site', 'align': 'middle'},
]
"""A shape of each kind, in a frame of 100 m by 50 m."""

PLACES = [('polygon', [5, 48]), ('polyline', [10, 20]), ('polyline', [30, 15]), ('circle', [50, 25])]
"""Which element is hit at which place, in hundredths of the drawing's width from the left and from the top."""

MARKUP = '<img src=x onerror="window.ran = 1"><script>window.ran = 1</script>'
BAD: list = [
    None, 7, 'line', [], {}, {'shape': 'blob'}, {'shape': 'constructor'}, {'shape': '__proto__'}, {'shape': ['line']},
    {'shape': 'line'}, {'shape': 'line', 'points': 'x'}, {'shape': 'line', 'points': [[0, 0]]}, {'shape': 'line', 'points': [[0, 0], [1, 1], [2, 2]]},
    {'shape': 'path', 'points': [[0, 0], [1]]}, {'shape': 'path', 'points': [[0, 0], ['1', '2']]}, {'shape': 'path', 'points': [[0, 0], None]},
    {'shape': 'path', 'points': [[0, 0], [1e300, 1]]}, {'shape': 'path', 'points': [[0, 0]] * 1001}, {'shape': 'polygon', 'points': [[0, 0], [1, 1]]},
    {'shape': 'circle', 'at': [0, 0], 'radius': -1}, {'shape': 'circle', 'at': [0, 0]}, {'shape': 'circle', 'at': 3, 'radius': 1},
    {'shape': 'text', 'at': [0, 0], 'text': {}}, {'shape': 'text', 'at': [0, 0], 'text': 'x' * 81}, {'shape': 'text', 'text': 'x'},
]
"""Shapes that are left out."""

DRAWINGS = [
    7, 'drawing', [], {'frame': [0, 0, 100, 50]}, {'shapes': GOOD}, {'frame': [0, 0, 0, 50], 'shapes': GOOD}, {'frame': [100, 0, 0, 50], 'shapes': GOOD},
    {'frame': [0, 0, 1e300, 50], 'shapes': GOOD}, {'frame': [0, 0, 1e-300, 1e-300], 'shapes': GOOD}, {'frame': '0123', 'shapes': GOOD},
    {'frame': [0, 0, 100, 50], 'shapes': {'0': GOOD[0]}}, {'frame': [0, 0, 100, 50], 'shapes': 'line', 'label': 7},
]
"""Drawings of which nothing is drawn."""


def served(views):
    """Serves the page of an instrument whose tick number N shows view N; the last one stays."""
    path = os.path.join(FOLDER, f'views{len(os.listdir(FOLDER))}.json')
    with open(path, 'w', encoding='utf-8') as file:
        json.dump(views, file)
    program = f"""if True:
        import json, agc, agc_web

        class Shown:
            ticks = 0
            views = json.load(open({path!r}, encoding='utf-8'))
            def tick(self, console, cycle):
                self.ticks += 1
            def control(self, name, down):
                self.ticks += down
            def view(self):
                return self.views[min(self.ticks, len(self.views) - 1)]

        with agc.Console({example('keys', 'rope')!r}, program={CONSOLE!r}, detached=True) as console:
            agc_web.serve(console, [Shown()], port=0)"""
    return Site([sys.executable, '-c', program])


def opened(site, size=SIZES[0]):
    """Opens the page of a site in a browser."""
    home = os.path.join(FOLDER, f'home{len(os.listdir(FOLDER))}')
    os.mkdir(home)
    window = Window(os.environ['BROWSER'], home, *size)
    window.load(site.url)
    return window


def see(window, script, wanted):
    """Waits until a script gives this; returns what it gave last."""
    wait(lambda: window.value(script) == wanted)
    return window.value(script)


def next_view(site):
    """Has the instrument show its next view."""
    judge('the button for the next view', 200, site.do('control', instrument=0, name='next', down=True, window='w'))


COUNT = f"{SHOWN}?.children.length ?? 0"
SCROLL = f"{SHOWN}.scrollIntoView({{ block: 'center' }}); undefined"
AT = """(([x, y]) => {
    const box = document.querySelector('.drawing').getBoundingClientRect();
    const unit = box.width / 100, top = box.bottom - 50 * unit;
    return document.elementFromPoint(box.left + x * unit, top + y * unit).tagName;
})"""


def try_shapes():
    """Each kind of shape stands where its metres say, at each width, in the colour of its style; its label is read aloud."""
    drawing = {'frame': [0, 0, 100, 50], 'label': 'A test', 'shapes': GOOD}
    site = served([{'title': 'Shapes', 'drawing': drawing, 'outcome': {'text': 'Done: 1 m', 'good': True}, 'rows': [['Row', 1]]}])
    window = opened(site)
    for width, height in SIZES:
        window.resize(width, height)
        see(window, COUNT, len(GOOD))
        window.value(SCROLL)
        for kind, place in PLACES:
            judge(f'{width}: what stands at {place}', kind, see(window, f'{AT}({json.dumps(place)})', kind))
        judge(f'{width}: nothing is wider than the page', True, window.value('document.documentElement.scrollWidth <= document.documentElement.clientWidth'))
        inside = f"{SHOWN}.getBoundingClientRect().width >= 300 && {SHOWN}.getBoundingClientRect().right <= innerWidth"
        judge(f'{width}: the drawing is large and within the page', True, window.value(inside))
        size = f"parseFloat(getComputedStyle({SHOWN}.querySelector('text')).fontSize) >= 12"
        judge(f'{width}: its text can be read', True, window.value(size))
    colours = window.value(f"[...{SHOWN}.children].map((each) => getComputedStyle(each).stroke + getComputedStyle(each).fill)")
    judge('each style has its colour', len(GOOD), len(set(colours)))
    judge('the text', 'Site', window.value(f"{SHOWN}.querySelector('text').textContent"))
    judge('the outcome', 'Done: 1 m', window.value("document.querySelector('.outcome.good').textContent"))
    judge('the label', ['A test'], images(window))
    judge('errors of the page', [], window.errors())
    window.close()
    site.end()


def images(window):
    """Returns the names of the drawings that a screen reader finds."""
    window.ask('Accessibility.enable')
    nodes = window.ask('Accessibility.getFullAXTree')['nodes']
    return [node.get('name', {}).get('value', '') for node in nodes if not node.get('ignored') and node['role']['value'] in ('img', 'image')]


def try_bad_drawings():
    """What is no drawing or no shape is left out, a text with markup stays a text, and the rest of the page works."""
    texts = [{'shape': 'text', 'at': [1, 1], 'text': MARKUP, 'style': 'x" onload="window.ran = 1'}]
    many = {'frame': [0, 0, 100, 50], 'shapes': [{'shape': 'circle', 'at': [1, 1], 'radius': 1}] * 900}
    mixed = {'frame': [0, 0, 100, 50], 'label': MARKUP, 'shapes': [*BAD, *texts, GOOD[0]]}
    views = [{'title': 'Bad', 'drawing': each, 'rows': [['Number', number]]} for number, each in enumerate([*DRAWINGS, many, mixed])]
    parts = ({'rows': 7}, {'rows': [7]}, {'controls': 7}, {'dial': {}}, {'outcome': MARKUP}, {'outcome': {'text': {}}})
    views += [{'title': f'Part {number}', **part} for number, part in enumerate(parts)]
    views.append({'title': MARKUP, 'outcome': {'text': MARKUP}, 'drawing': {**mixed, 'shapes': GOOD}, 'rows': [['Number', MARKUP]]})
    site = served(views)
    window = opened(site)
    number = "document.querySelector('[data-name=Number] dd')?.textContent"
    for at in range(len(DRAWINGS)):
        judge(f'drawing {at} is shown', str(at), see(window, number, str(at)))
        judge(f'drawing {at} is empty', 0, window.value(COUNT))
        next_view(site)
    judge('of too many shapes the first are drawn', 400, see(window, COUNT, 400))
    next_view(site)
    judge('shapes that are none are left out', 2, see(window, COUNT, 2))
    judge('markup is a text', MARKUP[:80], window.value(f"{SHOWN}.querySelector('text').textContent"))
    for at in range(len(parts)):
        next_view(site)
        judge(f'part {at} is shown', f'Part {at}', see(window, "document.getElementById('instrument-0-tab').textContent", f'Part {at}'))
    next_view(site)
    judge('the page works after views that are wrong', len(GOOD), see(window, COUNT, len(GOOD)))
    judge('markup in the outcome is a text', MARKUP, window.value("document.querySelector('.outcome').textContent"))
    judge('and in a row', MARKUP, see(window, number, MARKUP))
    judge('no row says that it failed', 0, window.value("document.querySelectorAll('[data-name=failed]').length"))
    site.do('step')
    judge('time passes', True, wait(lambda: window.value("document.getElementById('cycle').textContent") != 'cycle 0'))
    judge('no script ran', 0, window.value('window.ran ?? 0'))
    judge('nothing but the page was made', 0, window.value("document.querySelectorAll('.instrument img, .instrument script, [onload]').length"))
    judge('errors of the page', [], window.errors())
    window.close()
    site.end()


class Fixed:
    """An instrument that shows one view."""

    def __init__(self, view):
        self.shown = view

    def tick(self, console, cycle):
        pass

    def view(self):
        return self.shown


def try_bad_views():
    """A view that is not JSON, no dictionary or too long never reaches a browser: the panel says why, and the session lives."""
    points = [[0, number] for number in range(20000)]
    not_a_number = {'drawing': {'frame': [0, 0, float('nan'), 1], 'shapes': []}}
    for view, reason in ((not_a_number, 'ValueError'), ({'drawing': points}, 'ValueError'), (7, 'TypeError'), (None, 'TypeError'), ([], 'TypeError')):
        with Console(example('keys', 'rope'), program=[CONSOLE], detached=True) as console:
            session = Session(console, [Fixed(view)])
            row = json.loads(session.news.since(0, 0)[1])['instruments'][0]['rows'][0]
            judge(f'{str(view):.20}: the panel', ('failed', reason), (row[0], row[1].split('(')[0]))
            session.step()
            judge(f'{str(view):.20}: the session lives', True, session.is_alive)
            session.close()


def craft_module():
    """Returns examples/descent/craft.py as a module."""
    sys.path.append(example('descent'))
    spec = importlib.util.spec_from_file_location('descent_craft', example('descent', 'craft.py'))
    module = importlib.util.module_from_spec(spec)
    spec.loader.exec_module(module)
    return module


def try_outcomes():
    """How a flight ended, in words: touchdowns beside the limits of 1.5 m/s down, 0.6 m/s sideways and 3 degrees."""
    craft = craft_module()
    dry, wet = craft.DRY, craft.DRY + 300
    for touched, mass, wanted in (
        ((-0.95, 0.02, 0.1, 3.2), wet, ('Landed: 0.95 m/s, 3 m from the site', True)),
        ((-0.95, 0.02, 0.1, -3.2), dry, ('Landed: 0.95 m/s, 3 m from the site', True)),
        ((-3.25, 0.02, 0.1, 3.2), wet, ('Crashed: 3.25 m/s down, at most 1.5; 3 m from the site', False)),
        ((-1.0, -0.75, -4.5, 120), wet, ('Crashed: 0.75 m/s sideways, at most 0.6; 4.50 degrees of tilt, at most 3; 120 m from the site', False)),
        ((-20.5, 0.0, 0.0, 0.2), dry, ('Out of fuel: 20.50 m/s down, at most 1.5; 0 m from the site', False)),
        (None, wet, ('', False)),
        (None, dry, ('', False)),
    ):
        flown = craft.Craft()
        flown.touched, flown.mass = touched, mass
        found = craft.outcome(flown)
        judge(f'{touched}: the outcome', wanted, (found['text'], found['good']))
    flown = craft.Craft(height=18000.0, forward=1684.6, down=0.0)
    judge('before it flies', {'text': '', 'good': False}, craft.outcome(flown))
    # 1737.4 km and 18 are 1755.4; 1.62e-3 * 1737.4 squared is 4890.065; twice that by 1755.4 is 5.57145, less 1.6846 squared
    # 2.73358; 4890.065 by that is 1788.89 km, the mean of both ways to the middle
    flown.flying = True
    judge('an abort', {'text': 'Aborted: orbit of 85 by 18 km', 'good': False}, craft.outcome(flown))
    flown.engine = True
    judge('the engine is on', {'text': '', 'good': False}, craft.outcome(flown))
    flown.stage(1)
    flown.mass = flown.dry
    judge('the ascent stage is dry', {'text': 'Out of fuel', 'good': False}, craft.outcome(flown))
    flown = craft.Craft()
    flown.height, flown.up, flown.forward, flown.way, flown.tilt = -0.04, -0.004, -0.004, -0.4, -0.0001
    rows = dict(craft.Instrument(flown).view()['rows'])
    judge('no zero has a minus', ['0.0 m', '+0.00 m/s', '+0.00 m/s', '0 m', '+0.0°'], [rows[name] for name in ('Altitude', 'Speed up', 'Speed forward', 'To the site', 'Tilt')])
    for jets, sides in ((0, []), (1, [-1]), (2, [1]), (3, [-1, 1])):
        flown = craft.Craft()
        flown.jets, flown.tilt = jets, 0.0
        shapes = craft.Instrument(flown).view()['drawing']['shapes']
        burning = [shape['points'] for shape in shapes if shape['style'] == 'jet']
        judge(f'jets {jets}: drawn left or right of the craft', sides, [1 if points[0][0] > -flown.way else -1 for points in burning])


FLIGHT = ('--height', '100', '--way', '60', '--forward', '6', '--down', '3')


def begin_flight(site, window):
    """Types V37E64E, and presses PRO when the machine wants it."""
    site.do('speed', times=10)
    site.do('play')
    for key in 'VERB 3 7 ENTR 6 4 ENTR'.split():
        site.do('key', name=key)
    judge('NOUN 61 waits for consent', True, wait(lambda: window.value("document.getElementById('live-panel').textContent.includes('NOUN 61')"), 300))
    site.do('pro', down=True, window='w')
    site.do('pro', down=False, window='w')


def steady(window, script):
    """Waits until a script gives the same place twice, one after the other: the page may still move what is there. Returns it."""
    found = [None]

    def is_steady():
        found.append(window.value(script))
        return found[-1] is not None and found[-1] == found[-2]

    wait(is_steady)
    return found[-1]


def click(window, label, selector='.controls button'):
    """Clicks a button, of an instrument if no other is meant."""
    window.click(*steady(window, f"""(() => {{
        const button = [...document.querySelectorAll('{selector}')].find((each) => each.textContent === {json.dumps(label)});
        if (!button) return null;
        button.scrollIntoView({{ block: 'center' }});
        const box = button.getBoundingClientRect();
        return [(box.left + box.right) / 2, (box.top + box.bottom) / 2];
    }})()"""))


def row(name):
    """Returns the script that gives a row of an instrument."""
    return f"document.querySelector('[data-name=\"{name}\"] dd')?.textContent"


def look_at_cell(site, place):
    """Returns the word of a cell."""
    return int(site.said(f'cell {place}')[-5:], 8)


def try_landing():
    """A landing in the browser: craft, path, flame and scales, closer near the ground, and at the end how it ended."""
    site = Site([sys.executable, '-B', example('descent', 'craft.py'), '--web', '--port', '0', *FLIGHT])
    window = opened(site)
    styles = f"[...new Set([...{SHOWN}?.children ?? []].map((each) => each.classList[0]))].filter((each) => each !== 'jet').sort().join(' ')"
    judge('before the flight', 'craft ground mark scale site', see(window, styles, 'craft ground mark scale site'))
    begin_flight(site, window)
    see_flight(site, window)
    flying = 'ahead behind craft flame ground mark scale site'
    judge('in flight', flying, see(window, styles, flying))
    site.do('speed', times=1000)
    site.do('play')
    outcome = "document.querySelector('.outcome').textContent"
    wait(lambda: window.value(outcome), 600)
    judge('the end', True, window.value(outcome).startswith('Landed: ') and window.value(outcome).endswith(' m from the site'))
    highest = f"[...{SHOWN}.querySelectorAll('text.scale')].map((each) => each.textContent).filter((each) => / m$/.test(each)).pop()"
    judge('close to the ground', '20 m', see(window, highest, '20 m'))
    site.do('pause')
    see_landing(window)
    judge('errors of the page', [], window.errors())
    window.close()
    site.end()


def see_flight(site, window):
    """Stops at 30 m: the picture with which README.md begins."""
    altitude = lambda: float(dict(site.state()['instruments'][0]['rows'])['Altitude'].split(' ')[0])
    wait(lambda: altitude() < 31, 600)
    site.do('pause')
    while altitude() < 21:  # we looked too late
        site.do('go', cycle=site.state()['time']['cycle'] - 40000, sure=True)
    see(window, "document.getElementById('state').textContent", 'paused')
    seen = f"parseFloat({row('Altitude')})"
    judge('the altitude', True, wait(lambda: 20 < window.value(seen) < 32))
    if os.environ.get('PICTURES'):
        window.picture(os.path.join(os.environ['PICTURES'], 'web-flight.png'))


def see_landing(window):
    """Looks at the end of a landing at each width: what was drawn is within its box, and can be read."""
    beyond = f"""(() => {{
        const box = {SHOWN}.getBoundingClientRect();
        return [...{SHOWN}.querySelectorAll('text')].filter((each) => {{
            const at = each.getBoundingClientRect();
            return at.left < box.left || at.right > box.right || at.top < box.top || at.bottom > box.bottom;
        }}).map((each) => each.textContent);
    }})()"""
    dark = f"""(() => {{
        const light = (colour) => colour.match(/[\\d.]+/g).slice(0, 3).map((each) => each / 255)
            .map((each) => each <= 0.04045 ? each / 12.92 : ((each + 0.055) / 1.055) ** 2.4)
            .reduce((sum, each, i) => sum + each * [0.2126, 0.7152, 0.0722][i], 0);
        const contrast = (one, other) => (Math.max(one, other) + 0.05) / (Math.min(one, other) + 0.05);
        const [behind, ground] = [getComputedStyle({SHOWN}).backgroundColor, getComputedStyle({SHOWN}.querySelector('.ground')).fill].map(light);
        const texts = [...{SHOWN}.querySelectorAll('text')];
        const low = texts.filter((each) => [behind, ground].some((back) => contrast(light(getComputedStyle(each).fill), back) < 4.5));
        const end = getComputedStyle(document.querySelector('.outcome'));
        return [...low.map((each) => each.textContent), ...(contrast(light(end.color), light(end.backgroundColor)) < 4.5 ? ['outcome'] : [])];
    }})()"""
    for width, height in SIZES:
        window.resize(width, height)
        window.value(SCROLL)
        judge(f'{width}: each text is within the drawing', [], see(window, beyond, []))
        judge(f'{width}: contrast of 4.5 to 1', [], window.value(dark))
        judge(f'{width}: nothing is wider than the page', True, window.value('document.documentElement.scrollWidth <= document.documentElement.clientWidth'))
        if os.environ.get('PICTURES'):
            window.picture(os.path.join(os.environ['PICTURES'], 'web-landing.png' if width == 1024 else f'web-landing-{width}.png'))


TRIES = (try_shapes, try_bad_drawings, try_bad_views, try_outcomes, try_landing)
