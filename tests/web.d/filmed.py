"""The film of a session with instruments: beside the DSKY it shows what they showed then."""
import importlib.util
import os
import subprocess
import sys

from judge import CONSOLE, STUDY, judge, near, scratch_folder
from site_of import Site, example, keys_in, wait
from views import FLIGHT, MARKUP, SIZES, begin_flight, see
from window import Window

FOLDER = scratch_folder()
ALTITUDE = "parseFloat(document.querySelector('.views [data-name=Altitude] dd')?.textContent)"
STYLES = "[...new Set([...document.querySelector('.views .drawing')?.children ?? []].map((each) => each.classList[0]))].sort().join(' ')"


def opened(text):
    """Opens a film from a file; its page may request nothing."""
    path, home = os.path.join(FOLDER, 'film.html'), os.path.join(FOLDER, f'home{len(os.listdir(FOLDER))}')
    with open(path, 'w', encoding='utf-8') as file:
        file.write(text)
    os.mkdir(home)
    window = Window(os.environ['BROWSER'], home, *SIZES[0])
    window.open(path)
    return window


def frames_in(text):
    """Returns the frames of the DSKY in a film."""
    path = os.path.join(os.path.dirname(os.path.abspath(__file__)), '..', 'film.d', 'tries.py')
    spec = importlib.util.spec_from_file_location('film_tries', path)
    module = importlib.util.module_from_spec(spec)
    spec.loader.exec_module(module)
    return module.frames_in(text, 'left')


def try_landing_film():
    """The film of a landing: at each moment the craft is where it was seen in flight, and at the end it says how it landed."""
    site = Site([sys.executable, '-B', example('descent', 'craft.py'), '--web', '--port', '0', *FLIGHT])
    window = Window(os.environ['BROWSER'], FOLDER, *SIZES[0])
    window.load(site.url)
    begin_flight(site, window)
    seen = []

    def landed():
        state = site.state()
        view = state['instruments'][0]
        seen.append((state['time']['cycle'], float(dict(view['rows'])['Altitude'].split(' ')[0])))
        return view['outcome']['text']

    judge('it lands', True, wait(landed, 600))
    site.do('pause')
    window.close()
    state = site.state()
    text = site.request('GET', '/film')[2]
    path = os.path.join(FOLDER, 'script')
    with open(path, 'w') as file:
        file.write(site.script())
    words = [STUDY, 'film', example('descent', 'rope'), path, '--limit', str(state['time']['limit'])]
    plain = subprocess.run(words, capture_output=True, text=True, check=True).stdout
    judge('the DSKY is as agc-study films it', frames_in(plain), frames_in(text))
    site.end()
    look_at_film(text, seen, state)


def look_at_film(text, seen, state):
    """Looks at the film of a landing, of which these altitudes were seen, and this state at its end."""
    window = opened(text)
    judge('before the flight', 'craft ground mark scale site', see(window, STYLES, 'craft ground mark scale site'))
    judge('there is enough to compare', True, len(seen) > 10)
    for cycle, altitude in seen[::max(1, len(seen) // 8)]:
        window.value(f"location.hash = '#cycle={cycle}'; undefined")
        wait(lambda: abs(window.value(ALTITUDE) - altitude) < 2)
        near(f'the altitude at cycle {cycle}', altitude, window.value(ALTITUDE), 2)  # a tenth of a second, at up to 10 m/s
    flying = 'ahead behind craft flame ground mark scale site'
    window.value(f"location.hash = '#cycle={seen[len(seen) // 2][0]}'; undefined")
    judge('in flight', flying, see(window, STYLES.replace('].map', "].filter((each) => !each.classList.contains('jet')).map"), flying))
    for width, height in SIZES:
        window.resize(width, height)
        judge(f'{width}: nothing is wider than the page', True, see(window, 'document.documentElement.scrollWidth <= document.documentElement.clientWidth', True))
        judge(f'{width}: the view is seen', True, see(window, "document.querySelector('.views .drawing').getBoundingClientRect().width >= 300", True))
        if os.environ.get('PICTURES'):
            window.picture(os.path.join(os.environ['PICTURES'], f'web-film-{width}.png'))
    window.value("document.getElementById('end').click(); undefined")
    outcome = state['instruments'][0]['outcome']['text']
    judge('how it ended', outcome, see(window, "document.querySelector('.views .outcome').textContent", outcome))
    rows = [[name, str(value)] for name, value in state['instruments'][0]['rows']]
    found = "[...document.querySelectorAll('.views .rows div')].map((row) => [...row.children].map((each) => each.textContent))"
    judge('the rows at the end', rows, see(window, found, rows))
    judge('errors of the film', [], window.errors())
    window.close()


def try_hostile_film():
    """Markup in a view stays a text in the film, too; an instrument that does not go back in time is not in it."""
    program = f"""if True:
        import agc, agc_web

        class Shown:
            def tick(self, console, cycle):
                pass
            def view(self):
                return {{'title': {MARKUP!r}, 'outcome': {{'text': {MARKUP!r}}}, 'rows': [['Row', '</script>' + {MARKUP!r}], ['<!--', 1]],
                         'drawing': {{'frame': [0, 0, 9, 9], 'shapes': [7, {{'shape': 'text', 'at': [1, 1], 'text': {MARKUP!r}}}]}}}}

        class Going(Shown):
            def save(self):
                return 0
            def load(self, state):
                pass

        with agc.Console({example('keys', 'rope')!r}, program={CONSOLE!r}, detached=True) as console:
            agc_web.serve(console, [Shown(), Going()], port=0)"""
    site = Site([sys.executable, '-c', program])
    site.do('key', name='4')
    judge('a key', ['key 4'], keys_in(site.script()))
    window = opened(site.request('GET', '/film')[2])
    judge('one of two instruments', 1, see(window, "document.querySelectorAll('.views .instrument').length", 1))
    judge('its texts', [MARKUP, MARKUP, f'Row</script>{MARKUP}'], window.value("['h2', '.outcome', '.rows div'].map((each) => document.querySelector(`.views ${each}`).textContent)"))
    judge('no script ran', 0, window.value('window.ran ?? 0'))
    judge('errors of the film', [], window.errors())
    window.close()
    site.end()


TRIES = (try_landing_film, try_hostile_film)
