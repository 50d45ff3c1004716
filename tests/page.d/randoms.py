"""Random sessions on agc.html, by the acts and comparisons that tests/web has for sessions in Python."""
import os
import random
import subprocess
from collections import namedtuple

from agc import Registers
from agc_web.journal import Event
from judge import TOP, judge
from local import LocalPage, LocalSite, web
from site_of import example

ACTS = 25  # of a session
# What the worker's script has in the tries, for what it has in the page.
TAPS = (
    ("await console.say('quiet')", "await console.say('quiet off')"),
    ("write: (file, part) => console.#write(file, part)", "write: (file, part) => { Seen.take(console, file, part); console.#write(file, part); }"),
    ("this.#input.give(`${commands.join('\\n')}\\n`)", "Seen.say(this, commands.join('\\n')); this.#input.give(`${commands.join('\\n')}\\n`)"),
    ("const CALLS = {", "const CALLS = { seen: () => ({ seen: Seen.log() }),"),
)
Seen = namedtuple('Seen', 'cycle')


class PageSession:
    """The session of a page, as tests/web's acts use one in Python."""

    def __init__(self, site):
        self.site = site
        self.journal = self
        self.breakpoints = []

    def _do(self, command, **more):
        answer = self.site.value(f'session.do({web.json.dumps(command)}, {web.json.dumps(more)})')
        if answer['status'] == 409:
            raise web.Unable(answer['error'])
        if answer['status'] != 200:
            raise ValueError(answer)

    @property
    def console(self):
        return Seen(self.site.state()['time']['cycle'])

    @property
    def history(self):
        return self.site.state()['history']

    @property
    def events(self):
        lines = self.site.value('engine.events')
        return [Event(int(line.lstrip('~').split(' ')[0]), line.split(' ', 1)[1], line[0] != '~') for line in lines]

    def script(self):
        return self.site.script()

    def press(self, name):
        if name.startswith('PRO'):
            self._do('pro', down=name == 'PRO')
        else:
            self._do('key', name=name)

    def play(self):
        self._do('play')

    def pause(self):
        self._do('pause')

    def step(self):
        self._do('step')

    def go_there(self, cycle, sure=False):
        self._do('go', cycle=cycle, sure=sure)

    def go_back_to_change(self, sure):
        self._do('back', sure=sure)

    def undo(self, sure):
        self._do('undo', sure=sure)

    def set_speed(self, times):
        self._do('speed', times=times)

    def add_breakpoint(self, place):
        self._do('break', place=place)
        self.breakpoints.append(place)

    def remove_breakpoint(self, place):
        self._do('unbreak', place=place)
        self.breakpoints.remove(place)

    def inject(self, task):
        return task(View(self.site))


class View:
    """What a page shows of its machine, as a console has it."""

    def __init__(self, site):
        self.site, self.parts = site, site.state()
        self.cycle = self.parts['time']['cycle']

    def panel(self):
        return self.parts['panel']

    def registers(self):
        return Registers(**self.parts['machine']['registers'])

    def next(self):
        return self.parts['machine']['next']

    def cells(self, place, count):
        if place.startswith('E'):
            return self.site.value(f'session.look({{ bank: {place[1]} }})')['bank'][:count]
        places = [f'{int(place, 8) + number:04o}' for number in range(count)]
        return list(self.site.value(f"session.look({{ cells: {places} }}).then((seen) => {places}.map((place) => seen.cells[place]))"))


def try_random():
    """Whatever is pressed, stepped, gone back and undone, the script repeats it."""
    rope = example('verbs', 'rope')
    page = LocalPage(LocalSite(rope))
    tap(page)
    count = 0
    for seed in web.seeds(3):
        page.site.open()
        chance, session = random.Random(seed), PageSession(page.site)
        done, dropped = [], []
        for _ in range(ACTS):
            before = session.script().splitlines()
            done.append(web.random_act(session, chance))
            what = f'random session {seed} after {done[-3:]}'
            web.compare_session(what, session, rope)
            web.compare_scripts(what, done[-1], before, session, dropped)
        log = web.compare_end(f'random session {seed} at its end', session, rope)
        seen = page.value("engine.call('seen').then((answer) => answer.seen)")
        judge(f'random session {seed} at its end: the writes as it was lived', log, seen)
        count += len(seen)
        compare_films(f'random session {seed} at its end', page, rope)
    judge('there were writes to compare', True, count > 0)
    page.close()


def tap(page):
    """Lets the workers of a page note the writes of their sessions."""
    with open(os.path.join(os.path.dirname(__file__), 'seen.js'), encoding='utf-8') as file:
        text = file.read()
    worker = page.value("dataOf('worker')")
    for usual, tapped in TAPS:
        judge(f'{usual!r} is there once', 1, worker.count(usual))
        worker = worker.replace(usual, tapped)
    page.value(f"find('worker').textContent = {web.json.dumps(f'{worker}{text}')}; undefined")


def compare_films(what, page, rope):
    """Compares the changes of the panel in the page's film with those that agc-study makes of the script."""
    path, limit = os.path.join(page.folder(), 'filmed'), page.site.state()['time']['limit']
    with open(path, 'w') as file:
        file.write(page.site.script())
    words = [os.path.join(TOP, 'agc-study'), 'film', rope, path, '--limit', str(limit)]
    wanted = subprocess.run(words, capture_output=True, text=True, check=True).stdout
    judge(f'{what}: the film', web.film.frames_in(wanted, 'left'), web.film.frames_in(page.site.value('session.film()'), 'left'))


TRIES = (try_random,)
