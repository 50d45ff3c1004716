"""Tries agc.html from its file, without a network: tests/web's cases of a user, and what the file alone has.

What is wanted is worked out by hand from the examples' sources and from docs/WEB.md, or is what agc and agc-console make of
the script that the page lets one download.
"""
import base64
import contextlib
import functools
import hashlib
import importlib.machinery
import io
import json
import os
import re
import shutil
import subprocess
import types
import zlib

import caused
import exercises
import figures
import flights
import listing
import opening
import plotted
import randoms
import source
import twins
from firefox import Firefox
from judge import BESIDE, TOP, check, finish, judge
from local import FILE, LocalPage, LocalSite, web
from site_of import example, keys_in, wait


def try_made():
    """The file is what launch/page makes of the page, the examples and the prebuilt program."""
    done = subprocess.run([os.path.join(TOP, 'launch', 'page'), '--check'], capture_output=True, text=True)
    judge('agc.html', (0, '2 passed, 0 failed\n', ''), (done.returncode, done.stdout, done.stderr))
    judge('at most 5 MB', True, os.path.getsize(FILE) <= 5_000_000)


def repacked(text, change=bytes, more=b''):
    """Returns a page whose modules are packed less, with a change of their bytes, and with more behind their ends."""
    def again(found):
        packed = zlib.compress(change(zlib.decompress(bytes_of(found[2]))), 1)
        letters = base64.b64encode(packed + more).decode()
        return found[1] + letters.replace('+', '_a').replace('/', '_b').replace('=', '')

    return re.sub(r'(<script type="application/zlib;letters" id="[^"]*">)(.*?)(?=</script>)', again, text)


def bytes_of(letters):
    """The bytes of a packed block, whose _a and _b are + and / of base 64."""
    code = re.sub('_([ab])', lambda found: '+' if found[1] == 'a' else '/', letters)
    return base64.b64decode(code + '===')


def try_letters():
    """Modules and ropes have no word in them: letters, digits and _ alone, for a reader who looks for short words."""
    with open(FILE, encoding='utf-8') as file:
        text = file.read()
    ropes = {name: found['rope'] for name, found in json.loads(re.search(r'id="examples">(.*?)</script>', text)[1]).items()}
    for name, letters in ropes.items():
        with open(example(name, 'rope'), 'rb') as file:
            judge(f'the rope of {name}', file.read(), bytes_of(letters))
    packed = re.findall(r'zlib;letters" id="[^"]*">(.*?)</script>', text)
    judge('two modules', 2, len(packed))
    for letters in (*ropes.values(), *packed):
        judge('letters, digits and _', None, re.search('[^A-Za-z0-9_]', letters))


def try_packed():
    """A page that another zlib has packed is as right, and stays; one with other bytes inside is not."""
    loader = importlib.machinery.SourceFileLoader('page', os.path.join(TOP, 'launch', 'page'))
    maker = types.ModuleType(loader.name)
    maker.__file__ = loader.path
    loader.exec_module(maker)
    maker.MADE, maker.DIGEST = (os.path.join(LocalPage.folder(), name) for name in ('made.html', 'made.sha256'))
    maker.page = functools.lru_cache(maker.page)
    text = maker.read(FILE)
    block = re.search(r'zlib;letters" id="[^"]*">(.*?)</script>', text)[1]
    cases = (
        ('packed otherwise', repacked(text), 0), ('another byte', repacked(text, lambda data: data[:-1] + bytes([data[-1] ^ 1])), 1),
        ('more behind the end', repacked(text, more=b'x'), 1), ('cut off', text.replace(block, block[:-8]), 1),
        ('damaged', text.replace(block, block[:500] + 'AAAA' + block[504:]), 1), ('no letter', text.replace(block, block + '-'), 1), ('no base 64', text.replace(block, block + '_c'), 1),
    )
    for what, other, wrong in cases:
        check(f'{what}: the page is another one', other != text)
        for file, data in ((maker.MADE, other), (maker.DIGEST, f'{hashlib.sha256(other.encode()).hexdigest()}  ../agc.html\n')):
            with open(file, 'w', encoding='utf-8', newline='') as written:
                written.write(data)
        with contextlib.redirect_stdout(io.StringIO()), contextlib.redirect_stderr(io.StringIO()):
            judge(f'{what}: --check', wrong, maker.main(['--check']))
            maker.main([])
        judge(f'{what}: it is made again if it is wrong', bool(wrong), maker.read(maker.MADE) != other)


def try_session():
    """What a user does on the page of agc-web; nothing is requested but the file, and what it has inside."""
    rope = example('verbs', 'rope')
    page = LocalPage(LocalSite(rope))
    requests = [event['params']['request']['url'] for event in page.window.events if event['method'] == 'Network.requestWillBeSent']
    judge('what is requested', [], [url for url in requests if not url.startswith((f'file://{FILE}', 'blob:null/', 'data:'))])
    web.session_of(page, rope)
    page.close()


class FirstPage(LocalPage):
    """The page in a browser that has kept nothing, with what it opens by itself."""

    def load(self, url=None):
        self.site.page = self
        self.open_file()


def try_example():
    """The page begins with VERB 35 at hand, paused at cycle 0."""
    page = FirstPage(LocalSite(example('verbs', 'rope')))
    judge('paused at cycle 0', ('paused', 0), (page.state('paused'), page.cycle()))
    judge('the title', 'Verbs and nouns', page.see("document.getElementById('rope').textContent", 'Verbs and nouns'))
    buttons = "[...document.querySelectorAll('#strip-buttons button')].map((each) => each.textContent)"
    offered = ['Lamp test', 'Landing on the Moon', 'Land with alarm 1202', 'First program', 'More …', '✕']
    judge('guides are offered', offered, page.see(buttons, offered))
    orders = "[document.querySelectorAll('#ahead li').length, find('orders-note').hidden]"
    judge('what comes is shown, and nothing asks for a pause', [12, True], page.see(orders, [12, True]))
    try_strip(page)
    repeats = "document.querySelector('#script-panel .note').textContent"
    judge('what repeats the session', 'This repeats the session: ./agc examples/verbs/rope session.script --limit ', page.value(repeats).rstrip('0123456789'))
    lessons = ['First program', 'A table', 'An interrupt', 'Ten digits', 'Find a fault']
    judge('the lessons', lessons, page.value("[...document.querySelectorAll('#lesson-list button')].map((each) => each.textContent)"))
    page.value("document.querySelector('[data-example=\"count-1\"]').click(); undefined")
    judge('a lesson has its guide', True, page.see("guiding.guides.map((each) => each.title).join()", 'First program') == 'First program')
    page.value("openExample('verbs').then(() => { find('play').click(); return 0; })")
    judge('it runs', 'running', page.state('running'))
    page.value("find('play').focus()")
    page.type('v', '3', '5', 'Escape', 'Enter')
    judge('all is lit', True, page.see("isLit('OPR ERR')", True))
    page.type('r')
    judge('the lamps go out', False, page.see("isLit('OPR ERR')", False))
    page.value("beginGuideNamed('Lamp test'); undefined")
    judge('its guide begins, and does not end at once', True, page.text('strip-what').startswith('Type VERB 3 5 ENTR'))
    page.value("find('strip-buttons').lastChild.click()")
    for title, name in (('Landing on the Moon', 'descent'), ('First program', 'count-1')):
        page.value("find('open').close()")
        page.value(f"[...document.querySelectorAll('#strip-buttons button')].find((each) => each.textContent === '{title}').click()")
        judge(f'{title}: a session that has begun is not left by one click', (True, 'Verbs and nouns'), (page.value("find('open').open"), page.text('rope')))
        judge('the dialog is at what was chosen', name, page.value('document.activeElement.dataset.example'))
    judge('the dialog begins with what it ends', True, page.value("find('open').querySelector('p').textContent").startswith('Opening ends the session that is shown.'))
    page.window.resize(360, 740)
    judge('on a phone it is no wider than the screen', True, page.see("(({ left, right }) => left >= 0 && right <= innerWidth)(find('open').getBoundingClientRect())", True))
    page.close()


def try_strip(page):
    """On a phone the strip stays in sight while a guide is followed, and a choice of guides scrolls away; a finger hits each tab and
    the slider, and the longest title of an example has two lines."""
    page.window.resize(360, 740)
    heights = "[find('orders-tab'), find('slider')].map((each) => each.getBoundingClientRect().height)"
    judge('tabs and slider are high enough', True, min(page.value(heights)) >= 28)
    page.value("find('rope').textContent = 'Landing on the Moon'")
    judge('two lines of the title', True, page.value("document.querySelector('h1').getBoundingClientRect().height") < 40)
    page.value("find('rope').textContent = 'Verbs and nouns'")
    place = "getComputedStyle(find('strip')).position"
    judge('a choice of guides', 'static', page.value(place))
    page.value("beginGuideNamed('Lamp test'); undefined")
    judge('a guide', 'sticky', page.value(place))
    page.value("find('strip-buttons').lastChild.click()")
    judge('a choice once more', 'static', page.value(place))
    page.window.resize(*web.SIZE)


def try_words():
    """Memory, cells, channels and breakpoints on the rope that shows each key in NOUN."""
    site = LocalSite(example('keys', 'rope'), '--names', example('console', 'names', 'names'))
    page = LocalPage(site)
    page.type('Space')
    page.state('running')
    page.type('4', '2')
    wanted = web.film.segments_of(web.film.panel(NOUN='42'))
    judge('the page shows 42', wanted, page.see("Look.places('left')", wanted))
    page.pause()
    web.try_words(page)
    web.try_breaks(page, site)
    judge('keys', [f'key {name}' for name in '427135'], keys_in(site.script()))
    page.close()


LOOKS = """(async () => {
  const { news } = page;
  let looks = [];
  page.news = (parts) => { looks.push(performance.now()); news(parts); };
  let most = 0;
  for (let i = 0; i < 30 && most < ENOUGH; i += 1) {
    await new Promise((done) => { setTimeout(done, 200); });
    looks = [];
    const start = performance.now();
    await ask('key', { name: '1' });
    await new Promise((done) => { setTimeout(done, 150); });
    most = Math.max(most, looks.filter((time) => time < start + 100).length);
  }
  page.news = news;
  return most;
})()"""

GONE = """(async () => {
  const wanted = [];
  const real = ask;
  ask = (what, { cycle }) => new Promise((done) => { setTimeout(() => { wanted.push(cycle); done(true); }, 50); });
  const far = now.cycle + 1000000;
  const first = goExactly(far);
  await new Promise((done) => { setTimeout(done, 10); });
  const second = goExactly(0);
  const done = [await first, await second];
  ask = real;
  return [...wanted.map((cycle) => cycle === far), ...done];
})()"""


def try_echo():
    """After a key each piece of the clock's work is shown: eight looks and more in a tenth of a second, where there are six at most
    otherwise. Of two cycles that are wanted one after the other the second counts."""
    page = LocalPage(LocalSite(example('keys', 'rope')))
    page.type('Space')
    page.state('running')
    judge('looks in a tenth of a second after a key', True, page.value(LOOKS.replace('ENOUGH', '8')) >= 8)
    page.pause()
    judge('the first cycle is wanted once', [True, False, False, True], page.value(GONE))
    page.close()


class OldPage(LocalPage):
    """The page in a browser that lacks something."""

    def load(self, url=None):
        self.window.ask('Page.addScriptToEvaluateOnNewDocument', source=self.before)
        self.window.load(f'file://{FILE}')


def try_old():
    """A browser that cannot suspend a module runs the machine too; one that cannot unpack it, or has no WebAssembly, says so."""
    lit = web.film.segments_of(web.film.panel(PROG='88', VERB='88', NOUN='88', R1='+88888', R2='+88888', R3='+88888'))
    LocalPage.before = 'delete WebAssembly.Suspending; delete WebAssembly.promising;'
    page = LocalPage(LocalSite(example('verbs', 'rope')))
    page.type('Space', 'v', '3', '5', 'Enter')
    judge('without suspension all is lit', lit, page.see("Look.places('left')", lit))
    page.pause()
    web.compare_with_agc('without suspension', page, example('verbs', 'rope'))
    page.close()
    for name in ('DecompressionStream', 'WebAssembly'):
        LocalPage.before = f'delete window.{name};'
        page = OldPage(LocalSite(example('verbs', 'rope')))
        judge(f'without {name}', True, wait(lambda: (page.notice() or '').startswith('This browser cannot run the machine'), 60))
        page.close()
    LocalPage.before = ''


def try_firefox():
    """The same page in Firefox: VERB 35, the script, and a reload."""
    home = os.path.join(LocalPage.folder(), 'firefox')
    os.mkdir(home)
    page = Firefox(shutil.which('firefox-esr'), home)
    state = lambda: page.value("document.getElementById('state').textContent")
    page.load(f'file://{FILE}')
    judge('Firefox: it begins paused', True, wait(lambda: state() == 'paused', 300))
    page.type('Space', 'v', '3', '5', 'Enter')
    judge('Firefox: all is lit', True, wait(lambda: page.value('shown.panel.R3') == '+88888', 300))
    page.type('Space')
    wait(lambda: state() == 'paused', 300)
    script, cycle, panel = page.value('session.script()'), page.value('shown.time.cycle'), page.value('shown.panel')
    judge('Firefox: the keys', ['key VERB', 'key 3', 'key 5', 'key ENTR'], keys_in(script))
    lines = web.agc_panel(example('verbs', 'rope'), script, cycle)[2]
    judge('Firefox: the panel is that of agc', lines, [f'{name} {text}' for name, text in panel.items()])
    page.value('keepNow()')
    page.reload()
    wait(lambda: state() == 'paused', 300)
    judge('Firefox: a reload keeps it', (script, cycle, panel), (page.value('session.script()'), page.value('shown.time.cycle'), page.value('shown.panel')))
    page.close()


# Those that take longest come first.
TRIES = (
    *figures.TRIES, *exercises.TRIES, *twins.TRIES, *flights.TRIES, *source.TRIES, *plotted.TRIES, *randoms.TRIES, *opening.TRIES, *caused.TRIES, web.try_sizes,
    *(listing.TRIES if source.HAS_ASSEMBLER else ()), web.try_changes, web.try_stop, try_session, try_example, try_words, try_echo, try_old,
    try_made, try_packed, try_letters,
)


def close_left():
    """Ends the browsers that a try has left."""
    web.Page.close_all()
    LocalPage.close_all()
    web.Window.kill_all()
    Firefox.close_all()


def main():
    has_firefox = shutil.which('firefox-esr') is not None
    if not has_firefox and not BESIDE:
        print('skipped: the page in Firefox, because there is no firefox-esr')
        judge('Firefox is there in CI', False, os.environ.get('CI') == 'true')
    web.make_all((*[try_firefox] * has_firefox, *TRIES), close_left)
    finish()


if __name__ == '__main__':
    main()
