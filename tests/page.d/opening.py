"""What agc.html opens: files, the session that the browser keeps, and links; and what it refuses, by a sentence each."""
import base64
import json
import os
import time
import zlib

from agc import Console
from judge import CONSOLE, TOP, judge
from local import FILE, LocalPage, LocalSite, web
from site_of import example, keys_in, wait

# Keeps what the page says above itself, in order.
NOTES = '''window.notes = [];
new MutationObserver(() => {
    const text = document.getElementById('notice-text')?.textContent;
    if (text !== undefined && text !== (notes.at(-1) ?? '')) notes.push(text);
}).observe(document, { childList: true, subtree: true, characterData: true });'''

# A script that would show that markup ran.
MARKUP = '<img src=x onerror="window.ran=1"><script>window.ran=1</script>'


def started():
    """Opens agc.html in a new browser, with the rope of `keys`."""
    return LocalPage(LocalSite(example('keys', 'rope')))


def choose(page, *paths):
    """Chooses files under Open, and returns what the page says."""
    page.value("say('')")
    page.click('#open-button')
    root = page.window.ask('DOM.getDocument')['root']['nodeId']
    node = page.window.ask('DOM.querySelector', nodeId=root, selector='#files')['nodeId']
    page.value('window.engineBefore = engine; undefined')
    page.window.ask('DOM.setFileInputFiles', nodeId=node, files=list(paths))
    judge(f'{paths}: something happens', True, wait(lambda: page.notice() or page.value('engine !== engineBefore')))
    return page.notice()


def file_of(name, data):
    """Writes a file, and returns its path."""
    path = os.path.join(LocalPage.folder(), name)
    with open(path, 'wb') as file:
        file.write(data)
    return path


def refusal(*words):
    """Returns why agc-console refuses files, without its name and the files'."""
    try:
        with Console(*words, program=[CONSOLE]):
            return ''
    except Exception as error:
        return str(error).replace('agc-console: ', '')


def try_files():
    """Files that are chosen: what is refused is said in the console's sentence, and the session stays."""
    page = started()
    page.site.do('key', name='4')
    script = page.site.script()
    odd, empty = file_of('odd', b'\x80' * 7), file_of('empty', b'')
    with open(example('descent', 'rope'), 'rb') as file:
        long = file_of('long', file.read() * 2)
    scripted = file_of('bad.script', b'10 key 4\n5 key 5\n')
    cases = [(odd, os.devnull), (empty, os.devnull), (long, os.devnull), (example('keys', 'rope'), scripted)]
    for rope, second in cases:
        said = choose(page, *[rope, second][:1 + (second != os.devnull)])
        wanted = refusal(rope, second).replace(rope, 'rope').replace(second, 'script')
        judge(f'{os.path.basename(rope)}, {os.path.basename(second)}', (f'{wanted}.', True), (said, wanted != ''))
        judge('nothing is lost', script, page.site.script())
    huge = file_of('huge', bytes(5_000_000))
    judge('a huge file', 'huge is no rope or script: it has 5,000,000 bytes.', choose(page, huge))
    judge('two ropes', True, choose(page, odd, long).startswith('Two files are a rope: '))
    judge('nothing is lost', script, page.site.script())
    judge('names that are refused are left out', True, choose(page, example('keys', 'rope'), file_of('x.names', b'nonsense\n')).startswith('The names are left out: '))
    judge('a rope', '', choose(page, example('console', 'names', 'names'), example('keys', 'rope')))
    judge('its names are there', True, page.see("[...document.querySelectorAll('#names option')].some((each) => each.value === 'KEYIN')", True))
    page.site.do('key', name='4')
    judge('its script', ['key 4'], keys_in(page.site.script()))
    judge('a script for it', '', choose(page, file_of('more.script', b'10 key 5\n20000 key 6\n')))
    judge('that script', ['key 5', 'key 6'], keys_in(page.site.script()))
    try_parity(page)
    try_drop(page)
    page.close()


def try_parity(page):
    """A rope with parity is taken if that is chosen."""
    rope = example('parity', 'rope')
    page.click('#open-button')
    page.click('#parity')
    page.click('#open-close')
    judge('a rope with parity', '', choose(page, rope))
    judge('what repeats its session', True, page.see("document.getElementById('script-rope').textContent", 'ROPE --form parity') == 'ROPE --form parity')
    judge('it is there', 'rope', page.text('rope'))
    wanted = refusal(example('bad-parity', 'rope'), os.devnull)
    with Console(rope, form='parity', program=[CONSOLE]) as console:
        judge('what comes next', console.next(), page.text('next'))
    said = choose(page, example('bad-parity', 'rope'))
    judge('a wrong parity is refused', True, said != '' and wanted is not None)
    page.value("document.getElementById('parity').checked = false")


def try_drop(page):
    """A file that is dropped on the page is opened."""
    with open(example('verbs', 'rope'), 'rb') as file:
        code = base64.b64encode(file.read()).decode()
    page.value(f"""(() => {{
        const data = new DataTransfer();
        data.items.add(new File([bytesOf('{code}')], '{MARKUP.replace("/", "")}'));
        document.body.dispatchEvent(new DragEvent('drop', {{ dataTransfer: data, bubbles: true, cancelable: true }}));
    }})()""")
    judge('the dropped rope', MARKUP.replace('/', ''), page.see("document.getElementById('rope').textContent", MARKUP.replace('/', '')))
    judge('its name is a text', 0, page.value('window.ran ?? 0'))


def try_kept():
    """A reload keeps the session: script, cycle, panel, breakpoints, speed. Forgetting it ends that."""
    page = started()
    page.site.do('speed', times=10)
    page.site.do('break', place='write 11')
    page.site.do('play')
    page.type('4', '2')
    wait(lambda: len(keys_in(page.site.script())) == 2)
    page.site.do('pause')
    before = [page.site.script(), page.cycle(), page.site.state()['panel']]
    page.window.ask('Page.addScriptToEvaluateOnNewDocument', source=NOTES)
    page.reload()
    coming = 'The session that this browser keeps is coming back. A long one takes some seconds.'
    notes = page.value('notes')
    judge('the page says that it comes back, until it is there', [coming, ''], [notes[0], notes[-1]])
    time = page.site.state()['time']
    judge('after a reload', before, [page.site.script(), page.cycle(), page.site.state()['panel']])
    judge('speed and breakpoints too', (10, ['write 11'], False), (time['speed'], page.site.state()['breakpoints'], time['playing']))
    judge('undo of what comes then', 200, page.site.do('go', cycle=10, sure=True))
    page.site.do('undo')
    judge('it can go back, and on', before[0], page.site.script())
    try_tabs(page)
    page.click('#open-button')
    page.click('#forget')
    page.reload()
    judge('after it was forgotten', ('Verbs and nouns', 0), (page.text('rope'), page.cycle()))
    try_old(page)
    try_full(page)
    page.close()


def try_tabs(page):
    """A second tab keeps its session; the first one says so, and goes on."""
    tab = page.window.new_tab()
    usual, page.window.session = page.window.session, tab
    page.window.load(f'file://{FILE}')
    wait(lambda: page.text('state') == 'paused')
    judge('the second tab has the session', ['key 4', 'key 2'], keys_in(page.site.script()))
    page.window.ask('Page.close')
    page.window.session = usual
    judge('the first tab says so', True, wait(lambda: page.notice().startswith('Another tab keeps its session')))
    judge('and goes on', 200, page.site.do('key', name='7'))
    page.reload()


def try_old(page):
    """Sessions of another version, cut off, or hostile: a sentence, and the text is put aside."""
    page.value('keepNow()')
    good = page.value("keptText()")
    cases = [
        ('another version', {'format': 0}, 'it is of another version of this page.'),
        ('a hostile event', {'events': ['1 key 5\nquit']}, 'its part events is not as it has to be.'),
        ('a hostile title', {'title': 7}, 'its part title is not as it has to be.'),
        ('an unknown example', {'example': '__proto__'}, 'its part example is not as it has to be.'),
        ('events that come too late', {'events': ['500 key 5', '20 key 6'], 'cycle': 600}, 'its events do not fit this rope'),
        ('too far', {'cycle': 10 ** 13}, 'its part cycle is not as it has to be.'),
    ]
    for what, change, why in cases:
        text = json.dumps({**json.loads(good), **change})
        page.value(f"keeping.is = false; localStorage.setItem(FILES, '{{\"x\":0}}'); localStorage.setItem(REST, {json.dumps(text)})")
        page.reload()
        begin = f'The session that this browser kept cannot be opened: {why}'
        judge(f'{what}: {page.notice()}', True, page.notice().startswith(begin))
        judge(f'{what}: the example is there', ('Verbs and nouns', 'paused'), (page.text('rope'), page.state('paused')))
    page.value(f"keeping.is = false; localStorage.setItem(REST, {json.dumps(good[:100])})")
    page.reload()
    judge('a text that is cut off', True, 'it is cut off, or no session.' in page.notice())
    judge('it was put aside', True, page.value('keptAside() !== null'))
    text = json.dumps({**json.loads(good), 'title': MARKUP, 'guide': f'guide {MARKUP}\nstep {MARKUP}\n', 'names': f'4000 {MARKUP}\n'})
    page.value(f"keeping.is = false; localStorage.setItem(FILES, '{{\"x\":0}}'); localStorage.setItem(REST, {json.dumps(text)})")
    page.reload()
    judge('markup stays text', (MARKUP[-20:], 0), (page.text('rope')[-20:] or page.text('rope'), page.value('window.ran ?? 0')))


def try_full(page):
    """If the browser has no room, the page says so, and goes on."""
    page.value("Storage.prototype.setItem = () => { throw new DOMException('full', 'QuotaExceededError'); }; undefined")
    page.value("openExample('waitlist').then(() => 0)")
    judge('no room', True, wait(lambda: page.notice().startswith('This browser has no room for the session')))
    judge('it goes on', (200, 'Waitlist'), (page.site.do('play'), page.text('rope')))


def packed(value):
    """Returns a value as the session of a link."""
    data = value if isinstance(value, bytes) else json.dumps(value).encode()
    press = zlib.compressobj(9, zlib.DEFLATED, -15)
    return base64.urlsafe_b64encode(press.compress(data) + press.flush()).decode().rstrip('=')


def try_link():
    """A link opens its session with time stopped; a faulty one is refused by a sentence. It keeps nothing."""
    page = started()
    page.site.do('speed', times=10)
    page.site.do('play')
    page.type('4', '2')
    wait(lambda: len(keys_in(page.site.script())) == 2)
    page.site.do('pause')
    link = page.value('linkOf(session.files, session.kept())')
    seen = [page.site.script(), page.cycle(), page.site.state()['panel']]
    judge('a short link', True, len(link) < 1500)
    page.site.open('lander')
    page.open_file(link[link.index('#'):])
    judge('the session of the link', seen, [page.site.script(), page.cycle(), page.site.state()['panel']])
    judge('it stands, and the page says where it is from', ('paused', True), (page.text('state'), page.notice().startswith('This session came with the link.')))
    page.open_file()
    judge('what was kept is still there', 'Lander', page.text('rope'))
    try_linked_guide(page)
    page.site.open('lander')
    good = {'format': 1, 'title': 'x', 'example': 'verbs', 'cycle': 0, 'events': [], 'controls': [], 'speed': 1, 'breakpoints': []}
    cases = [
        ('no text', '!!', 'it is cut off, or no session.'), ('cut off', link[link.index('=') + 1:-40], 'it is cut off, or no session.'),
        ('too long', 'A' * 30001, 'it is too long.'), ('a bomb', packed(b'0' * 10 ** 8)[:30000], 'it is cut off, or no session.'),
        ('no object', packed(7), 'it is no session.'), ('null', packed(None), 'it is no session.'),
        ('another version', packed({**good, 'format': 2}), 'it is of another version of this page.'),
        ('another rope of the example', packed({**good, 'sum': 1}), 'it is of another version of this page.'),
        ('the sum of no example', packed({**good, 'example': None, 'rope': 'AAAA', 'sum': 1}), 'it has the sum of an example, and names none.'),
        ('a command as event', packed({**good, 'events': ['1 save x']}), 'its part events is not as it has to be.'),
        ('too far', packed({**good, 'cycle': 10 ** 13}), 'its part cycle is not as it has to be.'),
        ('a wrong tables SPEC', packed({**good, 'watch': '0\nquit'}), 'its part watch is not as it has to be.'),
        ('no rope', packed({**good, 'example': None}), 'it has no rope.'),
    ]
    for what, code, why in cases:
        page.value(f"say(''); location.hash = 'session={code}'; undefined")
        judge(f'{what}', f'The session of the link cannot be opened: {why}', page.see("document.getElementById('notice-text').textContent || null", f'The session of the link cannot be opened: {why}'))
    judge('the kept session is still there', 'Lander', page.text('rope'))
    judge('nothing ran', 0, page.value('window.ran ?? 0'))
    page.value(f"location.hash = 'session={packed(good)}'; undefined")
    judge('a good session is opened', 'x', page.see("document.getElementById('rope').textContent", 'x'))
    for behind in ('.', '%20', '%3E)'):
        page.site.open('lander')
        page.value(f"location.hash = 'session={packed(good)}{behind}'; undefined")
        judge(f'with {behind} behind it', 'x', page.see("document.getElementById('rope').textContent", 'x'))
    try_marked_link(page, good)
    try_faulty_link(page)
    page.close()


def try_marked_link(page, good):
    """Markup in the title and in the guide of a link is a text, in the page as it stands and as it is opened."""
    guide = f'guide {MARKUP}\nstep {MARKUP}\nwhy {MARKUP}\nlabel {MARKUP}\nclick play\n'
    code = packed({**good, 'title': MARKUP, 'guide': guide, 'names': f'4000 {MARKUP.replace(" ", "/")}\n', 'chosen': MARKUP})
    found = "[find('rope').textContent, find('strip-what').textContent, document.querySelectorAll('img, body > script[src]').length, window.ran ?? 0]"
    wanted = [MARKUP, MARKUP, 0, 0]
    page.value(f"location.hash = 'session={code}'; undefined")
    judge('markup in a link is a text', wanted, page.see(found, wanted))
    page.open_file(f'#session={code}')
    judge('also if the page opens with it', wanted, page.see(found, wanted))


def try_faulty_link(page):
    """A page that opens with a faulty link says why, whatever it shows instead: the kept session, or the first example."""
    refused = 'The session of the link cannot be opened: it is cut off, or no session.'
    page.open_file('#session=!!')
    judge('a faulty link, beside the kept session', ('Lander', refused), (page.text('rope'), page.see("document.getElementById('notice-text').textContent", refused)))
    page.value('forget()')
    page.open_file('#session=!!')
    judge('a faulty link alone', ('Verbs and nouns', refused), (page.text('rope'), page.see("document.getElementById('notice-text').textContent", refused)))


def try_linked_guide(page):
    """The link of a session has its guided steps, and the guide that is followed: of an example, of a lesson with its script, and
    the user's own."""
    own = 'guide Own\nstep Read this.\n'
    for name, more, guide in (('descent', {}, 'Land with alarm 1202'), ('count-2', {}, 'A table'), ('verbs', {'guide': own}, 'Own')):
        page.site.open(name, **more)
        page.value(f'beginGuideNamed({json.dumps(guide)}); undefined')
        seen = page.value('[session.files.guide, guiding.guide.title, session.files.script]')
        link = page.value('linkOf(session.files, session.kept())')
        page.site.open('waitlist')
        page.open_file(link[link.index('#'):])
        judge(f'{guide}: the link keeps it', seen, page.value('[session.files.guide, guiding.guide?.title, session.files.script]'))


# A session of this many cycles takes hours to run again, in pieces, with an event on its way and one that never comes.
FAR = {'cycle': 10 ** 12, 'events': ['1000 key 5', '999999999000 key 6'], 'controls': [], 'speed': 1, 'breakpoints': []}
STOP = "find('notice-stop')?.hidden ?? true ? null : find('notice-text').textContent.replace(/second [0-9,]+ /, 'second N ')"
AGAIN = 'The session is run again up to where it stood: second N of 11,718,750.'


def try_far():
    """A link and a kept session that stand very far: the page says how far it is, draws and takes clicks, and a button lets the
    session stand where it is. The whole one is lost neither in the link nor in the browser."""
    page = started()
    page.site.open('lander')
    kept = page.value('keptText()')
    writes, lander = os.path.join(TOP, 'benches', 'writes.rope'), example('lander', 'rope')
    with open(writes, 'rb') as file:
        flood = base64.b64encode(file.read()).decode()
    cases = (('writes', writes, {'rope': flood, 'title': 'writes'}), ('a craft', lander, {'example': 'lander', 'title': 'craft'}))
    for what, rope, more in cases:
        code = packed({'format': 1, **FAR, **more})
        load(page, f'#session={code}')
        stop_there(page, f'a link of {what}')
        judge(f'a link of {what}: what is said', 'You stopped this session on its way to second 11,718,750 of its machine time. It came with the link. '
              'A reload opens it anew: download its script to keep what you change.', page.notice())
        judge(f'a link of {what}: it is shown', more['title'], page.text('rope'))
        judge(f'a link of {what}: the browser keeps what it kept', kept, page.value('keptText()'))
        go_on(page, f'a link of {what}', rope)
    files = page.value('JSON.stringify(storedFiles(session.files))')
    rest = json.dumps({'format': 1, **FAR, 'options': None})
    page.value(f'localStorage.setItem(FILES, {json.dumps(files)}); localStorage.setItem(REST, {json.dumps(rest)})')
    kept = page.value('keptText()')
    load(page)
    stop_there(page, 'a kept session')
    judge('a kept session: what is said', 'You stopped this session on its way to second 11,718,750 of its machine time. This browser keeps the whole '
          'one, and a reload opens it: download the script to keep what you change here.', page.notice())
    go_on(page, 'a kept session', rope)
    judge('the whole one is still there', kept, page.value('keepNow() ?? keptText()'))
    try_other_instead(page)
    page.close()


def load(page, hash=''):
    """Opens agc.html anew, with a session that takes long."""
    page.window.load('about:blank')
    page.window.load(f'file://{FILE}{hash}')


def stop_there(page, what):
    """Lets the session stand that is run again."""
    judge(f'{what}: how far it is', AGAIN, page.see(STOP, AGAIN))
    judge(f'{what}: the DSKY is drawn', True, page.value("document.querySelector('#face .dsky') !== null"))
    page.click('#notice-stop')
    judge(f'{what}: it stands', 'paused', page.state('paused'))
    judge(f'{what}: on its way', True, 1000 < page.cycle() < 10 ** 12)
    judge(f'{what}: the script has what came', ['key 5'], keys_in(page.site.script()))
    judge(f'{what}: nothing more is to be stopped', True, page.value("find('notice-stop').hidden"))


def go_on(page, what, rope):
    """Goes on with a session that was stopped on its way, and compares its panel with that of agc's run of its script."""
    page.site.do('key', name='7')
    page.site.do('step')
    judge(f'{what}: it goes on', ['key 5', 'key 7'], keys_in(page.site.script())[:2])
    lines = web.agc_panel(rope, page.site.script(), page.cycle())[2]
    judge(f'{what}: the panel is that of agc', lines, [f'{name} {text}' for name, text in page.site.state()['panel'].items()])


def try_other_instead(page):
    """A session that is opened while another one is still coming takes its place, and the other one is put aside."""
    load(page)
    judge('it comes', AGAIN, page.see(STOP, AGAIN))
    page.value("openExample('waitlist'); undefined")
    judge('another one is shown', 'Waitlist', page.see("document.getElementById('rope').textContent", 'Waitlist'))
    time.sleep(2)
    judge('it stays', ('Waitlist', True), (page.text('rope'), page.value("find('notice-stop').hidden")))
    judge('the first one is put aside', '1000 key 5\n999999999000 key 6\n', page.value('scriptIn(keptAside())'))


def try_policy():
    """The page's policy lets no other script run and nothing be fetched."""
    elsewhere = web.Elsewhere()
    page = started()
    policy = page.value("document.querySelector('meta[http-equiv]').content")
    judge('the policy', True, policy.startswith("default-src 'none'; script-src 'wasm-unsafe-eval' 'sha256-") and 'unsafe-inline' not in policy)
    page.window.ask('Network.emulateNetworkConditions', offline=False, latency=0, downloadThroughput=-1, uploadThroughput=-1)
    inline = "(() => { const it = document.createElement('script'); it.textContent = 'window.ran = 1'; document.body.append(it); return window.ran ?? 0; })()"
    judge('a script that is brought in does not run', 0, page.value(inline))
    judge('nothing is fetched', 'refused', page.value(f"fetch('{elsewhere.url}').then(() => 'fetched', () => 'refused')"))
    asks = f"new Promise((done) => {{ const it = new Image(); it.onload = it.onerror = () => done(0); it.src = '{elsewhere.url}'; }})"
    page.value(asks)
    judge('nor an image', 0, elsewhere.count)
    page.window.errors()
    page.close()
    elsewhere.close()


def try_film():
    """The film is that of agc-study, and opens in a tab; the download is the script."""
    page = started()
    page.site.do('play')
    page.type('4', '2')
    wait(lambda: len(keys_in(page.site.script())) == 2)
    page.site.do('pause')
    text = page.value('session.film()')
    path = file_of('filmed', page.site.script().encode())
    words = [os.path.join(TOP, 'agc-study'), 'film', example('keys', 'rope'), path, '--limit', page.text('limit')]
    wanted = web.subprocess.run(words, capture_output=True, text=True, check=True).stdout
    judge('the film', web.film.frames_in(wanted, 'left'), web.film.frames_in(text, 'left'))
    page.value("""window.blobs = []; const make_ = URL.createObjectURL;
        URL.createObjectURL = (blob) => { blobs.push(blob); return make_(blob); }; undefined""")
    page.click('#script-tab')
    page.click('#download')
    judge('the download', page.site.script(), page.see('blobs.length ? blobs[0].text() : null', page.site.script()))
    judge('the page says so', 'The script is saved as session.script, among the downloads of this browser.', page.notice())
    page.click('#film')
    judge('the film has a tab', True, wait(lambda: film_tab(page) is not None, 120))
    page.close()


def try_flown_film():
    """The film of a flight shows its view beside the DSKY, in a tab of its own, and at its end what the page shows."""
    page = LocalPage(LocalSite(example('verbs', 'rope')))
    page.site.open('lander')
    page.site.do('speed', times=10)
    page.site.do('play')
    page.window.key('ArrowRight', 'keyDown')
    judge('the craft turns', True, wait(lambda: page.site.script().count('poke 0 100 ') > 7))
    page.window.key('ArrowRight', 'keyUp')
    page.run_on(90000)
    page.pause()
    rows = [[name, str(value)] for name, value in page.site.state()['instruments'][0]['rows']]
    page.click('#script-tab')
    page.click('#film')
    judge('the film has a tab', True, wait(lambda: film_tab(page) is not None, 120))
    usual, page.window.session = page.window.session, None
    page.window.session = page.window.ask('Target.attachToTarget', targetId=film_tab(page)['targetId'], flatten=True)['sessionId']
    found = "[...document.querySelectorAll('.views .rows div')].map((row) => [...row.children].map((each) => each.textContent))"
    first = page.see(f'({found})[0]?.[0]', 'Angle')
    judge('the view', ('Angle', 1), (first, page.value("document.querySelectorAll('.views .dial').length")))
    judge('its style is taken', 'flex', page.value("getComputedStyle(document.querySelector('.views .instrument')).display"))
    page.value("document.getElementById('end').click(); undefined")
    judge('the rows at the end', rows, page.see(found, rows))
    page.window.session = usual
    page.close()


def try_film_in_words():
    """With a file of verbs and nouns the film has the display in words. Markup in the file is a text."""
    nouns = f'verb 88 lamp test {MARKUP}\r\nnoun 88 R1 length \\ λ = 0.001 m\n'
    page = LocalPage(LocalSite(example('verbs', 'rope')))
    page.site.open('verbs', nouns=nouns)
    page.site.do('play')
    page.type('v', '3', '5', 'Enter')
    judge('all is lit', '+88888', page.see('shown.panel.R3', '+88888'))
    page.pause()
    text = page.value('session.film()')
    words = [os.path.join(TOP, 'agc-study'), 'film', example('verbs', 'rope'), file_of('filmed', page.site.script().encode()),
             '--nouns', file_of('nouns', nouns.encode()), '--limit', page.text('limit')]
    made = web.subprocess.run(words, capture_output=True, text=True, check=True).stdout
    files = [film[film.index('<script type="text/plain" id="nouns">'):].partition('</script>')[0] for film in (made, text)]
    judge('the file is there as agc-study puts it', files[0], files[1])
    page.click('#script-tab')
    page.click('#film')
    judge('the film has a tab', True, wait(lambda: film_tab(page) is not None, 120))
    usual, page.window.session = page.window.session, None
    page.window.session = page.window.ask('Target.attachToTarget', targetId=film_tab(page)['targetId'], flatten=True)['sessionId']
    page.see("document.getElementById('left-words') !== null", True)
    page.value("document.getElementById('end').click(); undefined")
    said = f'V88 N88: lamp test {MARKUP}: length \\ λ 88.888 m'
    judge('what the film says', [said, 0], page.see("[document.getElementById('left-words').textContent, window.ran ?? 0]", [said, 0]))
    page.window.session = usual
    page.site.open('verbs')
    judge('without a file there are no words', False, 'id="nouns"' in page.value('session.film()'))
    page.close()


def film_tab(page):
    """Returns the tab with a film, if it has run its script."""
    usual, page.window.session = page.window.session, None
    found = page.window.ask('Target.getTargets')['targetInfos']
    page.window.session = usual
    return next((each for each in found if each['url'].startswith('blob:') and 'limit' in each['title']), None)


TRIES = (try_files, try_kept, try_link, try_far, try_policy, try_film, try_film_in_words, try_flown_film)
