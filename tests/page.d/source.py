"""A program that is written in agc.html: its faults at their lines, its run, and how it is kept, saved, opened and sent.

What is wanted is what agc-study and agc make of the same text here.
"""
import json
import os
import re
import subprocess
import time

from judge import AGC, STUDY, TOP, judge
from local import LocalPage, LocalSite, web
from opening import MARKUP, file_of, packed
from site_of import example, wait

FIRST = os.path.join(TOP, 'clients', 'python', 'agc_web', 'page', 'local', 'sources', 'first.agc')
# COMP ACTY is lit for 16,383 rounds of five cycles, and dark for as many.
BLINK = '''LAMPS   EQUALS  11
        SETLOC  0100
COUNT   ERASE
        SETLOC  4000
        TCF     BEGIN
        SETLOC  4060
BEGIN   CA      ON
        EXTEND
        WRITE   LAMPS
        TC      PAUSE
        CA      OFF
        EXTEND
        WRITE   LAMPS
        TC      PAUSE
        TCF     BEGIN
PAUSE   CA      LONG
ROUND   TS      COUNT
        CCS     COUNT
        TCF     ROUND
        RETURN
LONG    DEC     16383
ON      OCT     2
OFF     OCT     0
'''
FAULTS = (
    ('        SETLOC  4000\n        CA      OM\nON      OCT     2\n', [[2, 'unknown name `OM`; did you mean `ON`?']]),
    ('        SETLOC  4000\n        ca      4000\n', [[2, 'unknown order or directive `ca`; did you mean `CA`? Orders and directives are in capitals.']]),
    ('        SETLOC  4000\nlighten\n   lights on\n', [[3, 'unknown order or directive `lights`; did you mean `LXCH`? Orders and directives are in capitals.']]),
    ('        SETLOC  4000\n        CA\n        WRITE   11\n', [
        [2, 'the operand is missing, superfluous or malformed: `CA` has no operand'],
        [3, 'this order is an extracode: write EXTEND before it: `WRITE` is an extracode']]),
    ('        SETLOC  4000\n        CA      é\n', [[2, 'a byte of this line is neither a tab nor printable ASCII: `\\303\\251` has a byte that is neither a tab nor printable ASCII']]),
)
"""Texts, and what the page says of their lines."""
STILL = 'The machine still has the program woven before.'
MARKS = "[...document.querySelectorAll('#source-marks p')].map((each) => [Number(each.dataset.line), each.textContent])"


class WritingPage(LocalPage):
    """The page in a browser that has kept nothing, with what it opens by itself."""

    def load(self, url=None):
        self.site.page = self
        self.open_file()


def started():
    return WritingPage(LocalSite(example('verbs', 'rope')))


def woven(text):
    """Weaves a text by agc-study: the rope, the names, the listing, and the lines with faults."""
    source, names = file_of('source', text.encode()), os.path.join(LocalPage.folder(), 'names')
    done = subprocess.run([STUDY, 'weave', source, '--write-names', names, '--force'], capture_output=True)
    if done.returncode:
        return None, None, None, [int(line) for line in re.findall(r'^agc-study: (?:text|source) line (\d+)', done.stderr.decode(), re.MULTILINE)]
    rope = file_of('woven', done.stdout)
    listing = subprocess.run([STUDY, 'list', rope, '--names', names], capture_output=True, text=True, check=True).stdout
    with open(names) as file:
        return done.stdout, file.read(), listing, []


def write(page, text):
    """Types a text in the place of the one that is there, and leaves it."""
    page.value("find('source').focus(); find('source').select(); undefined")
    page.window.ask('Input.insertText', text=text)
    page.value("find('source').blur()")


def settled(page):
    """Waits until the text as it stands is woven."""
    return wait(lambda: page.value("writing.woven !== null && !writing.isChecking && find('source-said').textContent !== ''"))


def rope_of(page):
    return bytes(page.value('[...session.files.rope]'))


def try_written():
    """A first program, a fault at its line, the run with names and listing, and the saved file."""
    page = started()
    with open(FIRST) as file:
        first = file.read()
    page.click('#write-button')
    judge('the first program is there', first, page.see("find('source').value", first))
    judge('at cycle 0, paused', ('First program', 'paused', 0), (page.see("find('rope').textContent", 'First program'), page.text('state'), page.cycle()))
    count = first.count('\n') + 1
    judge('line numbers', ''.join(f'{n}\n' for n in range(1, count + 1)), page.value("find('source-lines').textContent"))
    try_fault(page, first)
    page.click('#weave')
    judge('it runs', 'running', page.state('running'))
    judge('COMP ACTY is lit', True, wait(lambda: 'COMP ACTY' in page.panel()[1]))
    rope, names, listing, _ = woven(first)
    judge('the rope', rope, rope_of(page))
    judge('names and listing', f'{listing}\nNames:\n{names}', page.value("find('source-listed').textContent"))
    judge('a name of it is known', True, page.value("[...document.querySelectorAll('#names option')].some((each) => each.value === 'WAIT')"))
    page.pause()
    web.compare_with_agc('the program', page, file_of('woven', rope))
    page.value("window.blobs = []; const make_ = URL.createObjectURL; URL.createObjectURL = (blob) => { blobs.push(blob); return make_(blob); }; undefined")
    page.value("HTMLAnchorElement.prototype.click = function () { window.saved = this.download; }; undefined")
    page.click('#source-save')
    judge('it is saved', (first, 'First-program.agc'), (page.see('blobs.length ? blobs[0].text() : null', first), page.value('window.saved')))
    judge('the page says so', 'The source is saved as First-program.agc, among the downloads of this browser.', page.notice())
    requests = [event['params']['request']['url'] for event in page.window.events if event['method'] == 'Network.requestWillBeSent']
    judge('nothing is requested elsewhere', [], [url for url in requests if not url.startswith(('file://', 'blob:null/', 'data:'))])
    page.close()


def try_fault(page, first):
    """A wrong line is marked at its place, and nothing runs; right again it is not."""
    faulty = first.replace('WRITE   LAMPS', 'WRITTE  LAMPS')
    line = faulty[:faulty.index('WRITTE')].count('\n') + 1
    write(page, faulty)
    judge('agc-study finds it at that line', [line], woven(faulty)[3])
    wanted = [[line, 'unknown order or directive `WRITTE`; did you mean `WRITE`?']]
    judge('the fault is shown', wanted, page.see(MARKS, wanted))
    where = page.value("""(() => {
        const top = (selector) => document.querySelector(selector).getBoundingClientRect().top;
        const numbers = [...document.querySelectorAll('#source-lines .faulty')];
        const height = parseFloat(getComputedStyle(find('source')).lineHeight);
        const wanted = top('#source') + parseFloat(getComputedStyle(find('source')).paddingTop) - find('source').scrollTop;
        return [numbers.map((each) => Number(each.textContent)), Math.round(numbers[0].getBoundingClientRect().top - wanted) / height, Math.round(top('#source-marks p') - wanted) / height];
    })()""")
    judge('at its line, and so is its number', [[line], line - 1, line - 1], where)
    page.click('#weave')
    selected = "find('source').value.slice(find('source').selectionStart, find('source').selectionEnd)"
    judge('nothing runs, and the line is chosen', ('WRITTE', 'paused', 0), ((page.see(f'({selected}).trim().slice(0, 6)', 'WRITTE'), page.text('state'), page.cycle())))
    write(page, first)
    judge('the fault has gone', [], page.see(MARKS, []))


def try_faults():
    """A fault is shown with its word, the nearest name and what else helps; what the machine has meanwhile is said."""
    page = started()
    page.click('#write-button')
    page.see("find('rope').textContent", 'First program')
    said = "find('source-said').textContent"
    for text, wanted in FAULTS:
        write(page, text)
        judge(f'{text!r}: its faults', wanted, page.see(MARKS, wanted, 30))
        judge(f'{text!r}: agc-study finds them there', [line for line, _ in wanted], woven(text)[3])
        count = '1 fault' if len(wanted) == 1 else f'{len(wanted)} faults'
        judge(f'{text!r}: the machine has the first program', f'{count}. {STILL}', page.value(said))
    write(page, BLINK)
    words = 'No fault: 17 words, not counting those that are 0.'
    judge('18 words, of which one is 0', words, page.see(said, words, 30))
    page.site.open()  # a rope without a source
    page.value("showTab('source')")
    write(page, FAULTS[0][0])
    judge('the machine has no woven program', '1 fault.', page.see(said, '1 fault.', 30))
    page.close()


def try_blink():
    """A program that blinks is typed, and COMP ACTY goes on and off, at the cycles at which agc writes the channel."""
    page = started()
    page.click('#write-button')
    page.see("find('rope').textContent", 'First program')
    write(page, '')
    page.value("find('source').focus()")
    page.type('v', '3', 'Space')
    judge('keys are typed into the text, and the machine gets none', ('v3 ', '', 'paused'), (page.see("find('source').value", 'v3 '), page.site.script(), page.text('state')))
    write(page, BLINK)
    page.click('#weave')
    judge('then the keys are the DSKY\'s', 'BODY', page.see('document.activeElement.tagName', 'BODY'))
    for lit in (True, False, True):
        judge(f'COMP ACTY: {lit}', True, wait(lambda: ('COMP ACTY' in page.panel()[1]) == lit))
    page.pause()
    rope = file_of('blinking', woven(BLINK)[0])
    web.compare_with_agc('blinking', page, rope)
    said = subprocess.run([AGC, rope, os.devnull, '--limit', '250000', '--log'], capture_output=True, text=True, check=True).stdout
    judge('agc: on and off', ['00002', '00000', '00002', '00000'], re.findall(r'^\d+ 011 (\d+)$', said, re.MULTILINE))
    page.close()


STRIP = "find('strip-title').textContent + ': ' + find('strip-what').textContent"


def press_in_strip(page, label):
    """Clicks a button of the strip."""
    button = f"[...document.querySelectorAll('#strip-buttons button')].find((each) => each.textContent === {json.dumps(label)})"
    judge(f'the strip has {label}', True, wait(lambda: page.value(f'({button}) !== undefined')))
    page.value(f'({button}).click(); undefined')


def see_in_strip(page, text):
    judge(f'the strip says: {text}', True, wait(lambda: text in page.value(STRIP)))


def try_offered():
    """What the strip of a first visit offers opens the example, and its guide begins."""
    for label, first in (('First program', 'First program 1/'), ('Landing on the Moon', 'Land 1/'), ('Land with alarm 1202', 'Land with alarm 1202 1/')):
        page = started()
        press_in_strip(page, label)
        see_in_strip(page, first)
        page.close()


def try_guided():
    """The guide to a program of one's own: each step is shown, and a program that blinks brings it to its end."""
    page = started()
    page.click('#write-button')
    press_in_strip(page, 'Write a program')
    for step in ('Weave and run it: COMP ACTY', 'Light OPR ERR too', 'Weave and run it again', 'Make a mistake', 'Mend it'):
        see_in_strip(page, step)
        press_in_strip(page, 'Do it')
    see_in_strip(page, 'Now make COMP ACTY blink')
    page.value("ask('play'); undefined")
    time.sleep(1)  # the old program goes on, with the lamp lit
    see_in_strip(page, 'Now make COMP ACTY blink')
    write(page, BLINK)
    page.click('#weave')
    see_in_strip(page, 'It blinks')
    page.close()


def try_sources():
    """Each source to change has no fault, and weaves to the words that agc-study makes of it."""
    page = started()
    for name in page.value('Object.keys(SOURCES)'):
        page.value(f"openSourceExample('{name}').then(() => 0)")
        rope = woven(page.value("find('source').value"))[0]
        judge(f'{name}: the rope', rope, page.see('[...session.files.rope]', list(rope)) and rope_of(page))
        judge(f'{name}: its guided steps', [], page.value('guiding.faults'))
        judge(f'{name}: no mark', [], page.value(MARKS))
    judge('the waitlist has its tables', True, page.value("openSourceExample('waitlist').then(() => Boolean(shown.about.watch))"))
    page.close()


def try_source_kept():
    """A reload keeps the text, and the text before it; what was kept and is no source is left alone."""
    page = started()
    page.click('#write-button')
    page.see("find('rope').textContent", 'First program')
    write(page, BLINK)
    page.value("openSourceExample('stopwatch').then(() => 0)")
    page.reload()
    judge('the text is there', page.value('SOURCES.stopwatch.text'), page.value("find('source').value"))
    page.value("showTab('source')")
    page.click('#source-back')
    judge('the one before is there', BLINK, page.value("find('source').value"))
    for what, kept in (('cut off', '{"name"'), ('null', 'null'), ('no text', '{"name":"x","text":7}'), ('an unknown example', '{"name":"x","text":"y","example":"__proto__"}')):
        page.value(f"window.onpagehide = null; localStorage.setItem(SOURCE_STORE, {json.dumps(kept)})")
        page.reload()
        judge(f'{what}: the page is there', ('', True), (page.value("find('source').value"), page.text('state') != ''))
    hostile = json.dumps({'name': MARKUP[:60], 'text': MARKUP, 'example': None, 'before': None})
    page.value(f"localStorage.setItem(SOURCE_STORE, {json.dumps(hostile)})")
    page.reload()
    page.value("showTab('source')")
    judge('markup is a text', (MARKUP, True, 0), (page.value("find('source').value"), settled(page), page.value('window.ran ?? 0')))
    page.value("Storage.prototype.setItem = () => { throw new DOMException('full', 'QuotaExceededError'); }; undefined")
    write(page, BLINK)
    judge('no room', True, wait(lambda: page.notice().startswith('This browser has no room for the source')))
    page.close()


def choose(page, path):
    """Chooses a file with a source."""
    page.value("say('')")
    root = page.window.ask('DOM.getDocument')['root']['nodeId']
    node = page.window.ask('DOM.querySelector', nodeId=root, selector='#source-file')['nodeId']
    page.window.ask('DOM.setFileInputFiles', nodeId=node, files=[path])


def try_source_files():
    """A file is opened, by the button or dropped; one that is no source is refused by a sentence, and loses nothing."""
    page = started()
    page.value("showTab('source')")
    choose(page, file_of('blink.agc', BLINK.replace('\n', '\r\n').encode()))
    judge('a file', (BLINK, 'blink', 'source'), (page.see("find('source').value", BLINK), page.value("find('source-name').value"), page.value('inspector.tab')))
    judge('nothing runs', ('Verbs and nouns', 'paused'), (page.text('rope'), page.text('state')))
    page.value('openWoven(false).then(() => 0)')
    judge('it is woven by its name', True, page.see("find('listing-where').textContent.split(',')[0]", 'blink.agc 5') == 'blink.agc 5')
    page.site.open('verbs')
    for what, data, why in (('odd.agc', b'\xff\xfe\x00', 'odd.agc is no source: it is not text.'),
                            ('long.agc', bytes(1_000_001), 'long.agc is too long for a source: 1,000,001 bytes, at most 1,000,000.')):
        choose(page, file_of(what, data))
        judge(what, (why, BLINK), (page.see("find('notice-text').textContent", why), page.value("find('source').value")))
    page.value(f"""(() => {{
        const data = new DataTransfer();
        data.items.add(new File([{json.dumps(MARKUP)}], 'dropped.agc'));
        document.body.dispatchEvent(new DragEvent('drop', {{ dataTransfer: data, bubbles: true, cancelable: true }}));
    }})()""")
    judge('a file that is dropped', MARKUP, page.see("find('source').value", MARKUP))
    lines = f'({MARKS}).map(([line]) => line)'
    judge('its faults', woven(MARKUP)[3], page.see(lines, woven(MARKUP)[3]))
    judge('they are texts', 0, page.value("document.querySelectorAll('#source-panel img, #source-panel script').length + (window.ran ?? 0)"))
    page.click('#source-back')
    judge('the text before', BLINK, page.value("find('source').value"))
    judge('too long to weave', 'The text is too long: 1,000,001 characters, at most 1,000,000.', page.value("weaveText('x'.repeat(1000001)).error"))
    try_stuck(page)
    page.close()


def try_stuck(page):
    """An assembler that does not answer is ended, and another one weaves the next text."""
    page.value("Object.assign(assembling, { longest: 200, worker: new Worker(URL.createObjectURL(new Blob(['']))) }); undefined")
    judge('it is ended', 'The assembler took too long, and was ended.', page.value(f'weaveText({json.dumps(BLINK)}, "blink.agc").then((woven) => woven.error)'))
    judge('the next one weaves', list(woven(BLINK)[0]), page.value(f'assembling.longest = 60000, weaveText({json.dumps(BLINK)}, "blink.agc").then((woven) => [...woven.rope])'))


def try_source_link():
    """A link shows its text, and nothing is woven or run; a faulty one is refused by a sentence. What was kept stays."""
    page = started()
    page.click('#write-button')
    page.see("find('rope').textContent", 'First program')
    write(page, BLINK)
    settled(page)
    link = page.value('linkOfSource(written())')
    write(page, '# another text\n')
    page.open_file(link[link.index('#'):])
    judge('the text of the link', BLINK, page.see("find('source').value", BLINK))
    judge('it stands', ('source', 'paused', 0, True), (page.value('inspector.tab'), page.text('state'), page.cycle(), page.notice().startswith('This source came with the link. It has not run')))
    judge('nothing is woven', (None, None), (page.value('writing.woven'), page.value('assembling.worker')))
    page.open_file()
    judge('what was kept is still there', '# another text\n', page.value("find('source').value"))
    good = {'format': 1, 'name': 'x', 'text': MARKUP, 'example': None}
    cases = [
        ('no text', '!!', 'it is cut off, or no source.'), ('cut off', link[link.index('=') + 1:-40], 'it is cut off, or no source.'),
        ('too long', 'A' * 30001, 'it is too long.'), ('a bomb', packed(b'0' * 10 ** 8)[:30000], 'it is cut off, or no source.'),
        ('a number', packed(7), 'it is no source.'), ('null', packed(None), 'it is no source.'),
        ('another version', packed({**good, 'format': 2}), 'it is of another version of this page.'),
        ('a session', packed({**good, 'text': None}), 'it is no source.'), ('an unknown example', packed({**good, 'example': '__proto__'}), 'it is no source.'),
        ('a long name', packed({**good, 'name': 'x' * 61}), 'it is no source.'), ('a long text', packed({**good, 'text': 'x' * 1_000_001}), 'it is no source.'),
    ]
    for what, code, why in cases:
        page.value(f"say(''); location.hash = 'source={code}'; undefined")
        wanted = f'The source of the link cannot be opened: {why}'
        judge(what, wanted, page.see("find('notice-text').textContent || null", wanted))
    judge('the text stays', '# another text\n', page.value("find('source').value"))
    page.value(f"location.hash = 'source={packed(good)}'; undefined")
    judge('a good link', MARKUP, page.see("find('source').value", MARKUP))
    judge('its markup is a text', 0, page.value("document.querySelectorAll('#source-panel img, #source-panel script').length + (window.ran ?? 0)"))
    judge('the text before can come back', '# another text\n', page.value("bringBack(), find('source').value"))
    page.value("find('source').value = [...Array(90000).keys()].join(' '); undefined")
    page.value('copySourceLink()')
    judge('too long for a link', True, page.notice().startswith('The source is too long for a link: '))
    page.close()


def try_without():
    """Without the assembler there is no tab Source, and a link with a source says so."""
    LocalPage.before = """
        const find_ = Document.prototype.getElementById;
        Document.prototype.getElementById = function (id) { return id === 'assembler' ? null : find_.call(this, id); };
    """
    page = started()
    LocalPage.before = ''
    judge('no tab, no button', [None, None], page.value("[document.querySelector('#source-tab, #source-edit'), document.querySelector('#write-button, #source-list')]"))
    page.value(f"location.hash = 'source={packed(7)}'; undefined")
    judge('a link says so', True, wait(lambda: 'this page has no assembler' in page.notice()))
    page.close()


HAS_ASSEMBLER = os.path.exists(os.path.join(TOP, 'prebuilt', 'wasm32', 'agc-study.wasm'))
if not HAS_ASSEMBLER:
    print('skipped: the tab Source, because ports/build wasm32 has not made its assembler yet')
TRIES = (try_without, try_offered) if not HAS_ASSEMBLER else (try_without, try_offered, try_guided, try_written, try_faults, try_blink, try_sources, try_source_kept, try_source_files, try_source_link)
