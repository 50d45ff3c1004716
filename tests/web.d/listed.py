"""The tab Source: the line that is lit, breakpoints at lines, names, listings that are refused, and the lines of an alarm.

What is wanted is what agc-study traces of the script that the page lets one download, looked up in the listing by the reading
here: a row is a place, a word and `# FILE NUMBER: TEXT`, or `# FILE NUMBER: TEXT` alone, or a place and a word that belong to the
row before.
"""
import os
import re
import shutil
import subprocess
import sys
import time

from judge import STUDY, TOP, judge, scratch_folder
from site_of import Site, example, started, wait
from views import click, opened, see
from whys import full_script
from window import Window

FOLDER = scratch_folder()
LIT = "[...document.querySelectorAll('.listed.here')].map((row) => Number(row.dataset.line))"
WHERE = "document.getElementById('listing-where').textContent"
NAMES = "document.getElementById('listing-names').textContent"
FAULT = "document.getElementById('listing-fault').textContent"
ROWS = "document.querySelectorAll('.listed').length"
MARKUP = '<img src=x onerror="window.ran = 1"><script>window.ran = 1</script>'


def woven(name, source='words', form='classic'):
    """Returns a folder with the rope of an example, woven anew, and its listing beside it."""
    folder = os.path.join(FOLDER, f'{name}{len(os.listdir(FOLDER))}')
    os.mkdir(folder)
    with open(os.path.join(folder, 'rope'), 'wb') as rope:
        words = [STUDY, 'weave', example(name, source), '--form', form, '--write-listing', os.path.join(folder, 'listing')]
        subprocess.run(words, stdout=rope, check=True)
    return folder


def read(folder):
    """Reads a listing: the file, number and text of each line, and the line of each place, as "02,4100"."""
    lines, places = [], {}
    with open(os.path.join(folder, 'listing'), encoding='utf-8') as file:
        for row in file.read().split('\n# names\n')[0].splitlines():
            head, mark, rest = row.partition('# ')
            if mark:
                of, text = rest.split(':', 1)
                lines.append((*of.rsplit(' ', 1), text[1:]))
            if head.strip():
                places[head.split()[0]] = len(lines) - 1
    return lines, places


def physical(place):
    """Returns a trace's place as listings have it: addresses from 4000 on are banks 02 and 03, seen through the window too."""
    bank, _, address = place.rpartition(',')
    at = int(address, 8)
    if at < 0o2000 or bank.startswith('E'):
        return None
    if at >= 0o4000:
        return f'{2 if at < 0o6000 else 3:02o},{at:04o}'
    return f'{bank},{at:04o}' if bank not in ('02', '03') else f'{bank},{at + {"02": 0o2000, "03": 0o4000}[bank]:04o}'


def traced(folder, script, cycles):
    """Returns the place of the first order at each of these cycles, or behind it, as agc-study traces the script."""
    path = os.path.join(folder, 'traced')
    with open(path, 'w', encoding='ascii') as file:
        file.write(script)
    words = [STUDY, 'trace', os.path.join(folder, 'rope'), path, '--from', str(min(cycles)), '--limit', str(max(cycles) + 200)]
    out = subprocess.run(words, stdout=subprocess.PIPE, text=True, check=False).stdout
    orders = [(int(line.split()[0]), line.split()[1]) for line in out.splitlines() if line.split()[1:2] not in ([], ['-'])]
    return {cycle: next(place for at, place in orders if at >= cycle) for cycle in cycles}


def open_tab(window):
    """Opens the tab, once it is there."""
    wait(lambda: window.value("document.getElementById('source-tab') !== null"))
    window.value("document.getElementById('source-tab').click(); undefined")


def shown(window):
    """Opens the tab, and waits for its lines."""
    open_tab(window)
    judge('lines are shown', True, wait(lambda: window.value(ROWS) > 0))


def step(window, count):
    """Steps; returns at each cycle which lines are lit, and what is said of the place."""
    found = {}
    for _ in range(count):
        before = window.value('now.cycle + now.events')
        window.value("ask('step'); undefined")
        wait(lambda: window.value('now.cycle + now.events') != before)
        cycle, lit, where = window.value(f'[now.cycle, {LIT}, {WHERE}]')
        found[cycle] = (lit, where)
    return found


def compare(what, folder, script, found):
    """Compares the lines that were lit with the trace."""
    lines, places = read(folder)
    wanted = {}
    for cycle, place in traced(folder, script, list(found)).items():
        line = places.get(physical(place))
        said = f'{place} is not in the listing.' if line is None else f'{lines[line][0]} {lines[line][1]}, {place}'
        wanted[cycle] = ([] if line is None else [line], said)
    judge(what, wanted, found)


def try_lit():
    """The line of the order that comes next is lit and seen, step by step, also behind events and interrupts; a click at a line is
    a breakpoint there, which is hit, and goes backwards."""
    folder = woven('verbs')
    lines, places = read(folder)
    site = started(os.path.join(folder, 'rope'))
    window = opened(site)
    shown(window)
    site.do('key', name='VERB')
    judge('the key is there', 1, see(window, 'now.events', 1))
    compare('lit, step by step', folder, site.script(), step(window, 60))
    inside = """(() => {
        const [row, area] = [document.querySelector('.listed.here'), document.getElementById('listing')].map((each) => each.getBoundingClientRect());
        return row.top >= area.top && row.bottom <= area.bottom;
    })()"""
    judge('it is seen', True, window.value(inside))
    text = "document.querySelector('.listed.here .code').textContent"
    judge('its text', lines[window.value(LIT)[0]][2], window.value(text))
    keyin = next(i for i, (_, _, text) in enumerate(lines) if text.startswith('KEYIN'))
    place = next(place for place, line in places.items() if line == keyin)
    judge('KEYIN is at 02,4100', '02,4100', place)
    click_line(window, keyin)
    judge('a breakpoint', [place], see(window, 'shown.breakpoints', [place]))
    judge('its line has a mark', [keyin], see(window, "[...document.querySelectorAll('.listed.stops')].map((row) => Number(row.dataset.line))", [keyin]))
    site.do('play')
    site.do('key', name='3')
    judge('it is hit', (place, [keyin]), (see(window, 'now.hit', place), see(window, LIT, [keyin])))
    cycle = window.value('now.cycle')
    judge('where the trace has it', place, physical(traced(folder, site.script(), [cycle])[cycle]))
    back = f"document.querySelector('[data-line=\"{keyin}\"] .back')"
    window.value(f'{back}.click(); undefined')
    judge('it asks whether the key may be dropped', True, see(window, "document.getElementById('ask').open", True))
    window.value("document.getElementById('ask-yes').click(); undefined")
    judge('backwards: the key before', True, wait(lambda: window.value('now.cycle') < cycle, 60))
    earlier = window.value('now.cycle')
    judge('there too', (place, [keyin]), (physical(traced(folder, site.script(), [earlier])[earlier]), see(window, LIT, [keyin])))
    click_line(window, keyin)
    judge('a second click removes it', [], see(window, 'shown.breakpoints', []))
    click_line(window, 0)
    judge('a comment has none', [], window.value('shown.breakpoints'))
    site.do('break', place='KEYIN+2')
    stops = "[...document.querySelectorAll('.listed.stops')].map((row) => Number(row.dataset.line))"
    judge('one by name: the names are those of the listing', [places['02,4102']], see(window, stops, [places['02,4102']]))
    click_line(window, places['02,4102'])
    judge('and a click removes it', [], see(window, 'shown.breakpoints', []))
    try_pointed(site, window, lines, keyin)
    judge('errors of the page', [], window.errors())
    window.close()
    site.end()


def click_line(window, line):
    """Clicks a line, once it no longer moves: the page may still scroll to the line that was lit last."""
    place = f"""(() => {{
        const box = document.querySelector('[data-line="{line}"] .code').getBoundingClientRect();
        return [box.left + 40, (box.top + box.bottom) / 2];
    }})()"""
    last = None
    for _ in range(50):
        window.value(f'showLine({line}); undefined')
        time.sleep(0.1)
        now = window.value(place)
        if now == last:
            break
        last = now
    window.click(*now)


def try_pointed(site, window, lines, keyin):
    """Pointing at a name shows its place, and what the cell has now."""
    line = next(i for i, (_, _, text) in enumerate(lines) if re.search(r'\sTS\s+KEY\b', text))
    window.resize(1280, 6000)  # all lines are in view, so that none moves away from the pointer
    window.value(f'showLine({line}); undefined')
    box = window.value(f"""(() => {{
        const box = document.querySelector('[data-line="{line}"] [data-name="KEY"]').getBoundingClientRect();
        return [(box.left + box.right) / 2, (box.top + box.bottom) / 2];
    }})()""")
    word = lambda: int(site.said('cell 0100')[-5:], 8)
    said = lambda: f'KEY is E0,0100: {word():05o}, {word()}'
    window.mouse('mouseMoved', *box)
    judge('a cell', said(), see(window, NAMES, said()))
    before = said()
    for _ in range(12):
        site.do('step')
    judge('it has another word', True, said() != before)
    judge('and the new one is shown', said(), see(window, NAMES, said()))
    window.resize(1280, 800)
    window.value(f'showLine({keyin}); undefined')
    name = f"document.querySelector('[data-line=\"{keyin}\"] [data-name=\"KEYIN\"]')"
    window.value(f"{name}.dispatchEvent(new PointerEvent('pointerover', {{ bubbles: true }})); undefined")
    judge('a place', 'KEYIN is 02,4100', see(window, NAMES, 'KEYIN is 02,4100'))


def try_banks():
    """In switched banks the lit lines are the trace's too; a place without a line says so, and so does erasable memory."""
    folder = woven('descent', 'descent.agc')
    site = started(os.path.join(folder, 'rope'), example('descent', 'script'))
    window = opened(site)
    shown(window)
    lines, places = read(folder)
    for text in ('PREDICT', 'GUIDE'):
        line = next(i for i, each in enumerate(lines) if re.match(rf'{text}\s', each[2]))
        click_line(window, line)
        place = next(place for place, of in places.items() if of == line)
        site.do('speed', times=1000)
        site.do('play')
        judge(f'{text} is hit', place, see(window, 'now.hit', place))
        site.do('unbreak', place=place)
        found = step(window, 40)
        compare(f'{text}: lit, step by step', folder, site.script(), found)
    window.close()
    site.end()
    try_missing(folder)


def try_missing(folder):
    """Lines from which places were taken out."""
    listing = os.path.join(folder, 'listing')
    with open(listing, encoding='utf-8') as file:
        rows = [row for row in file.read().splitlines() if not row.startswith('02,40')]
    part = os.path.join(folder, 'part')
    with open(part, 'w', encoding='utf-8') as file:
        file.write('\n'.join(rows))
    site = started(os.path.join(folder, 'rope'), '--listing', part)
    window = opened(site)
    shown(window)
    place = traced(folder, '', [0])[0]
    judge('a place that is not there', ([], f'{place} is not in the listing.'), (window.value(LIT), see(window, WHERE, f'{place} is not in the listing.')))
    window.close()
    site.end()


def refusal(window, rope, listing, *more):
    """Returns what the page says of a listing, how many lines it shows, whether a script of it ran, and its elements."""
    site = started(rope, '--listing', listing, *more)
    window.load(site.url)
    open_tab(window)
    wait(lambda: window.value(FAULT) != 'Reading the source …')
    found = window.value(f"[{FAULT}, {ROWS}, window.ran ?? 0, document.querySelectorAll('#source-panel img, #source-panel script').length]")
    judge('the page is there', True, window.value("document.getElementById('state').textContent") != '')
    site.end()
    return found


def written(folder, data):
    path = os.path.join(folder, 'other')
    with open(path, 'wb') as file:
        file.write(data)
    return path


def try_refused():
    """A listing with another word is refused by the first place that differs; so is what is no listing. Markup is a text."""
    folder = woven('verbs')
    rope, listing = os.path.join(folder, 'rope'), os.path.join(folder, 'listing')
    with open(listing, 'rb') as file:
        good = file.read()
    window = Window(os.environ['BROWSER'], folder, 1000, 700)
    wrong = good.replace(b'\n02,4000 14000 ', b'\n02,4000 14001 ')
    later = re.search(rb'\n02,4102 ([0-7]{5}) ', good)
    assert later
    both = wrong.replace(later.group(0), b'\n02,4102 77777 ')
    judge('another word', ['The listing is refused: it is not of this rope: at 02,4000 it has 14001, and the rope 14000.', 0, 0, 0], refusal(window, rope, written(folder, wrong)))
    judge('two: the first place', 'at 02,4000 it', refusal(window, rope, written(folder, both))[0].partition('rope: ')[2][:13])
    only = good.replace(later.group(0), b'\n02,4102 77777 ')
    judge('the later one alone', f'at 02,4102 it has 77777, and the rope {later.group(1).decode()}.', refusal(window, rope, written(folder, only))[0].partition('rope: ')[2])
    for what, data, why in (
        ('a NUL', good.replace(b'KEYIN', b'KEY\0N', 1), 'it has a NUL, so it is no text.'),
        ('a million lines', b'\n' * 999_999, 'it has 1,000,000 lines, at most 200,000.'),
        ('markup', MARKUP.encode(), 'its line 1 is not as weave --write-listing writes it.'),
        ('nothing', b'', 'it has no line with a place and a word.'),
        ('a place twice', good.replace(b'\n02,4102 ', b'\n02,4101 '), ' has the place 02,4101 once more.'),
    ):
        found = refusal(window, rope, written(folder, data))
        judge(what, (True, [0, 0, 0]), (found[0].endswith(why), found[1:]))
    text = good.replace(b'# waits for keys', MARKUP.encode())
    found = refusal(window, rope, written(folder, text))
    judge('markup in a line is a text', (['', 0, 0], True), ([found[0], *found[2:]], found[1] > 0))
    parity = woven('verbs', form='parity')
    found = refusal(window, os.path.join(parity, 'rope'), os.path.join(parity, 'listing'), '--form', 'parity')
    judge('a rope with parity', ('', True), (found[0], found[1] > 0))
    window.close()
    try_unreadable(folder, rope)


def try_unreadable(folder, rope):
    """A file without an end, or that is not there, is refused; one beside the rope is left out."""
    for path, why in (('/dev/zero', 'it has more than 16777216 bytes'), (os.path.join(folder, 'none'), 'No such file or directory')):
        done = subprocess.run([os.path.join(TOP, 'agc-web'), rope, '--listing', path, '--port', '0'], capture_output=True, text=True, timeout=240)
        judge(path, (1, '', f'agc-web: {path}: {why}\n'), (done.returncode, done.stdout, done.stderr))
    with open(os.path.join(folder, 'listing'), 'wb') as file:
        file.truncate(16_777_217)
    site = started(rope)
    judge('too long beside the rope: left out', False, site.state()['about']['listing'])
    judge('and said', f'agc-web: {rope[:-4]}listing is left out: it has more than 16777216 bytes\n', site.end()[2])


def alarmed(text):
    """Flies the landing with a script until PROG lights, in the page with its source. Returns the folder of the source, site and window."""
    folder = woven('descent', 'descent.agc')
    for name in ('names', 'watch'):
        shutil.copyfile(example('descent', name), os.path.join(folder, name))
    script = os.path.join(folder, 'faulty')
    with open(script, 'w', encoding='ascii') as file:
        file.write(text)
    site = Site([sys.executable, '-B', example('descent', 'craft.py'), '--web', '--port', '0', '--script', script, '--rope', os.path.join(folder, 'rope')])
    window = opened(site)
    site.do('speed', times=10)
    site.do('play')
    judge('an alarm', True, wait(lambda: window.value("isLit('PROG')"), 300))
    return folder, site, window


def follow_alarm(folder, site, window, reason, routine):
    """One click leads from the lamp of an alarm to its routine as a line, and one more to the call that found no room. Returns the cycle of
    the first line."""
    click(window, 'Its line', '#alarm button')
    lines, _ = read(folder)
    judge('a line of BAILOUT', 'BAILOUT', line_lit(window, lines, 'BAILOUT'))
    cycle = window.value('now.cycle')
    before = traced(folder, site.script(), [cycle])
    judge('where the trace is there', 'BAILOUT', text_at(folder, lines, before[cycle]))
    judge('the reason', reason, window.value("document.getElementById('listing-cause').firstChild.textContent"))
    click(window, 'The call that found none', '#listing-cause button')
    judge('earlier', True, wait(lambda: window.value('now.cycle') < cycle))
    call = window.value('now.cycle')
    place = traced(folder, site.script(), [call])[call]
    number = read(folder)[1][physical(place)]
    judge('the line of the call', (['TC', routine], [number]), (lines[number][2].split('#')[0].split()[-2:], see(window, LIT, [number])))
    return cycle


def try_no_core_set():
    """A key is pressed while all core sets are taken: the call that found none is a NOVAC of the keyboard's interrupt."""
    with open(example('descent', 'script'), encoding='ascii') as file:
        keys = [line for line in file if ' key ' in line or ' pro ' in line]
    taken = [f'512000 poke 0 {0o200 + 12 * set_number + 11:o} 1\n' for set_number in range(8)]
    folder, site, window = alarmed(''.join([*keys, *taken, '512010 key VERB\n']))
    follow_alarm(folder, site, window, 'Alarm 1202: no core set was free. ', 'NOVAC')
    judge('errors of the page', [], window.errors())
    window.close()
    site.end()


def try_alarm():
    """From the lamp of an alarm to the call that found no VAC area; undo leads back."""
    folder, site, window = alarmed(full_script())
    cycle = follow_alarm(folder, site, window, 'Alarm 1201: no VAC area was free. ', 'FINDVAC')
    lines, _ = read(folder)
    site.do('undo')
    site.do('undo')
    wait(lambda: window.value("isLit('PROG')"))
    window.value("document.querySelector('[data-lamp=PROG] button').click(); undefined")
    judge('the lamp itself leads there too', ('BAILOUT', cycle), (line_lit(window, lines, 'BAILOUT'), see(window, 'now.cycle', cycle)))
    judge('errors of the page', [], window.errors())
    window.close()
    site.end()


def line_lit(window, lines, name):
    """Waits until a line with this name is lit; returns its first word."""
    first = lambda: [lines[line][2].split()[0] for line in window.value(LIT)]
    wait(lambda: first() == [name], 120)
    return (first() or [''])[0]


def text_at(folder, lines, place):
    return lines[read(folder)[1][physical(place)]][2].split()[0]


TRIES = (try_lit, try_banks, try_refused, try_no_core_set, try_alarm)
