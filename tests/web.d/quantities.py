"""Quantities: their file, their values in the tab Watch, and what is refused.

The values are worked out by hand from the rules of docs/WEB.md: of the decimals that are nearer to a value than half a step, the one
with the fewest digits.
"""
import json
import os
import shutil
import subprocess

from judge import AGC, STUDY, TOP, judge, scratch_folder
from site_of import example, started, wait
from views import opened, see

FOLDER = scratch_folder()
ROWS = "[...document.querySelectorAll('#quantity-rows tr')].map((row) => [...row.children].slice(0, 3).map((each) => each.textContent))"
FAULT = "document.getElementById('quantities-fault').textContent"
MARKUP = '<img/src=x/onerror=window.ran=1>'

VALUES = (
    ('double B14', '00001 00000', '1'),
    ('double B14', '00000 00001', '0.00006'),  # 0.000061, within 0.000031
    ('double B14', '00001 77776', '0.99994'),  # words of unlike sign: 16383 steps
    ('double B14', '77776 00001', '-0.99994'),
    ('single B-6', '00001', '0.000001'),  # 0.00000095, within 0.00000048
    ('single B0', '37777', '0.99994'),  # 0.9999390, within 0.0000305: not 0.9999
    ('single B14', '77777', '0'),
    ('single B14', '00000', '0'),
    ('single B14', '40000', '-16383'),
    ('single 14000', '20000', '7000'),
    ('single 14000', '00001', '1'),  # 0.854, within 0.427
    ('single 0.0125', '00001', '0.000001'),  # 0.00000076, within 0.00000038
    ('single 40960', '00001', '2'),  # 2.5: 2 and 3 are equally near
    ('single 40960', '77774', '-7'),  # -7.5
    ('single 52428.8', '00003', '10'),  # 9.6, within 1.6: 10 is nearer than 9, and the carry makes a digit more
    ('single 6553.6', '00003', '1.2'),  # 1 is as near to 0.8, the neighbour
    ('unsigned 360', '40000', '180'),
    ('unsigned 360', '77777', '359.99'),  # 359.98901, within 0.00549
    ('triple B42', '00000 00000 00001', '1'),
    ('triple B42', '00000 00001 00000', '16384'),
    ('triple B28', '77776 00000 00000', '-16384'),
    ('double B60', '37777 37777', '1152921500311879680'),  # 2^60 - 2^32
    ('bits 15-13', '50000', '5'),
    ('bits 13', '10000', '1'),
    ('bits 3-1', '77776', '6'),
    ('octal 15-1', '01202', '01202'),
    ('octal 6-3', '00024', '05'),
)
"""A kind and a scale, words in octal, and the value."""

SECONDS = ((0, '0'), (1, '0.00001'), (256000, '3'), (85333, '1'), (-256000, '-3'))
"""Cycles, and their seconds: 3/256000 each."""

WRONG = (
    ('a 0100 doubel B14', 'line 1: unknown kind doubel: single, double, triple, vector, unsigned, bits, octal.'),
    ('1a 0100 single B14', 'line 1: bad name 1a: a letter, then letters, digits, _ . and -, at most 24.'),
    ('\n# one\na 0100 single B14\na 0101 single B14', 'line 4: a has a line already.'),
    ('a 0100 vector B14 m\na.y 0101 single B14', 'line 2: a.y has a line already.'),
    ('a 0100 single', 'line 1: too few fields: NAME PLACE KIND SCALE [UNIT].'),
    ('a 0100 single B14 m s', 'line 1: too many fields: NAME PLACE KIND SCALE [UNIT].'),
    ('a 0100 single B61', 'line 1: bad scale B61: B-60 to B60, or a positive number of at most 15 digits.'),
    ('a 0100 single 0.00', 'line 1: bad scale 0.00: B-60 to B60, or a positive number of at most 15 digits.'),
    ('a 0100 single 1234567890.123456', 'line 1: bad scale 1234567890.123456: B-60 to B60, or a positive number of at most 15 digits.'),
    ('a 0100 bits 16', 'line 1: bad bits 16: N or HIGH-LOW, 15 to 1.'),
    ('a 0100 bits 1-3', 'line 1: bad bits 1-3: N or HIGH-LOW, 15 to 1.'),
    ('a 0100 single B14 ' + 17 * 'm', 'line 1: bad unit ' + 17 * 'm' + ': at most 16 characters.'),
    ('# nothing', 'there is no quantity in the file.'),
    (''.join(f'a{i} 0100 vector B14\n' for i in range(22)), 'line 22: more than 64 columns.'),
    ('a 0100 single B14\nb 4000 single B14', 'line 2: 4000: a cell is in erasable memory: octal, such as 0100 or E3,1400.'),
    ('a COUNZ single B14', 'line 1: COUNZ: unknown name; did you mean COUNT?'),
    ('a COUNT single B14\nb E3,1777 double B14\nc NOTHING single B0', 'line 2: E3,1777 runs past the last cell of its bank. 1 more.'),
    ('a COUNT+191 double B14', 'line 1: COUNT+191 runs past the last cell of its bank.'),
    ('a E3,1776 double B14\nb 0377 double B14', 'line 2: 0377 runs past the last cell of its bank.'),
    (f'a{MARKUP} 0100 single B14', f'line 1: bad name a{MARKUP}: a letter, then letters, digits, _ . and -, at most 24.'),
)
"""Files, and what is said of their first fault. COUNT is 0100, and bank E0 ends with 0377."""


def named(name, text):
    """Writes a file, and returns its path."""
    path = os.path.join(FOLDER, name)
    with open(path, 'w', encoding='ascii') as file:
        file.write(text)
    return path


def open_tab(window, name):
    """Opens a tab, once it is there."""
    wait(lambda: window.value(f"document.getElementById('{name}-tab') !== null"))
    window.value(f"document.getElementById('{name}-tab').click(); undefined")


def try_values(value):
    """Words become numbers, and numbers decimals; `value` runs a script in the page."""
    for scale, words, wanted in VALUES:
        text = f'q 0100 {scale} m'
        script = f"(([column]) => textOf(numberOf({json.dumps([int(word, 8) for word in words.split()])}, column), column))(readQuantities({json.dumps(text)}).quantities[0].columns)"
        judge(f'{scale}: {words}', wanted, value(script))
    for cycle, wanted in SECONDS:
        judge(f'seconds of cycle {cycle}', wanted, value(f'decimalOf({cycle}, {{ p: 3n, b: 256000n }})'))


def try_watch():
    """The file that is named: values with units, as the words of the machine change; and what is said of files with faults."""
    script = named('script', '0 poke 0 200 00001\n0 poke 3 1 77776\n0 poke 3 2 00001\n0 poke 3 3 00002\n50 poke 0 200 00002\n')
    text = ('# some\r\n\r\nheight\t0200 double B14 m\r\n  rate 0200   single B0\r\nplace E3,1401 vector B28 m  # three\r\nflag 0200 bits 1\r\n')
    site = started(example('keys', 'rope'), script, '--quantities', named('some', text))
    window = opened(site)
    open_tab(window, 'watch')
    wanted = [['height', '0', 'm'], ['rate', '0', ''], ['place.x', '0', 'm'], ['place.y', '0', 'm'], ['place.z', '0', 'm'], ['flag', '0', '']]
    judge('at the start', wanted, see(window, ROWS, wanted))
    for _ in range(4):
        site.do('step')
    wanted = [['height', '1', 'm'], ['rate', '0.00006', ''], ['place.x', '-16383', 'm'], ['place.y', '32768', 'm'], ['place.z', '0', 'm'], ['flag', '1', '']]
    judge('after the pokes', wanted, see(window, ROWS, wanted))
    while site.state()['time']['cycle'] <= 50:
        site.do('step')
    judge('after the last', ['height', '2', 'm'], see(window, f'{ROWS}[0]', ['height', '2', 'm']))
    judge('no fault', '', window.value(FAULT))
    try_values(window.value)
    judge('errors of the page', [], window.errors())
    window.close()
    site.end()


def try_wrong():
    """The first fault of a file is said, with its line; quantities without a fault are shown."""
    site = started(example('keys', 'rope'), '--names', example('console', 'names', 'names'), '--quantities', named('wrong', WRONG[-2][0]))
    window = opened(site)
    judge('of the file that is named', f'The file of quantities, {WRONG[-2][1]}', see(window, FAULT, f'The file of quantities, {WRONG[-2][1]}'))
    for text, why in WRONG:
        window.value(f"keepQuantities({{ ...quantities.about, quantities: {json.dumps(text)} }}).then(() => 0)")
        judge(f'{text[:60]!r}', f'The file of quantities, {why}', window.value(FAULT))
    judge('no markup', [0, 0], window.value("[document.querySelectorAll('#watch-panel img').length, window.ran ?? 0]"))
    window.value("keepQuantities({ ...quantities.about, quantities: 'a 0100 doubel B14\\nb COUNT single B14 m' }).then(() => 0)")
    judge('the others are shown', ['b'], window.value(f'{ROWS}.map(([name]) => name)'))
    judge('errors of the page', [], window.errors())
    window.close()
    site.end()


def try_beside():
    """A file beside the rope is found by its three names; one that is too long is left out, or refused if it was named."""
    text = 'height 0200 double B14 m\n'
    for rope, beside in (('a.bin', 'a.bin.quantities'), ('b.rope', 'b.quantities'), ('rope', 'quantities')):
        shutil.copyfile(example('keys', 'rope'), os.path.join(FOLDER, rope))
        named(beside, text)
        site = started(os.path.join(FOLDER, rope))
        judge(beside, text, site.state()['about']['quantities'])
        site.end()
    path = named('quantities', '#' * 1_048_577)
    site = started(os.path.join(FOLDER, 'rope'))
    judge('too long beside the rope', None, site.state()['about']['quantities'])
    judge('and said', f'agc-web: {path} is left out: it has more than 1048576 bytes\n', site.end()[2])
    done = subprocess.run([os.path.join(TOP, 'agc-web'), example('keys', 'rope'), '--quantities', path], capture_output=True, text=True, timeout=240)
    judge('named', (1, f'agc-web: {path}: it has more than 1048576 bytes\n'), (done.returncode, done.stderr))


def try_ranges():
    """A look at so many cells; what is no place with a count is not said to the console."""
    site = started(example('keys', 'rope'), named('script', '0 poke 0 200 00001\n0 poke 0 201 77776\n'))
    for _ in range(2):
        site.do('step')
    window = opened(site)
    looked = lambda cell: window.value(f'session.look({{ cells: [{json.dumps(cell)}] }}).then(({{ cells }}) => Object.values(cells)[0])')
    judge('two cells', [1, 0o77776], looked('0200 2'))
    judge('six cells', [1, 0o77776, 0, 0, 0, 0], looked('0200 6'))
    for cell in ('0200 7', '0200 1', '0200 22', '0200  2', '0200 2 ', '0200 2\n', '0200\n', ''):
        judge(repr(cell), 'a cell is one word', looked(cell))
    judge('past all cells', True, looked('E7,1777 2').startswith('a number of cells is '))
    window.close()
    site.end()


EVERY = 10000
POKES = 400
"""Cycles from one poke of cell 0200 to the next, each with a word that is greater by one, and how many there are."""

DRAWN = """((colour, last) => {
    const canvas = find('plot-canvas');
    const { data } = canvas.getContext('2d').getImageData(0, 0, canvas.width, canvas.height);
    const columns = new Set();
    for (let i = 0; i < data.length; i += 4) if (colour.every((each, j) => Math.abs(data[i + j] - each) < 40)) columns.add((i / 4) % canvas.width);
    return [columns.size, Math.max(0, ...columns)];
})([93, 255, 155])"""
"""How many columns of the canvas have the colour of the first curve, and which is the last one."""

SAMPLES = 'plot.samples.map(({ cycle, isGap, numbers }) => [cycle, isGap, numbers])'


def poked():
    """Writes a script that pokes cell 0200, and a file with seven quantities."""
    script = named('pokes', ''.join(f'{EVERY * i} poke 0 200 {i:05o}\n' for i in range(1, POKES + 1)))
    return script, named('seven', 'count 0200 single B14 turns\n' + ''.join(f'other{i} 0{i}00 double B0\n' for i in range(1, 7)))


def count_at(cycle):
    """Returns the word of the last poke before a cycle."""
    return min(POKES, max(0, cycle - 1) // EVERY)


def judge_samples(what, samples):
    """Each sample has the word of the last poke before it; at the cycle of a poke that may have happened."""
    wrong = [(cycle, numbers) for cycle, _, numbers in samples if not count_at(cycle) <= numbers['count'] <= count_at(cycle + 1)]
    judge(f'{what}: each sample has the word of its cycle', [], wrong)
    cycles = [cycle for cycle, *_ in samples]
    judge(f'{what}: in their order', sorted(set(cycles)), cycles)


def place_of(window, cycle):
    """Returns where the plot has a cycle."""
    return window.value(f"(({{ left, top }}) => [left + xOf({cycle}, viewNow()), top + 60])(find('plot-area').getBoundingClientRect())")


def go_by(window, cycle, press):
    """Presses the plot at a cycle, and waits until time stands near it: a point may be many cycles."""
    press(*place_of(window, cycle))
    near = window.value('(viewNow().to - viewNow().from) / plotWidth()')
    judge(f'time goes to {cycle}', True, wait(lambda: abs(window.value('now.cycle') - cycle) <= 2 * near + 6 and window.value('pending') == 0 and not window.value('plot.isBusy')))


def try_plot():
    """Curves grow as time goes on; the cursor takes time back and ahead; going back cuts the curves, and undoing that restores them."""
    script, file = poked()
    site = started(example('keys', 'rope'), script, '--quantities', file)
    window = opened(site)
    open_tab(window, 'plot')
    pressed = "[...document.querySelectorAll('#plot-choice button')].map((each) => each.getAttribute('aria-pressed') === 'true')"
    judge('six are chosen', [True] * 6 + [False], see(window, pressed, [True] * 6 + [False]))
    window.value("document.querySelector('#plot-choice button:last-child').click(); undefined")
    judge('a seventh is not', 'At most 6 at a time.', window.value("document.getElementById('plot-said').textContent"))
    site.do('speed', times=10)
    site.do('play')
    judge('samples come', True, wait(lambda: window.value('plot.samples.length') >= 12 and window.value('now.cycle') > 500000))
    site.do('pause')
    end = see(window, 'now.playing ? 0 : now.cycle', site.state()['time']['cycle'])
    judge('the last one is where time stands', end, see(window, 'plot.samples.at(-1).cycle', end))
    samples = window.value(SAMPLES)
    judge_samples('running', samples)
    judge('without a gap', [], [cycle for cycle, is_gap, _ in samples if is_gap])
    value = f'{count_at(end)} turns'
    judge('the value at the cursor', f'count {value}', see(window, "document.querySelector('#plot-labels p').textContent", f'count {value}'))
    judge('it is drawn', True, wait(lambda: window.value(DRAWN)[0] > 300))
    try_cursor(site, window, end, samples)
    try_csv(window)
    judge('errors of the page', [], window.errors())
    window.close()
    site.end()


def try_cursor(site, window, end, samples):
    """A click goes back, a drag on the way shows where to, a click goes ahead, and keys do both."""
    go_by(window, end // 2, window.click)
    here = window.value('now.cycle')
    judge('there is a sample', here, see(window, 'plot.samples.at(-1).cycle', here))
    judge('the curves are cut', [each for each in samples if each[0] < here], window.value(SAMPLES)[:-1])
    edge = place_of(window, here)[0] - place_of(window, 0)[0] + 58
    judge('nothing is drawn behind the cursor', True, wait(lambda: 100 < window.value(DRAWN)[1] <= edge + 3))
    said = f'{here * 3 / 256000:.3f} s: count {count_at(here)} turns'
    judge('a screen reader gets the value', said, see(window, "find('plot-area').getAttribute('aria-valuetext').split(',')[0]", said))
    site.do('undo')
    cycles = sorted([here, *(cycle for cycle, *_ in samples)])
    judge('undo brings time back', cycles, see(window, 'plot.samples.map(({ cycle }) => cycle)', cycles))
    judge('and the curves', samples, [each for each in window.value(SAMPLES) if each[0] != here])
    window.mouse('mousePressed', *place_of(window, end // 2))
    window.mouse('mouseMoved', *place_of(window, end // 4))
    judge('while it is dragged time stays', (True, end), (window.value("find('plot-time').textContent") != '' or window.value("plot.dragged !== null"), window.value('now.cycle')))
    window.mouse('mouseReleased', *place_of(window, end // 4))
    judge('then it goes there', True, wait(lambda: abs(window.value('now.cycle') - end // 4) < end // 50))
    go_by(window, end * 3 // 4, window.click)
    samples = window.value(SAMPLES)
    judge_samples('on the way ahead', samples)
    judge('the way ahead has samples, and no gap', (True, []), (len([1 for cycle, *_ in samples if cycle > end // 4]) > 10, [cycle for cycle, is_gap, _ in samples if is_gap]))
    try_keys(site, window, end)


def try_keys(site, window, end):
    """The arrow keys move the cursor by a hundredth; what is gone without the plot is a gap."""
    before = window.value('now.cycle')
    window.value("find('plot-area').focus(); undefined")
    window.type('ArrowLeft')
    judge('a hundredth back', True, wait(lambda: 0 <= window.value('now.cycle') - (before - round(end / 100)) <= 6))
    window.type('Home')
    judge('to the start', 0, see(window, 'now.cycle', 0))
    judge('one sample is left', [[0, False]], see(window, 'plot.samples.map(({ cycle, isGap }) => [cycle, isGap])', [[0, False]]))
    judge('the page has gone there', False, see(window, 'Boolean(plot.isBusy)', False))
    site.do('go', cycle=end // 2)
    judge('by the slider there is a gap', [False, True], see(window, 'plot.samples.map(({ isGap }) => isGap)', [False, True]))
    label = f"(() => {{ plot.dragged = {end // 4}; drawPlot(); plot.dragged = null; return document.querySelector('#plot-labels p').textContent; }})()"
    judge('in which there is no value', 'count – turns', window.value(label))


def try_csv(window):
    """The samples are saved in the form of agc-study sample."""
    window.value("window.blobs = []; const make_ = URL.createObjectURL; URL.createObjectURL = (blob) => { blobs.push(blob); return make_(blob); }; undefined")
    window.value("HTMLAnchorElement.prototype.click = function () { window.saved = this.download; }; undefined")
    window.value("document.getElementById('plot-save').click(); undefined")
    see(window, 'blobs.length', 1)
    text = window.value('blobs[0].text()')
    cycle = window.value('plot.samples[1].cycle')
    lines = text.split('\n')
    judge('its name, header and end', ('quantities.csv', 'cycle,seconds,count,other1,other2,other3,other4,other5', ''), (window.value('window.saved'), lines[0], lines[-1]))
    judge('the page says so', f'Saved as quantities.csv: {len(lines) - 2:,} samples.', window.value("document.getElementById('plot-said').textContent"))
    row = lines[2].split(',')
    judge('a row', [str(cycle), str(count_at(cycle)), 8], [row[0], row[2], len(row)])
    judge('its seconds', True, abs(float(row[1]) - cycle * 3 / 256000) < 3 / 512000)


LAMP_WORDS = """4000 14000 TCF 4000
4024 34030 CA 4030
4025 00006 EXTEND
4026 01010 WRITE 10
4027 50017 RESUME
4030 60400 the lamp PROG
"""
LAMP_SCRIPT = '600000 key VERB\n'


def lamp_rope():
    """A rope that lights PROG for a key, a script with that key, and the cycle of the write in agc's log."""
    words, rope, script = (os.path.join(FOLDER, name) for name in ('lamp-words', 'lamp-rope', 'lamp-script'))
    for path, text in ((words, LAMP_WORDS), (script, LAMP_SCRIPT)):
        with open(path, 'w', encoding='ascii') as file:
            file.write(text)
    with open(rope, 'wb') as file:
        subprocess.run([STUDY, 'weave', words], stdout=file, check=True)
    log = subprocess.run([AGC, rope, script, '--limit', '700000', '--log'], capture_output=True, text=True, check=True).stdout
    return rope, script, next(int(line.split()[0]) for line in log.splitlines() if line.endswith(' 010 60400'))


def try_lamp():
    """The plot has a line where the PROG lamp went on: at the very cycle once time stands, also after a jump, until time goes back."""
    rope, script, lit = lamp_rope()
    file = os.path.join(FOLDER, 'lamp-quantities')
    with open(file, 'w', encoding='ascii') as out:
        out.write('count 0100 single B14\n')
    site = started(rope, script, '--quantities', file)
    window = opened(site)
    open_tab(window, 'plot')
    see(window, 'plot.samples.length', 1)
    said = "document.getElementById('plot-alarms').textContent"
    judge('no alarm yet', '', window.value(said))
    site.do('speed', times=10)
    site.do('play')
    wait(lambda: window.value('now.cycle') > 900000)
    site.do('pause')
    alarms, words = 'plot.alarms.map(({ cycle }) => cycle)', f'Pink: the PROG lamp goes on at {lit * 3 / 256000:.3f} s.'
    judge('the alarm', ([lit], words), (see(window, alarms, [lit]), see(window, said, words)))
    pink = """(() => {
        const { data } = find('plot-canvas').getContext('2d').getImageData(0, 30, find('plot-canvas').width, 1);
        const found = [...Array(data.length / 4).keys()].filter((x) => data[4 * x] > 150 && data[4 * x + 1] < 120 && data[4 * x + 2] > 90);
        return found.length ? found.reduce((one, other) => one + other) / found.length + 0.5 : 0;
    })()"""
    place = place_of(window, lit)[0] - place_of(window, 0)[0] + 58
    judge('its line', True, wait(lambda: abs(window.value(pink) - place) < 2))
    site.do('go', cycle=300000)
    judge('before it there is none', [], see(window, alarms, []))
    judge('and no line', 0, see(window, pink, 0))
    site.do('undo')
    judge('undo brings it back', [lit], see(window, alarms, [lit]))
    site.do('go', cycle=300000)
    see(window, alarms, [])
    site.do('go', cycle=800000)
    judge('after a jump it is where it was', [lit], see(window, alarms, [lit]))
    judge('errors of the page', [], window.errors())
    window.close()
    site.end()


def try_thinned():
    """However many samples come, few are kept, and with them each curve's least and greatest, and gaps."""
    site = started(example('keys', 'rope'), '--quantities', poked()[1])
    window = opened(site)
    see(window, 'plot.samples.length', 1)
    kept = window.value("""(() => {
        let most = 0;
        for (let i = 1; i <= 50000; i += 1) {
            if (i === 3000) plot.isGap = true;
            const word = i === 777 ? 16383 : i === 1234 ? 32767 - 16000 : i % 100;
            addSample(i, Object.fromEntries(plot.chosen.map(({ cells }) => [cells, cells.includes(' ') ? [word, 0] : word])));
            most = Math.max(most, plot.samples.length);
        }
        const numbers = plot.samples.map(({ numbers }) => numbers.count);
        const cycles = plot.samples.map(({ cycle }) => cycle);
        const gaps = plot.samples.filter(({ isGap }) => isGap).length;
        return { most, least: Math.min(...numbers), greatest: Math.max(...numbers), gaps, first: cycles[0], last: cycles.at(-1), inOrder: cycles.every((each, i) => !i || each > cycles[i - 1]) };
    })()""")
    judge('samples', {'most': kept['most'], 'least': -16000, 'greatest': 16383, 'gaps': 1, 'first': 0, 'last': 50000, 'inOrder': True}, kept)
    judge('at most 4096', True, kept['most'] <= 4096)
    window.close()
    site.end()


def try_phone():
    """At the width of a phone nothing is wider than the page, a finger takes time back, and the controls have names."""
    script, file = poked()
    site = started(example('keys', 'rope'), script, '--quantities', file)
    window = opened(site, (390, 844))
    open_tab(window, 'plot')
    see(window, 'plot.samples.length', 1)
    site.do('step')
    site.do('speed', times=100)
    site.do('play')
    wait(lambda: window.value('now.cycle') > 500000)
    site.do('pause')
    end = see(window, 'now.playing ? 0 : now.cycle', site.state()['time']['cycle'])
    window.value("document.getElementById('plot-area').scrollIntoView({ block: 'center' }); undefined")
    judge('nothing is wider than the page', True, window.value('document.documentElement.scrollWidth <= document.documentElement.clientWidth'))
    overlaps = """(() => {
        const boxes = ['plot-choice', 'plot-area', 'plot-save'].map((id) => find(id).getBoundingClientRect());
        return boxes.slice(1).filter((box, i) => box.top < boxes[i].bottom).length;
    })()"""
    judge('nothing overlaps', 0, window.value(overlaps))
    window.ask('Emulation.setTouchEmulationEnabled', enabled=True)

    def tap(x, y):
        window.ask('Input.dispatchTouchEvent', type='touchStart', touchPoints=[{'x': x, 'y': y}])
        window.ask('Input.dispatchTouchEvent', type='touchEnd', touchPoints=[])

    go_by(window, end // 2, tap)
    window.ask('Accessibility.enable')
    nodes = window.ask('Accessibility.getFullAXTree')['nodes']
    named_so = {(node['role']['value'], node.get('name', {}).get('value', '')) for node in nodes if not node.get('ignored')}
    wanted = {('slider', 'Machine time: the cursor of the plot'), ('button', 'Save as CSV'), ('button', 'count'), ('combobox', 'Time'), ('tab', 'Plot')}
    judge('the controls have names', set(), wanted - named_so)
    judge('errors of the page', [], window.errors())
    window.close()
    site.end()


TRIES = (try_watch, try_wrong, try_beside, try_ranges, try_plot, try_lamp, try_thinned, try_phone)
