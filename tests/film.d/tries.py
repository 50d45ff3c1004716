"""Tries films in a browser: what the page shows at a cycle, and what its keys, buttons and slider do.

    tries.py FOLDER BROWSER

The folder has the films that tests/film has made. What is wanted is worked out by hand from docs/study/film.md and from the
DSKY's own drawings.
"""
import functools
import os
import re
import runpy
import sys
import tempfile
import time

from browser import Browser
from judge import attempt, depends_on_time, finish, judge, near

HERE = os.path.dirname(os.path.abspath(__file__))
SIDES = ('left', 'right')
FIELDS = ('PROG', 'VERB', 'NOUN', 'R1', 'R2', 'R3')
LINES = (*FIELDS, 'FLASH', 'LAMPS')
KEPT_EVERY = 1024  # changes, after each of which the page keeps what is shown
BLOCKS = re.compile('(?:<script type="text/plain".*?</script>\n)+', re.DOTALL)

# The segments of the DSKY's digits: a top, b upper right, c lower right, d bottom, e lower left, f upper left, g middle.
DIGITS = {'0': 'abcdef', '1': 'bc', '2': 'abdeg', '3': 'abcdg', '4': 'bcfg', '5': 'acdfg', '6': 'acdefg', '7': 'abc',
          '8': 'abcdefg', '9': 'abcdfg', '_': '', '?': 'abeg'}
SIGNS = {'+': 'g lower upper', '-': 'g', '_': ''}

# The lamps row by row, and how the DSKY's left and right columns are lit: white is a state, amber a caution.
LAMPS = ['UPLINK ACTY', 'TEMP', 'NO ATT', 'GIMBAL LOCK', '', 'PROG', 'KEY REL', '', 'OPR ERR', 'TRACKER', '', 'ALT', 'ISS', 'VEL']
WHITE, AMBER, DARK = 'rgb(255, 243, 207)', 'rgb(255, 185, 56)', 'rgb(61, 63, 57)'
GREEN, DARK_GREEN = 'rgb(77, 255, 143)', 'rgb(22, 32, 26)'

# The relay words: each digit's row and side of it, the rows of the sign relays, and the row and bit of each lamp. Channel 11
# stands for a row with the number 0.
CODES = dict(zip('_0123456789?', (0o00, 0o25, 0o03, 0o31, 0o33, 0o17, 0o36, 0o34, 0o23, 0o35, 0o37, 0o01)))
DIGIT_ROWS = {'PROG': '11L 11R', 'VERB': '10L 10R', 'NOUN': '9L 9R', 'R1': '8R 7L 7R 6L 6R', 'R2': '5L 5R 4L 4R 3L', 'R3': '3R 2L 2R 1L 1R'}
SIGN_ROWS = {'R1': {'+': 7, '-': 6}, 'R2': {'+': 5, '-': 4}, 'R3': {'+': 2, '-': 1}}
LAMP_BITS = {'COMP ACTY': (0, 2), 'UPLINK ACTY': (0, 3), 'NO ATT': (12, 4), 'TEMP': (0, 4), 'GIMBAL LOCK': (12, 6), 'PROG': (12, 9), 'KEY REL': (0, 5),
             'OPR ERR': (0, 7), 'TRACKER': (12, 8), 'ALT': (12, 5), 'VEL': (12, 3), 'ISS': (0, 1)}
FLASH_BIT, SIGN_BIT, ROWS = 6, 11, 13

# The keyboard: its columns from the left, each from above. The outer ones begin half a key lower.
KEYBOARD = [['VERB', 'NOUN'], ['+', '-', '0'], ['7', '4', '1'], ['8', '5', '2'], ['9', '6', '3'], ['CLR', 'PRO', 'KEYREL'],
            ['ENTR', 'RSET']]
HALF_LOWER = {'VERB': '+', 'NOUN': '-', 'ENTR': 'CLR', 'RSET': 'PRO'}

A_SECOND = 1024000 / 12  # cycles
# The speeds from the slowest on, and the keys that set each from 1×.
SPEEDS = {'1/100×': 0.01, '1/10×': 0.1, '1×': 1, '10×': 10, '100×': 100, '1000×': 1000}
SPEED_KEYS = {'1/100×': ['<<', '<<<'], '1/10×': ['<', '<<>'], '1×': ['1', '<>'], '10×': ['2', '>'], '100×': ['3', '>>'], '1000×': ['4', '>>>>', '3>']}
CONTROLS = ('apart', 'strip', 'time', 'start', 'previous', 'play', 'next', 'end', 'difference', 'speed', 'clock')
TABLES_PART = (16, 25)  # of the tables
PART = (140000, 265000)  # the first and the last cycle of the part that tests/film films
WIDTH, HEIGHT = 1000, 900  # in which all controls are seen


class Tries:
    """What was tried, and with what end."""

    def __init__(self, folder, browser):
        self.folder, self.browser = folder, browser

    def check(self, what, wanted, found):
        judge(what, wanted, found)

    def near(self, what, wanted, found, by):
        near(what, wanted, found, by)

    def file(self, name):
        with open(os.path.join(self.folder, name), encoding='utf-8') as file:
            return file.read()

    def page(self, name, film='one.html', **blocks):
        """Writes a page with these blocks in place of those of a film."""
        text = ''.join(f'<script type="text/plain" id="{id}">{block}</script>\n' for id, block in blocks.items())
        with open(os.path.join(self.folder, name), 'w', encoding='utf-8') as file:
            file.write(BLOCKS.sub(lambda _: text, self.file(film)))
        return name

    def open(self, name, hash=''):
        self.browser.open(os.path.join(self.folder, name), hash)
        with open(os.path.join(HERE, 'look.js'), encoding='utf-8') as look:
            self.browser.value(look.read() + '; undefined')

    def look(self, script):
        return self.browser.value(f'Look.{script}')

    def go(self, cycle):
        """Goes to a cycle as a link does."""
        self.look(f'go({cycle})')

    def clock(self):
        return self.look("text('clock')")

    def cycle(self):
        return int(self.clock().split(' ')[1])

    def press(self, *names):
        for name in names:
            self.browser.press(name)

    def click(self, control):
        box = self.look(f"box('{control}')")
        if box:
            self.browser.click((box['left'] + box['right']) / 2, (box['top'] + box['bottom']) / 2)

    def wait(self, script):
        """Waits until a script gives true, at most four minutes; whether it did."""
        end = time.monotonic() + 240
        while time.monotonic() < end:
            if self.browser.value(script):
                return True
            time.sleep(0.02)
        return False


def panel(lamps='none', flash='off', **fields):
    """The eight lines of a panel; the fields that are not given are blank."""
    blank = {name: '__' if len(name) > 2 else '______' for name in FIELDS}
    lines = [f'{name} {text}' for name, text in {**blank, **fields}.items()]
    return '\n'.join([*lines, f'FLASH {flash}', f'LAMPS {lamps}']) + '\n'


def digits_of(name):
    """The digits of a line of the panel: the row of each, and how far to the left it stands there."""
    return [(int(digit[:-1]), 5 if digit[-1] == 'L' else 0) for digit in DIGIT_ROWS[name].split()]


def words_of(shown):
    """The words that give a panel, by their rows."""
    lines = dict(line.split(' ', 1) for line in shown.splitlines())
    bits = [LAMP_BITS[lamp] for lamp in lines['LAMPS'].split(', ') if lamp != 'none']
    bits += [(0, FLASH_BIT)] if lines['FLASH'] == 'on' else []
    bits += [(rows[lines[name][0]], SIGN_BIT) for name, rows in SIGN_ROWS.items() if lines[name][0] in rows]
    words = [row << 11 for row in range(ROWS)]
    for row, bit in bits:
        words[row] |= 1 << (bit - 1)
    for name in FIELDS:
        for (row, shift), digit in zip(digits_of(name), lines[name][-len(digits_of(name)):]):
            words[row] |= CODES[digit] << shift
    return words


def panel_of(words):
    """The panel that words give, as agc prints it."""
    glyphs = {code: digit for digit, code in CODES.items()}
    fields = {}

    def is_on(row, bit):
        return words[row] >> (bit - 1) & 1

    for name in FIELDS:
        sign = next((sign for sign, row in SIGN_ROWS[name].items() if is_on(row, SIGN_BIT)), '_') if name in SIGN_ROWS else ''
        fields[name] = sign + ''.join(glyphs.get(words[row] >> shift & 0o37, '?') for row, shift in digits_of(name))
    lit = [lamp for lamp, (row, bit) in LAMP_BITS.items() if is_on(row, bit)]
    return panel(lamps=', '.join(lit) or 'none', flash='on' if is_on(0, FLASH_BIT) else 'off', **fields)


def write(cycle, row, word):
    """The line of a write of a row's word."""
    return f'{cycle} {"010" if row else "011"} {word:05o}\n'


def run(frames, keys=(), stop=2000000, rope='rope', script='script'):
    """A block of a run: its files and limit, the writes that make its panels, its keys, and its stop."""
    text, words = f'\nrope {rope}\nscript {script}\nlimit {stop}\n', words_of(panel())
    for cycle, shown in frames:
        text += ''.join(write(cycle, row, word) for row, word in enumerate(words_of(shown)) if word != words[row])
        words = words_of(shown)
    return text + ''.join(f'key {cycle} {name}\n' for cycle, name in keys) + f'stop {stop} Limit\n'


def written_in(page, side):
    """The lines of the writes of a run of a page."""
    blocks = re.findall(f'<script type="text/plain" (?:id|class)="{side}">\n(.*?)</script>', page, re.DOTALL)
    return re.findall('^([0-9]+) (01[01]) ([0-7]{5})$', ''.join(blocks), re.MULTILINE)


def panels_by(writes):
    """What the panel shows after writes: the cycle of each change, and the panel then."""
    frames, words = [(-1, panel())], words_of(panel())
    for cycle, channel, octal in writes:
        word = int(octal, 8)
        row = 0 if channel == '011' else word >> 11 or ROWS
        if row < ROWS:
            words[row] = word
        shown = panel_of(words)
        if shown != frames[-1][1]:
            frames = frames[:-1] if frames[-1][0] == int(cycle) else frames
            frames.append((int(cycle), shown))
    return frames[1:]


def frames_in(page, side):
    """The changes of a run of a page: their cycles and panels."""
    return panels_by(written_in(page, side))


def segments_of(text):
    """The segments that show a panel, place by place."""
    lit = []
    for line in text.splitlines()[:6]:
        name, _, shown = line.partition(' ')
        signed = name.startswith('R')
        lit += [SIGNS[glyph] if signed and i == 0 else ' '.join(DIGITS[glyph]) for i, glyph in enumerate(shown)]
    return lit


def try_constants(tries):
    # The page is the files of clients/python/agc_web/page: their script says what they make of it.
    script = os.path.join(HERE, '..', '..', 'clients', 'python', 'agc_web', 'page', 'generate')
    files = runpy.run_path(script)['constants']()
    tries.check('the page without its runs', files['HEAD'][1] + files['TAIL'][1], BLOCKS.sub('', tries.file('one.html')))
    tries.check('the script of the tables', True, files['TABLES'][1] in tries.file('tables.html'))
    tries.check('nothing from outside', [], re.findall(r'https?:|//[a-z]+\.|src=|href=|url\(|@import', tries.file('one.html')))


def try_film(tries):
    """A film: at some cycles the panel that agc prints, in text, segments and lamps."""
    frames = frames_in(tries.file('one.html'), 'left')
    tries.open('one.html')
    for name in sorted(os.listdir(tries.folder)):
        if not name.startswith('panel.'):
            continue
        cycle = int(name.removeprefix('panel.'))
        tries.go(cycle)
        wanted = tries.file(name)
        before = [shown for at, shown in frames if at <= cycle]
        tries.check(f'the frame of {cycle}', wanted, before[-1] if before else panel())
        tries.check(f"agc's panel of {cycle}", wanted, tries.look("panel('left')"))
        tries.check(f'the segments of {cycle}', segments_of(wanted), tries.look("places('left')"))
        lit = wanted.splitlines()[-1].removeprefix('LAMPS ').split(', ')
        tries.check(f'the lamps of {cycle}', sorted(name for name in lit if name in LAMPS),
                    sorted(name for name, colour in tries.look("lamps('left')") if colour != DARK))


def try_changes(tries):
    """Keys and buttons step from change to change."""
    changes = [cycle for cycle, _ in frames_in(tries.file('one.html'), 'left')]
    ways = [('the next change', ['next'], changes[0]), ('three changes on', ['next'] * 3, changes[2]),
            ('a change back', ['next', 'next', 'previous'], changes[0]), ('the end', ['end'], 300000),
            ('the last change', ['end', 'previous'], changes[-1]), ('the start', ['end', 'start'], 0)]
    keys = {'next': 'ArrowRight', 'previous': 'ArrowLeft', 'end': 'End', 'start': 'Home'}
    for what, steps, wanted in ways:
        tries.open('one.html')
        tries.press(*(keys[step] for step in steps))
        tries.check(f'{what} by keys', wanted, tries.cycle())
        tries.open('one.html')
        for step in steps:
            tries.click(step)
        tries.check(f'{what} by buttons', wanted, tries.cycle())
    tries.open('one.html', 'press=ArrowRight,ArrowRight')
    tries.check('keys of a link', changes[1], tries.cycle())
    tries.check('no first difference of one run', None, tries.look("box('difference')"))
    tries.check('the files of one run', f'{tries.folder}/rope, {tries.folder}/script', tries.look("title('left')"))
    tries.check('its limit', 'DSKY film, limit 300000', tries.look("text('title')"))
    tries.check('the title of the page', f'{tries.folder}/rope, {tries.folder}/script; limit 300000', tries.browser.value('document.title'))


def try_blocks(tries):
    """A run of several blocks is read to its end, whatever stands in which block."""
    border = '</script>\n<script type="text/plain" class="left">\n'
    shown = [panel(PROG=f'{n}{n}', lamps='VEL' if n % 2 else 'none', flash='on' if n % 2 else 'off') for n in range(1, 7)]
    whole = run([(100000 * n, text) for n, text in enumerate(shown, 1)])
    parts = [''.join(re.findall(f'^{100000 * n} .*\n', whole, re.MULTILINE)) for n in range(1, 7)]
    text = '\nrope r\nscript s\nlimit 2000000\n' + border + parts[0] + parts[1] + border + ''.join(parts[2:]) + border
    tries.open(tries.page('parts.html', left=text + 'key 150000 VERB\nstop 2000000 Limit\n'))
    for n, wanted in enumerate([panel(), *shown]):
        for cycle in (100000 * n, 100000 * n + 99999):
            tries.go(cycle)
            tries.check(f'the panel of {cycle} in several blocks', wanted, tries.look("panel('left')"))
    tries.check('the keys in the last block', 'Keys: VERB', tries.look("keys('left')"))
    tries.press('Home', *['ArrowRight'] * 3)
    tries.check('steps from block to block', 300000, tries.cycle())


def try_long_film(tries):
    """A film of more frames than a block has: PROG 12 and PROG 11 in turns, so that the last one of the block is PROG 11."""
    page = tries.file('long.html')
    tries.check('the blocks', ['id="left"', 'class="left"'], re.findall('<script type="text/plain" (.*)>', page))
    blocks = page.split('</script>\n<script type="text/plain" class="left">\n')
    cycles = [re.findall('^([0-9]+) 010 [0-7]{5}$', block, re.MULTILINE) for block in blocks]
    tries.check('how many changes the first block has', 65536, len(cycles[0]))
    before, after = int(cycles[0][-1]), int(cycles[1][0])
    tries.check('the second block goes on', True, before < after)
    tries.open('long.html', f'cycle={before}')
    tries.check('the panel before the border', panel(PROG='11'), tries.look("panel('left')"))
    tries.press('ArrowRight')
    tries.check('the panel after the border', (after, panel(PROG='12')), (tries.cycle(), tries.look("panel('left')")))
    tries.press('ArrowLeft', 'ArrowLeft')
    tries.check('back over the border', (int(cycles[0][-2]), panel(PROG='12')), (tries.cycle(), tries.look("panel('left')")))
    try_kept(tries, written_in(page, 'left'))


def try_kept(tries, writes):
    """The words of the log in turns; the panel beside the changes after which the page keeps it."""
    tries.check('the words of the writes', [('010', '54171'), ('010', '54143')] * (len(writes) // 2), [each[1:] for each in writes[:len(writes) // 2 * 2]])
    for place in (KEPT_EVERY - 1, KEPT_EVERY, KEPT_EVERY + 1, 10 * KEPT_EVERY - 1):
        tries.go(writes[place][0])
        tries.check(f'the panel of change {place}', panel(PROG='11' if place % 2 else '12'), tries.look("panel('left')"))


def try_log(tries):
    """A film has the writes of agc's log that change what the panel shows."""
    log = re.findall('^([0-9]+) ([0-7]{3}) ([0-7]{5})$', tries.file('log'), re.MULTILINE)
    changing = {cycle for cycle, _ in panels_by([each for each in log if each[1] in ('010', '011')])}
    tries.check('the writes of a film', [each for each in log if int(each[0]) in changing], written_in(tries.file('one.html'), 'left'))
    # a minus relay under a plus sign comes with the write that takes the plus away
    tries.check('the writes of hidden relays', [('3', '010', '36000'), ('13', '010', '32000'), ('13', '010', '34000')],
                written_in(tries.file('signs.html'), 'left'))
    tries.open('signs.html')
    for cycle, sign in ((2, '_'), (3, '+'), (12, '+'), (13, '-'), (20, '-')):
        tries.go(cycle)
        tries.check(f'the sign at {cycle}', panel(R1=f'{sign}_____'), tries.look("panel('left')"))


def try_writes(tries):
    """A write changes the digits of its row alone, forwards and backwards, also where several come at a cycle."""
    frames = [(1000, panel(PROG='12', R1='+12345', lamps='TEMP')), (2000, panel(PROG='34', R1='+12345', lamps='TEMP')),
              (3000, panel(PROG='34', flash='on', lamps='TEMP')), (4000, panel(PROG='34', flash='on')), (5000, panel(VERB='16', flash='on'))]
    wanted = [panel(), *(shown for _, shown in frames)]
    tries.open(tries.page('writes.html', left=run(frames, [(1500, 'VERB')])))
    for place, shown in enumerate(wanted):
        tries.go(1000 * place + 500)
        tries.check(f'the panel of {1000 * place + 500} by writes', shown, tries.look("panel('left')"))
    for place, shown in reversed(list(enumerate(wanted))):
        tries.go(1000 * place)
        tries.check(f'the panel of {1000 * place} by writes, backwards', shown, tries.look("panel('left')"))
    # more writes than the page keeps the panel for
    many = [(10 * n, panel(NOUN='77', VERB=f'{n % 64:02o}' if n > 1 else '__')) for n in range(1, KEPT_EVERY + 1)]
    after = (10 * KEPT_EVERY + 10, panel(PROG='21'))
    tries.open(tries.page('many.html', left=run([*many, after, (after[0] + 10, panel(PROG='22'))])))
    for cycle, shown in [(after[0] - 10, panel(VERB='00', NOUN='77')), (after[0], panel(PROG='21')), (after[0] + 10, panel(PROG='22')),
                         (50, panel(VERB='05', NOUN='77'))]:
        tries.go(cycle)
        tries.check(f'the panel of {cycle} of many writes', shown, tries.look("panel('left')"))
    # what is of no row of the panel, and a code that is no digit
    other = '\nrope r\nscript s\nlimit 50\n10 010 54171\n20 010 00377\n30 010 64777\n40 010 54133\nstop 50 Limit\n'
    tries.open(tries.page('other.html', left=other))
    for cycle, shown in ((30, panel(PROG='12')), (40, panel(PROG='?3'))):
        tries.go(cycle)
        tries.check(f'the panel of {cycle} beside words of no row', shown, tries.look("panel('left')"))


def try_part(tries):
    """The film of a part: its first panel, its controls, its keys, and what a whole film shows at each of its cycles."""
    whole, part = frames_in(tries.file('one.html'), 'left'), frames_in(tries.file('part.html'), 'left')
    first = [shown for cycle, shown in whole if cycle <= PART[0]][-1]
    tries.check('the frames of the part', [(PART[0], first), *(frame for frame in whole if PART[0] < frame[0] <= PART[1])], part)
    tries.open('part.html')
    tries.check('a part opens at its first cycle', (PART[0], first), (tries.cycle(), tries.look("panel('left')")))
    for cycle in (60000, 110000):
        tries.go(cycle)
        tries.check('nothing before it is shown', PART[0], tries.cycle())
    for cycle in (150004, 200000, 229999, 260000):
        tries.go(cycle)
        tries.check(f"agc's panel of {cycle} in the part", tries.file(f'panel.{cycle}'), tries.look("panel('left')"))
    tries.check('the keys up to then', 'Keys: VERB 1 6 NOUN 6 2 ENTR PRO', tries.look("keys('left')"))
    for key, cycle in (('Home', PART[0]), ('End', PART[1])):
        tries.press(key)
        tries.check(f'where {key} goes', cycle, tries.cycle())
    tries.check('no stop in the part', 'Keys: VERB 1 6 NOUN 6 2 ENTR PRO', tries.look("keys('left')"))
    tries.check('PRO is held at its end', 'PRO', tries.look("down('left')"))
    tries.press('Home', 'ArrowLeft')
    tries.check('no change before the first', PART[0], tries.cycle())
    tries.press('ArrowRight')
    tries.check('the change after the first', part[1][0], tries.cycle())
    box = tries.look("box('time')")
    tries.browser.click((box['left'] + box['right']) / 2, (box['top'] + box['bottom']) / 2)
    tries.near('the middle of the slider', sum(PART) / 2, tries.cycle(), (PART[1] - PART[0]) / 100)
    strip = tries.look("box('strip')")
    width = strip['right'] - strip['left']
    keys = [cycle for cycle in (130000, 150000, 170000, 190000, 210000, 230000, 250000, 260000) if cycle >= PART[0]]
    found = tries.look('strokes(16, [244, 244, 238])')
    tries.check('how many keys the strip of a part has', len(keys), len(found))
    for cycle, at in zip(keys, found):
        tries.near(f'where the strip of a part has the key of {cycle}', 8 + (width - 16) * (cycle - PART[0]) / (PART[1] - PART[0]), at, 1.5)
    tries.press('Home')
    tries.click('play')
    tries.look('pictures(3)')
    tries.check('a part plays from its first cycle', True, PART[0] < tries.cycle() < PART[1])
    tries.click('play')
    tries.open('later.html')
    tries.check('after the stop there is its panel', [tries.file('panel.299999'), 'cycle 400000 of 400000'],
                [tries.look("panel('left')"), tries.clock()[:22]])
    tries.check('and the stop is told', True, tries.look("keys('left')").endswith('Stopped: Limit'))


def tables(*sets, time='00000'):
    """The lines of the tables of two core sets, and of a waitlist whose first word is this."""
    lines = [f'SET {n} {text}' for n, text in enumerate(sets)] + [f'LST1 {time}' + ' 00000' * 7]
    return '\n'.join([*lines, *(f'LST2 {n} 00000 00000' for n in range(9))]) + '\n'


# The job of examples/study/jobs-sets, as its source says: both core sets hold zeros, then they are freed, then a job has
# priority 20, sleeps, is woken and ends; the script gives the waitlist a time.
ZEROS = 'READY 00 LOC 00000 BANKSET 00000'
JOB = '20 LOC 02100 BANKSET 00000'
SHOWN = {0: tables(ZEROS, ZEROS), 5: tables('FREE', ZEROS), 7: tables('FREE', 'FREE'), 15: tables(f'READY {JOB}', 'FREE'),
         19: tables(f'ASLEEP {JOB}', 'FREE'), 23: tables(f'READY {JOB}', 'FREE'), 27: tables('FREE', 'FREE'),
         30: tables('FREE', 'FREE', time='00144')}


def shown_at(cycle, last=30):
    """What the tables show at a cycle, with the changes up to a last one."""
    return SHOWN[max(at for at in SHOWN if at <= min(cycle, last))]


def try_tables(tries):
    """The Executive's tables beside each DSKY: at each cycle those of the run's last state up to then."""
    tries.open('tables.html')
    tries.check('the tables at the start', SHOWN[0], tries.look("tables('left')"))
    for cycle in [*range(41), *range(40, -1, -1)]:
        tries.go(cycle)
        tries.check(f'the tables at {cycle}', shown_at(cycle), tries.look("tables('left')"))
    for cycle in SHOWN:
        if cycle:
            tries.check(f"agc's tables at {cycle}", SHOWN[cycle], tries.file(f'tables.{cycle}'))
    tries.press('End')
    tries.check('the tables at the end', SHOWN[30], tries.look("tables('left')"))
    tries.press('Home')
    tries.check('and again at the start', SHOWN[0], tries.look("tables('left')"))
    box = tries.look("box('time')")
    tries.browser.click((box['left'] + box['right']) / 2, (box['top'] + box['bottom']) / 2)
    tries.check('the tables where the slider is clicked', (True, shown_at(tries.cycle())),
                (18 <= tries.cycle() <= 22, tries.look("tables('left')")))
    tries.open('some_tables.html')
    for cycle in range(TABLES_PART[0], TABLES_PART[1] + 1):
        tries.go(cycle)
        tries.check(f'the tables at {cycle} of the part', (cycle, shown_at(cycle)), (tries.cycle(), tries.look("tables('left')")))
    tries.open('two_tables.html')
    for cycle in (0, 16, 29, 30, 40):
        tries.go(cycle)
        tries.check(f'the tables of two runs at {cycle}', [shown_at(cycle), shown_at(cycle, 27)],
                    [tries.look(f"tables('{side}')") for side in SIDES])
    tries.open('one.html')
    tries.check('no tables where none are asked for', None, tries.look("tables('left')"))
    tries.browser.resize(1280, 800)
    tries.open('tables.html')
    tries.check('the tables are seen whole at 1280 by 800', True, tries.look('seesTables()'))
    tries.browser.resize(WIDTH, HEIGHT)
    without = [BLOCKS.sub('', tries.file(name)) for name in ('one.html', 'tables.html')]
    script = re.compile('<script>\n.*?</script>\n', re.DOTALL)
    tries.check('but for one script the page is that without tables', without[0], script.sub('', without[1], count=1))
    try_many_tables(tries)


def try_many_tables(tries):
    """More changes than the page keeps the tables for: what a change does not say stays, from wherever it is gone to."""
    changes = 2 * KEPT_EVERY + 3
    told = [f'0 {line}\n' for line in tables('FREE', 'FREE').splitlines()]
    told += [f'{10 * n} LST1 {n:05o}' + ' 00000' * 7 + '\n' for n in range(1, changes)]
    tries.open(tries.page('many_tables.html', 'tables.html', **{'left': run([], stop=100000), 'left-tables': '\n' + ''.join(told)}))
    for n in (0, 1, KEPT_EVERY - 1, KEPT_EVERY, KEPT_EVERY + 1, changes - 1, 2 * KEPT_EVERY, 5, KEPT_EVERY):
        tries.go(10 * n + 9)
        tries.check(f'the tables of change {n}', tables('FREE', 'FREE', time=f'{n:05o}'), tries.look("tables('left')"))


def try_remark(tries):
    """A film of more than a million frames has a remark that names a part; the page is shown all the same."""
    frames = len(written_in(tries.file('million.html'), 'left'))
    tries.check('more than a million frames', True, frames > 1000000)
    told = f'agc-study: the film has {frames} frames, and a browser may be slow with it; --from and --to film a part\n'
    tries.check('the remark on a long film', told, tries.file('remark'))
    tries.check('no remark on a part of it', '', tries.file('no_remark'))
    tries.open('million.html', 'cycle=5650000')
    shown = tries.look("panel('left')")
    tries.check('a long film is shown', True, shown in (panel(PROG='11'), panel(PROG='12')))
    times = [tries.browser.value(f'(() => {{ const from = performance.now(); go({cycle}); return performance.now() - from; }})()')
             for cycle in (5699999, 7, 2850001, 12345, 4000000, 5650000)]
    tries.check(f'each change is shown within 100 ms: {times}', True, sorted(times)[len(times) // 2] < 100)
    tries.open('few.html', 'cycle=5650000')
    tries.check('its part shows the same', shown, tries.look("panel('left')"))


def try_two_films(tries):
    """Two films: 165000 and an interrupt's few cycles are the first difference."""
    pages = frames_in(tries.file('two.html'), 'left'), frames_in(tries.file('two.html'), 'right')
    first = next(cycle for cycle, _ in pages[1] if cycle >= 165000)
    tries.open('two.html')
    tries.check('where two runs part', str(first), tries.look("text('parting')"))
    for way in (lambda: tries.press('d'), lambda: tries.click('difference')):
        tries.press('Home')
        way()
        tries.check('the first difference', first, tries.cycle())
    for side, frames in zip(SIDES, pages):
        tries.check(f'the {side} run there', [shown for cycle, shown in frames if cycle <= first][-1], tries.look(f"panel('{side}')"))
    tries.check('the files of two runs', [f'Left run: {tries.folder}/rope, {tries.folder}/script', f'Right run: {tries.folder}/rope, {tries.folder}/other'],
                [tries.look(f"title('{side}')") for side in SIDES])
    try_controls(tries)
    tries.check('what differs there', '≠ The panels differ: VERB. This is the first difference.', tries.look("text('apart')"))
    tries.go(first - 1)
    tries.check('before it', '= The panels show the same.', tries.look("text('apart')"))
    tries.open('same.html')
    tries.check('two equal runs', 'never', tries.look("text('parting')"))
    tries.check('no first difference of them', None, tries.look("box('difference')"))


def try_long_names(tries):
    """However long the names of files, the cycles and the sentences are, all controls are seen."""
    name = 'a-long-folder/' * 12 + 'rope'
    sides = [run([(100, panel(PROG=shown, **{field: '+12345' if field[0] == 'R' else '16' for field in others}))], stop=1000000000, rope=name, script=name)
             for shown, others in (('11', ()), ('12', ('VERB', 'NOUN', 'R1', 'R2', 'R3')))]
    tries.open(tries.page('names.html', left=sides[0], right=sides[1], parting='100'), 'cycle=999999999')
    try_controls(tries)
    tries.check('the whole title', f'Left run: {name}, {name}', tries.look("title('left')"))


def try_controls(tries):
    """Each control is seen, and so are both displays above them."""
    boxes = {name: tries.look(f"box('{name}')") for name in CONTROLS}
    for name, box in boxes.items():
        seen = box and 0 <= box['left'] < box['right'] <= WIDTH and 0 <= box['top'] < box['bottom'] <= HEIGHT
        tries.check(f'{name} is seen in {WIDTH} by {HEIGHT}: {box}', True, bool(seen))
        tries.check(f'nothing lies over {name}', True, tries.look(f"onTop('{name}')"))
    for side in SIDES:
        tries.check(f'the display of the {side} run ends above the controls', True,
                    tries.look(f"bottom('{side}')") <= min(box['top'] for box in boxes.values()))


def try_links(tries):
    """A link to a cycle goes there; one to something else shows what the film begins with."""
    tries.open('one.html', 'cycle=100')
    tries.check('the cycle of a link', 100, tries.cycle())
    for text in ('abc', '', '-1', '1e9', 'NaN'):
        tries.open('one.html', f'cycle={text}')
        tries.check(f'a link to the cycle {text!r}', 0, tries.cycle())


def try_segments(tries):
    """Each place shows each digit, the blank and `?`, and each register both signs and the blank."""
    glyphs = list(DIGITS)
    signs = '+-_'
    panels = []
    for i, glyph in enumerate(glyphs):
        registers = {f'R{n}': signs[(i + n) % 3] + glyph * 5 for n in (1, 2, 3)}
        panels.append(panel(PROG=glyph * 2, VERB=glyph * 2, NOUN=glyph * 2, **registers))
    panels.append(panel(PROG='12', VERB='34', NOUN='56', R1='+78901', R2='-23456', R3='_78?__'))
    tries.open(tries.page('glyphs.html', left=run([(1000 * i, shown) for i, shown in enumerate(panels, 1)])))
    for i, shown in enumerate(panels, 1):
        tries.go(1000 * i)
        tries.check(f'the segments of {shown}', segments_of(shown), tries.look("places('left')"))


def try_lamps(tries):
    """Each lamp alone, in its place and with its colour."""
    names = [name for name in LAMPS if name]
    panels = [panel(lamps=name) for name in ['COMP ACTY', *names]]
    tries.open(tries.page('lamps.html', left=run([(1000 * i, shown) for i, shown in enumerate(panels)])))
    for i, name in enumerate(['COMP ACTY', *names]):
        tries.go(1000 * i)
        wanted = [[lamp, (AMBER if place % 2 else WHITE) if lamp == name else DARK] for place, lamp in enumerate(LAMPS)]
        tries.check(f'the lamps where {name} is lit', wanted, tries.look("lamps('left')"))
        tries.check(f'COMP ACTY where {name} is lit', GREEN if i == 0 else DARK_GREEN, tries.look("activity('left')"))


def try_keyboard(tries):
    """The places of the keys, and each of them down alone."""
    names = [name for column in KEYBOARD for name in column]
    keys = [(100000 * i, name) for i, name in enumerate(names, 1) if name != 'PRO']
    tries.open(tries.page('keyboard.html', left=run([(10, panel(PROG='11'))], keys)))
    seen = tries.look("keyboard('left')")
    columns = []
    for key in sorted(seen, key=lambda key: (round(key['x']), key['y'])):
        if not columns or abs(columns[-1][-1]['x'] - key['x']) > 10:
            columns.append([])
        columns[-1].append(key)
    tries.check('the columns of the keyboard', KEYBOARD, [[key['name'] for key in column] for column in columns])
    heights = {key['name']: key['y'] for key in seen}
    for row in range(3):
        tries.check(f'row {row} of the keyboard is level', 1, len({round(heights[column[row]]) for column in KEYBOARD[1:6]}))
    half = (heights['-'] - heights['+']) / 2
    for name, beside in HALF_LOWER.items():
        tries.near(f'how much lower than {beside} the key {name} is', half, heights[name] - heights[beside], 2)
    for cycle, name in keys:
        tries.go(cycle)
        tries.check(f'the key that is down at {cycle}', name, tries.look("down('left')"))


def try_keys(tries):
    """How long keys are down, and which ones are named."""
    keys = [(100000, 'VERB'), (200000, '1'), (210000, '6'), (300000, 'PRO'), (400000, 'NOUN'), (500000, 'PRO up')]
    keys += [(600000 + 30000 * i, digit) for i, digit in enumerate('0123456789')]
    tries.open(tries.page('keys.html', left=run([(10, panel(PROG='11'))], keys)))
    # a quarter of a second has 21333 cycles and a third
    wanted = [(99999, ''), (100000, 'VERB'), (121333, 'VERB'), (121334, ''), (200000, '1'), (209999, '1'), (210000, '6'),
              (231333, '6'), (231334, ''), (299999, ''), (300000, 'PRO'), (399999, 'PRO'), (421333, 'NOUN PRO'),
              (421334, 'PRO'), (499999, 'PRO'), (500000, ''), (600000, '0')]
    for cycle, down in wanted:
        tries.go(cycle)
        tries.check(f'what is down at {cycle}', down, ' '.join(sorted(tries.look("down('left')").split())))
    tries.go(121334)
    for speed, down in (('10×', 'VERB'), ('1×', '')):
        tries.look(f"choose('{speed}')")
        tries.check(f'what is down at 121334 and {speed}', down, tries.look("down('left')"))
    tries.go(99999)
    tries.check('the keys before the first', 'Keys: none yet', tries.look("keys('left')"))
    tries.go(500000)
    tries.check('the first keys', 'Keys: VERB 1 6 PRO NOUN PRO up', tries.look("keys('left')"))
    tries.go(999999)
    tries.check('the last keys', 'Keys: NOUN PRO up 0 1 2 3 4 5 6 7 8 9', tries.look("keys('left')"))
    tries.press('End')
    tries.check('the stop', 'Keys: NOUN PRO up 0 1 2 3 4 5 6 7 8 9\nStopped: Limit', tries.look("keys('left')"))


def try_short_run(tries):
    """A run that is shorter than a quarter of a second: a key is down up to the next one, and PRO past forty keys."""
    keys = [(10, 'VERB'), (200, 'PRO')] + [(210 + i, str(i % 10)) for i in range(40)] + [(290, 'PRO up')]
    tries.open(tries.page('short.html', left=run([(10, panel(PROG='11'))], keys, 300)))
    for cycle, down in [(9, ''), (10, 'VERB'), (199, 'VERB'), (200, 'PRO'), (249, '9 PRO'), (289, '9 PRO'), (290, ''), (300, '')]:
        tries.go(cycle)
        tries.check(f'what is down at {cycle} of 300', down, ' '.join(sorted(tries.look("down('left')").split())))


def try_two_runs(tries):
    """Two runs with two stops: their titles, the longer one's end, and a strip for each."""
    left = run([(250000, panel(PROG='11')), (900000, panel(PROG='21'))], [(500000, 'VERB')], 1024000, 'a b\\074&', 'c\\134d')
    right = run([(250000, panel(PROG='11')), (750000, panel(PROG='12')), (1800000, panel())], [(1250000, 'NOUN')], 2048000, '\\303\\251', 'x')
    tries.open(tries.page('runs.html', left=left, right=right, parting='750000'))
    tries.check('the titles', ['Left run: a b<&, c\\d', 'Right run: é, x'], [tries.look(f"title('{side}')") for side in SIDES])
    tries.go(1000000)
    tries.check('what each run shows', ['PROG 21', 'PROG 12'], [tries.look(f"panel('{side}')").splitlines()[0] for side in SIDES])
    tries.check('what each display shows', [segments_of(panel(PROG=shown)) for shown in ('21', '12')],
                [tries.look(f"places('{side}')") for side in SIDES])
    tries.go(512000)
    tries.check('the clock', 'cycle 512000 of 2048000, 6.000 s of 24.000 s', tries.clock())
    tries.go(1250000)
    tries.check('the keys that are down', ['', 'NOUN'], [tries.look(f"down('{side}')") for side in SIDES])
    tries.check('the stop of one', ['Keys: VERB\nStopped: Limit', 'Keys: NOUN'], [tries.look(f"keys('{side}')") for side in SIDES])
    tries.press('End')
    tries.check('the end', 'cycle 2048000 of 2048000, 24.000 s of 24.000 s', tries.clock())
    tries.check('the button of the first difference is seen', True, tries.look("box('difference')") is not None)
    try_strip(tries, {'left': ([250000, 900000], [500000]), 'right': ([250000, 750000, 1800000], [1250000])}, 750000, 2048000)


def try_strip(tries, strokes, parting, end):
    """The strip of two runs: of each its changes below its line and its keys above it."""
    box = tries.look("box('strip')")
    width = box['right'] - box['left']
    place = lambda cycle: 8 + (width - 16) * cycle / end
    green, white, amber = [93, 255, 155], [244, 244, 238], [255, 185, 56]
    for line, side in ((10, 'left'), (30, 'right')):
        for what, row, colour, cycles in (('changes', line + 4, green, strokes[side][0]), ('keys', line - 4, white, strokes[side][1])):
            # where the stroke of the first difference is, another one is not seen
            cycles = [cycle for cycle in cycles if cycle != parting]
            found = tries.look(f'strokes({row}, {colour})')
            tries.check(f'how many {what} the strip of the {side} run has', len(cycles), len(found))
            for cycle, at in zip(cycles, found):
                tries.near(f'where the strip of the {side} run has the {what} at {cycle}', place(cycle), at, 1.5)
        tries.near(f'where the strip of the {side} run has the first difference', place(parting),
                   (tries.look(f'strokes({line}, {amber})') or [0])[0], 1.5)


def try_unread(tries):
    """A page with a run that has no end says so, and has no controls."""
    whole = run([(10, panel(PROG='11'))])
    cut = whole[:whole.index('stop')]
    for name, blocks, which in [('cut.html', {'left': cut}, 'left'), ('empty.html', {'left': ''}, 'left'), ('none.html', {}, 'left'),
                                ('right.html', {'left': whole, 'right': cut}, 'right'),
                                ('both.html', {'left': cut, 'right': cut, 'parting': 'never'}, 'left and right')]:
        tries.open(tries.page(name, **blocks))
        told = f'This film cannot be read: the browser finds no end of the run {which}.'
        tries.check(f'what {name} says', told, tries.look("text('trouble')")[:len(told)])
        tries.check(f'the controls of {name}', None, tries.look("box('play')"))
    tries.open('one.html')
    tries.check('nothing is said of a whole film', '', tries.look("text('trouble')"))


def try_words(tries):
    """With a file of verbs and nouns a line below each DSKY says what it shows."""
    whole = 'V16 N62: monitor: one 2556.8 m, </script> -46 °C, three 1200'
    tries.check('the page before it', tries.file('one.html'), tries.file('words.html')[:len(tries.file('one.html'))])
    tries.open('words.html')
    for cycle, wanted in [(0, ''), (160000, ''), (200000, 'V16: monitor'), (299999, whole), (200000, 'V16: monitor')]:
        tries.go(cycle)
        tries.check(f'the words at {cycle}', wanted, tries.look("text('left-words')"))
    tries.open('two_words.html')
    tries.go(299999)
    tries.check('the words of the left run', whole, tries.look("text('left-words')"))
    tries.check('the words of the right run', 'V16', tries.look("text('right-words')")[:3])
    tries.open('bad_words.html')
    told = 'The file of nouns, line 2: a verb has two digits.'
    tries.check('what a faulty file says', told, tries.look("text('trouble')").strip())
    tries.open('one.html')
    tries.check('no words without a file', None, tries.browser.value("document.getElementById('left-words')"))


PLOT_LEFT, PLOT_RIGHT = 58, 8  # points of the plot beside its curves
PLOT_BOTTOM = 18  # and below them
CURVES = {'ramp': [93, 255, 155], 'fall': [255, 207, 112], 'jump': [159, 208, 255]}  # the first of six, and their colours
PINK = [255, 79, 163]
BOXES = "[...document.querySelectorAll('#plot-choice input')].map((box) => [box.parentNode.textContent.trim(), box.checked, box.disabled])"
LABELS = "[...document.querySelectorAll('#plot-labels p')].map((label) => label.textContent)"
# The heights in a column of the plot at which a colour is, within some steps of red, green and blue.
HEIGHTS = """((x, colour) => {
    const canvas = document.getElementById('plot-canvas');
    const points = canvas.getContext('2d').getImageData(Math.round(x), 0, 1, canvas.height).data;
    const off = (y) => Math.max(...colour.map((part, i) => Math.abs(part - points[4 * y + i])));
    return [...Array(canvas.height).keys()].filter((y) => off(y) < 90);
})"""


def plot_place(tries, cycle, begin=0, end=300000):
    """The place of a cycle in the plot, from the left of the window, and the plot's top."""
    tries.browser.value("document.getElementById('plot-area').scrollIntoView({ block: 'center' }); undefined")
    box = tries.look("box('plot-area')")
    return box['left'] + PLOT_LEFT + (box['right'] - box['left'] - PLOT_LEFT - PLOT_RIGHT) * (cycle - begin) / (end - begin), box['top']


def heights(tries, name, *cycles):
    """The middle of the heights at which a curve has these cycles, from the top of its strip."""
    strip = (tries.browser.value("document.getElementById('plot-canvas').height") - PLOT_BOTTOM) / 6
    top = strip * list(CURVES).index(name)
    middles = []
    for cycle in cycles:
        x = plot_place(tries, cycle)[0] - tries.look("box('plot-area')")['left']
        found = [y - top for y in tries.browser.value(f'{HEIGHTS}({x}, {CURVES[name]})') if top <= y < top + strip]
        middles.append(sum(found) / len(found) if found else -1000)
    return middles


def alarm_places(tries):
    """Where the plot has pink lines, from the left of the window."""
    left = tries.look("box('plot-area')")['left']
    width = tries.browser.value("document.getElementById('plot-canvas').width")
    found = [x for x, count in enumerate(tries.browser.value(f'[...Array({width}).keys()].map((x) => {HEIGHTS}(x, {PINK}).length)')) if count > 200]
    return [left + x + 0.5 for x in found if x - 1 not in found]


def try_plot(tries):
    """The plot of a table of samples: what is drawn at first, its curves, the values at the film's cycle, and the PROG lamp."""
    tries.check('the page before it', tries.file('one.html'), tries.file('plot.html')[:len(tries.file('one.html'))])
    tries.open('plot.html')
    wanted = [['ramp', True, False], ['fall', True, False], ['code', False, True], ['jump', True, False], ['four', True, False], ['five', True, False],
              ['six', False, True], ['seven', True, False]]
    tries.check('the first six columns of numbers are on', wanted, tries.browser.value(BOXES))
    for cycle in (0, 999, 1000, 149999, 150000, 299999):
        tries.go(cycle)
        row = cycle // 1000
        wanted = [f'ramp {row}', f'fall {300 - row}', f'jump {0 if row < 150 else 8}', 'four 4', 'five 5', 'seven 7']
        tries.check(f'the values at {cycle}', wanted, tries.browser.value(LABELS))
        tries.near(f'the cursor at {cycle}', plot_place(tries, cycle)[0], tries.browser.value("document.getElementById('plot-cursor').getBoundingClientRect().left") + 0.75, 1)
    tries.go(75000)  # whose cursor is in the way of no other cycle
    ramp = heights(tries, 'ramp', 1500, 101500, 201500, 298500)
    whole = ramp[0] - ramp[3]
    tries.check('the ramp goes up', True, whole > 40)
    for part, height in zip((100, 200), ramp[1:3]):
        tries.near(f'the height of the ramp {part} on', ramp[0] - whole * part / 297, height, 2)
    fall = heights(tries, 'fall', 1500, 101500, 298500)
    tries.near('the fall mirrors it', fall[0] + whole * 100 / 297, fall[1], 2)
    tries.near('to its end', fall[0] + whole, fall[2], 2)
    jump = heights(tries, 'jump', 10000, 140000, 160000, 290000)
    tries.near('the jump is level before', jump[0], jump[1], 1)
    tries.near('and behind', jump[2], jump[3], 1)
    tries.check('and goes up', True, jump[1] - jump[2] > 30)
    try_alarm(tries)
    tries.open('one.html')
    tries.check('no plot without samples', None, tries.browser.value("document.getElementById('plot')"))


def lit_cycles(tries):
    """The cycles of agc's log at which the PROG lamp goes on: bit 9 of relay row 12."""
    log = re.findall('^([0-9]+) 010 ([0-7]{5})$', tries.file('log'), re.MULTILINE)
    lit = [(int(cycle), int(word, 8) >> 8 & 1) for cycle, word in log if int(word, 8) >> 11 == 12]
    return [cycle for i, (cycle, is_lit) in enumerate(lit) if is_lit and not (i and lit[i - 1][1])]


def try_alarm(tries):
    """A pink line where the PROG lamp goes on, and words; a film that begins with the lamp on has none."""
    cycle, = lit_cycles(tries)
    found = alarm_places(tries)
    tries.check('one line', 1, len(found))
    tries.near('where the lamp goes on', plot_place(tries, cycle)[0], (found or [0])[0], 1.5)
    tries.check('in words', f'Alarms, pink: the PROG lamp goes on at {cycle / A_SECOND:.3f} s.', tries.look("text('plot-alarms')"))
    tries.open('part_plot.html')
    tries.go(140000)
    tries.check('the lamp is lit as the part begins', True, 'PROG' in tries.look("panel('left')").splitlines()[-1])
    tries.check('that is no alarm', ([], None), (alarm_places(tries), tries.look("text('plot-alarms')")))
    tries.near('the cursor as the part begins', plot_place(tries, 140000, *PART)[0],
               tries.browser.value("document.getElementById('plot-cursor').getBoundingClientRect().left") + 0.75, 1)
    tries.check('the values then', ['ramp 140', 'fall 160'], tries.browser.value(LABELS)[:2])
    try_lamps_apart(tries)


def try_lamps_apart(tries):
    """Each time that the PROG lamp goes on is an alarm, and no other lamp's."""
    frames = [(50000, 'TRACKER'), (100000, 'PROG, TRACKER'), (150000, 'TRACKER'), (200000, 'GIMBAL LOCK, TRACKER'), (250000, 'PROG')]
    shown = run([(cycle, panel(lamps=lamps)) for cycle, lamps in frames], stop=300000)
    with open(os.path.join(tries.folder, 'lamps_plot.html'), 'w', encoding='utf-8') as file:
        file.write(BLOCKS.sub(lambda _: f'<script type="text/plain" id="left">{shown}</script>\n', tries.file('plot.html'), count=1))
    tries.open('lamps_plot.html')
    wanted, found = [plot_place(tries, cycle)[0] for cycle in (100000, 250000)], alarm_places(tries)
    tries.check('two alarms', True, len(found) == 2 and all(abs(one - other) < 1.5 for one, other in zip(wanted, found)))
    tries.check('both in words', f'Alarms, pink: the PROG lamp goes on at {100000 / A_SECOND:.3f} s, {250000 / A_SECOND:.3f} s.', tries.look("text('plot-alarms')"))


def try_plot_controls(tries):
    """Dragging the cursor and clicking take the film there, the keys of a slider too; boxes choose columns."""
    tries.open('plot.html')
    point = 300000 / (tries.look("box('plot-area')")['right'] - tries.look("box('plot-area')")['left'] - PLOT_LEFT - PLOT_RIGHT)
    height = plot_place(tries, 0)[1] + 40
    place = lambda cycle: plot_place(tries, cycle)[0]
    tries.browser.mouse('mousePressed', place(30000), height)
    tries.near('the cycle that is pressed', 30000, tries.cycle(), point)
    for cycle in (150000, 240000):
        tries.browser.mouse('mouseMoved', place(cycle), height)
        tries.near(f'the cycle that is dragged to {cycle}', cycle, tries.cycle(), point)
        tries.near('the cursor follows', place(cycle), tries.browser.value("document.getElementById('plot-cursor').getBoundingClientRect().left") + 0.75, 1.5)
    tries.check('the panel follows', panel_at(tries, tries.cycle()), tries.look("panel('left')"))
    tries.browser.mouse('mouseReleased', place(240000), height)
    there = tries.cycle()
    tries.browser.mouse('mouseMoved', place(60000), height)
    tries.check('after that it stays', there, tries.cycle())
    tries.browser.click(place(60000), height)
    tries.near('a click', 60000, tries.cycle(), point)
    there = tries.cycle()
    tries.browser.value("document.getElementById('plot-area').focus()")
    tries.press('ArrowRight')
    tries.check('a hundredth on', there + 3000, tries.cycle())
    tries.check('said to a screen reader', f'{(there + 3000) / A_SECOND:.3f} s, ramp {(there + 3000) // 1000}',
                ', '.join(tries.browser.value("document.getElementById('plot-area').getAttribute('aria-valuetext')").split(', ')[:2]))
    tries.browser.value("document.querySelectorAll('#plot-choice input')[4].focus()")
    tries.press('Space')
    tries.check('Space takes a column off, and plays nothing', ([True, False, False], '▶ Play'),
                ([tries.browser.value(BOXES)[i][1] for i in (3, 4, 2)], tries.look("text('play')")))
    tries.browser.value("document.querySelectorAll('#plot-choice input')[2].click()")
    tries.check('a code is shown as it is', 'code 01202', tries.browser.value(LABELS)[2])
    tries.check('six are on again', [['four', False, True], ['six', False, True]], [each for each in tries.browser.value(BOXES) if not each[1]])


def panel_at(tries, cycle):
    """The panel that the film without the plot shows at a cycle."""
    return [shown for at, shown in frames_in(tries.file('one.html'), 'left') if at <= cycle][-1]


def try_bad_samples(tries):
    """Two runs have the samples of the left one. A file that is no table breaks nothing: the page says what is wrong with which line."""
    tries.open('two_plot.html')
    tries.check('of which run they are', 'Samples of the left run, up to 6 at a time', tries.browser.value("document.querySelector('#plot h2').textContent"))
    tries.go(299999)
    tries.check('its values', 'ramp 299', tries.browser.value(LABELS)[0])
    tries.check('the words are there, too', 'V16 N62', (tries.look("text('left-words')") or '')[:7])
    tries.open('bad_plot.html')
    tries.check('the first faulty row', 'The file of samples, line 3: fields: 3; the heading has 4. 2 more.', tries.look("text('trouble')").strip())
    tries.go(250)
    tries.check('the others are there', ['a 3', 'b 4'], tries.browser.value(LABELS))
    tries.open('no_plot.html')
    tries.check('no heading', 'The file of samples, line 1: the heading of a table is cycle,seconds,NAME,..', tries.look("text('trouble')").strip()[:-1])
    tries.check('no plot', None, tries.browser.value("document.getElementById('plot')"))
    tries.press('End')
    tries.check('but the film', 300000, tries.cycle())


def try_slider(tries):
    """The slider goes to any cycle while it is dragged, and to the ends."""
    tries.open(tries.page('slider.html', left=run([(1000000, panel(PROG='11'))])))
    box = tries.look("box('time')")
    height = (box['top'] + box['bottom']) / 2
    place = lambda part: box['left'] + 8 + (box['right'] - box['left'] - 16) * part
    tries.browser.mouse('mousePressed', place(0), height)
    for part in (0.1, 0.25, 0.75):
        tries.browser.mouse('mouseMoved', place(part), height)
        tries.near(f'the cycle at {part} of the slider', 2000000 * part, tries.cycle(), 20000)
    tries.check('the panel at 0.75 of the slider', 'PROG 11', tries.look("panel('left')").splitlines()[0])
    tries.browser.mouse('mouseMoved', place(1.1), height)
    tries.check('the end of the slider', 2000000, tries.cycle())
    tries.browser.mouse('mouseMoved', place(-0.1), height)
    tries.check('the start of the slider', 0, tries.cycle())
    tries.browser.mouse('mouseReleased', place(-0.1), height)
    tries.browser.click(place(0.5), height)
    tries.near('the cycle where the slider is clicked', 1000000, tries.cycle(), 20000)
    tries.go(500000)
    tries.check('the slider follows', '500000', tries.browser.value("document.getElementById('time').value"))


def try_speeds(tries):
    """How fast the film plays, by the browser's own clock, and which keys set that."""
    tries.open(tries.page('speeds.html', left=run([(10, panel(PROG='11'))], stop=1000000000000)))
    tries.check('the speed at first', '1× the machine’s own', tries.look('speed()'))
    for label, times in SPEEDS.items():
        for how in (*SPEED_KEYS[label], 'the list'):
            tries.look(f"choose('{'10×' if how in ('1', 'the list') and times == 1 else '1×'}')")
            if how == 'the list':
                tries.look(f"choose('{label}')")
            else:
                tries.press(*how)
            tries.check(f'the speed by {how}', label, tries.look('speed()').split(' ')[0])
            tries.press('Home')
            tries.click('play')
            # enough that the cycle, a whole number, gives the speed within a hundredth
            seen = tries.look(f'pictures({12 if times >= 1 else 30 if times > 0.01 else 60})')
            tries.click('play')
            cycles, seconds = seen[-1][1] - seen[0][1], (seen[-1][0] - seen[0][0]) / 1000
            tries.near(f'cycles a second at {label} by {how}', 1, cycles / seconds / A_SECOND / times, 0.01)
            stopped = tries.cycle()
            tries.look('pictures(3)')
            tries.check('paused', stopped, tries.cycle())


def try_playing(tries):
    """The button and the space bar play; verb and noun blink; the film ends at its stop, and begins anew."""
    frames = [(10, panel(flash='on', VERB='16')), (1000000, panel(flash='off', VERB='16'))]
    tries.open(tries.page('playing.html', left=run(frames)))
    tries.go(100)
    tries.check('nothing blinks where the film stands', '', tries.look("blinking('left')"))
    for way in (lambda: tries.click('play'), lambda: tries.press('Space')):
        tries.browser.value('document.activeElement.blur()')
        tries.go(100)
        way()
        tries.look('pictures(3)')
        tries.check('what blinks', 'VERB NOUN', tries.look("blinking('left')"))
        tries.check('the button of a film that plays', '❚❚ Pause', tries.look("text('play')"))
        tries.browser.value('document.activeElement.blur()')
        way()
        tries.check('the button of a film that stands', '▶ Play', tries.look("text('play')"))
        tries.check('nothing blinks then', '', tries.look("blinking('left')"))
    tries.go(1000000)
    tries.click('play')
    tries.look('pictures(3)')
    tries.check('nothing blinks where the flash is off', '', tries.look("blinking('left')"))
    tries.look("choose('100×')")
    tries.check('the film comes to its end', True, tries.wait("document.getElementById('play').textContent.endsWith('Play')"))
    tries.check('the end that it comes to', 2000000, tries.cycle())
    tries.look("choose('1×')")
    tries.click('play')
    tries.look('pictures(3)')
    tries.check('from the end it plays from the start', True, tries.cycle() < 1000000)


TRIES = (
    try_constants, try_film, try_changes, try_log, try_blocks, try_writes, try_long_film, try_remark, try_part, try_tables,
    try_two_films, try_long_names, try_links, try_segments, try_lamps, try_keyboard, try_keys, try_short_run, try_two_runs,
    try_unread, try_words, try_plot, try_plot_controls, try_bad_samples, try_slider, try_speeds, try_playing,
)


def main(folder, program):
    tries = Tries(folder, Browser(program, folder, WIDTH, HEIGHT))

    def open_anew():
        """Ends the browser that a try has left, and opens another one."""
        tries.browser.kill_all()
        tries.browser = Browser(program, tempfile.mkdtemp(dir=folder), WIDTH, HEIGHT)

    depends_on_time(open_anew)
    for each in TRIES:
        attempt(with_errors(each), tries)
    tries.browser.close()
    finish()


def with_errors(each):
    """Returns the try with a last check: that the pages' scripts had no error."""
    @functools.wraps(each)
    def checked(tries):
        each(tries)
        tries.check(f'errors of the pages in {each.__name__}', [], tries.browser.errors())

    return checked


if __name__ == '__main__':
    main(*sys.argv[1:])
