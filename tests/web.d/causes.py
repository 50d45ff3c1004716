"""What caused this: a click at a lamp, a digit, a channel or a cell goes back to the order that changed it last.

What is wanted is what agc-study traces of the script that the page lets one download: the last change of a cell, the last write to a
channel, or the last relay word or lamp word that changed the bits of a field, by the tables of docs/SPECIFICATION.md.
"""
import json
import os
import re
import subprocess

from judge import STUDY, judge, scratch_folder
from listed import LIT, physical, read, woven
from site_of import example, keys_in, started, wait
from views import click, opened, see

FOLDER = scratch_folder()
SAID = "document.getElementById('cause').textContent"
TAB = "document.querySelector('#tabs [aria-selected=true]').id"
KEYS = 'VERB 3 5 ENTR VERB 1 6 NOUN 0'
LEFT, RIGHT, SIGN = 0o1740, 0o37, 0o2000
FIELDS = {
    'PROG': {11: LEFT | RIGHT}, 'VERB': {10: LEFT | RIGHT}, 'NOUN': {9: LEFT | RIGHT},
    'R1': {8: RIGHT, 7: SIGN | LEFT | RIGHT, 6: SIGN | LEFT | RIGHT}, 'R2': {5: SIGN | LEFT | RIGHT, 4: SIGN | LEFT | RIGHT, 3: LEFT},
    'R3': {3: RIGHT, 2: SIGN | LEFT | RIGHT, 1: SIGN | LEFT | RIGHT}, 'the lamp PROG': {12: 0o400}, 'the lamp TRACKER': {12: 0o200},
}
LAMPS = {'the lamp COMP ACTY': 0o2, 'the lamp UPLINK ACTY': 0o4, 'the lamp TEMP': 0o10, 'the lamp KEY REL': 0o20, 'the lamp OPR ERR': 0o100}


def traced(rope, script, limit, *words):
    """Returns the lines of a trace of a script, without the stop."""
    path = os.path.join(FOLDER, 'traced')
    with open(path, 'w', encoding='ascii') as file:
        file.write(script)
    done = subprocess.run([STUDY, 'trace', rope, path, '--limit', str(limit), *words], stdout=subprocess.PIPE, stderr=subprocess.DEVNULL, text=True, check=True)
    return [line for line in done.stdout.splitlines() if ' - stop ' not in line]


def last_write(rope, script, limit, name):
    """Returns the line of the last order that changed a field or a lamp; None if none has."""
    last, words = None, {}
    for line in traced(rope, script, limit, '--only', 'writes'):
        channel, word = (int(each, 8) for each in re.search(r' > (\d+) (\d+) ', line).groups())
        row, mask = (word >> 11, FIELDS.get(name, {}).get(word >> 11, 0)) if channel == 0o10 else (0, LAMPS.get(name, 0) if channel == 0o11 else 0)
        if mask & (word ^ words.get(row, 0)):
            last = line
        if mask:
            words[row] = word
    return last


def press(window, name, places=''):
    """Clicks the button that explains something."""
    verb = 'wrote' if name.startswith('channel') else 'changed'
    window.value(f"document.querySelector('{places}.cause[aria-label$={json.dumps(f'{verb} {name} last?')}]').click(); undefined")


def agree(window, has_key):
    """Drops the key that was pressed since, if there is one."""
    if has_key:
        judge('it asks', True, see(window, "document.getElementById('ask').open", True))
        window.value("document.getElementById('ask-yes').click(); undefined")


def is_after(script, cycle):
    """Whether RSET was pressed from a cycle on: the other keys are the script's, and stay."""
    return any(line.endswith('RSET') and int(line.split()[0]) >= int(cycle) for line in script.splitlines())


def goes(site, window, rope, name, line, run):
    """Has something explained: time goes back to before the order of a trace's line, and undo brings back what was dropped."""
    script, cycle = site.script(), window.value('now.cycle')
    began, place = line.split()[:2]
    run()
    agree(window, is_after(script, began))
    judge(f'{name}: back to', int(began), see(window, 'now.cycle', int(began)))
    order = re.match(r'\d+ \S+ (?:.*? )??[0-7]{5} (.*?) \| ', line).group(1)
    verb = 'written' if name.startswith('channel') else 'changed'
    seconds = f'{int(began) / (256000 / 3):.3f}'
    wanted = f'{name} was last {verb} at {seconds} s, cycle {int(began):,}, by {order} at {place}. Time stands before it. ↶ Undo going back'
    judge(f'{name}: what is said', wanted, see(window, SAID, wanted))
    judge(f'{name}: the order comes next', place, window.value("document.getElementById('next').textContent").split()[0])
    click(window, '↶ Undo going back', '#cause button')
    judge(f'{name}: undo', (cycle, ''), (see(window, 'now.cycle', cycle), see(window, SAID, '')))
    judge(f'{name}: the script is there again', script, site.script())


def stays(site, window, name, wanted, run):
    """Has something explained that no order has changed: a sentence says so, and time stands."""
    before = window.value('now.cycle'), site.script()
    run()
    judge(name, wanted, see(window, SAID, wanted))
    judge(f'{name}: time stands', before, (window.value('now.cycle'), site.script()))


def with_keys(keys):
    """Returns the path of a script with keys, one each 3,000 cycles."""
    path = os.path.join(FOLDER, 'keys')
    with open(path, 'w', encoding='ascii') as file:
        file.writelines(f'{3000 * i} key {key}\n' for i, key in enumerate(keys.split()))
    return path


def run_to(site, window, cycle):
    """Lets time go on to a cycle."""
    site.do('speed', times=100)
    site.do('play')
    wait(lambda: window.value('now.cycle') > cycle)
    site.do('pause')
    site.do('go', cycle=cycle, sure=True)
    see(window, 'now.cycle', cycle)


def of_panel(site, window, rope):
    """All is lit, then VERB 16 and NOUN 0, by the script; RSET puts the lamps out. Each field and each lamp has an order; R1 and PROG that of the lamp
    test, the lamps that of RSET, VERB and NOUN those of their keys."""
    stays(site, window, 'R1 at first', 'R1 has not been changed since the start.', lambda: press(window, 'R1', '#face '))
    run_to(site, window, 30_000)
    site.do('key', name='RSET')
    run_to(site, window, 33_000)
    script, limit = site.script(), window.value('now.cycle')
    found = {name: last_write(rope, script, limit, name) for name in (*FIELDS, *LAMPS)}
    judge('the lamps went out by RSET', {'4242', '4237'}, {found[name].split()[1] for name in ('the lamp PROG', 'the lamp OPR ERR')})
    judge('the digits came by the lamp test and by the keys', ['4226', '4205'], [found[name].split()[1] for name in ('R1', 'VERB')])
    for name in ('R1', 'VERB', 'PROG', 'R3', 'the lamp PROG', 'the lamp OPR ERR'):
        goes(site, window, rope, name, found[name], lambda: press(window, name, '#face '))
    site.do('go', cycle=int(found['the lamp TEMP'].split()[0]), sure=True)
    see(window, 'now.cycle', int(found['the lamp TEMP'].split()[0]))
    lit = last_write(rope, site.script(), window.value('now.cycle'), 'the lamp TEMP')
    judge('it was lit by the lamp test', '4233', lit.split()[1])
    goes(site, window, rope, 'the lamp TEMP', lit, lambda: press(window, 'the lamp TEMP', '#face '))


def of_cells(site, window, rope):
    """Cells in the tabs Memory and Watch, and channels; what a key has set, what was never changed, and a timer's step."""
    script, limit = site.script(), window.value('now.cycle')
    changed = lambda place: (traced(rope, script, limit, '--cell', place) or [None])[-1]
    cell = lambda place: f"document.querySelector('#memory button[aria-label^=\"{place}: \"]')"
    window.value("document.getElementById('memory-tab').click(); undefined")
    wait(lambda: window.value(f"{cell('0100')} !== null"))
    last = changed('0100')
    goes(site, window, rope, '0100', last, lambda: window.value(f"{cell('0100')}.click(); undefined"))
    stays(site, window, 'a cell', '0277 has not been changed since the start.', lambda: window.value(f"showTab('memory'); {cell('0277')}.click(); undefined"))
    window.value("document.getElementById('bank').value = '3'; document.getElementById('bank').dispatchEvent(new Event('change')); undefined")
    wait(lambda: window.value(f"{cell('E3,1400')} !== null"))
    stays(site, window, 'in a switched bank', 'E3,1405 has not been changed since the start.', lambda: window.value(f"{cell('E3,1405')}.click(); undefined"))
    for place in ('0105', '0025'):
        window.value(f"addWatch('{place}'); undefined")
    goes(site, window, rope, '0105', changed('0105'), lambda: press(window, '0105', '#watched '))
    timer = changed('0025')
    judge('TIME1 is stepped', '- timer TIME1', ' '.join(timer.split()[1:4]))
    press(window, '0025', '#watched ')
    agree(window, is_after(script, timer.split()[0]))
    wanted = f'0025 was last changed at {int(timer.split()[0]) / (256000 / 3):.3f} s, cycle {int(timer.split()[0]):,}, by a step of TIME1. Time stands before it. ↶ Undo going back'
    judge('a timer', wanted, see(window, SAID, wanted))
    click(window, '↶ Undo going back', '#cause button')
    see(window, 'now.cycle', limit)
    written = traced(rope, script, limit, '--only', 'writes', '--channel', '11')[-1]
    goes(site, window, rope, 'channel 11', written, lambda: press(window, 'channel 11', '#channels '))
    key = script.splitlines()[-1].split()[0]
    name = keys_in(script)[-1]
    says = f'channel 15 was last written at {int(key) / (256000 / 3):.3f} s, cycle {int(key):,}, by the event {name}. No order did it. Go there'
    stays(site, window, 'channel 15', says, lambda: press(window, 'channel 15', '#channels '))
    stays(site, window, 'channel 33', 'channel 33 has not been written since the start.', lambda: press(window, 'channel 33', '#channels '))


def by_keyboard(site, window):
    """The Tab key comes to one lamp; the arrow keys go on from there, and Enter asks. So it is with the cells of a bank. Each has a name for
    screen readers, and a finger's tap does what a click does."""
    stops = "[...document.querySelectorAll('#face .cause')].filter((each) => each.tabIndex === 0).length"
    judge('one stop of the Tab key', 1, window.value(stops))
    window.value("document.querySelector('#face .cause').focus(); undefined")
    window.type('ArrowRight', 'ArrowDown', 'ArrowLeft')
    judge('the arrow keys', 'What changed the lamp TEMP last?', window.value("document.activeElement.getAttribute('aria-label')"))
    judge('still one', 1, window.value(stops))
    window.type('Enter')
    agree_if(window)
    judge('Enter asks', True, wait(lambda: window.value(SAID).startswith('the lamp TEMP ')))
    site.do('undo')
    see(window, SAID, '')
    window.resize(390, 844)
    left, top = window.value("(({ left, top, width, height }) => [left + width / 2, top + height / 2])(document.querySelector('[data-lamp=TRACKER] .cause').getBoundingClientRect())")
    window.ask('Emulation.setTouchEmulationEnabled', enabled=True)
    window.ask('Input.dispatchTouchEvent', type='touchStart', touchPoints=[{'x': left, 'y': top}])
    window.ask('Input.dispatchTouchEvent', type='touchEnd', touchPoints=[])
    agree_if(window)
    judge('a tap asks', True, wait(lambda: window.value(SAID).startswith('the lamp TRACKER ')))
    inside = "(({ top, bottom }) => top >= 0 && bottom <= innerHeight)(document.getElementById('cause').getBoundingClientRect())"
    judge('on a phone the answer is scrolled to', True, see(window, inside, True))
    window.resize(1280, 800)
    site.do('undo')
    window.value("showTab('memory'); document.querySelector('#memory button').focus(); undefined")
    window.type('ArrowDown', 'ArrowRight')
    judge('the arrow keys among cells', 9, window.value("[...document.querySelectorAll('#memory button')].indexOf(document.activeElement)"))
    window.ask('Accessibility.enable')
    nodes = window.ask('Accessibility.getFullAXTree')['nodes']
    names = {node.get('name', {}).get('value', '') for node in nodes if not node.get('ignored') and node['role']['value'] == 'button'}
    judge('names', True, {'What changed the lamp PROG last?', 'What changed PROG last?', 'What changed R3 last?'} <= names)


def agree_if(window):
    """Drops what was given since, if it asks."""
    wait(lambda: window.value("document.getElementById('ask').open") or window.value(SAID) != '')
    window.value("if (document.getElementById('ask').open) document.getElementById('ask-yes').click(); undefined")


def try_causes():
    """Without a listing the boundaries are shown."""
    rope = example('verbs', 'rope')
    site = started(rope, with_keys(KEYS))
    window = opened(site)
    of_panel(site, window, rope)
    judge('the boundaries', 'orders-tab', window.value(TAB))
    of_cells(site, window, rope)
    by_keyboard(site, window)
    judge('errors of the page', [], window.errors())
    window.close()
    site.end()


def try_cause_line():
    """With a listing the order's line is lit. A quantity of two cells has the later change of both."""
    folder = woven('verbs')
    with open(os.path.join(folder, 'quantities'), 'w', encoding='ascii') as file:
        file.write('left DIGITS double B28\n')
    site = started(os.path.join(folder, 'rope'), with_keys(KEYS))
    window = opened(site)
    of_line(site, window, folder)
    site.do('undo')
    see(window, 'now.cycle', 20_000)
    rope = os.path.join(folder, 'rope')
    last = [traced(rope, site.script(), 20_000, '--cell', place)[-1] for place in ('0102', '0103')]
    judge('the words change apart', 2, len({line.split()[0] for line in last}))
    press(window, 'left', '#quantity-rows ')
    wanted = max(int(line.split()[0]) for line in last)
    judge('the later one', wanted, see(window, 'now.cycle', wanted))
    window.close()
    site.end()


def of_line(site, window, folder):
    """R1 came by the lamp test, whose line is lit."""
    lines, places = read(folder)
    run_to(site, window, 20_000)
    line = last_write(os.path.join(folder, 'rope'), site.script(), window.value('now.cycle'), 'R1')
    press(window, 'R1', '#face ')
    number = places[physical(line.split()[1])]
    judge('the line', ([number], 'source-tab'), (see(window, LIT, [number]), see(window, TAB, 'source-tab')))
    judge('it is the WRITE of the lamp test', 'WRITE   OUT0', lines[number][2].strip())


TRIES = (try_causes, try_cause_line)
