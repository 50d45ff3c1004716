"""The landing's exercises as guided steps in agc.html: each is walked to its end by the strip's own buttons.

What is wanted at the end is what the commands of examples/descent/README.md give here, and what agc, agc-study and agc-console make
of the script that the page has then.
"""
import json
import os
import re
import subprocess
import sys

from agc import Console
from judge import CONSOLE, STUDY, check, judge, near
from local import web
from opening import file_of
from site_of import example, wait
from source import HAS_ASSEMBLER, press_in_strip, started, woven

NAMES = example('descent', 'names')
LONGEST = 300  # seconds that a step may take
NEAR = 0.15  # m/s: the keys come at other times than those of craft.py
ALARMS = 10_000_000  # cycles in which more than eight alarms follow the first one
CALLED = 100  # cycles from a call of FINDVAC that finds no area to BAILOUT at most
PRIO10 = re.compile(r'PRIO10(?=\s+TC\s+NOVAC\s+2CADR\s+RANGEJOB)')
END = 'That is all.'
PRIORITY = "document.querySelector('#watched [data-place=PRIORITY] td').textContent"
LOOK = """((before, waits) => {
    const what = find('strip-what').textContent;
    if (!guiding.guide || what === 'Guided steps:') return before; // the next machine is being opened
    const button = [...document.querySelectorAll('#strip-buttons button')].find((each) => each.className === 'main' || each.textContent === 'Next');
    if (what !== before && !waits.some((begin) => what.startsWith(begin))) button?.click();
    return what;
})"""
"""Clicks what a new step of the strip offers, unless its hand comes first, and returns what the step says."""
PASSED = """(() => {
    const next = window.usualNext ??= nextStep;
    window.passed = [];
    nextStep = () => { window.passed.push(stepNow().what); next(); };
})()"""
"""Notes each step that the page passes: a slow machine may pass one between two looks."""
CLICK = "document.querySelector('#strip-buttons .main').click()"


def walk(page, guide, hands, first=()):
    """Follows a guide to its end. `hands` has what a user does at a step, by the step's beginning: a function that gets whether the
    step is new, because it is called at each look. What the steps of `first` offer is clicked after their hands."""
    steps = ['']
    page.value(PASSED)
    press_in_strip(page, guide)

    def is_next():
        """Looks at the strip; returns whether it says another step than at the last look."""
        what = page.value(f'{LOOK}({json.dumps(steps[-1])}, {json.dumps(first)})')
        is_new = what != steps[-1]
        hand = next((hand for begin, hand in hands.items() if what.startswith(begin)), None)
        if hand:
            hand(is_new)
        if is_new and what.startswith(tuple(first)):
            page.value(CLICK)
        if is_new:
            steps.append(what)
        return is_new

    while steps[-1] != END and wait(is_next, LONGEST):
        continue
    judge(f'{guide}: it comes to its end', END, steps[-1])
    wanted = page.value(f'guiding.guides.find(({{ title }}) => title === {json.dumps(guide)}).steps.map((each) => each.what)')
    judge(f'{guide}: each step was passed', wanted, page.value('passed'))
    rest = iter(wanted)
    judge(f'{guide}: what was shown, in its order', [], [each for each in steps[1:-1] if each not in rest])
    judge(f'{guide}: its hands were needed', [], [begin for begin in hands if not any(each.startswith(begin) for each in steps)])


def landing():
    """Returns the source of the landing."""
    with open(example('descent', 'descent.agc'), encoding='ascii') as file:
        return file.read()


def rope_with(name, old, new):
    """Weaves the landing with one change by agc-study; returns the path of the rope."""
    text, count = re.subn(old, new, landing(), flags=re.MULTILINE)
    judge(f'{name}: one line changes', 1, count)
    source = file_of(f'{name}.agc', text.encode())
    return file_of(f'{name}.rope', subprocess.run([STUDY, 'weave', source], stdout=subprocess.PIPE, check=True).stdout)


def flown(rope, *words):
    """Flies a rope by craft.py; returns how fast it comes down, and the program at the end."""
    command = [sys.executable, '-B', example('descent', 'craft.py'), '--rope', rope, *words]
    said = subprocess.run(command, capture_output=True, text=True, check=True).stdout
    found = re.search(r'on the ground: -([\d.]+) m/s up.*\n.*program (\d+)', said)
    assert found
    return float(found[1]), found[2]


def judge_landing(what, page, rope, good):
    """Judges a touchdown in the page: the rope, the speed and the program are those of craft.py's flight, and agc shows the same."""
    with open(rope, 'rb') as file:
        judge(f'{what}: the rope', file.read(), bytes(page.value('[...session.files.rope]')))
    speed, program = flown(rope)
    text = page.site.state()['instruments'][0]['outcome']['text']
    found = re.search(r'(Landed|Crashed): ([\d.]+) m/s', text)
    check(f'{what}: {text} has a speed', found)
    judge(f'{what}: within the limits', good, found[1] == 'Landed')
    near(f'{what}: m/s down', speed, float(found[2]), NEAR)
    judge(f'{what}: the program', program, page.see('shown.panel.PROG', program, 60))
    page.pause()
    web.compare_with_agc(what, page, rope)


def opened(name):
    """Opens the page with a source and its guides."""
    page = started()
    page.value(f"openSourceExample('{name}').then(() => 0)")
    judge(f'{name}: faults of its guides', [], page.value('guiding.faults'))
    return page


def try_throttle():
    """The throttle's law: both rates, with the speed of the touchdown, and the program that shows."""
    page = opened('descent')
    ropes = {rate: rope_with(f'rate{rate}', '^ROD0    DEC     51', f'ROD0    DEC     {rate}') for rate in (96, 26)}

    def judged(rate, good):
        return lambda is_new: is_new and judge_landing(f'ROD0 DEC {rate}', page, ropes[rate], good)

    walk(page, "Exercise: the throttle's law", {'Program 69': judged(96, False), 'It lands softly': judged(26, True)})
    judge('the source is as before', woven(landing())[0], woven(page.value("find('source').value"))[0])
    page.close()


def codes_of(rope, script, cycle):
    """Returns the alarm codes that a rope has after a script: first, second and last."""
    with Console(rope, file_of('script', script.encode()), names=NAMES, program=[CONSOLE]) as console:
        console.go_to(cycle)
        return [f'{console.cell(place):05o}' for place in ('FAILREG', 'FAILREG+1', 'FAILREG+2')]


def try_alarm():
    """No 1202 comes with the other priority; the same script with the rope as it was brings one."""
    page = opened('descent')
    rope = rope_with('range', PRIO10.pattern, 'PRIO30')

    def change(is_new):
        """Writes the other priority, at its place alone: a whole text takes long."""
        start, end = PRIO10.search(landing()).span() if is_new else (0, 0)
        page.value(f"""{int(is_new)} && (() => {{
            const area = find('source');
            area.setRangeText('PRIO30', {start}, {start + 6}, 'end');
            area.dispatchEvent(new Event('input'));
        }})()""")

    def read(is_new):
        """Reads the codes that the page shows, and compares."""
        if not is_new:
            return
        page.pause()
        script, cycle = page.site.script(), page.cycle()
        wanted = codes_of(rope, script, cycle)
        judge('another alarm than 1202', '01201', wanted[0])
        judge('the page shows it', f'_{wanted[0]}', page.value('shown.panel.R1'))
        judge('the rope as it was', '01202', codes_of(example('descent', 'rope'), script, cycle)[0])
        web.compare_with_agc('1201', page, rope)

    walk(page, 'Exercise: take the 1202 away', {'In the source': change, 'It is 1201': read})
    page.close()


def try_bug():
    """The wrong number: what is seen at its alarm, the order at which the address is lost, and the landing once it is right."""
    page = opened('puzzle')
    rope = os.path.join(web.FOLDER, 'puzzle.rope')
    subprocess.run([example('descent', 'puzzle'), rope], check=True)
    with open(rope, 'rb') as file:
        judge('the rope is that of examples/descent/puzzle', file.read(), bytes(page.value('[...session.files.rope]')))

    def wait_long(is_new):
        """Lets more alarms come, as for a user who reads slowly."""
        if is_new:
            page.site.do('speed', times=100)
            late = page.cycle() + ALARMS
            check('more alarms come', wait(lambda: page.cycle() > late, LONGEST))

    def at_alarm(is_new):
        """Compares what the page shows with what agc-console has at the first alarm of the same script."""
        if not is_new:
            return
        here = page.cycle()
        with Console(rope, file_of('script', page.site.script().encode()), names=NAMES, program=[CONSOLE]) as console:
            check('the alarm comes', console.until('BAILOUT', within=here + CALLED).came)
            check(f'the page stands at {here}, before the call of the first alarm, {console.cycle}', here < console.cycle <= here + CALLED)
            areas = {place: console.cell(place) for place in ('VAC1USE', 'VAC5USE')}
            jobs = [line for line in console.tables('0,200,10,0,340,0,350') if line.startswith('SET ') and not line.endswith('FREE')]
        judge('at the alarm both areas are in use', {'VAC1USE': 0, 'VAC5USE': 0}, areas)
        check('at most the job of a key is there', len(jobs) <= 1)
        shows = "[...document.querySelectorAll('#watched tr')].map((each) => [each.dataset.place, each.children[1].textContent])"
        wanted = [[place, f'{word:05o}'] for place, word in areas.items()]
        judge('the page shows them', wanted, page.see(shows, wanted, 60))
        used = page.value("find('why-used').textContent")
        check(f'the tab Alarm says {used}', used in ('None of the 8 core sets is in use.', '1 of 8 core sets are in use, by these jobs:'))

    def at_mask(is_new):
        """A has lost the address that PRIORITY has."""
        if is_new:
            page.value("showTab('watch')")
            judge('A after MASK, and PRIORITY', (0o120, '20520'), (page.value('shown.machine.registers.a'), page.see(PRIORITY, '20520', 60)))

    def landed(is_new):
        if is_new:
            judge_landing('without the bug', page, example('descent', 'rope'), True)
            judge('no lamp of an alarm', False, page.value("isLit('PROG')"))

    hands = {'PROG is lit': wait_long, 'Both are 0': at_alarm, 'Look at Orders': at_mask, 'It has landed': landed}
    walk(page, 'Exercise: find the bug', hands, ['PROG is lit', 'Both are 0'])
    page.close()


def try_engine():
    """The engine's end: the order that shuts it down, and the interrupt that led there, are those of agc-study's trace."""
    page = started()
    page.value("openExample('descent').then(() => 0)")
    trace = []

    def on_ground(is_new):
        """Finds in the trace of this flight what the exercise looks for, and then goes back by a second until the engine is on."""
        if is_new:
            script = file_of('script', page.site.script().encode())
            words = [STUDY, 'trace', example('descent', 'rope'), script, '--names', NAMES, '--limit', str(page.cycle())]
            writes = subprocess.run([*words, '--only', 'writes', '--channel', '11'], capture_output=True, text=True, check=True).stdout
            trace.append(next(line for line in writes.splitlines()[::-1] if 'ENGOFF' in line).split())
            before = subprocess.run([*words, '--to', trace[0][0], '--only', 'interrupts', '--last', '1'], capture_output=True, text=True, check=True).stdout
            trace.append(before.split())
        page.value("""document.querySelector('[data-back="1"]').click()""")

    def played(is_new):
        """Plays on after each stop that is not ENGOFF's, once the page has the answer to what was clicked before."""
        if not is_new:
            page.value("now.playing || pending || shown.machine.next.includes('ENGOFF') || ask('play'), undefined")

    def lists(cycle, name):
        return wait(lambda: any(web_line(cycle, each) and name in each for each in page.texts('#history li')), 60)

    def seen(is_new):
        if is_new:
            judge('the order', ['ENGOFF', '+2'], trace[0][2:4])
            check('the page has it at its cycle', lists(trace[0][0], 'ENGOFF +2'))
            judge('the interrupt', 'T5RUPT', trace[1][3])
            check('the page has that at its cycle', lists(trace[1][0], 'T5RUPT'))

    walk(page, "Exercise: the engine's end", {'Drag the slider': on_ground, 'Add "write': played, 'It was T5RUPT': seen})
    page.close()


def web_line(cycle, line):
    """Whether a line under Orders is that of a cycle."""
    return line.startswith(f'{int(cycle):,}')


TRIES = (try_engine, *((try_throttle, try_alarm, try_bug) if HAS_ASSEMBLER else ()))
