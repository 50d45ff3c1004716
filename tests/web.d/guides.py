"""Guided steps: the language of their files with its faults, and those of the examples, clicked through and typed by hand."""
import json
import os
import subprocess
import sys
import time

from judge import TOP, judge, near, scratch_folder, slowness
from site_of import USUAL, Site, example, keys_in, started, wait
from views import opened, see, steady

FOLDER = scratch_folder()

GOOD = """# A comment
guide One
need Begin at the start.
click start
until start or R1 _____1
step Let time run.
why It stands,
why and so nothing happens.
label Let it run
click speed 10
click play
until running, speed 10
step Type 4 2.
click keys 4 2
until NOUN 42 or NOUN 99, dark PROG, FLASH off
step Wait.
until seconds 1
step Read this.
guide Two
step Stop.
click pause
until paused
"""

CONDITIONS = 'PROG, VERB, NOUN, R1, R2, R3, FLASH, lit, dark, running, paused, speed, seconds, row, instrument, explained, start, outcome, next'

FAULTS = (
    ('step Early', 'line 1: a step comes after its guide'),
    ('guide', 'line 1: a guide has a title'),
    ('guide A', 'guide A has no step'),
    ('need Early', 'line 1: a need comes after its guide'),
    ('guide A\nneed', 'line 2: a need says what to do'),
    ('guide A\nneed B', 'guide A has no step'),
    ('guide A\nstep B\nuntil running or flip', 'line 3: until flip is unknown: ' + CONDITIONS),
    ('guide A\nwhy Because', 'line 2: this comes after its step'),
    ('guide A\nstep', 'line 2: a step says what to do'),
    ('guide A\nstep B\nlabel', 'line 3: a label is what the button says'),
    ('guide A\nlabel Go on', 'line 2: this comes after its step'),
    ('guide A\nstep B\nflip C', 'line 3: unknown word flip: guide, need, step, why, label, click or until'),
    ('guide A\nstep B\nclick flip', 'line 3: click flip is unknown: keys, play, pause, step, undo, return, start, why, speed, press, tab, break, clear, back, watch'),
    ('guide A\n\n# note\nstep B\nclick keys 3 FLIP', 'line 5: click keys: no key FLIP'),
    ('guide A\nstep B\nclick speed 7', 'line 3: click speed: a speed is 1, 10, 100 or 1000'),
    ('guide A\nstep B\nuntil PROG 6', 'line 3: until PROG: 2 characters, with _ for a blank'),
    ('guide A\nstep B\nuntil running, R1 12', 'line 3: until R1: 6 characters, with _ for a blank'),
    ('guide A\nstep B\nuntil lit FLASH', 'line 3: until lit: no lamp FLASH'),
    ('guide A\nstep B\nuntil seconds x', 'line 3: until seconds: a number of seconds'),
    ('guide A\nstep B\nuntil row Altitude', 'line 3: until row: NAME = VALUE, NAME < NUMBER or NAME > NUMBER'),
    ('guide A\nstep B\nuntil constructor', 'line 3: until constructor is unknown: ' + CONDITIONS),
)
"""Files, and their first faults."""

MARKUP = '<img src=x onerror="window.ran = 1">'
TEXT = "document.getElementById('strip-text').innerText"
BUTTONS = "[...document.querySelectorAll('#strip-buttons button')].map((each) => each.textContent).join(' ')"


def guide_file(text, name='guide'):
    """Writes a file of guided steps; returns its path."""
    path = os.path.join(FOLDER, name)
    with open(path, 'w', encoding='utf-8') as file:
        file.write(text)
    return path


def click(window, label):
    """Clicks a button of the strip."""
    box = f"""(() => {{
        const button = [...document.querySelectorAll('#strip button')].find((each) => each.textContent === {json.dumps(label)} && each.checkVisibility());
        if (!button) return null;
        const {{ left, right, top, bottom }} = button.getBoundingClientRect();
        return [(left + right) / 2, (top + bottom) / 2];
    }})()"""
    window.click(*steady(window, box))


def see_step(window, step, seconds=300):
    """Waits until the strip says a step."""
    wait(lambda: step in window.value(TEXT), seconds)
    judge(f'the strip: {step}', True, step in window.value(TEXT))


def try_language():
    """Each fault names its line, a good file has none, and what a file says stays a text."""
    site = started(example('keys', 'rope'), '--guide', guide_file(GOOD))
    window = opened(site)
    see(window, BUTTONS, 'One Two ✕')
    for text, fault in FAULTS:
        judge(f'the fault of {text!r}', fault, window.value(f'parseGuides({json.dumps(text)}).faults[0]'))
    judge('a good file has none', [], window.value(f'parseGuides({json.dumps(GOOD)}).faults'))
    window.value(f"loadGuides({json.dumps(f'guide {MARKUP}{chr(10)}step {MARKUP}{chr(10)}fly')}); undefined")
    judge('the first fault is shown', 'The guide has a fault: line 3: unknown word fly: guide, need, step, why, label, click or until.', window.value(TEXT).strip())
    judge('and the guide that has none can be used', True, window.value(BUTTONS).startswith(MARKUP))
    window.value("document.querySelector('#strip-buttons button').click(); undefined")
    judge('markup is a text', (True, 0), (MARKUP in window.value(TEXT), window.value("document.querySelectorAll('#strip img').length + (window.ran ?? 0)")))
    judge('errors of the page', [], window.errors())
    window.close()
    site.end()


def try_steps():
    """A click does a step, the machine's display moves it on, so do keys that are typed by hand, and Skip goes to the next."""
    site = started(example('keys', 'rope'), '--guide', guide_file(GOOD))
    window = opened(site)
    see(window, BUTTONS, 'One Two ✕')
    click(window, 'One')
    judge('a step, its number, and why', 'One 1/4 Let time run. It stands, and so nothing happens.', see(window, TEXT, 'One 1/4 Let time run. It stands, and so nothing happens.'))
    judge('a label of its own', 'Let it run Skip ✕', see(window, BUTTONS, 'Let it run Skip ✕'))
    click(window, 'Let it run')
    see_step(window, 'One 2/4 Type 4 2.')
    judge('the speed is set', 10, site.state()['time']['speed'])
    window.type('4', '2')
    see_step(window, 'One 4/4 Read this.')
    judge('what was typed by hand counts', ['key 4', 'key 2'], keys_in(site.script()))
    judge('a step without a condition waits for a click', 'Next ✕', see(window, BUTTONS, 'Next ✕'))
    click(window, 'Next')
    see_step(window, 'That is all.')
    click(window, 'One')
    judge('what it needs is no step', 'One Begin at the start.', see(window, TEXT, 'One Begin at the start.'))
    click(window, 'Skip')
    see_step(window, 'One 4/4 Read this.')
    click(window, '✕')
    click(window, 'Two')
    judge('Skip', 'Do it Skip ✕', see(window, BUTTONS, 'Do it Skip ✕'))
    click(window, 'Skip')
    see_step(window, 'That is all.')
    judge('does nothing to the machine', True, site.state()['time']['playing'])
    click(window, '✕')
    judge('the strip can be hidden', True, see(window, "document.getElementById('strip').hidden", True))
    judge('errors of the page', [], window.errors())
    window.close()
    site.end()


DO_STEPS = """window.doSteps = (last) => {
    window.steps = [];
    window.clicks = 1;
    window.doStepOnce = () => {
        const text = document.getElementById('strip-text').innerText;
        if (steps.at(-1) === text) return;
        steps.push(text);
        if (text.includes(last)) return;
        const button = [...document.querySelectorAll('#strip-buttons button')].find((each) => each.classList.contains('main'));
        clicks += Boolean(button);
        button?.click();
    };
    const wanted = { childList: true, subtree: true, characterData: true };
    new MutationObserver(() => setTimeout(doStepOnce)).observe(document.getElementById('strip'), wanted);
    doStepOnce();
}; undefined"""
"""Does what each step offers as soon as it is shown, once, up to the last one, and notes what the strip says: in the page, so that no
step is missed."""

LONGEST_STEP = 200 * 1024000 // 12  # cycles: to the site the craft flies for 140 seconds

STANDS = "[document.getElementById('strip-text').innerText, now.cycle]"
WHERE = f"""JSON.stringify([
    {TEXT}, {BUTTONS}, now, shown.panel, document.getElementById('trouble').innerText,
    document.getElementById('ask').open && document.getElementById('ask-text').innerText,
    (shown.instruments || []).map(({{ rows, outcome }}) => [rows, outcome]),
])"""


def hang_of(window, last, seconds):
    """Waits until the strip says the last step of a guide, and returns nothing. A step hangs if the machine's time went on by LONGEST_STEP
    since it was shown, or if neither it nor the step changes: then returns what the page shows."""
    text, first, latest, moved = None, 0, 0, 0.0

    def is_over():
        nonlocal text, first, latest, moved
        found, cycle = window.value(STANDS)
        if (found, cycle) != (text, latest):
            first = first if found == text else cycle
            text, latest, moved = found, cycle, time.monotonic()
        stood = time.monotonic() - moved
        return last in text or latest - first > LONGEST_STEP or stood > USUAL and stood > USUAL * slowness()

    wait(is_over, seconds)
    return '' if last in window.value(TEXT) else window.value(WHERE)


def walk(window, guide, last, seconds=600):
    """Chooses a guide and clicks what its steps offer, up to its last step; returns the steps and the number of clicks."""
    see(window, "document.getElementById('strip').hidden", False)
    click(window, guide)
    if not judge(f'the guide {guide} begins', guide, see(window, 'guiding.guide?.title', guide)):
        return [], 0
    window.value(DO_STEPS)
    window.value(f'doSteps({json.dumps(last)})')
    judge(f'the guide {guide} comes to its end', '', hang_of(window, last, seconds))
    return window.value('[steps, clicks]')


def try_guides():
    """The guides of the examples have no fault, and their clicks come to their ends."""
    site = started(example('count-1', 'rope'))
    window = opened(site)
    walk(window, 'First program', 'Go back before WRITE')
    judge('the program has run', '_____0', see(window, 'shown.panel.R1', '_____0'))
    site.do('go', cycle=3)
    see_step(window, 'That was a whole program.')
    judge('faults of the guide', [], window.value('guiding.faults'))
    window.close()
    site.end()
    site = Site([sys.executable, '-B', example('descent', 'craft.py'), '--web', '--port', '0'])
    window = opened(site)
    site.do('speed', times=10)
    titles = ['Land', 'Land with alarm 1202', 'Lamp test and clock', "Exercise: the engine's end"]
    judge('the guides', titles, see(window, 'guiding.guides.map((each) => each.title)', titles))
    judge('faults of the guides', [], window.value('guiding.faults'))
    steps, _ = walk(window, 'Lamp test and clock', 'That is all.')
    judge('each step was shown, as far as it took time', True, len(steps) >= 6)
    judge('the clock was set', True, window.value("shown.panel.R1 === '+00001' && shown.panel.R2 === '+00002'"))
    judge('errors of the page', [], window.errors())
    window.close()
    site.end()


def flown(title, last):
    """Opens the craft's page anew and follows a guide by its clicks; returns the clicks and the seconds until a step is shown."""
    site = Site([sys.executable, '-B', example('descent', 'craft.py'), '--web', '--port', '0'])
    window = opened(site)
    begin = time.monotonic()
    _, clicks = walk(window, title, last)
    seconds = time.monotonic() - begin
    if os.environ.get('FIGURES'):
        print(f'web: {title}: {clicks} clicks, {seconds:.0f} seconds')
    judge('errors of the page', [], window.errors())
    outcome = window.value("document.body.innerText.includes('Landed: ')")
    window.close()
    site.end()
    return clicks, seconds, outcome


def try_flights():
    """From the opened page to the ground in a minute and six clicks, and to the cause of the 1202 in two minutes."""
    clicks, seconds, landed = flown('Land', 'You are on the Moon')
    judge('it has landed', True, landed)
    judge('six clicks are enough', True, clicks <= 6)
    near('seconds to the ground', 0, seconds, 60 * slowness())
    clicks, seconds, _ = flown('Land with alarm 1202', 'Look at the core sets')
    near('seconds to the cause', 0, seconds, 120 * slowness())


def try_files():
    """A file that is named and cannot be had is refused; one beside the rope that cannot be read is left out."""
    command = [os.path.join(TOP, 'agc-web'), example('keys', 'rope'), '--port', '0', '--guide']
    long = guide_file('#' * 65537, 'long')
    for path, reason in ((os.path.join(FOLDER, 'none'), 'No such file or directory'), (FOLDER, 'Is a directory'), (long, 'it has more than 65536 bytes')):
        done = subprocess.run([*command, path], capture_output=True, text=True)
        judge(f'{reason}: the status, and why', (1, f'agc-web: {path}: {reason}\n'), (done.returncode, done.stderr))
    rope = os.path.join(FOLDER, 'own.bin')
    with open(rope, 'wb') as copy, open(example('keys', 'rope'), 'rb') as file:
        copy.write(file.read())
    guide_file('#' * 65537, 'own.bin.guide')
    site = started(rope)
    judge('it starts without', None, site.state()['about']['guide'])
    judge('and says why', f'agc-web: {rope}.guide is left out: it has more than 65536 bytes\n', site.end()[2])


TRIES = (try_language, try_steps, try_guides, try_flights, try_files)
