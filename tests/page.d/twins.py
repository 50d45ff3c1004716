"""The landing's craft in Python and in JavaScript, side by side: the same words of the computer, keys and buttons give the same
events and the same rows.

A flight of craft.py's instrument with agc-console is recorded tick by tick: the words that it reads from the channels, the
buttons, and what it does to the machine. craft.js gets the same words and buttons in a browser. As long as both do the same, the
machine does, too: the script of agc.html is that of craft.py, byte for byte.
"""
import json
import os
import re

from agc import Console
from flights import module_of
from judge import CONSOLE, judge, scratch_folder
from site_of import example
from window import Window

APPROACH = {50 + 25 * n: key for n, key in enumerate('VERB 3 7 ENTR 6 4 ENTR PRO'.split())}
HELD = 20  # ticks in which PRO is held
ROWS_EACH = 250  # ticks


def typed(tick, text):
    """Returns the keys of a text from a tick on, four a second."""
    return {tick + 25 * n: key for n, key in enumerate(text.split())}


FLIGHTS = (
    # what it is, the seed, the user's keys besides those of the approach, the buttons by their ticks, and the last tick
    ('a landing', 1, {}, {}, 18200),
    ('the site is moved', 11, {}, {2000: ['farther'], 2001: ['farther', 'nearer'], 2050: ['nearer'], 6000: ['farther']}, 8000),
    ('the rate switch', 12, typed(1000, 'VERB 3 7 ENTR 6 6 ENTR'), {1500: ['rate-up'], 1501: ['rate-down'], 1530: ['rate-up', 'rate-up']}, 3000),
    ('the rendezvous radar', 13, {}, {1200: ['rendezvous'], 1300: ['rendezvous', 'abort']}, 3000),
    ('the landing radar is lost', 14, {}, {700: ['landing'], 2600: ['landing'], 2601: ['landing'], 2603: ['landing']}, 5000),
    ('an abort at high gate', 15, {}, {500: ['abort'], 510: ['abort']}, 42000),
    ('an abort by the ascent stage', 16, typed(4000, 'VERB 3 7 ENTR 7 1 ENTR'), {4400: ['rate-up', 'farther', 'landing']}, 47000),
    ('all buttons', 17, typed(2600, 'VERB 1 6 NOUN 6 8 ENTR'), {
        100: ['abort', 'rendezvous', 'landing', 'rate-up', 'nearer'], 900: ['landing'], 1000: ['farther', 'rate-down'],
        1400: ['rendezvous'], 2400: ['landing'], 3000: ['nearer', 'abort'], 3100: ['rate-up'],
    }, 6000),
)
FULL = ('a script that is nearly full', 19, {}, {}, 3000)
EVENTS = 47000  # of the craft, with which this flight begins: from the 48,000th on the downlink's interrupt is rare
ORBIT = ('a landing from orbit', 18, {175: '3'}, {}, 73500)


class Recorder:
    """A console that notes what an instrument reads and does in a tick, as a script has it."""

    def __init__(self, console):
        self.console, self.words, self.done = console, [], []

    def note(self, command):
        self.done.append(command)

    def channels(self, numbers):
        self.words = list(zip(numbers, self.console.channels(numbers)))
        return [word for _, word in self.words]

    def defer(self, on=True):
        self.console.defer(on)

    def poke(self, bank, offset, word):
        self.note(f'poke {bank:o} {offset:o} {word:05o}')
        self.console.poke(bank, offset, word)

    def pulse(self, counter, kind):
        self.note(f'pulse {counter:o} {kind}')
        self.console.pulse(counter, kind)

    def raise_interrupt(self, number):
        self.note(f'raise {number}')
        self.console.raise_interrupt(number)

    def input(self, channel, word):
        self.note(f'input {channel:o} {word:05o}')
        self.console.input(channel, word)

    def key(self, name):
        self.note(f'key {name}')
        self.console.key(name)


def recorded(instrument, keys, buttons, end):
    """Flies by an instrument's ticks. Returns what came in each tick, what the instrument did, and its rows now and then."""
    came, done, rows = [], [], []
    with Console(example('descent', 'rope'), program=[CONSOLE]) as console:
        recorder = Recorder(console)
        for tick in range(1, end + 1):
            console.go_to(tick * 2560 // 3)
            if keys.get(tick) == 'PRO':
                console.pro(True)
            elif tick in keys:
                console.key(keys[tick])
            if keys.get(tick - HELD) == 'PRO':
                console.pro(False)
            moves = [(name, False) for name in buttons.get(tick - 1, [])] + [(name, True) for name in buttons.get(tick, [])]
            for name, down in moves:
                instrument.control(name, down)
            if tick % 1000 == 0:
                instrument.load(instrument.save())
            recorder.done = []
            instrument.tick(recorder, console.cycle)
            came.append([dict(recorder.words), moves])
            done.append(recorder.done)
            if tick % ROWS_EACH == 0:
                view = instrument.view()
                rows.append([view['rows'], view['outcome']])
    return came, done, rows


HARNESS = """(Instrument, seed, came, orbit, events) => {
    const instrument = new Instrument({ seed, orbit });
    instrument.craft.events = events;
    const all = [];
    const rows = [];
    let words = {};
    let done = [];
    const octal = (number, digits = 1) => number.toString(8).padStart(digits, '0');
    const agc = {
        channel: (number) => words[number],
        poke: (bank, offset, word) => done.push(`poke ${octal(bank)} ${octal(offset)} ${octal(word, 5)}`),
        pulse: (counter, kind) => done.push(`pulse ${octal(counter)} ${kind}`),
        raise: (number) => done.push(`raise ${number}`),
        input: (channel, word) => done.push(`input ${octal(channel)} ${octal(word, 5)}`),
        key: (name) => done.push(`key ${name}`),
    };
    for (const [index, [read, moves]] of came.entries()) {
        const tick = index + 1;
        for (const [name, down] of moves) instrument.control(name, down);
        if (tick % 1000 === 0) instrument.load(structuredClone(instrument.save()));
        words = read;
        done = [];
        instrument.tick(agc);
        all.push(done);
        if (tick % ROWS_EACH === 0) rows.push([instrument.view().rows, instrument.view().outcome]);
    }
    return [all, rows];
}""".replace('ROWS_EACH', str(ROWS_EACH))


def module(name, own=''):
    """Returns a module of the example as an expression that gives what it exports."""
    with open(example('descent', name), encoding='utf-8') as file:
        text = re.sub(r'^import .*$', '', file.read(), flags=re.M)
    exported = re.findall(r'^export (?:const|function|class) (\w+)', text, flags=re.M)
    text = re.sub(r'^export ', '', text, flags=re.M)
    return f"(() => {{ {own}\n{text}\nreturn {{ {', '.join(exported)} }}; }})()"


def instrument_of_page():
    """Returns the class of craft.js as an expression."""
    own = f"const {{ Noise, PI, SEEDS, degrees, nearest, sineAndCosine }} = {module('exact.js')}; const {{ drawing }} = {module('side_view.js')};"
    return f"{module('craft.js', own)}.Instrument"


def try_twins():
    """Each flight, by both."""
    craft = module_of('descent')
    home = os.path.join(scratch_folder(), 'twins')
    os.mkdir(home)
    window = Window(os.environ['BROWSER'], home, 800, 600)
    window.value(f'window.Twin = {instrument_of_page()}; 0')
    for what, seed, keys, buttons, end in (*FLIGHTS, FULL, ORBIT):
        is_far, events = what == ORBIT[0], EVENTS if what == FULL[0] else 0
        born = craft.Craft(**craft.IN_ORBIT, seed=seed, is_far=True) if is_far else craft.Craft(seed=seed)
        born.events = events
        came, done, rows = recorded(craft.Instrument(born, seed), {**APPROACH, **keys}, buttons, end)
        found, found_rows = window.value(f'({HARNESS})(Twin, {seed}, {json.dumps(came)}, {json.dumps(is_far)}, {events})')
        judge(f'{what}: there are events', True, sum(map(len, done)) > end / 2)
        differs = next((tick for tick, pair in enumerate(zip(done, found), 1) if pair[0] != pair[1]), None)
        judge(f'{what}: the first tick that differs, and how many there are', (None, end), (differs, len(found)))
        differs = next((pair for pair in zip(rows, found_rows) if json.loads(json.dumps(pair[0])) != pair[1]), None)
        judge(f'{what}: rows that differ', None, differs)
        if events:
            downlinks = [tick for tick, each in enumerate(done, 1) if 'raise 8' in each]
            judge(f'{what}: the downlink gets rare', (10, 100), (downlinks[1] - downlinks[0], downlinks[-1] - downlinks[-2]))
    judge('the words for an orbit', 'Aborted: orbit of 85 by 18 km', words_for_orbit(window))
    window.close()


def words_for_orbit(window):
    """Returns the words of craft.js for an orbit with 1684.6 m/s at 18 km; tests/web works it out by hand."""
    script = "(() => { const one = new Twin(); Object.assign(one.craft, { height: 18000, forward: 1684.6, up: 0, flying: true });"
    return window.value(f"{script} return one.view().outcome.text; }})()")


TRIES = (try_twins,)
