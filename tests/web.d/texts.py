"""The page's fixed texts: the heads of its tables, its buttons, help and notes, and the command's help.

What is wanted was worked out by hand: keys, steps and options from docs/WEB.md and docs/DSKY.md, the channels from the computer's
hardware. A value belongs to the head of its column.
"""
import os
import subprocess

from causes import run_to
from judge import TOP, judge
from listed import woven
from site_of import example, started
from views import opened, see

HELP = {
    '0–9 + -': 'the keys with these signs', 'v n Enter': 'VERB, NOUN, ENTR', 'c k r': 'CLR, KEY REL, RSET', 'p': 'PRO, as long as it is held',
    'Space': 'time stops, or goes on', '.': 'one boundary on', 'Backspace': 'back by a second; by a tenth if time stands',
    'D': 'back to the last change of the panel', '< >': 'slower, faster', 'u': 'undo going back',
    'Escape': 'leaves a button or a field, so that Enter is ENTR', 'f': 'fills the screen, for a projector; again, or Escape: back',
}
STEPS = {
    '◀ Finish': 'Back to the call of this routine', '◀ Over': 'Back over the call before this line', '◀ Step': 'Back by a boundary',
    'Step': "On by a boundary: an order, an event, a timer's step or an interrupt",
    'Over': 'On over the call that comes next, or by a boundary', 'Finish': 'On until this routine returns',
}
CHANNELS = {
    '05': 'pitch and yaw', '06': 'jets: roll', '07': 'superbank', '10': 'relays', '11': 'lamps', '12': 'gimbals', '13': 'radar, uplink', '14': 'drives of CDUs',
    '15': 'main DSKY', '16': 'navigation DSKY', '30': 'stage, engine', '31': 'hand controllers', '32': 'thrusters, PRO', '33': 'radar, optics',
    '34': 'downlink, first', '35': 'downlink, second',
}
"""A part of what stands beside each channel, which stands beside no other."""

BREAKS = 'Time stops before the order, or after the write or the change. Going back ends before it. Ignore passes over as many hits.'
OPTIONS = {
    '--names FILE': 'gives places names', '--watch SPEC': "Executive's tables", '--guide FILE': 'guided steps', '--listing FILE': "the source's lines",
    '--quantities FILE': 'what cells hold, in units', '--nouns FILE': 'verbs and nouns', '--port N': 'the port (8437, or a free one)',
    '--listen ADDRESS': 'the address of page and instruments', '--save FILE': 'script', '--open': 'page', '--instruments PORT': 'instruments',
}
"""A part of the help of each option."""

ROWS = """((table) => {
    const found = document.querySelector(table);
    const heads = [...found.querySelectorAll('thead th')].map((each) => each.textContent);
    return [...found.querySelectorAll('tbody tr')].map((row) => Object.fromEntries([...row.children].map((cell, i) => [heads[i], cell.textContent])));
})"""


def columns(table, *heads):
    """Returns a script that gives these columns of a table's first row."""
    return f"(([row]) => row && {list(heads)!r}.map((head) => row[head]))({ROWS}('{table}'))"


def of_tables(window):
    """A word in octal and as a decimal, a quantity's value and unit, and what each channel is: each below its head."""
    window.value("showTab('watch'); addWatch('LEFT'); undefined")
    cell, quantity = ['LEFT', '00003', '3'], ['left', '3', 'turns']
    judge('a cell', cell, see(window, columns('#watch-panel table', 'Cell', 'Octal', 'Decimal'), cell))
    judge('a quantity', quantity, see(window, columns('#quantities', 'Quantity', 'Value', 'Unit'), quantity))
    rows = {row['Channel']: row['What it is'] for row in window.value(f"{ROWS}('#channels-panel table')")}
    judge('the channels', CHANNELS, {channel: next((part for part in CHANNELS.values() if part in what), what) for channel, what in rows.items()})


def of_buttons(window):
    """What the steps do, the keys of the help, and the note on breakpoints."""
    steps = "[...document.querySelectorAll('#listing-steps button')].map((each) => [each.textContent, each.title])"
    judge('the steps', STEPS, dict(window.value(steps)))
    keys = "[...document.querySelectorAll('#help tr')].map((row) => [...row.children].map((each) => each.textContent))"
    judge('the keys', HELP, dict(window.value(keys)))
    judge('breakpoints', BREAKS, window.value("document.querySelector('#breaks-panel .note').textContent"))


def of_dropping(window):
    """What is asked before keys are dropped by going back, and by undo."""
    asked = """((command, count) => {
        confirmed(command, count);
        const found = ['ask-text', 'ask-yes'].map((id) => document.getElementById(id).textContent);
        document.getElementById('ask').close();
        return found;
    })"""
    back = ['Going back drops 1 key or other event given since. Undo brings them back.', 'Go back']
    judge('going back asks', back, window.value(f"{asked}('go', 1)"))
    judge('undo asks', ['Undo drops 2 keys and other events given since you went back.', 'Undo'], window.value(f"{asked}('undo', 2)"))


def try_texts():
    folder = woven('debugging')
    with open(os.path.join(folder, 'quantities'), 'w', encoding='ascii') as file:
        file.write('left LEFT single 16384 turns\n')
    site = started(os.path.join(folder, 'rope'), example('debugging', 'script'))
    window = opened(site)
    run_to(site, window, 100)
    of_tables(window)
    of_buttons(window)
    of_dropping(window)
    judge('errors of the page', [], window.errors())
    window.close()
    site.end()


def try_help():
    """Each option says what it takes."""
    words = [os.path.join(TOP, 'agc-web'), '--help']
    done = subprocess.run(words, capture_output=True, text=True, check=False, env={**os.environ, 'COLUMNS': '500'})
    lines = {option: next((line for line in done.stdout.splitlines() if line.startswith(f'  {option} ')), '') for option in OPTIONS}
    judge('the help', (0, OPTIONS), (done.returncode, {option: part if part in lines[option] else lines[option] for option, part in OPTIONS.items()}))


TRIES = (try_texts, try_help)
