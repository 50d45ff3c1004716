"""The lesson of docs/DEBUGGING.md by the lines of the source: from the wrong lamp to ADS LEFT by two clicks.

The cycles and lines are those of examples/debugging/words: the key at 300,000 lights OPR ERR at LIGHT +1, and the third ADS LEFT
begins 12 cycles after the third overflow of TIME4.
"""
import os

from causes import SAID, TAB, press
from judge import judge
from listed import LIT, read, woven
from site_of import example, started, wait
from views import opened, see

WORDS = "[...document.querySelectorAll('#watched td.word')].map((each) => each.textContent)"


def leads(window, lines, what, cycle, text, said):
    """Time stands before an order, whose line is lit, and a sentence says what was found."""
    judge(f'{what}: back to', cycle, see(window, 'now.cycle', cycle))
    judge(f'{what}: what is said', said, see(window, SAID, said))
    number = next(i for i, (_, _, line) in enumerate(lines) if line.split('#')[0].split() == text.split())
    judge(f'{what}: its line', ('source-tab', [number]), (see(window, TAB, 'source-tab'), see(window, LIT, [number])))


def try_lesson():
    """OPR ERR, the line that lit it; LEFT, the line that made it -0; and that line run."""
    folder = woven('debugging')
    lines, _ = read(folder)
    site = started(os.path.join(folder, 'rope'), example('debugging', 'script'))
    window = opened(site)
    site.do('speed', times=10)
    window.value("document.getElementById('play').click(); undefined")
    wait(lambda: window.value("isLit('OPR ERR')"))
    press(window, 'the lamp OPR ERR', '#face ')
    leads(window, lines, 'the lamp', 300_010, 'WRITE LAMPS', 'the lamp OPR ERR was last changed at 3.516 s, cycle 300,010, by '
          'WRITE LAMPS > 011 00100 at LIGHT +1. Time stands before it. ↶ Undo going back')
    judge('the line is behind LIGHT', 'LIGHT   EXTEND', lines[window.value(LIT)[0] - 1][2].split('#')[0].strip())
    window.value("showTab('watch'); addWatch('LEFT'); undefined")
    judge('LEFT is -0', ['77777'], see(window, WORDS, ['77777']))
    press(window, 'LEFT', '#watched ')
    leads(window, lines, 'LEFT', 255_803, 'ADS LEFT', 'LEFT was last changed at 2.998 s, cycle 255,803, by ADS LEFT at TICK +6. '
          'Time stands before it. ↶ Undo going back')
    window.value("showTab('watch'); undefined")
    judge('LEFT was 1', ['00001'], see(window, WORDS, ['00001']))
    window.value("document.querySelector('#time #step').click(); undefined")
    judge('a step makes it -0', (255_805, ['77777']), (see(window, 'now.cycle', 255_805), see(window, WORDS, ['77777'])))
    judge('errors of the page', [], window.errors())
    window.close()
    site.end()


TRIES = (try_lesson,)
