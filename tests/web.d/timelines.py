"""The timeline of a session: its lines are those that agc-study prints of the session's script. The tab Timeline shows it in the page."""
import json
import os
import re
import subprocess

from judge import STUDY, judge, scratch_folder
from site_of import example, started, wait
from views import opened, see

FOLDER = scratch_folder()
BLOCK = re.compile('<script type="text/plain" id="jobs">\n(.*?)</script>', re.DOTALL)
LINK = "document.getElementById('timeline').checkVisibility()"
SAID = "document.getElementById('timeline-said').textContent"
FRAME = "document.getElementById('timeline-frame')"
NO_TABLES = "a timeline needs to know where the Executive's tables are: --watch SPEC, or a file ROPE.watch"


def show_script(window):
    """Opens the tab of the script, once it is there."""
    see(window, "document.getElementById('script-tab') !== null", True)
    window.value("document.getElementById('script-tab').click(); undefined")


def try_timeline():
    """The landing has tables, so its session has a timeline; the lamp test has none."""
    site = started(example('descent', 'rope'), example('descent', 'script'))
    window = opened(site)
    show_script(window)
    judge('the timeline is offered', True, see(window, LINK, True))
    site.do('play')
    judge('time runs', True, wait(lambda: site.state()['time']['cycle'] > 40000, 120))
    site.do('pause')
    window.close()
    status, headers, text = site.request('GET', '/timeline')
    judge('the page', (200, True), (status, headers['Content-Security-Policy'].startswith('sandbox allow-scripts;')))
    path, limit = os.path.join(FOLDER, 'script'), str(site.state()['time']['limit'])
    with open(path, 'w', encoding='ascii') as file:
        file.write(site.script())
    with open(example('descent', 'watch'), encoding='ascii') as file:
        words = ['jobs', example('descent', 'rope'), path, '--limit', limit, '--watch', file.read().strip(), '--names', example('descent', 'names')]
    wanted = subprocess.run([STUDY, *words], capture_output=True, text=True, check=True).stdout.splitlines()
    lines = BLOCK.search(text)[1].splitlines()
    judge('there are lines', True, len(wanted) > 20)
    judge('its lines', wanted, [line for line in lines if re.match(r'\d+ (SET|LST)', line)])
    judge('its end', f'stop {limit} Limit', lines[-1])
    site.end()


def try_no_timeline():
    """Without tables there is no timeline, and the answer says why."""
    site = started(example('verbs', 'rope'))
    window = opened(site)
    show_script(window)
    judge('no timeline is offered', True, see(window, f"document.getElementById('film').checkVisibility() && !({LINK})", True))
    window.close()
    status, _, text = site.request('GET', '/timeline')
    judge('the answer', (409, NO_TABLES), (status, text))
    site.end()


def show_tab(window):
    """Opens the tab Timeline, once it is there. Returns the names of the tabs."""
    see(window, "document.getElementById('timeline-tab') !== null", True)
    window.value("document.getElementById('timeline-tab').click(); undefined")
    return window.value("[...document.getElementById('tabs').children].map((tab) => tab.textContent)")


def try_tab():
    """The tab has a timeline made of the session as it stands, says so, and shows it; a click in it takes time there."""
    site = started(example('descent', 'rope'), example('descent', 'script'))
    window = opened(site)
    tabs = show_tab(window)
    judge('the tab is beside Plot', 1, tabs.index('Timeline') - tabs.index('Plot'))
    judge('there is none yet', ('It shows the session up to the present cycle.', False), (window.value(SAID), window.value(f'{FRAME}.checkVisibility()')))
    site.do('play')
    judge('time runs', True, wait(lambda: site.state()['time']['cycle'] > 400000, 120))
    site.do('pause')
    limit = site.state()['time']['limit']
    window.value("document.getElementById('timeline-make').click(); undefined")
    judge('it is being made', True, window.value(SAID).startswith(('The timeline is being made', 'Up to')))
    wanted = f'Up to {limit * 3 / 256000:.3f} s, cycle {limit:,}. Click in it: time goes there.'
    judge('it is made', wanted, see(window, SAID, wanted))
    judge('it is shown', [True, True, 'Timeline: who had the processor when'],
          window.value(f'[{FRAME}.checkVisibility(), {FRAME}.getBoundingClientRect().height > 300, {FRAME}.title]'))
    judge_kept(site, window, limit)
    click_frame(site, window, limit)
    judge('errors of the page', [], window.errors())
    window.close()
    site.end()


def judge_kept(site, window, limit):
    """The timeline that is shown is kept: another request gets the same. A page of ours alone may have it in a frame."""
    alone = window.value("document.getElementById('timeline-alone').getAttribute('href')")
    status, headers, text = site.request('GET', f'/{alone}')
    judge('the page that is kept', (200, f'stop {limit} Limit', 'SAMEORIGIN'), (status, BLOCK.search(text)[1].splitlines()[-1], headers['X-Frame-Options']))
    policy = headers['Content-Security-Policy']
    judge('it reaches nothing', True, policy.startswith("sandbox allow-scripts; default-src 'none';") and policy.endswith("; frame-ancestors 'self'"))
    judge('the frame has it', True, window.value(f'{FRAME}.src').endswith(f'/{alone}'))
    judge('no other page is framed', 'DENY', site.request('GET', '/')[1]['X-Frame-Options'])


def click_frame(site, window, limit):
    """A click in the chart takes time there; a message of another kind does nothing."""
    box = json.loads(window.value(f'JSON.stringify({FRAME}.getBoundingClientRect())'))
    times = []
    for right in (0.8, 0.6, 0.4):
        before = site.state()['time']['cycle']
        window.click(box['left'] + box['width'] * right, box['top'] + 150)
        wait(lambda: site.state()['time']['cycle'] != before)
        times.append(see(window, 'pending ? -1 : now.cycle', site.state()['time']['cycle']))
    # as far apart as the clicks: a chart's names take 84 points, and its margins and the frame's scroll bar 20 to 35
    share = box['width'] * 0.2 / (box['width'] - 84 - 27)
    for first, second in zip(times, times[1:]):
        judge(f'from {first} to {second} time goes back by the way between two clicks', True, abs((first - second) / limit - share) < 0.03 * share)
    judge('the page has the keys again', True, window.value(f'document.activeElement !== {FRAME}'))
    window.value("window.postMessage({ timeline: 'cycle', cycle: 5 }, '*'); new Promise((done) => setTimeout(() => done(0), 300))")
    judge('another page names no cycle', times[-1], site.state()['time']['cycle'])


def try_no_tab():
    """Without tables the tab says why there is no timeline, and so does the answer; without agc-study it says so."""
    site = started(example('verbs', 'rope'))
    window = opened(site)
    show_tab(window)
    judge('the tab says why', 'There is no timeline: the places of the Executive’s tables are not known. Start agc-web with --watch SPEC, or put a file ROPE.watch beside the rope.',
          window.value(SAID))
    judge('there is no button, and no frame', [False, False],
          window.value(f"[document.getElementById('timeline-make').checkVisibility(), {FRAME}.checkVisibility()]"))
    status, _, answer = site.request('POST', '/timeline', {})
    judge('the answer', (409, {'error': NO_TABLES}), (status, json.loads(answer)))
    judge('none is kept', (409, 'no timeline was made yet'), site.request('GET', '/timeline?kept=1')[::2])
    window.value("session.makeTimeline = () => Promise.resolve({ status: 409, error: 'films need agc-study' }); makeTimeline()")
    judge('a failure is said', 'No timeline was made: films need agc-study', window.value(SAID))
    window.close()
    site.end()


TRIES = (try_timeline, try_no_timeline, try_tab, try_no_tab)
