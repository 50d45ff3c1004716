"""The site in browsers, from its folder without a network, and from a server."""
import json
import os
import shutil

from firefox import Firefox
from judge import check, judge, scratch_folder
from looks import READ
from pages import FOLDER, documents, pages_of_site, place_of
from site_of import wait
from views import steady
from window import Window, browser

OFFLINE = {'offline': True, 'latency': 0, 'downloadThroughput': 0, 'uploadThroughput': 0}
LIT = '+88888'
MARKUP = '<img src=x onerror="window.ran = 1">'
TYPED = ('T4RUPT', '--until', '30025', 'restart alarm')
FOUND = "document.getElementById('found')?.textContent"
LEAST = 4.5  # contrast
LESSONS = {
    'First program': "shown.panel.R1 === '______'",
    'A table': "shown.panel.R1 === '_____7'",
    'An interrupt': "shown.panel.R1 === '_____1'",
    'Ten digits': "shown.panel.R1 === '_____0'",
    'Find a fault': "shown.panel.R1 === '_____1' && shown.panel.LAMPS === 'none'",
}
"""The lessons of small programs, and what holds at the end of each."""
BACK = "document.querySelector('#breaks button[aria-label^=Back]').click(); undefined"
BY_HAND = {
    'Go back before WRITE': "session.do('go', { cycle: 3, sure: true }).then(() => 0)",
    'Run CA, then EXTEND and WRITE': "session.do('step').then(() => session.do('step')).then(() => session.do('step')).then(() => 0)",
    'Press D, or click': "document.getElementById('back-to-change').click(); undefined",
    'Click ◀ under Breaks': f"document.getElementById('breaks-tab').click(); {BACK}",
}
"""What a user does at steps that no click of the strip does."""
CONTRASTED = ('index.html', 'downloads.html', 'documents.html', 'search.html', 'README.html', 'docs/WEB.html', 'examples/count-1/guide.html')
"""Pages with all kinds of texts."""


def close_all():
    """Ends the browsers that are still there."""
    browser.Browser.kill_all()
    Firefox.close_all()


def url_of(place):
    """Returns the address of a file of the folder."""
    return f'file://{FOLDER}/{place}'


def opened():
    """Opens a browser without a network."""
    window = Window(os.environ['BROWSER'], scratch_folder(), 1280, 900)
    for part in ('Log', 'Network'):
        window.ask(part + '.enable')
    window.ask('Network.emulateNetworkConditions', **OFFLINE)
    return window


def scheme(window, name, media=''):
    """Has the pages be light or dark, on a screen or in print."""
    window.ask('Emulation.setEmulatedMedia', media=media, features=[{'name': 'prefers-color-scheme', 'value': name}])


def picture(window, name):
    if os.environ.get('PICTURES'):
        window.picture(os.path.join(os.environ['PICTURES'], name + '.png'))


def judge_quiet(window, what, beginnings):
    """Judges that the console has no message, and that all requests begin like this."""
    window.value('0')
    events = [(event['method'], event['params']) for event in window.events]
    told = [params for method, params in events if method in ('Log.entryAdded', 'Runtime.consoleAPICalled')]
    judge(f'{what}: what the console says', [], told + window.errors())
    requested = [params['request']['url'] for method, params in events if method == 'Network.requestWillBeSent']
    judge(f'{what}: other requests', [], [url for url in requested if not url.startswith((*beginnings, 'blob:', 'data:'))])
    check(f'{what}: requests were seen', requested)


def click(window, selector):
    """Clicks the middle of an element."""
    box = f"""(() => {{
        const element = document.querySelector({json.dumps(selector)});
        if (!element) return null;
        element.scrollIntoView({{ block: 'center', behavior: 'instant' }});
        const {{ left, right, top, bottom }} = element.getBoundingClientRect();
        return [(left + right) / 2, (top + bottom) / 2];
    }})()"""
    window.click(*steady(window, box))


def comes(window, script, frame=False):
    """Waits until a script gives something true, in the page or its frame; returns what it gives. The page may be left meanwhile."""
    found = []

    def is_there():
        try:
            found[:] = [in_frame(window, script) if frame else window.value(script)]
        except RuntimeError:
            found.clear()
        return bool(found and found[0])

    wait(is_there, 300)
    return found[0] if found else None


def in_frame(window, script):
    """Returns what a script gives in the page's frame, or None if there is none yet."""
    frames = window.ask('Page.getFrameTree')['frameTree'].get('childFrames', [])
    made = [event['params']['context'] for event in window.events if event['method'] == 'Runtime.executionContextCreated']
    found = [context['id'] for context in made if frames and context['auxData'].get('frameId') == frames[0]['frame']['id']]
    answer = window.ask('Runtime.evaluate', expression=script, contextId=found[-1], returnByValue=True) if found else {'result': {}}
    return answer['result'].get('value')


def try_dsky(window, beginnings):
    """The picture of the front page becomes the DSKY, and VERB 35 lights it."""
    click(window, '#start')
    judge('the DSKY is paused', True, comes(window, "document.getElementById('state')?.textContent === 'paused'", True))
    judge('it has the keyboard', True, comes(window, "document.activeElement.tagName === 'IFRAME'"))
    window.type('Space', 'v', '3', '5', 'Enter')
    judge('the DSKY is lit', True, comes(window, f"shown.panel.R3 === '{LIT}'", True))
    picture(window, 'site-dsky')
    judge_quiet(window, 'the DSKY', beginnings)


def try_front():
    """The front page has its picture; Start runs the DSKY; Fly opens the landing, with its guide."""
    window = opened()
    window.load(url_of('index.html'))
    judge('the picture', True, window.value('document.images[0].naturalWidth > 600'))
    judge('its style', 'grid', window.value("getComputedStyle(document.querySelector('.doors')).display"))
    judge('four doors', ['Play', 'Fly', 'Learn', 'Study'], window.value("[...document.querySelectorAll('.doors strong')].map((each) => each.textContent)"))
    judge('sentences', 3, window.value("document.querySelector('.lead').textContent.trim().split(/[.](?: |$)/).filter(Boolean).length"))
    picture(window, 'site-front')
    try_dsky(window, [url_of('')])
    window.load(url_of('index.html'))
    click(window, '.doors li:nth-child(2) a')
    judge('Fly opens the landing', True, comes(window, "document.getElementById('rope')?.textContent === 'Landing on the Moon'"))
    judge('its guide', True, comes(window, "[...document.querySelectorAll('#strip-buttons button')].some((each) => each.textContent === 'Land')"))
    judge('its craft', True, comes(window, "document.querySelector('.drawing') !== null"))
    notice = window.value("document.getElementById('notice-text').textContent")
    judge('it came by a link', True, notice.startswith('This session came with the link.'))
    judge_quiet(window, 'the landing', [url_of('')])
    window.resize(390, 844)
    window.load(url_of('index.html'))
    click(window, '#start')
    judge('on a phone the picture is a link', True, comes(window, "location.pathname.endsWith('/agc.html')"))
    window.close()


def sections_with(query):
    """Counts the sections of the documents that have all words of a query, in the title of the page, the heading or the text."""
    count = 0
    for document in documents():
        sections = pages_of_site()[place_of(document)].sections
        for heading, text in sections:
            all_text = f'{sections[0][0]} {heading} {text}'.lower()
            count += all(word in all_text for word in query.lower().split())
    return count


def typed(window, query):
    """Types a query into the search of a page, and Enter."""
    window.value("document.querySelector('input[name=q]').select(); document.querySelector('input[name=q]').focus(); undefined")
    window.ask('Input.insertText', text=query)
    window.type('Enter')
    sent = f"new URLSearchParams(location.search).get('q') === {json.dumps(query)}"
    comes(window, f"document.readyState === 'complete' && {sent} && !({FOUND} ?? 'The').startsWith('The')")


def try_search():
    """The search of each page finds all sections that have the words; markup is a text."""
    window = opened()
    for query in TYPED:
        window.load(url_of('docs/study/trace.html'))
        typed(window, query)
        judge(f'{query}: what is found', f'{sections_with(query)} sections.', window.value(FOUND))
        judge(f'{query}: as many links, at most sixty', min(60, sections_with(query)), window.value("document.querySelectorAll('#hits a').length"))
        judge_quiet(window, query, [url_of('')])
        words = window.value("[...document.querySelectorAll('#hits li:first-child mark')].map((each) => each.textContent.toLowerCase())")
        judge(f'{query}: the words are marked', True, set(words) <= set(query.lower().split()) and words != [])
        picture(window, f'site-search-{query.split()[0]}')
        click(window, '#hits a')
        comes(window, "document.readyState === 'complete' && document.querySelector('article') !== null")
        text = window.value("document.querySelector('article').textContent").lower()
        judge(f'{query}: the first section', True, all(word in text for word in query.lower().split()))
        judge(f'{query}: its place', True, window.value("!location.hash || document.getElementById(decodeURIComponent(location.hash.slice(1))) !== null"))
    window.load(url_of('search.html'))
    judge('nothing is searched yet', True, window.value(FOUND).startswith('Type a word'))
    window.ask('Input.insertText', text='zzyzx')
    judge('no section', True, comes(window, f"{FOUND} === 'No sections.'"))
    typed(window, MARKUP)
    judge('markup is a text', (MARKUP, 0, 0), (window.value("document.querySelector('input[name=q]').value"), window.value('document.images.length'), window.value('window.ran ?? 0')))
    window.close()


def try_looks():
    """At 390 points no page is wider than the screen; texts have contrast, light and dark; in print the text is all there is."""
    window = opened()
    window.resize(390, 844)
    for place, page in pages_of_site().items():
        if place == 'agc.html':
            continue
        scheme(window, 'light')
        window.load(url_of(place))
        judge(f'{place}: nothing is wider than 390', True, window.value('document.documentElement.scrollWidth <= document.documentElement.clientWidth'))
        judge_quiet(window, place, [url_of('')])
        if place in CONTRASTED:
            window.value(READ.replace('const Read =', 'window.Read ='))
            judge(f'{place}: low contrast', [], window.value(f'Read.low({LEAST})'))
            scheme(window, 'dark')
            judge(f'{place}: low contrast in the dark', [], window.value(f'Read.low({LEAST})'))
    picture(window, 'site-phone')
    window.resize(1280, 900)
    scheme(window, 'dark')
    window.load(url_of('docs/PROOFS.html'))
    colours = "[getComputedStyle(document.body).color, getComputedStyle(document.documentElement).backgroundColor]"
    judge('in the dark', ['rgb(230, 230, 224)', 'rgb(23, 25, 26)'], window.value(colours))
    scheme(window, 'dark', 'print')
    judge('in print', ['rgb(0, 0, 0)', 'rgb(255, 255, 255)'], window.value(colours))
    seen = "['header', '.contents', 'footer', 'article'].filter((name) => document.querySelector(name).checkVisibility())"
    judge('only the text', ['article'], window.value(seen))
    window.close()


def try_firefox():
    """Firefox shows the front page and searches, from the folder."""
    program = shutil.which('firefox-esr')
    if program is None:
        print('skipped: the site in Firefox, because there is no firefox-esr')
        check('Firefox is there in CI', os.environ.get('CI') != 'true')
        return
    page = Firefox(program, scratch_folder())
    page.load(url_of('index.html'))
    judge('Firefox: style and picture', ['grid', True], page.value("[getComputedStyle(document.querySelector('.doors')).display, document.images[0].naturalWidth > 600]"))
    page.value("document.querySelector('input[name=q]').focus()")
    page.type(*'30025', 'Enter')
    judge('Firefox: the search', True, comes(page, f"{FOUND} === '{sections_with('30025')} sections.'"))
    page.close()


def try_served(port):
    """From a server the front page runs the DSKY, and nothing else is requested."""
    window = opened()
    window.ask('Network.emulateNetworkConditions', **{**OFFLINE, 'offline': False, 'downloadThroughput': -1, 'uploadThroughput': -1})
    address = f'http://127.0.0.1:{port}/'
    window.load(address)
    try_dsky(window, [address])
    window.load(address + 'docs/TUTORIAL.html')
    typed(window, 'T4RUPT')
    judge('the search of the server', f'{sections_with("T4RUPT")} sections.', window.value(FOUND))
    judge_quiet(window, 'the search of the server', [address])
    window.close()


def follow(window, lesson):
    """Follows the steps of a lesson: clicks what the strip offers, and does by hand what it leaves to the user. Returns the steps."""
    steps = []

    def is_done():
        text = window.value("document.getElementById('strip-what').textContent")
        if not steps or steps[-1] != text:
            steps.append(text)
            by_hand = next((script for begin, script in BY_HAND.items() if text.startswith(begin)), None)
            window.value(by_hand or "document.querySelector('#strip-buttons button')?.click(); undefined")
        return text == 'That is all.'

    window.value(f"[...document.querySelectorAll('#strip-buttons button')].find((each) => each.textContent === {json.dumps(lesson)}).click(); undefined")
    wait(is_done, 60)
    return steps


def try_lessons():
    """Each lesson opens its machine, has no fault, and comes to its end by what its steps say."""
    window = opened()
    window.load(url_of('lessons.html'))
    lessons = dict(window.value("[...document.querySelectorAll('.doors a')].map((each) => [each.querySelector('strong').textContent, each.getAttribute('href')])"))
    judge('the lessons', [*LESSONS, 'Land'], list(lessons))
    for lesson, shows in LESSONS.items():
        window.load('about:blank')
        window.load(url_of(lessons[lesson]))
        judge(f'{lesson}: no fault', True, comes(window, 'guiding.guides.length > 0 && guiding.faults.length === 0'))
        steps = follow(window, lesson)
        judge(f'{lesson}: its last step', 'That is all.', steps[-1])
        judge(f'{lesson}: its steps', window.value('guiding.guides[0].steps.map((each) => each.what)'), steps[:-1])
        judge(f'{lesson}: what the machine shows', True, window.value(shows))
        judge_quiet(window, lesson, [url_of('')])
    window.close()


TRIES = (try_front, try_lessons, try_search, try_looks, try_firefox)
