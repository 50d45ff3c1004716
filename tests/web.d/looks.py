"""What can be read and reached: contrast, sizes, names and focus of the page with the landing, and the projector."""
import os
import sys

from judge import judge
from site_of import Site, example
from views import SIZES, opened, see

# The texts that are seen, each with its colours and its size. Colours behind a text are those of the nearest element that has
# any; of a gradient all its colours count.
READ = """
const Read = {
  colours: (text) => [...text.matchAll(/rgba?\\(([^)]+)\\)/g)].map(([, parts]) => parts.split(/[ ,/]+/).map(Number)),
  light: ([red, green, blue]) => [red, green, blue].map((each) => each / 255)
    .map((each) => (each <= 0.04045 ? each / 12.92 : ((each + 0.055) / 1.055) ** 2.4)).reduce((sum, each, i) => sum + each * [0.2126, 0.7152, 0.0722][i], 0),
  behind(element) {
    for (let at = element; at; at = at.parentElement) {
      const { backgroundColor, backgroundImage } = getComputedStyle(at);
      const found = [...Read.colours(backgroundImage), ...Read.colours(backgroundColor)].filter(([, , , alpha = 1]) => alpha === 1);
      if (found.length) return found;
    }
    return [[23, 25, 26]];
  },
  contrast(element) {
    const { color, fill } = getComputedStyle(element);
    const front = Read.light(Read.colours(element instanceof SVGElement ? fill : color)[0]);
    return Math.min(...Read.behind(element).map(Read.light).map((back) => (Math.max(front, back) + 0.05) / (Math.min(front, back) + 0.05)));
  },
  texts() {
    const walker = document.createTreeWalker(document.body, NodeFilter.SHOW_TEXT);
    const found = new Set();
    while (walker.nextNode()) {
      const element = walker.currentNode.parentElement;
      const box = element.getBoundingClientRect();
      const isSeen = element.checkVisibility({ visibilityProperty: true }) && box.width > 1 && box.height > 1 && !element.closest('.unseen, script, datalist, option');
      if (walker.currentNode.data.trim() && isSeen) found.add(element);
    }
    return [...found];
  },
  low: (least) => Read.texts().filter((each) => Read.contrast(each) < least).map((each) => `${each.textContent.trim().slice(0, 20)} ${Read.contrast(each).toFixed(2)}`),
  small: (least) => Read.texts().filter((each) => parseFloat(getComputedStyle(each).fontSize) < least).map((each) => `${each.textContent.trim().slice(0, 20)} ${getComputedStyle(each).fontSize}`),
  beyond: (selector) => [...document.querySelectorAll(selector)].filter((each) => each.checkVisibility()).filter((each) => {
    const box = each.getBoundingClientRect();
    return box.left < -1 || box.top < -1 || box.right > innerWidth + 1 || box.bottom > innerHeight + 1 || box.width < 4;
  }).map((each) => each.outerHTML.slice(0, 60)),
}; undefined
"""


def picture(window, name):
    if os.environ.get('PICTURES'):
        window.picture(os.path.join(os.environ['PICTURES'], name + '.png'))


def try_read():
    """At each width all texts of the page have a contrast of 4.5 to 1 at least, nothing is wider than the page, each control
    has a name, and what has the focus shows it."""
    site = Site([sys.executable, '-B', example('descent', 'craft.py'), '--web', '--port', '0'])
    window = opened(site)
    window.value(READ.replace('const Read =', 'window.Read ='))
    see(window, "document.querySelectorAll('.controls button').length > 4", True)
    for width, height in SIZES:
        window.resize(width, height)
        see(window, 'innerWidth', width)
        judge(f'{width}: texts of low contrast', [], window.value('Read.low(4.5)'))
        judge(f'{width}: nothing is wider than the page', True, window.value('document.documentElement.scrollWidth <= document.documentElement.clientWidth'))
        picture(window, f'web-guide-{width}')
    window.resize(1280, 800)
    for tab in ('orders', 'memory', 'watch', 'channels', 'tables', 'why', 'breaks', 'script'):
        window.value(f"document.getElementById('{tab}-tab').click(); undefined")
        judge(f'{tab}: texts of low contrast', [], window.value('Read.low(4.5)'))
    window.value("document.getElementById('instrument-0-tab').click(); undefined")
    window.ask('Accessibility.enable')
    nodes = window.ask('Accessibility.getFullAXTree')['nodes']
    roles = ('button', 'slider', 'combobox', 'tab', 'textbox', 'link', 'tabpanel', 'dialog', 'image')
    named = [(node['role']['value'], node.get('name', {}).get('value', '')) for node in nodes if not node.get('ignored') and node['role']['value'] in roles]
    judge('each control has a name', [], [each for each in named if not each[1].strip()])
    judge('the controls of guide, time and craft', True, {'Guide: Land', 'Step', 'Abort', 'Projector f'} <= {name for _, name in named})
    try_focus(window)
    try_projector(window, site)
    judge('errors of the page', [], window.errors())
    window.close()
    site.end()


def try_focus(window):
    """The Tab key comes to the guide, to time and to the craft's buttons; each of them has an outline then."""
    window.value('document.activeElement.blur()')
    seen, bare = set(), set()
    for _ in range(60):
        window.type('Tab')
        name, outline = window.value("(({ activeElement: it }) => [it.getAttribute('aria-label') || it.id || it.textContent, parseFloat(getComputedStyle(it).outlineWidth)])(document)")
        seen.add(name)
        if outline < 2:
            bare.add(name)
    wanted = {'Guide: Land', 'projector-button', 'play', 'Abort', 'VERB'}
    judge('the Tab key comes to', wanted, wanted & seen)
    judge('controls whose focus is not seen', set(), bare - {'DSKY'})
    window.value('document.activeElement.blur()')


def try_projector(window, site):
    """f fills 1024 by 768 with DSKY, view and guide; texts have 24 points and a contrast of 7 to 1. Flashing stands still for
    those who want no motion."""
    window.resize(1024, 768)
    window.type('f')
    see(window, "document.body.classList.contains('projector')", True)
    window.resize(1024, 768)
    see(window, 'innerWidth', 1024)
    judge('texts below 24 points', [], see(window, 'Read.small(24)', []))
    judge('texts of low contrast', [], see(window, 'Read.low(7)', []))
    beyond = "Read.beyond('#strip, .dsky, .lamps li, .display, .display svg, .keys button, .drawing')"
    judge('beyond the screen', [], see(window, beyond, []))
    judge('nothing scrolls', True, see(window, 'document.documentElement.scrollHeight <= innerHeight + 1', True))
    # A font's own height may be a sixth more than its lines of text here, which nobody sees. So without a narrow font, in which
    # GIMBAL LOCK is one line, more than that is too much.
    lamps = """[...document.querySelectorAll('.lamps li, .keys button')].map((each) => [each, each.scrollWidth - each.clientWidth,
        each.scrollHeight - each.clientHeight, parseFloat(getComputedStyle(each).fontSize) / 5])
        .filter(([, wide, high, least]) => wide > 1 || high > least).map(([each]) => each.textContent)"""
    judge('lamps and keys without room', [], window.value(lamps))
    area = "[...document.querySelectorAll('.dsky, .drawing')].map((each) => each.getBoundingClientRect()).reduce((sum, { width, height }) => sum + width * height, 0) / (innerWidth * innerHeight)"
    judge('DSKY and view fill most of it', True, window.value(area) > 0.55)
    picture(window, 'web-projector')
    window.value("document.body.classList.add('playing'); document.querySelector('[data-name=VERB]').classList.add('flash'); undefined")
    flash = "getComputedStyle(document.querySelector('[data-name=VERB]')).animationName"
    judge('verbs flash', 'blink', window.value(flash))
    window.ask('Emulation.setEmulatedMedia', features=[{'name': 'prefers-reduced-motion', 'value': 'reduce'}])
    judge('but not if motion is to be reduced', 'none', see(window, flash, 'none'))
    judge('a frame stands for it', True, window.value("getComputedStyle(document.querySelector('[data-name=VERB]')).outlineStyle") == 'dashed')
    window.ask('Emulation.setEmulatedMedia', features=[])
    window.type('f')
    judge('f again goes back', False, see(window, "document.body.classList.contains('projector')", False))


TRIES = (try_read,)
