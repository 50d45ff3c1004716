"""agc.html in a window of a browser, with what tests/web's cases want of a page and of the site that serves it."""
import base64
import importlib.util
import json
import os
import sys

from judge import TOP
from site_of import wait

spec = importlib.util.spec_from_file_location('web_tries', os.path.join(TOP, 'tests', 'web.d', 'tries.py'))
assert spec and spec.loader
web = importlib.util.module_from_spec(spec)
spec.loader.exec_module(web)

FILE = os.path.join(TOP, 'agc.html')
sys.modules['browser'].LONGEST = 300  # type: ignore[attr-defined] # seconds: the file is large, and other judges run
OFFLINE = {'offline': True, 'latency': 0, 'downloadThroughput': 0, 'uploadThroughput': 0}
OPEN = "((files) => session.open({ ...files, rope: bytesOf(files.rope) }).then((why) => { if (!why) beginToKeep(); return why; }))"
OPEN_EXAMPLE = "((name, more) => session.open({ ...filesOfExample(name), ...more }).then((why) => { if (!why) beginToKeep(); return why; }))"


class LocalSite:
    """The session in a page, in the place of a server."""

    seconds = 0

    def __init__(self, rope, *words):
        self.page, options, files = None, {}, [rope]
        for word in iter(list(words)):
            if files[-1] == '--names':
                options['names'] = files.pop() and text_of(word)
            else:
                files.append(word)
        with open(files[0], 'rb') as file:
            code = base64.b64encode(file.read()).decode()
        script = text_of(files[1]) if len(files) > 1 else ''
        self.files = {'title': os.path.relpath(rope, TOP), 'rope': code, 'script': script, 'names': None, 'form': None, 'watch': None, 'guide': None,
                      'example': None, 'instrument': None, 'options': None, **options}

    def value(self, script):
        return self.page.value(script)

    def do(self, command, **more):
        """Has a command done; returns the status."""
        return self.value(f'session.do({json.dumps(command)}, {json.dumps(more)}).then((answer) => answer.status)')

    def script(self):
        return self.value('session.script()')

    def state(self):
        return self.value('shown')

    def open(self, example='', **more):
        """Opens an example of the page, or the rope anew."""
        words = f'{json.dumps(example)}, {json.dumps(more)}'
        refused = self.value(f'{OPEN_EXAMPLE}({words})' if example else f'{OPEN}({json.dumps(self.files)})')
        if refused:
            raise ValueError(refused)

    def end(self):
        return 0, '', ''


class LocalPage(web.Page):  # type: ignore[name-defined]
    """The page of a file."""

    before = ''  # runs in the page before its own scripts

    def load(self, url=None):
        """Opens agc.html, and the rope of the site there."""
        self.site.page = self
        self.open_file()
        self.site.open()

    @staticmethod
    def folder():
        """Returns a folder for files."""
        return web.FOLDER

    def open_file(self, hash=''):
        """Opens agc.html without a network, and waits until a session is there."""
        self.window.ask('Network.enable')
        self.window.ask('Network.emulateNetworkConditions', **OFFLINE)
        if self.before:
            self.window.ask('Page.addScriptToEvaluateOnNewDocument', source=self.before)
        self.window.load('about:blank')
        self.window.load(f'file://{FILE}{hash}')
        wait(lambda: self.text('state') not in (None, ''), 300)
        self.look()

    def look(self):
        """Brings in what reads the face."""
        with open(os.path.join(os.path.dirname(web.HERE), 'film.d', 'look.js'), encoding='utf-8') as look:
            self.value(look.read() + "; Look.run = () => document.getElementById('face'); undefined")

    def reload(self):
        """Reloads the page, and waits for its session."""
        self.value('window.isOld = true')
        self.window.ask('Page.reload')
        wait(lambda: self.value("!window.isOld && Boolean(document.getElementById('state')?.textContent)"), 300)
        self.look()

    def notice(self):
        return self.value("document.getElementById('notice-text')?.textContent")


def text_of(path):
    """Returns the text of a file."""
    with open(path, encoding='ascii') as file:
        return file.read()


setattr(web, 'started', LocalSite)
setattr(web, 'Page', LocalPage)
