"""A window of a browser that shows agc-web: the browser of tests/film, which may reach 127.0.0.1."""
import base64
import contextlib
import os
import sys

from site_of import wait

sys.path.append(os.path.join(os.path.dirname(os.path.abspath(__file__)), '..', 'film.d'))
import browser  # noqa: E402

browser.FLAGS.append('--host-resolver-rules=MAP rebound.test 127.0.0.1, MAP * ~NOTFOUND, EXCLUDE 127.0.0.1')
browser.LONGEST = 300  # seconds: other judges and proofs may run
CODES = {'Enter': ('Enter', 13), 'Backspace': ('Backspace', 8), 'Tab': ('Tab', 9), 'Escape': ('Escape', 27), 'Space': (' ', 32)}
TEXTS = {'Enter': '\r', 'Space': ' '}


class Window(browser.Browser):
    """A page of a browser, with keys held and pictures taken."""

    def new_tab(self):
        """Opens another tab of the browser, and returns its session."""
        usual, self.session = self.session, None
        target = self.ask('Target.createTarget', url='about:blank')['targetId']
        self.session = self.ask('Target.attachToTarget', targetId=target, flatten=True)['sessionId']
        for part in ('Page', 'Runtime'):
            self.ask(part + '.enable')
        self.ask('Page.setLifecycleEventsEnabled', enabled=True)
        tab, self.session = self.session, usual
        return tab

    def key(self, name, kind):
        """Has a key of the keyboard go down ('keyDown') or come up ('keyUp')."""
        key, code = {**browser.KEYS, **CODES}.get(name, (name, ord(name[0].upper())))
        text = TEXTS.get(name, key if len(key) == 1 else '')
        more = {'text': text} if text and kind == 'keyDown' else {}
        self.ask('Input.dispatchKeyEvent', type=kind, key=key, windowsVirtualKeyCode=code, **more)

    def type(self, *names):
        """Presses keys of the keyboard, one after another."""
        for name in names:
            self.key(name, 'keyDown')
            self.key(name, 'keyUp')

    def resize(self, width, height, scale=1):
        """Makes the page as large as this, and waits until it is."""
        self.ask('Emulation.setDeviceMetricsOverride', width=width, height=height, deviceScaleFactor=scale, mobile=False)
        wait(lambda: self.value('[innerWidth, innerHeight]') == [width, height])

    @contextlib.contextmanager
    def frozen(self):
        """Has the page stand still meanwhile, as a browser has one in the background: what the machine does then is not drawn. Later the
        page takes the news that have come."""
        self.ask('Page.setWebLifecycleState', state='frozen')
        try:
            yield
        finally:
            self.ask('Page.setWebLifecycleState', state='active')

    def picture(self, path):
        """Writes what the window shows."""
        data = self.ask('Page.captureScreenshot', format='png')['data']
        with open(path, 'wb') as file:
            file.write(base64.b64decode(data))
