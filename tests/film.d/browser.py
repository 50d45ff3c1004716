"""A browser without a window, driven over the pipe of its debugging protocol."""
import json
import os
import select
import subprocess
import time

FLAGS = [
    '--headless', '--no-sandbox', '--disable-gpu', '--no-first-run', '--disable-extensions',
    '--disable-background-networking', '--disable-component-update', '--host-resolver-rules=MAP * ~NOTFOUND',
    '--remote-debugging-pipe',
    '--enable-features=NetworkServiceInProcess2',  # one process less: to open a page takes a sixth less of a processor
]
LONGEST = 240  # seconds that an answer may take
KEYS = {'Space': (' ', 32), 'ArrowLeft': ('ArrowLeft', 37), 'ArrowRight': ('ArrowRight', 39), 'Home': ('Home', 36),
        'End': ('End', 35)}


class Browser:
    """One page of a browser, of this size."""

    started: list = []

    def __init__(self, program, home, width, height):
        to_browser, our_end = os.pipe()
        self.answers, its_end = os.pipe()
        words = [program, *FLAGS, f'--user-data-dir={home}/profile', 'about:blank']
        self.process = subprocess.Popen(
            ['bash', '-c', f'exec "$@" 3<&{to_browser} 4>&{its_end}', 'bash', *words],
            pass_fds=(to_browser, its_end), env={**os.environ, 'HOME': home},
            stdin=subprocess.DEVNULL, stdout=subprocess.DEVNULL, stderr=subprocess.DEVNULL)
        Browser.started.append(self.process)
        os.close(to_browser)
        os.close(its_end)
        self.asks, self.read, self.last, self.session, self.events, self.thrown = our_end, b'', 0, None, [], []
        page = next(at for at in self.ask('Target.getTargets')['targetInfos'] if at['type'] == 'page')
        self.session = self.ask('Target.attachToTarget', targetId=page['targetId'], flatten=True)['sessionId']
        for part in ('Page', 'Runtime'):
            self.ask(part + '.enable')
        self.ask('Page.setLifecycleEventsEnabled', enabled=True)
        self.resize(width, height)

    def resize(self, width, height):
        """Gives the page this size."""
        self.ask('Emulation.setDeviceMetricsOverride', width=width, height=height, deviceScaleFactor=1, mobile=False)

    def ask(self, method, **words):
        """Asks for something, and waits for the answer."""
        self.last += 1
        message = {'id': self.last, 'method': method, 'params': words}
        if self.session:
            message['sessionId'] = self.session
        os.write(self.asks, json.dumps(message).encode() + b'\0')
        while True:
            answer = self.heard(method)
            if answer.get('id') == self.last:
                if 'error' in answer:
                    raise RuntimeError(f'{method}: {answer["error"]}')
                return answer['result']

    def heard(self, what):
        """The next message of the browser; those that are no answers are kept."""
        end = time.monotonic() + LONGEST
        while b'\0' not in self.read:
            if not select.select([self.answers], [], [], max(0, end - time.monotonic()))[0]:
                raise TimeoutError(f'{what}: the browser does not answer')
            more = os.read(self.answers, 1 << 20)
            if not more:
                raise RuntimeError(f'{what}: the browser has ended')
            self.read += more
        text, self.read = self.read.split(b'\0', 1)
        message = json.loads(text)
        if message.get('method') == 'Runtime.exceptionThrown':
            self.thrown.append(message['params']['exceptionDetails']['exception'].get('description'))
        elif 'id' not in message:
            self.events.append(message)
        return message

    def open(self, page, hash=''):
        """Opens a file anew, and waits until it is there."""
        self.load('about:blank')
        self.load(f'file://{page}#{hash}')

    def load(self, url):
        self.events.clear()
        loader = self.ask('Page.navigate', url=url)['loaderId']
        wanted = {'name': 'load', 'loaderId': loader}
        while not any(wanted.items() <= event['params'].items() for event in self.events):
            self.heard(url)

    def errors(self):
        """The errors that the pages' own scripts have told since this was asked last."""
        told, self.thrown = self.thrown, []
        return told

    def value(self, script):
        """What a script in the page gives, once what it promises is there."""
        answer = self.ask('Runtime.evaluate', expression=script, returnByValue=True, awaitPromise=True)
        if 'exceptionDetails' in answer:
            raise RuntimeError(answer['exceptionDetails']['exception']['description'])
        return answer['result'].get('value')

    def mouse(self, kind, x, y):
        self.ask('Input.dispatchMouseEvent', type=kind, x=x, y=y, button='left', buttons=int(kind != 'mouseReleased'),
                 clickCount=1)

    def click(self, x, y):
        self.mouse('mousePressed', x, y)
        self.mouse('mouseReleased', x, y)

    def press(self, name):
        """Presses a key of the browser's keyboard."""
        key, code = KEYS.get(name, (name, ord(name[0].upper())))
        text = {'text': key} if len(key) == 1 else {}
        self.ask('Input.dispatchKeyEvent', type='keyDown', key=key, windowsVirtualKeyCode=code, **text)
        self.ask('Input.dispatchKeyEvent', type='keyUp', key=key, windowsVirtualKeyCode=code)

    def close(self):
        """Ends the browser."""
        try:
            self.session = None
            self.ask('Browser.close')
        except (OSError, RuntimeError, TimeoutError):
            self.process.terminate()
        self.process.wait()

    @classmethod
    def kill_all(cls):
        """Kills the browsers that a test that failed has left."""
        for process in cls.started:
            process.kill()
            process.wait()
        cls.started.clear()
