"""Firefox without a window, driven by WebDriver BiDi over a WebSocket (RFC 6455)."""
import base64
import json
import os
import re
import socket
import subprocess

LONGEST = 300  # seconds that an answer may take
SETTINGS = {
    # nothing is looked up, and nothing is asked of a network
    'network.proxy.type': 1, 'network.proxy.http': '127.0.0.1', 'network.proxy.http_port': 9, 'network.proxy.ssl': '127.0.0.1',
    'network.proxy.ssl_port': 9, 'network.dns.disablePrefetch': True, 'app.update.auto': False, 'app.normandy.enabled': False,
    'datareporting.policy.dataSubmissionEnabled': False, 'toolkit.telemetry.enabled': False, 'browser.shell.checkDefaultBrowser': False,
    'browser.startup.homepage_override.mstone': 'ignore', 'remote.active-protocols': 1,
}
CODES = {'Enter': '\ue007', 'Space': ' '}


class Firefox:
    """One page of Firefox."""

    opened: list = []

    def __init__(self, program, home):
        with open(os.path.join(home, 'user.js'), 'w') as file:
            file.writelines(f'user_pref({json.dumps(name)}, {json.dumps(value)});\n' for name, value in SETTINGS.items())
        words = [program, '--headless', '--no-remote', '--profile', home, '--remote-debugging-port', '0', 'about:blank']
        self.process = subprocess.Popen(words, stdin=subprocess.DEVNULL, stdout=subprocess.DEVNULL, stderr=subprocess.PIPE,
                                        text=True, env={**os.environ, 'HOME': home})
        Firefox.opened.append(self.process)
        self.socket = self.bytes = None
        self.last = 0
        port = next(int(found[1]) for found in map(found_port, self.process.stderr) if found)
        self.connect(port)
        self.ask('session.new', capabilities={})
        self.page = self.ask('browsingContext.getTree')['contexts'][0]['context']

    def connect(self, port):
        """Opens the WebSocket."""
        self.socket = socket.create_connection(('127.0.0.1', port), LONGEST)
        head = f'GET /session HTTP/1.1\r\nHost: 127.0.0.1:{port}\r\nUpgrade: websocket\r\nConnection: Upgrade\r\n'
        self.socket.sendall((head + 'Sec-WebSocket-Key: dGhlIHNhbXBsZSBub25jZQ==\r\nSec-WebSocket-Version: 13\r\n\r\n').encode())
        self.bytes = self.socket.makefile('rb')
        head = list(iter(lambda: self.bytes.readline().strip(), b''))
        if b' 101 ' not in head[0]:
            raise RuntimeError(f'no WebSocket: {head}')

    def send(self, text):
        """Sends a text as a frame, with a mask."""
        data = text.encode()
        size = len(data)
        length = bytes([0x80 | size]) if size < 126 else b'\xfe' + size.to_bytes(2, 'big') if size < 1 << 16 else b'\xff' + size.to_bytes(8, 'big')
        head = b'\x81' + length
        mask = b'\x12\x34\x56\x78'
        self.socket.sendall(head + mask + bytes(byte ^ mask[i % 4] for i, byte in enumerate(data)))

    def message(self):
        """Returns the next message, whose frames are joined."""
        data = b''
        while True:
            code, length = self.bytes.read(2)
            if length > 125:
                length = int.from_bytes(self.bytes.read(2 if length == 126 else 8), 'big')
            data += self.bytes.read(length)
            if code & 0x80:
                return json.loads(data)

    def ask(self, method, **words):
        """Asks for something, and waits for the answer."""
        self.last += 1
        self.send(json.dumps({'id': self.last, 'method': method, 'params': words}))
        while True:
            answer = self.message()
            if answer.get('id') == self.last:
                if answer['type'] == 'error':
                    raise RuntimeError(f'{method}: {answer["error"]}: {answer["message"]}')
                return answer['result']

    def load(self, url):
        self.ask('browsingContext.navigate', context=self.page, url='about:blank', wait='complete')
        self.ask('browsingContext.navigate', context=self.page, url=url, wait='complete')

    def reload(self):
        self.ask('browsingContext.reload', context=self.page, wait='complete')

    def value(self, script):
        """Returns what a script in the page gives, as JSON has it."""
        wrapped = f'Promise.resolve({script}).then((value) => JSON.stringify(value ?? null))'
        answer = self.ask('script.evaluate', expression=wrapped, target={'context': self.page}, awaitPromise=True)
        if answer['type'] == 'exception':
            raise RuntimeError(answer['exceptionDetails']['text'])
        return json.loads(answer['result']['value'])

    def type(self, *names):
        """Presses keys of the keyboard, one after another."""
        for name in names:
            key = CODES.get(name, name)
            actions = [{'type': 'keyDown', 'value': key}, {'type': 'keyUp', 'value': key}]
            self.ask('input.performActions', context=self.page, actions=[{'type': 'key', 'id': 'keyboard', 'actions': actions}])

    def picture(self, path):
        """Writes what the page shows."""
        with open(path, 'wb') as file:
            file.write(base64.b64decode(self.ask('browsingContext.captureScreenshot', context=self.page)['data']))

    def close(self):
        """Ends the browser."""
        try:
            self.ask('browser.close')
        except (OSError, RuntimeError, ValueError):
            self.process.terminate()
        self.socket.close()
        try:
            self.process.wait(20)
        except subprocess.TimeoutExpired:
            self.process.kill()
            self.process.wait()
        self.process.stderr.close()

    @classmethod
    def close_all(cls):
        """Ends those that a test that failed has left."""
        for process in cls.opened:
            process.kill()
            process.wait()
        cls.opened.clear()


def found_port(line):
    """Returns the match of the line that names the port."""
    return re.search(r'WebDriver BiDi listening on ws://127\.0\.0\.1:(\d+)', line)
