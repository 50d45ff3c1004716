"""An agc-web that a test has started, and requests to it."""
import http.client
import json
import os
import random
import signal
import socket
import subprocess
import time

from judge import TOP, slowness

LONGEST = 240  # seconds that anything may take, on a slow machine too
USUAL = 90  # seconds that what a page shows may take, on a machine whose processors are free


def example(*names):
    """Returns the path of an example's file."""
    return os.path.join(TOP, 'examples', *names)


def started(*words, **more):
    """Starts agc-web with these words, at a free port."""
    return Site([os.path.join(TOP, 'agc-web'), *words, '--port', '0'], **more)


def keys_in(script):
    """Returns the commands of a script, without their cycles."""
    return [line.split(' ', 1)[1] for line in script.splitlines()]


def is_running(number):
    """Whether there is a process with this number that has not ended."""
    try:
        with open(f'/proc/{number}/stat') as file:
            return file.read().rpartition(')')[2].split()[0] != 'Z'
    except OSError:
        return False


def free_ports():
    """Returns the first of ten ports that nobody has."""
    while True:
        first, held = random.randrange(20000, 32000), []
        try:
            for port in range(first, first + 10):
                held.append(socket.socket())
                held[-1].bind(('127.0.0.1', port))
            return first
        except OSError:
            continue
        finally:
            for each in held:
                each.close()


class Stream:
    """The news for a window, by a WebSocket."""

    def __init__(self, site, size, window):
        self.socket = socket.socket()
        if size:
            self.socket.setsockopt(socket.SOL_SOCKET, socket.SO_RCVBUF, size)
        self.socket.settimeout(LONGEST)
        self.socket.connect(('127.0.0.1', site.port))
        # the key and its answer are the example of RFC 6455
        head = f'GET /events?token={site.token}&window={window} HTTP/1.1\r\nHost: {site.host}\r\nUpgrade: websocket\r\n'
        self.socket.sendall((head + 'Connection: Upgrade\r\nSec-WebSocket-Key: dGhlIHNhbXBsZSBub25jZQ==\r\n\r\n').encode())
        self.bytes = self.socket.makefile('rb')
        self.head = list(iter(lambda: self.bytes.readline().decode().rstrip(), ''))

    def __enter__(self):
        return self

    def __exit__(self, *_):
        self.close()

    def message(self):
        """Returns the next message."""
        while True:
            code, length = self.bytes.read(2)
            if length > 125:
                length = int.from_bytes(self.bytes.read(2 if length == 126 else 8), 'big')
            data = self.bytes.read(length)
            if code == 0x81:
                return json.loads(data)

    def close(self):
        self.bytes.close()
        self.socket.close()


class Site:
    """A running agc-web, or another program that serves its page."""

    started: list = []

    def __init__(self, words, environment=None, folder=None):
        began = time.monotonic()
        self.process = subprocess.Popen(words, stdout=subprocess.PIPE, stderr=subprocess.PIPE, text=True, start_new_session=True, env=environment, cwd=folder)
        Site.started.append(self)
        self.line = self.process.stdout.readline()
        self.url = self.line.split(' ')[0]
        self.port = int(self.url.split(':')[2].split('/')[0])
        self.token = self.url.split('token=')[1]
        self.host = f'127.0.0.1:{self.port}'
        self.request('GET', '/')
        self.seconds = time.monotonic() - began

    def request(self, method, path, body=None, **headers):
        """Sends a request as our own page does, with other headers where they are given; None leaves one out. Returns the
        status, the headers and the body."""
        sent = {'Host': self.host, 'X-Token': self.token, **{name.replace('_', '-'): value for name, value in headers.items()}}
        if method == 'POST':
            sent.setdefault('Origin', f'http://{self.host}')
            sent.setdefault('Content-Type', 'application/json')
        if isinstance(body, dict):
            body = json.dumps(body).encode()
        if body is not None:
            sent.setdefault('Content-Length', str(len(body)))
        connection = http.client.HTTPConnection('127.0.0.1', self.port, timeout=LONGEST)
        try:
            connection.putrequest(method, path, skip_host=True, skip_accept_encoding=True)
            for name, value in sent.items():
                if value is not None:
                    connection.putheader(name, value)
            connection.endheaders(body)
            answer = connection.getresponse()
            return answer.status, dict(answer.getheaders()), answer.read().decode()
        finally:
            connection.close()

    def console(self):
        """Returns the number of the process of its console."""
        return next(number for number, words in self.children() if any('agc' in word for word in words))

    def do(self, command, **more):
        """Has a command done; returns the status."""
        return self.request('POST', '/do', {'do': command, **more})[0]

    def say(self, *lines):
        """Says lines to the console; returns the cycle and the answers."""
        return json.loads(self.request('POST', '/say', {'lines': lines})[2])

    def said(self, line):
        """Returns the line that answers a line."""
        return self.say(line)['answers'][0]['lines'][0]

    def script(self):
        return self.request('GET', '/script')[2]

    def stream(self, size=None, window=''):
        """Opens the news for a window; with a buffer of this size."""
        return Stream(self, size, window)

    def messages(self, seconds, enough=lambda found: False):
        """Returns the messages of the news in the next seconds, or those up to the one with which they are enough."""
        found, end = [], time.monotonic() + seconds
        with self.stream() as stream:
            while time.monotonic() < end and not enough(found):
                found.append(stream.message())
        return found

    def state(self):
        """Returns all parts of the news as they are now. There is room for fifty windows, and some that have gone may still count."""
        end = time.monotonic() + LONGEST
        while True:
            with self.stream() as stream:
                if any(' 101 ' in line for line in stream.head) or time.monotonic() > end:
                    return stream.message()
            time.sleep(0.2)

    def children(self):
        """Returns the processes that the program has started: their numbers and command lines."""
        found = []
        for number in filter(str.isdigit, os.listdir('/proc')):
            try:
                with open(f'/proc/{number}/stat') as file:
                    parent = int(file.read().rpartition(')')[2].split()[1])
                with open(f'/proc/{number}/cmdline') as file:
                    words = file.read().split('\0')
            except OSError:
                continue
            if parent == self.process.pid:
                found.append((int(number), words))
        return found

    def seconds_used(self):
        """Returns the processor time that the program and its console have used."""
        ticks = 0
        for number in [self.process.pid, *(number for number, _ in self.children())]:
            with open(f'/proc/{number}/stat') as file:
                ticks += sum(map(int, file.read().rpartition(')')[2].split()[11:13]))
        return ticks / os.sysconf('SC_CLK_TCK')

    @classmethod
    def kill_all(cls):
        """Kills what a test that failed has left behind."""
        for site in cls.started:
            if site.process.poll() is None:
                site.process.kill()
                site.process.communicate()
        cls.started.clear()

    def end(self):
        """Presses Control-C, as a terminal does: all processes of the group get it. Returns status and outputs."""
        if self.process.poll() is None:
            os.killpg(self.process.pid, signal.SIGINT)
        out, err = self.process.communicate(timeout=LONGEST)
        return self.process.returncode, out, err


def wait(predicate, seconds=None):
    """Waits until something is so; returns whether it is. Without seconds that is for USUAL ones, longer on a slow machine."""
    return looked(predicate, seconds or USUAL) or not seconds and looked(predicate, min(LONGEST, USUAL * slowness()) - USUAL)


def looked(predicate, seconds):
    """Looks for so many seconds whether something is so. The looks become rarer, so that they hold nothing up."""
    end, rest = time.monotonic() + seconds, 0.02
    while time.monotonic() < end:
        if predicate():
            return True
        time.sleep(rest)
        rest = min(0.2, 1.1 * rest)
    return bool(predicate())
