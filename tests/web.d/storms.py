"""Random sessions in a storm: eight tabs that press keys, play, go back, undo and set breakpoints at once, with instruments,
while the console is killed or stopped, the disk is full, tabs vanish, and strangers knock. Whatever happens, the session
ends soon after its signal, its script is saved or printed whole, and agc runs that script to the panel that was shown.

STORMS says how many there are (4), SEED where their random numbers begin (70). Each is named by its seed, with which it
comes again: STORMS=1 SEED=N TRY=try_storms tests/web.
"""
import collections
import http.client
import json
import os
import random
import resource
import shutil
import signal
import socket
import struct
import subprocess
import sys
import threading
import time

from dsky import KEYS as KEY_PACKETS, Dsky
from judge import AGC, TOP, judge, scratch_folder, slowness
from site_of import LONGEST, Site, example, free_ports, is_running, wait

FOLDER = scratch_folder()
STORMS, SEED = int(os.environ.get('STORMS', 4)), int(os.environ.get('SEED', 70))
TABS = 8
SOON = 5  # seconds from a signal to the end, beside all that goes on here; ends.py has the two that are promised
KEYS = (*'0123456789+-', 'VERB', 'NOUN', 'ENTR', 'CLR', 'RSET', 'KEYREL')
PLACES = ('4100', '4024', 'write 10', 'write 11', 'cell 100', 'cell 0', '7777')
FAULTS = ('none', 'none', 'kill', 'stop', 'stop for a moment', 'full disk', 'full disk and kill')
ENDS = (
    (signal.SIGINT,), (signal.SIGTERM,), (signal.SIGHUP,), (signal.SIGINT, signal.SIGTERM, signal.SIGHUP),
    (signal.SIGTERM, signal.SIGTERM), (signal.SIGINT,) * 5,
)
counts: collections.Counter[str] = collections.Counter()


class Tab(threading.Thread):
    """A tab of a browser: it listens to the news, and does something at random until it is to stop or gets no answer."""

    def __init__(self, site, seed, stop):
        super().__init__(daemon=True)
        self.site, self.chance, self.stop, self.name = site, random.Random(seed), stop, f'tab-{seed}'
        self.wrong, self.patience = [], 3 * slowness()  # what is not answered may still be done

    def run(self):
        stream = self.site.stream(window=self.name)
        try:
            while not self.stop.is_set():
                counts['acts'] += 1
                stream = self.act(stream)
        except (OSError, http.client.HTTPException, ValueError):
            counts['tabs without an answer'] += 1  # of a console that stands still, or of a program that has ended
        finally:
            stream.close()

    def act(self, stream):
        """Does something; returns the stream, which may be another one then."""
        what = self.chance.choice(ACTS)
        if what == 'close':
            stream.close()
            return self.site.stream(window=self.name)
        if what in ('GET /script', 'GET /', 'GET /film'):
            self.ask('GET', what.split(' ')[1])
        elif what == 'look':
            lines = [f'cell E{self.chance.randrange(8)},1400 256', 'cell 0100', 'cell nowhere', 'channel 10', 'channel 11']
            self.ask('POST', '/say', {'lines': lines})
        elif what == 'search':
            self.ask('POST', '/search', {'lines': ['back until write 10', 'ahead 10'], 'before': int(10 ** self.chance.uniform(2, 8))})
        else:
            self.ask('POST', '/do', {'do': what, **self.words(what)})
        return stream

    def words(self, what):
        """Returns what a command needs."""
        chance = self.chance
        return {
            'key': lambda: {'name': chance.choice(KEYS)},
            'pro': lambda: {'window': self.name, 'down': chance.random() < 0.6},
            'speed': lambda: {'times': chance.choice((1, 10, 100, 1000))},
            'go': lambda: {'cycle': int(10 ** chance.uniform(2, 8)), 'sure': chance.random() < 0.7},
            'back': lambda: {'sure': chance.random() < 0.7}, 'undo': lambda: {'sure': chance.random() < 0.7},
            'break': lambda: {'place': chance.choice(PLACES)}, 'unbreak': lambda: {'place': chance.choice(PLACES)},
        }.get(what, dict)()

    def ask(self, method, path, body=None):
        """Sends a request; a status that shows a fault of the server is kept."""
        connection = http.client.HTTPConnection('127.0.0.1', self.site.port, timeout=self.patience)
        headers = {'X-Token': self.site.token, 'Origin': f'http://{self.site.host}', 'Content-Type': 'application/json'}
        try:
            connection.request(method, path, json.dumps(body) if body is not None else None, headers)
            with connection.getresponse() as answer:
                text = answer.read()
                if answer.status not in (200, 400, 409):
                    self.wrong.append((path, body, answer.status, text[:200]))
        finally:
            connection.close()


ACTS = (
    *['key'] * 12, *['play'] * 4, 'pause', 'speed', *['step'] * 2, 'go', 'back', *['undo'] * 2, 'break', 'unbreak', 'pro',
    'look', 'search', 'GET /script', 'GET /', 'GET /film', 'close',
)


class Storm:
    """One session: what it has, what happens to it, and how it ends, by its seed."""

    def __init__(self, seed):
        self.seed, chance = seed, random.Random(seed)
        self.chance = chance
        self.folder = os.path.join(FOLDER, f'storm-{seed}')
        self.temporary = os.path.join(self.folder, 'tmp')
        os.makedirs(self.temporary)
        self.rope, self.script = self.some_rope()
        self.saved = os.path.join(self.folder, 'saved') if chance.random() < 0.6 else None
        self.fault = chance.choice(FAULTS)
        self.ends = chance.choice(ENDS)
        self.in_the_middle = chance.random() < 0.3  # whether the tabs are still busy as the signal comes
        self.ports = free_ports() if chance.random() < 0.4 else None
        self.what = f'storm {seed} ({self.fault}, signals {[int(each) for each in self.ends]})'

    def some_rope(self):
        """Returns a rope and a script: of an example, or a rope of random words."""
        name = self.chance.choice(('verbs', 'keys', 'count-4', 'division', 'random', 'random'))
        script = example(name, 'script') if name == 'count-4' else '/dev/null'
        if name != 'random':
            return example(name, 'rope'), script
        path = os.path.join(self.folder, 'rope')
        words = [self.chance.randrange(0o100000) for _ in range(128)]
        with open(path, 'wb') as file:
            file.write(b''.join(struct.pack('>H', 2 * word) for word in words))
        return path, script

    def run(self):
        words = [os.path.join(TOP, 'agc-web'), self.rope, self.script, '--port', '0']
        words += ['--save', self.saved] if self.saved else []
        words += ['--instruments', str(self.ports)] if self.ports else []
        self.site = Site(words, {**os.environ, 'TMPDIR': self.temporary})
        self.console, stop = self.site.console(), threading.Event()
        tabs = [Tab(self.site, f'{self.seed}-{number}', stop) for number in range(TABS)]
        for tab in tabs:
            tab.start()
        if self.ports:
            threading.Thread(target=self.disturb, args=(stop,), daemon=True).start()
        time.sleep(self.chance.uniform(0.2, 1))
        self.befall()
        time.sleep(self.chance.uniform(0.2, 1))
        if not self.in_the_middle:
            stop.set()
            for tab in tabs:
                tab.join(LONGEST)
            self.stand()
        self.finish()
        stop.set()
        for tab in tabs:
            tab.join(LONGEST)
        judge(f'{self.what}: no request shows a fault of the server', [], [each for tab in tabs for each in tab.wrong])
        counts['storms'] += 1
        counts[f'fault: {self.fault}'] += 1

    def disturb(self, stop):
        """An instrument types, and a page of a browser posts keys to the instruments' ports."""
        dsky, request = Dsky(self.ports), b'POST / HTTP/1.1\r\n\r\n' + bytes.fromhex(KEY_PACKETS['9'] * 1000)
        while not stop.wait(0.05):
            try:
                dsky.keys(self.chance.choice('12345678'))
                dsky.drain()
                with socket.create_connection(('127.0.0.1', self.ports + 1)) as page:
                    page.sendall(request)
                counts['keys of instruments'] += 1
            except OSError:
                break
        dsky.close()

    def befall(self):
        """Has the fault happen."""
        if 'disk' in self.fault:
            resource.prlimit(self.site.process.pid, resource.RLIMIT_FSIZE, (0, resource.RLIM_INFINITY))
            shutil.rmtree(self.temporary, ignore_errors=True)
        if 'kill' in self.fault:
            os.kill(self.console, signal.SIGKILL)
        if 'stop' in self.fault:
            os.kill(self.console, signal.SIGSTOP)
        if 'moment' in self.fault:
            time.sleep(0.5)
            os.kill(self.console, signal.SIGCONT)

    def stand(self):
        """Stops time, and notes the script and what is shown, if the console still answers."""
        if 'stop' not in self.fault or 'moment' in self.fault:
            self.site.do('pause')
            self.state = self.site.state()
        else:
            self.state = None
        self.told = self.site.script()

    def finish(self):
        """Ends the session by its signals, and checks how it ended."""
        began = time.monotonic()
        for number in self.ends:
            os.kill(self.site.process.pid, number)
        try:
            out, err = self.site.process.communicate(timeout=LONGEST)
        except subprocess.TimeoutExpired:
            self.site.process.kill()
            out, err = self.site.process.communicate()
        took = time.monotonic() - began
        judge(f'{self.what}: it ends within {SOON} s ({took:.2f})', True, took < SOON or took < SOON * slowness())
        is_unsaved = self.saved is not None and 'disk' in self.fault
        lines = [line for line in err.splitlines() if not line.startswith('instruments: ')]
        message = [f'agc-web: {self.saved}: '] if is_unsaved else []
        judge(f'{self.what}: the status', 3 if is_unsaved else 0, self.site.process.returncode)
        judge(f'{self.what}: what is said', message, [line[:len(message[0])] if message else line for line in lines])
        judge(f'{self.what}: the console is gone', True, wait(lambda: not is_running(self.console)))
        if self.saved and not is_unsaved:
            with open(self.saved) as file:
                script = file.read()
        else:
            script = out.split('\n', 1)[1]
            judge(f'{self.what}: no file is left', [], [name for name in os.listdir(self.folder) if name not in ('tmp', 'rope')])
        if not self.in_the_middle:
            judge(f'{self.what}: the script is the one that was shown', self.told, script)
        counts['events'] += script.count('\n')
        self.repeat(script, out)

    def repeat(self, script, out):
        """Runs the script in agc."""
        path, state = os.path.join(self.folder, 'again'), None if self.in_the_middle else self.state
        with open(path, 'w') as file:
            file.write(script)
        limit = int(out.split('--limit ')[1].split()[0]) if '--limit ' in out else state['time']['limit'] if state else 1000
        done = subprocess.run([AGC, self.rope, path, '--limit', str(limit)], capture_output=True, text=True)
        judge(f'{self.what}: agc takes the script', (0, ''), (done.returncode, done.stderr))
        if state and 'kill' not in self.fault:
            counts['panels compared'] += 1
            shown = [f'{name} {value}' for name, value in state['panel'].items()]
            judge(f'{self.what}: agc shows the same panel', shown, done.stdout.splitlines()[:8])
            judge(f'{self.what}: at the same limit', state['time']['limit'], limit)


def try_storms():
    """Storms by their seeds."""
    for seed in range(SEED, SEED + STORMS):
        try:
            Storm(seed).run()
        except Exception as error:
            judge(f'storm {seed} goes on to its end', None, repr(error))
        Site.kill_all()
    if os.environ.get('FIGURES') or STORMS > 4:
        print(f'web: {dict(sorted(counts.items()))}', file=sys.stderr)


TRIES = (try_storms,)
