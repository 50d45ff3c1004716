"""The ends of a session: whatever the machine does, no signal and no full disk loses its script."""
import os
import pty
import resource
import shutil
import signal
import struct
import subprocess
import sys
import threading
import time

from agc import Console
from agc_web.session import Session
from judge import CONSOLE, TOP, judge, scratch_folder, slowness
from site_of import LONGEST, Site, example, is_running, keys_in, started, wait

FOLDER = scratch_folder()
SOON = 2  # seconds from a signal to the end


def writing_rope():
    """Writes a rope that writes to channel 10 every four cycles (EXTEND, WRITE 10, TCF 4000), and has RESUME at each vector
    of an interrupt."""
    words = ['00006', '01010', '14000', *['00000'] * 46]
    for vector in range(0o4, 0o51, 4):
        words[vector:vector + 1] = ['50017']
    path = os.path.join(FOLDER, 'writing')
    with open(path, 'wb') as file:
        file.write(b''.join(struct.pack('>H', 2 * int(word, 8)) for word in words))
    return path


def read(path):
    """Returns the text of a file, or nothing if there is no such file."""
    if not os.path.exists(path):
        return None
    with open(path) as file:
        return file.read()


def typed(site):
    """Plays, types VERB 1 6, and waits until these keys are pressed; returns the script."""
    site.do('play')
    for name in ('VERB', '1', '6'):
        site.do('key', name=name)
    wait(lambda: len(keys_in(site.script())) == 3)
    return site.script()


def ended(site, *signals, gap=0.0):
    """Sends these signals to the program, and waits for its end. Returns its status, its outputs and how long it took."""
    began = time.monotonic()
    for number in signals:
        os.kill(site.process.pid, number)
        time.sleep(gap)
    try:
        out, err = site.process.communicate(timeout=LONGEST)
    except subprocess.TimeoutExpired:
        site.process.kill()
        out, err = site.process.communicate()
    return site.process.returncode, out, err, time.monotonic() - began


def compare_end(what, found, script, saved=None):
    """Checks that a session ended soon, with status 0, no message and its script saved or printed."""
    status, out, err, seconds = found
    judge(f'{what}: the status, and no message', (0, ''), (status, err))
    judge(f'{what}: it ends soon ({seconds:.2f} s)', True, seconds < SOON or seconds < SOON * slowness())
    judge(f'{what}: the script', script, read(saved) if saved else out.split('\n', 1)[1])


def try_stopped_console():
    """A console that is stopped by kill -STOP: the script is saved or printed all the same, and no process is left."""
    for number, with_file in ((signal.SIGINT, True), (signal.SIGTERM, False), (signal.SIGHUP, True)):
        saved = os.path.join(FOLDER, f'stopped-{number}')
        site = started(example('verbs', 'rope'), *(['--save', saved] if with_file else []))
        script = typed(site)
        console = site.console()
        os.kill(console, signal.SIGSTOP)
        time.sleep(0.1)
        judge('the script can be read', script, site.script())
        compare_end(f'a stopped console, signal {number}', ended(site, number), script, saved if with_file else None)
        judge('its console is gone', True, wait(lambda: not os.path.exists(f'/proc/{console}')))


def try_busy_machine():
    """A machine that is busy: it goes back to the start, and undo runs a million writes again."""
    rope, saved = writing_rope(), os.path.join(FOLDER, 'busy-saved')
    site = started(rope, '--save', saved)
    site.do('key', name='4')
    site.do('speed', times=100)
    site.do('play')
    wait(lambda: site.state()['time']['cycle'] > 4_000_000)
    site.do('pause')
    script = site.script()
    site.do('go', cycle=0, sure=True)
    busy = threading.Thread(target=lambda: wait_refused(lambda: site.do('undo')), daemon=True)
    busy.start()
    time.sleep(0.3)
    judge('the machine is busy', True, busy.is_alive())
    found = ended(site, signal.SIGINT)
    judge('what is saved is from before the undo or after it', True, read(saved) in ('', script))
    compare_end('a busy machine', found, read(saved), saved)


def wait_refused(task):
    """Does something that may lose its connection."""
    try:
        task()
    except OSError:
        pass


def try_second_signal():
    """Signals that come at once are one; one that comes after the script was saved ends the program at once."""
    for what, signals, gap in (
        ('three signals at once', (signal.SIGINT, signal.SIGTERM, signal.SIGHUP), 0),
        ('three signals in a hundredth of a second', (signal.SIGTERM, signal.SIGINT, signal.SIGHUP), 0.005),
        ('ten signals', (signal.SIGINT, signal.SIGTERM) * 5, 0),
    ):
        saved = os.path.join(FOLDER, what)
        site = started(example('verbs', 'rope'), '--save', saved)
        script = typed(site)
        compare_end(what, ended(site, *signals, gap=gap), script, saved)
    saved = os.path.join(FOLDER, 'second')
    site = started(example('verbs', 'rope'), '--save', saved)
    script = typed(site)
    os.kill(site.console(), signal.SIGSTOP)
    os.kill(site.process.pid, signal.SIGINT)
    judge('the script is saved', True, wait(lambda: read(saved) == script))
    time.sleep(0.2)
    found = ended(site, signal.SIGINT)
    compare_end('a second signal', found, script, saved)
    judge(f'the second one ends it at once ({found[3]:.2f} s)', True, found[3] < 1 or found[3] < slowness())


def try_refused_files():
    """Files that cannot take a script are refused at the start, and left as they are."""
    fifo = os.path.join(FOLDER, 'fifo')
    os.mkfifo(fifo)
    for path, reason in (
        ('/dev/null', 'is no regular file'), (fifo, 'is no regular file'), (FOLDER, 'is a folder'),
        (os.path.join(FOLDER, 'no', 'file'), 'No such file or directory'),
    ):
        words = [os.path.join(TOP, 'agc-web'), example('keys', 'rope'), '--port', '0', '--save', path]
        done = subprocess.run(words, capture_output=True, text=True, timeout=LONGEST)
        judge(f'--save {path}', (1, '', f'agc-web: {path}: {reason}\n'), (done.returncode, done.stdout, done.stderr))
    new = os.path.join(FOLDER, 'new')
    words = [os.path.join(TOP, 'agc-web'), '/no/such/rope', '--port', '0', '--save', new]
    judge('a refused rope', 1, subprocess.run(words, capture_output=True, timeout=LONGEST).returncode)
    judge('leaves no file', False, os.path.exists(new))


def fill_disk(site):
    """Lets the program write to no file any more, as if its disk were full."""
    resource.prlimit(site.process.pid, resource.RLIMIT_FSIZE, (0, resource.RLIM_INFINITY))


def try_full_disk():
    """A disk that is full at the end: the script is printed, no empty file is left, and the next try saves there."""
    saved = os.path.join(FOLDER, 'full')
    site = started(example('verbs', 'rope'), '--save', saved)
    script = typed(site)
    fill_disk(site)
    status, out, err, _ = ended(site, signal.SIGINT)
    judge('a full disk: the script is printed', (3, '\n' + script), (status, out))
    judge('and the file is named', f'agc-web: {saved}: File too large\n', err)
    judge('no file is left', [], [name for name in os.listdir(FOLDER) if name.startswith(('full', 'agc-web.'))])
    site = started(example('verbs', 'rope'), '--save', saved)
    script = typed(site)
    compare_end('the next try', ended(site, signal.SIGINT), script, saved)
    with open('/dev/full', 'w') as full:
        words = [os.path.join(TOP, 'agc-web'), example('keys', 'rope'), '--port', '0']
        done = subprocess.run(words, stdout=full, stderr=subprocess.PIPE, text=True, timeout=LONGEST)
    wanted = (3, 'agc-web: standard output: No space left on device\n')
    judge('a full disk is no fault of the port', wanted, (done.returncode, done.stderr))


def try_lost_terminal():
    """If the address cannot be printed, the session ends, and its script is saved."""
    master, terminal = pty.openpty()
    os.close(master)
    for what, output, reason in (('full', os.open('/dev/full', os.O_WRONLY), 'No space left on device'), ('gone', terminal, 'Input/output error')):
        saved = os.path.join(FOLDER, f'lost-{what}')
        words = [os.path.join(TOP, 'agc-web'), example('verbs', 'rope'), example('verbs', 'script'), '--port', '0', '--save', saved]
        done = subprocess.run(words, stdout=output, stderr=subprocess.PIPE, text=True, timeout=LONGEST)
        os.close(output)
        wanted = (0, f'agc-web: standard output: {reason}\n', read(example('verbs', 'script')))
        judge(f'the terminal is {what}: the script is saved', wanted, (done.returncode, done.stderr, read(saved)))


def copy_with_study(name, program):
    """Copies the client into a folder, with a stand-in as its agc-study; returns the folder."""
    folder = os.path.join(FOLDER, name)
    shutil.copytree(os.path.join(TOP, 'clients', 'python'), os.path.join(folder, 'clients', 'python'))
    with open(os.path.join(folder, 'agc-study'), 'w') as file:
        file.write(program)
    os.chmod(file.name, 0o755)
    os.symlink(CONSOLE, os.path.join(folder, 'agc-console'))
    return folder


def try_full_output():
    """A disk that is full at the end, and standard output is a file there: the program does not say that all is well."""
    program = f"""if True:
        import resource, sys
        sys.argv = ['agc-web', {example('keys', 'rope')!r}, '--port', '0']
        from agc_web import command
        usual = command._is_shown
        def show(server, open_page, file):
            is_shown = usual(server, open_page, file)
            server.session.press('4')
            resource.setrlimit(resource.RLIMIT_FSIZE, (100, resource.RLIM_INFINITY))
            sys.stdout.write('x' * 100)
            import os, signal
            os.kill(os.getpid(), signal.SIGINT)
            return is_shown
        command._is_shown = show
        sys.exit(command.main())"""
    with open(os.path.join(FOLDER, 'output'), 'w') as output:
        done = subprocess.run([sys.executable, '-B', '-c', program], stdout=output, stderr=subprocess.PIPE, text=True, timeout=LONGEST)
    judge('a full disk for what is printed', (3, 'agc-web: standard output: File too large\n'), (done.returncode, done.stderr))


def try_film_end():
    """SIGTERM ends the process of a film that is being made."""
    folder = copy_with_study('slow', '#!/bin/sh\nsleep 901\necho film\n')
    environment = {**os.environ, 'PYTHONPATH': os.path.join(folder, 'clients', 'python')}
    site = Site([sys.executable, '-B', '-m', 'agc_web', example('keys', 'rope'), '--port', '0'], environment)
    threading.Thread(target=lambda: wait_refused(lambda: site.request('GET', '/film')), daemon=True).start()
    films = lambda: [number for number, words in site.children() if 'film' in words]
    judge('a film is being made', True, wait(films))
    film = films()[0]
    compare_end('SIGTERM while a film is made', ended(site, signal.SIGTERM), '')
    judge('its process is gone', True, wait(lambda: not is_running(film)))


def try_killed_on_the_way():
    """A console that is killed while the machine is taken back loses nothing of the session."""
    rope = example('verbs', 'rope')
    with Console(rope, program=[CONSOLE], detached=True) as console:
        session = Session(console)
        for name in ('VERB', '1', '6'):
            session.press(name)
        session.go_there(0)
        session.inject(lambda machine: machine.go_to(50_000))
        session.step()
        script, say = session.script(), console.say

        def dies(command):
            if command.startswith('step'):
                console.kill()
            return say(command)

        console.say = dies
        try:
            session.go_there(40_000, True)
            judge('going back without a console', 'refused', 'done')
        except Exception as error:
            judge('going back without a console', 'Ended', type(error).__name__)
        judge('nothing is lost', script, session.script())
        session.close()


TRIES = (
    try_stopped_console, try_busy_machine, try_second_signal, try_refused_files, try_full_disk, try_lost_terminal, try_full_output, try_film_end,
    try_killed_on_the_way,
)
