"""Going back, breakpoints and limits of a session: by the one console that it has, and by the rope with which it began."""
import importlib.util
import json
import os
import shutil
import subprocess
import sys
import tempfile
import threading
import time

import agc_web.worker
from agc import Console
from agc_web.session import Session, Unable
from judge import CONSOLE, STUDY, judge, scratch_folder, slowness
from site_of import LONGEST, Site, example, keys_in, started, wait

FOLDER = scratch_folder()
LONG = 10**9  # cycles: more than three hours of machine time


def news_of(session):
    """Returns all parts of the news as they are now."""
    return json.loads(session.news.since(0, 0)[1])


def seconds(task):
    """Does something, and returns how long it took."""
    began = time.monotonic()
    task()
    return time.monotonic() - began


def try_nothing_anew():
    """After a long run of a rope that shows something all the time, neither going back to a change, nor Play with two
    breakpoints, nor a pause takes a part of the time of that run: no console runs from cycle 0."""
    with Console(example('count-4', 'rope'), example('count-4', 'script'), program=[CONSOLE], detached=True) as console:
        session, consoles = Session(console), []
        console.again = lambda *words: consoles.append(words) or Console.again(console, *words)
        console.quiet()
        run = seconds(lambda: session.inject(lambda machine: machine.go_to(LONG)))
        console.quiet(False)
        session.step()
        session.press('4')
        here = console.cycle
        for what, task in (
            ('back to a change', lambda: session.go_back_to_change(True)),
            ('undo', session.undo),
            ('two breakpoints', lambda: (session.add_breakpoint('4000'), session.add_breakpoint('write 10'))),
            ('Play with them', lambda: (session.play(), wait(lambda: session.hit))),
            ('and once more', lambda: (session.play(), wait(lambda: session.hit))),
            ('without them', lambda: (session.remove_breakpoint('4000'), session.remove_breakpoint('write 10'))),
            ('a pause', lambda: (session.play(), session.pause())),
            ('what comes', lambda: wait(lambda: len(news_of(session)['ahead']) == 12)),
        ):
            took = seconds(task)
            judge(f'{what} takes {took:.3f} s of {run:.3f}', True, took < run / 3 or took < 0.2 * slowness())
        judge('there was no second console', [], consoles)
        judge('it stands where it should', (True, ['key 4']), (console.cycle >= here, keys_in(session.script())[-1:]))
        session.close()


def try_busy():
    """A command that is answered 'the machine is busy' is never carried out; one that has begun is waited for."""
    usual, agc_web.worker.PATIENCE = agc_web.worker.PATIENCE, 0.2
    with Console(example('keys', 'rope'), program=[CONSOLE], detached=True) as console:
        session, begun, over = Session(console), threading.Event(), threading.Event()
        busy = threading.Thread(target=lambda: session.call(lambda: (begun.set(), over.wait(LONGEST))))
        busy.start()
        begun.wait()
        try:
            session.press('4')
            judge('a key while the machine is busy', 'refused', 'pressed')
        except Unable as unable:
            judge('a key while the machine is busy', 'the machine is busy: this was not done', str(unable))
        over.set()
        busy.join()
        agc_web.worker.PATIENCE = usual
        session.step()
        judge('it is not pressed later', [], keys_in(session.script()))
        agc_web.worker.PATIENCE = 3
        judge('what has begun is waited for', 'done', session.call(lambda: time.sleep(4) or 'done'))
        agc_web.worker.PATIENCE = usual
        session.close()


def try_limits():
    """The limit that repeats a session: that of the machine if it stopped there, one more after an order that stopped it."""
    for what, rope, limit, stop, wanted in (
        ('its limit', 'keys', 5000, 'Limit', 5000), ('an order', 'division', 5000, 'DivisionUndefined', 7), ('nothing', 'keys', None, None, 400),
    ):
        with Console(example(rope, 'rope'), program=[CONSOLE], limit=limit, detached=True) as console:
            session = Session(console)
            if stop:
                session.play()
                wait(lambda: not session.playing)
                session.call(lambda: None)  # the machine has shown the way to the stop
            else:
                session.inject(lambda machine: machine.go_to(400))
            judge(f'stopped by {what}', (stop, wanted), (console.stop, session.repeat().limit))
            session.step() if not stop else session.go_there(0)
            session.close()
    program = f"""if True:
        import agc, agc_web
        with agc.Console({example('keys', 'rope')!r}, program={CONSOLE!r}, limit=5000, detached=True) as console:
            agc_web.serve(console, port=0, save={os.path.join(FOLDER, 'limited')!r})"""
    site = Site([sys.executable, '-B', '-c', program])
    site.do('play')
    judge('the page shows it', True, wait(lambda: site.state()['time']['stop'] == 'Limit'))
    judge('the limit of the script tab', 5000, site.state()['time']['limit'])
    judge('the film goes to the limit', frames_of(STUDY, example('keys', 'rope'), '', 5000), film().frames_in(site.request('GET', '/film')[2], 'left'))
    judge('the command that is printed', '--limit 5000', ' '.join(site.end()[1].split()[-2:]))


def film():
    """Returns the judge of films, which reads their frames."""
    path = os.path.join(os.path.dirname(os.path.abspath(__file__)), '..', 'film.d', 'tries.py')
    spec = importlib.util.spec_from_file_location('film_tries', path)
    module = importlib.util.module_from_spec(spec)
    spec.loader.exec_module(module)
    return module


def frames_of(study, rope, script, limit):
    """Returns the frames of the film that agc-study makes."""
    path = os.path.join(FOLDER, 'to-film')
    with open(path, 'w') as file:
        file.write(script)
    done = subprocess.run([study, 'film', rope, path, '--limit', str(limit)], capture_output=True, text=True, check=True)
    return film().frames_in(done.stdout, 'left')


def try_full_temporary_folder():
    """Without room for temporary files time stops at breakpoints all the same, goes back, and shows what comes."""
    with Console(example('keys', 'rope'), program=[CONSOLE], detached=True) as console:
        session = Session(console)
        session.add_breakpoint('4024')
        session.add_breakpoint('write 10')
        usual, tempfile.tempdir = tempfile.tempdir, '/no/such/folder'
        try:
            session.press('4')
            session.play()
            judge('time stops at the breakpoint', True, wait(lambda: session.hit and not session.playing))
            judge('which is the first one, at its cycle', ('4024', 3), (session.hit, console.cycle))
            session.play()
            judge('and at the second one', True, wait(lambda: session.hit == 'write 10'))
            session.add_breakpoint('cell 100')
            session.go_back_to_change(True)
            judge('back to before the write', True, console.cycle < 23)
            wait(lambda: len(news_of(session)['ahead']) == 12)
            judge('what comes is shown', 12, len(news_of(session)['ahead']))
        finally:
            tempfile.tempdir = usual
            session.close()


def try_woven_anew():
    """A rope that is woven anew during a session changes nothing of it: neither the orders that come, nor the film."""
    rope = os.path.join(FOLDER, 'woven')
    shutil.copy(example('keys', 'rope'), rope)
    site = started(rope)
    site.do('play')
    for name in '42':
        site.do('key', name=name)
    wait(lambda: site.state()['panel']['NOUN'] == '42')
    shutil.copy(example('verbs', 'rope'), rope)
    site.do('pause')
    wait(lambda: len(site.state()['ahead']) == 12)
    state, script = site.state(), site.script()
    with Console(example('keys', 'rope'), program=[CONSOLE]) as console:
        for line in script.splitlines():
            cycle, key = line.split(' ', 1)
            console.go_to(int(cycle))
            console.say(key)
        console.go_to(state['time']['cycle'])
        judge('the orders that come', console.step(12), state['ahead'])
    wanted = frames_of(STUDY, example('keys', 'rope'), script, state['time']['limit'])
    judge('the film', wanted, film().frames_in(site.request('GET', '/film')[2], 'left'))
    site.do('go', cycle=0, sure=True)
    site.do('undo')
    judge('back and on again', ('42', script), (site.state()['panel']['NOUN'], site.script()))
    os.unlink(rope)
    judge('the film without the file', wanted, film().frames_in(site.request('GET', '/film')[2], 'left'))
    site.end()


TRIES = (try_nothing_anew, try_busy, try_limits, try_full_temporary_folder, try_woven_anew)
