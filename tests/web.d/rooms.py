"""Who gets in: many tabs of one browser, connections that say little, addresses that are good once, and the cookie."""
import http.client
import os
import socket
import threading
import time

import agc_web.server
from agc import Console
from agc_web.film import Films
from agc_web.server import Server
from agc_web.session import Session
from judge import CONSOLE, TOP, judge, scratch_folder, slowness, soon
from site_of import LONGEST, Site, example, keys_in, started, wait
from window import Window

FOLDER = scratch_folder()
TABS = 8


def try_eight_tabs():
    """Eight tabs of one browser: each shows the machine and presses a key, and soon. A browser opens six connections to a
    host, so that eight streams of its own kind would leave none for keys."""
    site = started(example('keys', 'rope'))
    home = os.path.join(FOLDER, 'tabs')
    os.mkdir(home)
    window = Window(os.environ['BROWSER'], home, 1000, 700)
    tabs = [window.session, *(window.new_tab() for _ in range(TABS - 1))]
    for number, tab in enumerate(tabs):
        window.session = tab
        window.load(site.url)
        shown = lambda: window.value("document.getElementById('state')?.textContent")
        judge(f'tab {number} shows the machine', True, wait(lambda: shown() == 'paused'))
    site.do('play')
    for number, tab in enumerate(tabs):
        window.session = tab
        began = time.monotonic()
        judge(f'tab {number} presses a key', True, window.value(f"ask('key', {{ name: '{number}' }})"))
        soon('and soon', began, 5)
        wait(lambda: len(keys_in(site.script())) == number + 1)
    for number, tab in enumerate(tabs):
        window.session = tab
        noun = lambda: window.value("document.getElementById('live-panel').textContent.split('\\n')[2]")
        judge(f'tab {number} shows the last keys', True, wait(lambda: noun() == 'NOUN 67'))
    judge('the script has the keys of all', [f'key {number}' for number in range(TABS)], keys_in(site.script()))
    judge('no tab has an error', [], window.errors())
    window.close()
    site.end()


def trickle(port, count, stop):
    """Opens connections that send a byte now and then, and opens those anew that are closed, until it is to stop."""
    text = b'GET / HTTP/1.1\r\nX-Long: ' + b'x' * 1000
    held = {}
    while not stop.is_set():
        while len(held) < count:
            try:
                held[socket.create_connection(('127.0.0.1', port), timeout=1)] = 0
            except OSError:
                break
        for each in list(held):
            try:
                each.send(text[held[each]:held[each] + 1])
                held[each] += 1
            except OSError:
                each.close()
                del held[each]
        stop.wait(0.1)
    for each in held:
        each.close()


def try_strangers():
    """A hundred connections that send a byte now and then shut nobody out who has the token."""
    site = started(example('keys', 'rope'))
    stop = threading.Event()
    attack = threading.Thread(target=trickle, args=(site.port, 100, stop), daemon=True)
    attack.start()
    time.sleep(1)
    answers, slowest = [], 0.0
    with site.stream() as stream:
        stream.message()
        for number in range(20):
            began = time.monotonic()
            try:
                answers.append(site.do('key', name=str(number % 10)))
            except (OSError, http.client.HTTPException) as error:
                answers.append(repr(error))
            slowest = max(slowest, time.monotonic() - began)
        site.do('play')
        judge('the news go on', True, wait(lambda: stream.message().get('time', {}).get('cycle', 0) > 1000))
    judge('each request is answered', [200] * 20, answers)
    judge(f'and soon ({slowest:.2f} s)', True, slowest < 5 or slowest < 5 * slowness())
    stop.set()
    attack.join(LONGEST)
    site.end()


def try_whole_request():
    """A request has to be whole in time, however many bytes come; between two requests a connection may rest for longer."""
    usual, agc_web.server.WHOLE = agc_web.server.WHOLE, 1
    with Console(example('keys', 'rope'), program=[CONSOLE], detached=True) as console:
        session = Session(console)
        server = Server(session, {}, 0, Films(None, console, None))
        server.start()
        try:
            for what, text in (
                ('a head', b'GET / HTTP/1.1\r\nX-Long: '),
                ('a body', f'POST /do HTTP/1.1\r\nHost: 127.0.0.1:{server.port}\r\nOrigin: http://127.0.0.1:{server.port}\r\n'
                           f'X-Token: {server.gate.token}\r\nContent-Type: application/json\r\nContent-Length: 99\r\n\r\n'.encode()),
            ):
                judge(f'{what} that does not end is cut off', True, 0.8 < seconds_until_cut(server.port, text) < LONGEST)
            connection = http.client.HTTPConnection('127.0.0.1', server.port, timeout=LONGEST)
            statuses = []
            for _ in range(2):
                connection.request('GET', '/script', headers={'X-Token': server.gate.token})
                with connection.getresponse() as answer:
                    answer.read()
                    statuses.append(answer.status)
                time.sleep(2)
            judge('a connection that rests is used again', [200, 200], statuses)
            connection.close()
        finally:
            agc_web.server.WHOLE = usual
            server.server_close()
            session.close()


def seconds_until_cut(port, text):
    """Sends the beginning of a request, and then a byte now and then; returns after how long the connection is cut off."""
    began = time.monotonic()
    with socket.create_connection(('127.0.0.1', port)) as connection:
        connection.sendall(text)
        connection.settimeout(0.1)
        while time.monotonic() - began < LONGEST:
            try:
                connection.sendall(b'x')
                if not connection.recv(4096):
                    break
            except socket.timeout:
                pass
            except OSError:
                break
    return time.monotonic() - began


def try_open():
    """--open gives the browser an address that is good once; that of the terminal lets further browsers in. Both become a
    cookie."""
    told = os.path.join(FOLDER, 'browser-words')
    browser = os.path.join(FOLDER, 'browser')
    with open(browser, 'w') as file:
        file.write(f'#!/bin/sh\necho "$@" > {told}.new\nmv {told}.new {told}\n')
    os.chmod(browser, 0o755)
    site = Site([os.path.join(TOP, 'agc-web'), example('keys', 'rope'), '--port', '0', '--open'], {**os.environ, 'BROWSER': browser + ' %s'})
    judge('a browser is started', True, wait(lambda: os.path.exists(told)))
    with open(told) as file:
        once = file.read().strip()
    path = once.split(site.host)[1]
    judge('its words do not have the token of the terminal', False, site.token in once)
    status, headers, _ = site.request('GET', path, X_Token=None)
    judge('it is let in, and sent to an address without a token', (303, '/'), (status, headers.get('Location')))
    cookie, *flags = headers['Set-Cookie'].split('; ')
    judge('by a cookie for this port', f'agc-web-{site.port}', cookie.split('=')[0])
    judge('that no script and no other site has', ['HttpOnly', 'Path=/', 'SameSite=Strict'], sorted(flags))
    judge('the address is good once', 403, site.request('GET', path, X_Token=None)[0])
    judge('the cookie lets in', [200, 200, 200], [
        site.request('GET', '/', X_Token=None, Cookie=f'theme=dark; {cookie}')[0],
        site.request('GET', '/web/web.js', X_Token=None, Cookie=cookie)[0],
        site.request('POST', '/do', {'do': 'key', 'name': '4'}, X_Token=None, Cookie=cookie)[0],
    ])
    name, secret = cookie.split('=')
    wrong = (f'{name}=', f'{name}={secret[:-1]}', f'agc-web-1={secret}', f'{name}={site.token}', f'x{cookie}', secret, f'{name}=ü', ';;=')
    judge('no other cookie does', [403] * len(wrong), [site.request('GET', '/', X_Token=None, Cookie=each)[0] for each in wrong])
    other = site.request('POST', '/do', {'do': 'key', 'name': '7'}, X_Token=None, Cookie=cookie, Origin='http://127.0.0.1:1')
    judge('not even the right one from another origin', 403, other[0])
    judge('nor one of a page at another port', 403, site.request('GET', '/script', X_Token=None, Cookie=cookie, Sec_Fetch_Site='same-site')[0])
    again = [site.request('GET', f'/?token={site.token}', X_Token=None) for _ in range(2)]
    judge('the address of the terminal lets further browsers in', [(303, cookie)] * 2, [(each[0], each[1]['Set-Cookie'].split(';')[0]) for each in again])
    used, late = path.replace('token=', 'token=x'), site.request('GET', path, X_Token=None, Cookie=cookie)
    judge('one that is used up changes nothing for who is in', (403, 303), (site.request('GET', used, X_Token=None)[0], late[0]))
    judge('its key was pressed', ['key 4'], keys_in(site.script()))
    site.end()


TRIES = (try_eight_tabs, try_strangers, try_whole_request, try_open)
