"""Other addresses than 127.0.0.1, and instruments beside the landing: host, origin and token are checked there too."""
import http.client
import os
import re
import subprocess
import sys

from dsky import Dsky
from judge import TOP, judge
from site_of import LONGEST, Site, example, free_ports, keys_in, started, wait


def status_of(site, address, **headers):
    """Returns the status of a request for the page that reaches an address of this computer."""
    connection = http.client.HTTPConnection(address, site.port, timeout=LONGEST)
    try:
        connection.putrequest('GET', '/', skip_host=True)
        for name, value in headers.items():
            connection.putheader(name.replace('_', '-'), value)
        connection.endheaders()
        return connection.getresponse().status
    finally:
        connection.close()


def try_listen():
    """At each address only a request with the host by which it came, that origin and the token is answered."""
    site = started(example('keys', 'rope'), '--listen', '0.0.0.0')
    judge('the address has a token to be typed', True, re.fullmatch(r'http://[\d.]+:\d+/\?token=[a-z2-9]{10}', site.url) is not None)
    judge('the page has the address', site.url, site.state()['about']['phones'])
    judge('the address stands by itself', f'    {site.url}\n', [site.process.stdout.readline() for _ in range(5)][3])
    here, there = f'127.0.0.1:{site.port}', f'127.0.0.2:{site.port}'
    for what, wanted, headers in (
        ('all is right', 200, {'Host': there, 'X_Token': site.token}),
        ('with its origin', 200, {'Host': there, 'X_Token': site.token, 'Origin': f'http://{there}'}),
        ('another address of this computer as host', 403, {'Host': here, 'X_Token': site.token}),
        ('a name as host', 403, {'Host': f'localhost:{site.port}', 'X_Token': site.token}),
        ('a name from elsewhere', 403, {'Host': f'rebound.test:{site.port}', 'X_Token': site.token}),
        ('another origin', 403, {'Host': there, 'X_Token': site.token, 'Origin': f'http://{here}'}),
        ('no token', 403, {'Host': there}),
        ('a wrong token', 403, {'Host': there, 'X_Token': site.token[:-1]}),
    ):
        judge(f'at another address: {what}', wanted, status_of(site, '127.0.0.2', **headers))
    judge('localhost is a name at 127.0.0.1', 200, status_of(site, '127.0.0.1', Host=f'localhost:{site.port}', X_Token=site.token))
    judge('and the other address is none', 403, status_of(site, '127.0.0.1', Host=there, X_Token=site.token))
    err = site.end()[2]
    judge('it says what that means', 'agc-web: warning: plain HTTP: whoever listens on the network can read the address, and use the machine\n', err)
    site = started(example('keys', 'rope'))
    judge('at 127.0.0.1 alone nothing is said of phones', (False, ''), ('phones' in site.state()['about'], site.end()[2]))
    words = [os.path.join(TOP, 'agc-web'), example('keys', 'rope'), '--listen', '203.0.113.7', '--port', '0']
    done = subprocess.run(words, capture_output=True, text=True)
    judge('an address of another computer', (3, 'agc-web: 203.0.113.7: is no address of this computer\n'), (done.returncode, done.stderr))


def try_flown():
    """A DSKY of another program flies the landing."""
    ports = free_ports()
    site = Site([sys.executable, '-B', example('descent', 'craft.py'), '--web', '--port', '0', '--instruments', str(ports)])
    site.do('play')
    dsky = Dsky(ports).welcomed()
    dsky.keys('4')
    wait(lambda: ' key ' in site.script())
    judge('a key of an instrument', ['key 4'], [each for each in keys_in(site.script()) if each.startswith('key ')])
    dsky.close()
    site.end()


TRIES = (try_listen, try_flown)
