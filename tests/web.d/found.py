"""Names and tables beside a rope's file are found; those that are refused are left out, and agc-web says why."""
import os
import shutil
import sys

from judge import judge, scratch_folder
from site_of import Site, example, started

FOLDER = scratch_folder()
SPEC = '0,200,10,0,340,0,350'


def copied(name, names=None, watch=None):
    """Returns the path of a copy of the landing's rope, with these texts beside it."""
    path = os.path.join(FOLDER, name)
    shutil.copyfile(example('descent', 'rope'), path)
    for kind, text in (('names', names), ('watch', watch)):
        if text is not None:
            with open(f'{path}.{kind}', 'w', encoding='ascii') as file:
                file.write(text)
    return path


def found(site):
    """Returns how many names the page offers, its SPEC, whether it shows tables, and what a breakpoint at SERVICER comes to."""
    state = site.state()
    named = [line for line in (state['about']['names'] or '').splitlines() if not line.startswith(('#', 'C'))]
    return len(named), state['about']['watch'], 'tables' in state, site.do('break', place='SERVICER')


def try_found():
    """Beside `rope`, beside another file, and for the craft's live flight; what is named goes before it."""
    site = started(example('descent', 'rope'))
    count, *rest = found(site)
    judge('names are offered', True, count > 100)
    judge('beside rope', [SPEC, True, 200], rest)
    site.end()
    site = Site([sys.executable, '-B', example('descent', 'craft.py'), '--web', '--port', '0'])
    judge("the craft's live flight", [SPEC, True, 200], list(found(site))[1:])
    site.end()
    with open(example('descent', 'names'), encoding='ascii') as file:
        names = file.read()
    rope = copied('other.bin', names, SPEC + '\n')
    site = started(rope)
    judge('beside another file', (count, SPEC, True, 200), found(site))
    site.end()
    own = os.path.join(FOLDER, 'own')
    with open(own, 'w', encoding='ascii') as file:
        file.write('4000 ELSE\n')
    site = started(rope, '--names', own, '--watch', '0,200,7,0,340,0,350')
    judge('what is named goes before it', (1, '0,200,7,0,340,0,350', True, 400), found(site))
    site.end()
    site = started(copied('bare.bin'))
    judge('nothing is there', (0, None, False, 400), found(site))
    judge('and nothing is said', '', site.end()[2])


def try_left_out():
    """Files beside a rope that are refused do not keep the page from starting."""
    rope = copied('wrong.bin', '4000\n', 'none\n')
    site = started(rope)
    judge('it starts without', (0, None, False, 400), found(site))
    said = site.end()[2].splitlines()
    judge('the names, and why', True, said[0].startswith(f'agc-web: {rope}.names is left out: names line 1: '))
    judge('the tables, and why', True, said[1].startswith('agc-web: the tables beside the rope are left out: tables are seven octal numbers'))
    judge('that is all', 2, len(said))


TRIES = (try_found, try_left_out)
