"""Source lines beside what runs print: each line of `trace`, `profile`, `jobs` and `compare` with `--listing` against the line
without it and the listing, which are read here anew."""
import os
import re
import subprocess

from judge import STUDY, TOP, check, judge

DESCENT = os.path.join(TOP, 'examples', 'descent')
ROPE, SCRIPT = os.path.join(DESCENT, 'rope'), os.path.join(DESCENT, 'script')
LIMIT = ['--limit', '400000']


def run(*words):
    """Returns the status of a command, and what it prints."""
    ended = subprocess.run([STUDY, *words], capture_output=True, check=False)
    return ended.returncode, ended.stdout.decode('latin-1'), ended.stderr.decode('latin-1')


def key_of(place):
    """Returns the bank and the offset of a place in the rope, or None."""
    found = re.fullmatch('(?:([0-4][0-7]),)?([0-7]{4})', place)
    if not found:
        return None
    bank, address = found[1], int(found[2], 8)
    if address >= 0o4000:
        return address // 0o2000, address % 0o2000
    return (int(bank, 8), address % 0o2000) if bank and address >= 0o2000 else None


def sources_in(listing):
    """Returns the source line of each place of a listing."""
    found, line = {}, None
    for row in listing.split('\n'):
        if row == '# names':
            break
        text = row.partition('# ')
        if text[1]:
            line = text[2]
        place = key_of(row.split(' ')[0])
        if place:
            found[place] = line
    return found


def key_in_banks(address, banks):
    """Returns the place of an address in the banks of a word like BB."""
    address, banks = int(address, 8), int(banks, 8)
    if 0o4000 <= address < 0o10000:
        return address // 0o2000, address % 0o2000
    if not 0o2000 <= address < 0o4000:
        return None
    bank = banks // 0o2000
    return (bank + 8 if bank >= 0o30 and banks & 0o100 else bank), address % 0o2000


def place_traced(line):
    """Returns the place of a line of `trace`."""
    words = line.split(' ')
    return key_of(words[1]) if len(words) > 1 and words[0].isdigit() else None


def place_counted(line):
    """Returns the place of a line of `profile`."""
    found = re.search(' (?:word|routine) ([0-7,E]+)', line)
    return key_of(found[1]) if found else None


def place_of_job(line):
    """Returns the place of a line of `jobs`."""
    found = re.search(' LOC ([0-7]{5}) BANKSET ([0-7]{5})', line) or re.search(' LST2 [0-9] ([0-7]{5}) ([0-7]{5})', line)
    return key_in_banks(found[1], found[2]) if found else None


def with_sources(text, place_of, sources):
    """Returns the lines of a text, each with its source line behind it."""
    lines = []
    for line in text.split('\n'):
        source = sources.get(place_of(line))
        lines.append(line if source is None else f'{line} # {source}')
    return '\n'.join(lines)


def try_command(name, words, place_of, sources, listing, fewest):
    """Tries one command with and without the listing."""
    plain, listed = run(*words), run(*words, '--listing', listing)
    judge(name, (plain[0], with_sources(plain[1], place_of, sources), plain[2]), listed)
    shown = listed[1].count(' # descent.agc ')
    check(f'{name}: {shown} source lines, fewer than {fewest}', shown >= fewest)


def try_commands(listing):
    """Tries each subcommand over the landing."""
    with open(listing, encoding='latin-1') as file:
        sources = sources_in(file.read())
    run_words = [ROPE, SCRIPT, *LIMIT]
    names = ['--names', os.path.join(DESCENT, 'names')]
    watch = ['--watch', '0,200,10,0,340,0,350']
    try_command('trace', ['trace', *run_words, '--to', '30000'], place_traced, sources, listing, 10000)
    try_command('trace, the last lines with names', ['trace', *run_words, *names, '--last', '5000'], place_traced, sources, listing, 4000)
    try_command('trace of jumps', ['trace', *run_words, '--only', 'jumps', '--operands'], place_traced, sources, listing, 10000)
    try_command('profile', ['profile', *run_words], place_counted, sources, listing, 1000)
    try_command('profile by routines', ['profile', *run_words, *names, '--rope'], place_counted, sources, listing, 2000)
    try_command('jobs', ['jobs', *run_words, *watch], place_of_job, sources, listing, 40)
    try_command('jobs by name', ['jobs', *run_words, *watch, *names, '--from', '100000'], place_of_job, sources, listing, 20)
    return sources


def try_compare(listing, sources, scratch):
    """Tries two ropes that part at a word of the second."""
    with open(ROPE, 'rb') as file:
        other = bytearray(file.read())
    at = 2 * 0o420  # 4420, TCF IDLE: a rope begins with bank 02
    judge('the word to change', 0o14416, int.from_bytes(other[at:at + 2], 'big') >> 1)
    other[at + 1] ^= 4
    changed = os.path.join(scratch, 'changed')
    with open(changed, 'wb') as file:
        file.write(other)
    words = ['compare', ROPE, SCRIPT, changed, SCRIPT, *LIMIT]
    plain, listed = run(*words), run(*words, '--listing', listing)
    wanted = [with_sources(line[2:], place_traced, sources) if line[:2] in ('  ', '< ') else None for line in plain[1].split('\n')]
    lines = [line if want is None else line[:2] + want for line, want in zip(plain[1].split('\n'), wanted)]
    judge('compare', (1, '\n'.join(lines), plain[2]), listed)
    ended = run(*words, '--listing', listing, '--listing', listing)
    sentence = 'agc-study: listing: it is not of this rope: at 02,4420 it has 14416, and the rope 14414\n'
    judge('the listing of another rope', (2, '', sentence), ended)


def try_faults(listing, scratch):
    """Tries what is refused."""
    with open(listing, encoding='latin-1') as file:
        lines = file.read().split('\n')
    first = next(i for i, line in enumerate(lines) if re.match('[0-7]{2},[0-7]{4} ', line))
    cases = {
        'of a line in another form': (lines[:first] + ['hello'] + lines[first:], f'listing: line {first + 1} is not as weave --write-listing writes it'),
        'of a place twice': (lines[:first + 1] + lines[first:], f'listing: line {first + 2} has the place of an earlier line once more'),
        'without a word': (['              # page.agc 1: # nothing'], 'listing: no line has a place and a word'),
        'of an erasable place': (['E3,1400 00001 # page.agc 1: X'], 'listing: line 1 is not as weave --write-listing writes it'),
        'of a word that is none': (['02,4000 100000 # page.agc 1: X'], 'listing: line 1 is not as weave --write-listing writes it'),
    }
    for name, (rows, sentence) in cases.items():
        path = os.path.join(scratch, 'faulty')
        with open(path, 'w', encoding='latin-1') as file:
            file.write('\n'.join(rows))
        ended = run('trace', ROPE, SCRIPT, *LIMIT, '--listing', path)
        judge(f'a listing {name}', (2, '', f'agc-study: {sentence}\n'), ended)
    ended = run('trace', ROPE, SCRIPT, *LIMIT, '--listing', os.path.join(scratch, 'nowhere'))
    judge('no such listing', (2, '', ['agc-study: cannot read listing']), (*ended[:2], ended[2].split('\n')[:1]))


def try_source_lines(scratch):
    """Tries all of it."""
    listing = os.path.join(scratch, 'descent.listing')
    ended = run('weave', os.path.join(DESCENT, 'descent.agc'), '--write-listing', listing)
    judge('weave writes the listing', (0, ''), (ended[0], ended[2]))
    sources = try_commands(listing)
    try_compare(listing, sources, scratch)
    try_faults(listing, scratch)
