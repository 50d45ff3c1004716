"""Tries the site that launch/site makes. What is wanted is worked out from the documents, from prebuilt/MANIFEST and its
likes, and from what is on the pages."""
import hashlib
import http.client
import os
import re
import shutil
import subprocess
import sys

import looked
from judge import TOP, attempt, check, depends_on_time, finish, judge, scratch_folder
from pages import FOLDER, Page, documents, files_of, is_followed, pages_of_site, place_of, target_of, text_of

HOSTS = {'127.0.0.1', 'www.w3.org', '10.0.0.1'}
"""Hosts that texts name: this computer, the names of XML's languages, and the scheduler in the text of the campaigns."""


def made(*words):
    """Starts launch/site; returns its status and what it says of an error."""
    done = subprocess.run([os.path.join(TOP, 'launch', 'site'), *words], capture_output=True, text=True)
    return done.returncode, done.stderr


def try_made():
    """The site replaces the one that was there, and no other folder."""
    judge('it is made', (0, ''), made(FOLDER))
    first = {path: digest_of(FOLDER, path) for path in files_of(FOLDER)}
    with open(os.path.join(FOLDER, 'old.html'), 'w') as file:
        file.write('an older page')
    judge('it is made again', (0, ''), made(FOLDER))
    judge('in the place of the older one, the same', first, {path: digest_of(FOLDER, path) for path in files_of(FOLDER)})
    other = os.path.join(scratch_folder(), 'other')
    os.mkdir(other)
    with open(os.path.join(other, 'mine'), 'w') as file:
        file.write('mine')
    judge('a folder of others', (1, f'site: {other} has files that are not of a site; name another folder\n'), made(other))
    judge('stays', ['mine'], files_of(other))
    judge('two folders', 1, made(other, other)[0])


def digest_of(*names):
    """Returns the SHA-256 of a file."""
    with open(os.path.join(*names), 'rb') as file:
        return hashlib.sha256(file.read()).hexdigest()


def headings_of(path):
    """Returns the headings of a document, and whether each begins a section, without their marks."""
    found, fenced = [], False
    for line in text_of(TOP, path).splitlines():
        fenced ^= line.lstrip().startswith('```')
        heading = None if fenced else re.match(r'#{1,3} +(.*)', line)
        if heading:
            found.append(re.sub(r'\[([^]]*)\]\([^)]*\)', r'\1', heading[1]).replace('`', '').replace('\\', '').strip())
    return found


def try_documents():
    """Each document of the repository has its page, with all its headings, and is in the list of documents."""
    paths, pages = documents(), pages_of_site()
    check('there are more than thirty documents', len(paths) > 30)
    listed = {target_of('documents.html', link)[0] for link in pages['documents.html'].links}
    for path in paths:
        page = pages.get(place_of(path))
        judge(f'{path}: its headings', headings_of(path), page and [' '.join(heading.split()) for heading, _ in page.sections])
        check(f'{path} is listed', place_of(path) in listed)


def try_links():
    """Each link and picture leads to a file of the site, and to a name in it; all pages can be reached from the front page."""
    pages = pages_of_site()
    for path, page in pages.items():
        judge(f'{path}: links that lead nowhere', [], [link for link in page.links if not is_followed(pages, path, link)])
    reached, waiting = set(), ['index.html']
    while waiting:
        path = waiting.pop()
        reached.add(path)
        waiting += {to for to, _ in (target_of(path, link) for link in pages[path].links) if to in pages} - reached - set(waiting)
    judge('pages that no link leads to', set(), set(pages) - reached)
    doors = {'agc.html', 'lessons.html', 'docs/study/index.html', 'downloads.html', 'docs/QUESTIONS.html', 'README.html'}
    judge('what the front page opens', doors, doors & set(pages['index.html'].links))


def try_hosts():
    """No page names another host: not in a link, a style or a script. Each page's policy lets nothing be requested elsewhere."""
    for path in files_of(FOLDER):
        if not path.endswith(('.html', '.css', '.js', '.svg')):
            continue
        text = text_of(FOLDER, path)
        judge(f'{path}: other hosts', set(), set(re.findall(r'(?<=://)[\w.-]+', text)) - HOSTS)
        judge(f'{path}: styles that load', [], re.findall(r'@import\b[^;]*|\burl\((?!"?data:)[^)]*\)', text) if path.endswith('.css') else [])
    sources = {"'none'", "'self'"}
    for path, page in pages_of_site().items():
        if path != 'agc.html':
            rules = [rule.split() for rule in page.policy.split(';')]
            judge(f"{path}: the policy's first rule", ['default-src', "'none'"], rules[0])
            judge(f'{path}: what the policy allows', set(), {source for rule in rules for source in rule[1:]} - sources)


def try_server():
    """A static server has each file of the site, and each link of a page leads to one."""
    server = subprocess.Popen([sys.executable, '-u', '-m', 'http.server', '--bind', '127.0.0.1', '--directory', FOLDER, '0'], stdout=subprocess.PIPE, stderr=subprocess.DEVNULL, text=True)
    try:
        assert server.stdout
        started = re.search(r'port (\d+)', server.stdout.readline())
        assert started
        port = int(started[1])
        pages = pages_of_site()
        wanted = {to for path, page in pages.items() for to, _ in (target_of(path, link) for link in page.links) if to}
        check('there are more than a hundred files to follow', len(wanted) > 100)
        judge('what the server has not', [], [path for path in sorted(wanted) if fetched(port, path) != digest_of(FOLDER, path)])
        judge('the front page', digest_of(FOLDER, 'index.html'), fetched(port, ''))
        looked.try_served(port)
    finally:
        server.kill()
        server.wait()


def fetched(port, path):
    """Returns the SHA-256 of what a server has at a path."""
    connection = http.client.HTTPConnection('127.0.0.1', port, timeout=300)
    connection.request('GET', f'/{path}')
    answer = connection.getresponse()
    data = answer.read()
    connection.close()
    return hashlib.sha256(data).hexdigest() if answer.status == 200 else answer.status


def try_downloads():
    """All programs of prebuilt/ but that for the tests can be downloaded, and sha256sum finds the digests of the MANIFESTs."""
    manifests = {'prebuilt': text_of(TOP, 'prebuilt', 'MANIFEST')}
    for target in os.listdir(os.path.join(TOP, 'prebuilt')):
        if os.path.exists(os.path.join(TOP, 'prebuilt', target, 'MANIFEST')):
            manifests[f'prebuilt/{target}'] = text_of(TOP, 'prebuilt', target, 'MANIFEST')
    shown = dict(re.findall(r'<a href="([^"]*)" download.*?<code class="digest">([0-9a-f]{64})</code>', text_of(FOLDER, 'downloads.html')))
    programs = {}
    for folder, manifest in manifests.items():
        lines = [line for line in manifest.splitlines() if re.match(r'[0-9a-f]{64}  (?!.*(\.sources|agc_alloc_probe)$)', line)]
        done = subprocess.run(['sha256sum', '--check', '--quiet'], input='\n'.join(lines) + '\n', cwd=os.path.join(FOLDER, folder), capture_output=True, text=True)
        judge(f'{folder}: sha256sum', (0, ''), (done.returncode, done.stdout + done.stderr))
        programs.update((f'{folder}/{name}', digest) for digest, name in (line.split() for line in lines))
    check('there are more than a dozen programs', len(programs) > 12)
    judge('the programs on the page', programs, {path: digest for path, digest in shown.items() if path.startswith('prebuilt/')})
    judge('agc.html', text_of(TOP, 'prebuilt', 'agc.html.sha256').split()[0], shown['agc.html'])
    judge('the digests of all', shown, {path: digest_of(FOLDER, path) for path in shown})


def small_tree():
    """Returns a folder with launch/site, what it reads beside the documents, and two documents."""
    folder = os.path.join(scratch_folder(), 'small')
    for each in ('launch', 'prebuilt', 'clients', *(f'examples/{name}' for name in ('prog12', 'verbs', 'waitlist', 'lander', 'descent', 'debugging', 'count-1', 'count-2', 'count-3', 'count-4'))):
        shutil.copytree(os.path.join(TOP, each), os.path.join(folder, each), symlinks=True, ignore=shutil.ignore_patterns('*.md', '__pycache__'))
    for each in ('agc.html', 'prebuilt/README.md'):
        shutil.copy(os.path.join(TOP, each), os.path.join(folder, each))
    os.mkdir(os.path.join(folder, 'docs'))
    for path, text in (('README.md', '# A\n\n[b](docs/WEB.md#part) [r](examples/verbs/rope) [w](examples/verbs/words)\n'), ('docs/WEB.md', '# B\n\n## Part\n')):
        with open(os.path.join(folder, path), 'w') as file:
            file.write(text)
    return folder


def try_refused():
    """Links to files that do not exist and to other hosts are refused, as is a program that its MANIFEST does not name."""
    folder = small_tree()
    site = os.path.join(folder, 'launch', 'site')
    judge('two documents', 0, subprocess.run([site, os.path.join(folder, 'out')], stdout=subprocess.DEVNULL).returncode)
    wanted = ['docs/WEB.html#part', 'examples/verbs/rope', 'examples/verbs/words.html']
    judge('a document, a file of bytes, and a text', wanted, [link for link in Page(text_of(folder, 'out', 'README.html')).links if link in wanted])
    cases = (
        ('docs/WEB.md', b'\n[x](nothing.md)\n', 'site: docs/WEB.md links to a file that does not exist: nothing.md\n'),
        ('docs/WEB.md', b'\n![x](//elsewhere.test/x.png)\n', 'site: docs/WEB.md links to another host: //elsewhere.test/x.png\n'),
        ('docs/WEB.md', b'\n[x](../../outside)\n', 'site: docs/WEB.md links to a file that does not exist: ../../outside\n'),
        ('prebuilt/aarch64-linux/agc', b'x', 'site: prebuilt/aarch64-linux/agc is not the file whose digest its MANIFEST has\n'),
        ('agc.html', b'x', 'site: agc.html is not the file whose digest its MANIFEST has\n'),
    )
    for path, more, wanted in cases:
        with open(os.path.join(folder, path), 'r+b') as file:
            length = file.seek(0, os.SEEK_END)
            file.write(more)
        done = subprocess.run([site], capture_output=True, text=True)
        judge(f'{path} with {more!r}', (1, wanted, False), (done.returncode, done.stderr, os.path.exists(os.path.join(folder, 'site'))))
        os.truncate(os.path.join(folder, path), length)


TRIES = (try_made, try_documents, try_links, try_hosts, try_downloads, try_server, try_refused, *looked.TRIES)


def main():
    depends_on_time(looked.close_all)
    chosen = os.environ.get('TRY')
    for each in TRIES:
        if not chosen or each.__name__ in ('try_made', *chosen.split(',')):
            attempt(each)
            looked.close_all()
    finish()


if __name__ == '__main__':
    main()
