"""The files of the site, and what its pages have: links, names to link to, and texts."""
import functools
import html.parser
import os
import posixpath
import re
import urllib.parse

from judge import TOP, scratch_folder

FOLDER = os.path.join(scratch_folder(), 'site')
"""The site."""
LINKS = ('href', 'src', 'action', 'poster', 'data', 'srcset', 'background', 'formaction', 'ping', 'cite', 'content')
HEADINGS = ('h1', 'h2', 'h3')
SILENT = ('script', 'style')


class Page(html.parser.HTMLParser):
    """What a page has."""

    def __init__(self, text):
        super().__init__()
        self.links, self.names, self.policy, self.open = [], {''}, '', []
        self.sections = []  # of the text in <article>: heading and words
        self.feed(text)

    def handle_starttag(self, tag, attrs):
        values = dict(attrs)
        self.names |= {values[name] for name in ('id', 'name') if values.get(name)}
        if tag == 'meta':
            self.policy = values['content'] if values.get('http-equiv') == 'Content-Security-Policy' else self.policy
        else:
            self.links += [value for name, value in attrs if name in LINKS and value]
        if tag in ('article', *HEADINGS, *SILENT):
            self.open.append(tag)
        if tag in HEADINGS and 'article' in self.open:
            self.sections.append(['', ''])

    def handle_endtag(self, tag):
        if self.open and self.open[-1] == tag:
            self.open.pop()

    def handle_data(self, data):
        if self.sections and self.open and self.open[-1] not in SILENT:
            self.sections[-1][self.open[-1] == 'article'] += data


def files_of(folder):
    """Returns all files of a folder, by their paths below it."""
    found = []
    for at, _, names in os.walk(folder):
        found += [os.path.relpath(os.path.join(at, name), folder) for name in names]
    return sorted(found)


def text_of(*names):
    """Returns the text of a file."""
    with open(os.path.join(*names), encoding='utf-8') as file:
        return file.read()


@functools.lru_cache(maxsize=None)
def pages_of_site():
    """Returns the pages of the site, by their paths."""
    return {path: Page(text_of(FOLDER, path)) for path in files_of(FOLDER) if path.endswith('.html')}


def documents():
    """Returns the paths of the repository's documents."""
    folders = ('docs', 'examples', 'prebuilt', 'ports', 'benches')
    return [path for path in files_of(TOP) if path.endswith('.md') and (path.split('/')[0] in folders or '/' not in path)]


def place_of(document):
    """Returns the page of a document."""
    return re.sub(r'(?<=/)README\.md$|\.md$', lambda found: 'index.html' if 'README' in found[0] else '.html', document)


def target_of(path, link):
    """Returns the file below the site's folder to which a page links, and the name in it; None for another host."""
    parts = urllib.parse.urlsplit(link)
    if parts.scheme or parts.netloc or parts.path.startswith('/'):
        return None, parts.fragment
    to = posixpath.normpath(posixpath.join(posixpath.dirname(path), urllib.parse.unquote(parts.path))) if parts.path else path
    return to, urllib.parse.unquote(parts.fragment)


def is_followed(pages, path, link):
    """Whether a link leads to a file of the site, and to a name that this has. A session of agc.html is no name."""
    to, name = target_of(path, link)
    if to is None:
        return link.startswith('data:')
    if not os.path.isfile(os.path.join(FOLDER, to)):
        return False
    return not name or (to == 'agc.html' and name.startswith('session=')) or (to in pages and name in pages[to].names)
