"""Files beside a rope's: its names, the SPEC of the Executive's tables, and texts for the page: guided steps, the listing of its
source, quantities, and verbs and nouns.

For the rope X these are the files X.names, X.watch, X.guide, X.listing, X.quantities and X.nouns; for a file that is called `rope` also
`names`, `watch` and so on, and for Y.rope also Y.names, Y.watch and so on.
"""

import atexit
import os
import shutil
import tempfile
from contextlib import suppress
from typing import Any, Callable, Dict, Mapping, NamedTuple, Optional, Tuple

import agc
from agc_web.ending import naming

Start = Callable[[Optional[str]], agc.Console]  # with a file of names, or without
Note = Callable[[str], None]  # says something to the user
LONGEST_SPEC = 200  # characters
LONGEST = {"guide": 65536, "listing": 16_777_216, "quantities": 1_048_576, "nouns": 65536}  # bytes


class Beside(NamedTuple):
    """A file of names, the tables' SPEC, and the texts for the page; None for what there is not."""

    names: Optional[str] = None
    watch: Optional[str] = None
    guide: Optional[str] = None
    listing: Optional[str] = None
    quantities: Optional[str] = None
    nouns: Optional[str] = None


def opened(start: Start, named: Beside, rope: agc.Path, note: Note) -> Tuple[agc.Console, Beside]:
    """Starts a console with names and tables: those that were named, else those of the files beside the rope; names may also
    be those of the listing. `start` starts a console with a file of names. If what was not named is refused, `note` says
    why, and the console does without. Raises `agc.Error` if something else is refused."""
    path = os.fspath(rope)
    found = _file_beside(path, "names") or _names_of(named.listing or "")
    console, names = _taken(start, named.names, found, f"{found} is", note)
    try:
        spec = _first_line(_file_beside(path, "watch"))
        _, watch = _taken(lambda spec: spec and console.tables(spec), named.watch, spec, "the tables beside the rope are", note)
        return console, named._replace(names=names, watch=watch)
    except agc.Error:
        console.close()
        raise


def texts_of(named: Mapping[str, Optional[str]], rope: agc.Path, note: Note) -> Dict[str, Optional[str]]:
    """Returns the texts for the page by their kinds: of the files that were named, else of those beside the rope; None if there is
    none. If a file beside the rope cannot be read, `note` says why. Raises `OSError` for one that was named."""
    return {kind: _text_of(kind, named.get(kind), os.fspath(rope), note) for kind in LONGEST}


def _text_of(kind: str, named: Optional[str], rope: str, note: Note) -> Optional[str]:
    path = named if named is not None else _file_beside(rope, kind)
    if path is None:
        return None
    try:
        with naming(path), open(path, "rb") as file:
            text = file.read(LONGEST[kind] + 1)
            if len(text) > LONGEST[kind]:
                raise OSError(0, f"it has more than {LONGEST[kind]} bytes")
            return text.decode(errors="replace")
    except OSError as error:
        if named is not None:
            raise
        note(f"{path} is left out: {error.strerror}")
        return None


def _names_of(listing: str) -> Optional[str]:
    """Returns the path of a file with the names at the end of a listing, if it has any; the file stays until we end."""
    names = listing.partition("\n# names\n")[2].partition("# banks\n")[0].replace("# ", "")
    if not names:
        return None
    folder = tempfile.mkdtemp()
    atexit.register(shutil.rmtree, folder, ignore_errors=True)
    path = os.path.join(folder, "names")
    with open(path, "w", encoding="utf-8") as file:
        file.write(names)
    return path


def _taken(
    take: Callable[[Optional[str]], Any], named: Optional[str], found: Optional[str], what: str, note: Note
) -> Tuple[Any, Optional[str]]:
    """Takes what was named, else what was found, or if that is refused nothing. Returns what came of it, and what was taken."""
    if named is not None or found is None:
        return take(named), named
    try:
        return take(found), found
    except agc.Error as refused:
        taken = take(None)  # raises once more if it was not for this
        note(f"{what} left out: {reason(refused)}")
        return taken, None


def reason(refused: agc.Error) -> str:
    """Returns why a console refuses something, without its name."""
    return str(refused).replace("agc-console: ", "", 1)


def _file_beside(rope: str, kind: str) -> Optional[str]:
    """Returns the path of a file beside a rope's, if there is one."""
    if os.path.basename(rope) == "rope":
        other = os.path.join(os.path.dirname(rope), kind)
    else:
        other = f"{rope[:-5]}.{kind}" if rope.endswith(".rope") else ""
    return next((path for path in (f"{rope}.{kind}", other) if os.path.isfile(path)), None)


def _first_line(path: Optional[str]) -> Optional[str]:
    """Returns the first line of a file, if it has one."""
    if path is not None:
        with suppress(OSError), open(path, encoding="ascii", errors="replace") as file:
            return file.readline(LONGEST_SPEC).strip() or None
    return None
