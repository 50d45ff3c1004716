"""The command agc-web, and `serve` for programs that bring instruments along."""

import argparse
import errno
import os
import socket
import threading
import webbrowser
from base64 import b64encode
from contextlib import suppress
from functools import partial
from pathlib import Path
from typing import Any, Callable, Dict, List, Optional, Sequence

import agc
from agc_web.beside import LONGEST, Beside, opened, reason, texts_of
from agc_web.ending import REFUSED, SAVED, UNSAVED, Ending, ScriptFile, print_out, say, study
from agc_web.film import Films
from agc_web.server import HERE, Server, is_reachable
from agc_web.session import Session

PORT = 8437
_say = partial(say, "agc-web")


def serve(
    console: agc.Console,
    instruments: Sequence[Any] = (),
    *,
    port: Optional[int] = None,
    listen: str = HERE,
    watch: Optional[str] = None,
    names: Optional[str] = None,
    form: Optional[str] = None,
    save: Optional[str] = None,
    open_page: bool = False,
    begin: Optional[Callable[[Session], Any]] = None,
    **texts: Optional[str],
) -> str:
    """Serves the page of a console until Control-C, SIGTERM or the terminal's end, and returns the script that repeats the
    session.

    The console is at cycle 0, and `detached`. `instruments` are described in agc_web.ticks. The port is 8437, or a free one if
    that is taken and none is named. `listen` is the address, which other computers may reach: then the page has the printed
    address in large letters. `begin` is called with the session before time can run. `texts` are those for the page: `guide`,
    `listing`, `quantities` and `nouns`, as far as there are. Raises `OSError` if the port cannot be had, or if the script
    cannot be saved or would replace something; its `filename` says which of them. A signal that comes after the script was saved
    or printed ends the program at once."""
    if not set(texts) <= set(LONGEST):
        raise TypeError(f"texts are {', '.join(LONGEST)}")
    file = ScriptFile(save) if save is not None else None
    with Ending() as ending:
        session = Session(console, instruments, watch)
        films = Films(study(), console, form, names, watch, texts.get("nouns"))
        ending.kills = [console.kill, films.kill]
        try:
            about: Dict[str, Any] = {**dict.fromkeys(LONGEST), **texts, "listing": texts.get("listing") is not None}
            names_text = Path(names).read_text(encoding="ascii", errors="replace") if names is not None else None
            about.update(rope=os.fspath(console.rope), names=names_text, watch=watch)
            with _bound(session, about, port, films, listen) as server:
                rope = b64encode(console.rope_bytes or b"").decode()
                server.source = {"listing": texts.get("listing"), "rope": rope, "form": form}
                if begin is not None:
                    begin(session)
                server.start()
                if _is_shown(server, open_page, file):
                    ending.wait()
                with suppress(OSError):  # the terminal is gone
                    print(flush=True)
                repeat = session.repeat()
                ending.save(repeat, file, os.fspath(console.rope), form)  # before anything else is ended
                return repeat.script
        finally:
            films.close()
            session.close()


def main(words: Optional[List[str]] = None) -> int:
    """Runs the command. Returns its status: 0 after Control-C, 1 if a file is refused, 3 if the script was not saved."""
    asked = _arguments().parse_args(words)
    try:
        if asked.save is not None:
            ScriptFile(asked.save)
        texts = texts_of(vars(asked), asked.rope, _say)
    except OSError as error:
        _say(f"{error.filename}: {error.strerror}")
        return REFUSED
    try:
        start = lambda names: agc.Console(asked.rope, asked.script, form=asked.form, names=names, detached=True)
        console, found = opened(start, Beside(asked.names, asked.watch, **texts), asked.rope, _say)
        with console:
            serve(
                console, port=asked.port, form=asked.form, **found._asdict(),
                save=asked.save, open_page=asked.open, listen=asked.listen, begin=attached(asked.instruments, asked.listen),
            )
    except agc.Error as error:
        _say(reason(error))
        return REFUSED
    except OSError as error:
        place = "" if error.filename is None else f"{error.filename}: "
        _say(f"{place}{error.strerror or error}")
        return UNSAVED
    except KeyboardInterrupt:  # before there was a session, or after it was saved
        pass
    return SAVED


def _arguments() -> argparse.ArgumentParser:
    words = argparse.ArgumentParser(prog="agc-web", description="Shows the DSKY and the inside of the machine in a browser.")
    words.add_argument("rope", metavar="ROPE", help="the core rope")
    words.add_argument("script", metavar="SCRIPT", nargs="?", default=os.devnull, help="a script of events (none)")
    words.add_argument("--names", metavar="FILE", help="a file that gives places names (ROPE.names, or names beside a file rope)")
    words.add_argument("--watch", metavar="SPEC", help="where the Executive's tables stand, as for agc (the file ROPE.watch, or watch)")
    words.add_argument("--guide", metavar="FILE", help="a file of guided steps (ROPE.guide, or guide beside a file rope)")
    words.add_argument("--listing", metavar="FILE", help="the source's lines, by agc-study weave --write-listing (ROPE.listing, or listing)")
    words.add_argument("--quantities", metavar="FILE", help="what cells hold, in units (ROPE.quantities, or quantities beside a file rope)")
    words.add_argument("--nouns", metavar="FILE", help="what verbs and nouns are, in words (ROPE.nouns, or nouns beside a file rope)")
    words.add_argument("--form", metavar="FORM", choices=("classic", "parity"), help="the rope's form: classic or parity")
    words.add_argument("--port", metavar="N", type=int, help=f"the port ({PORT}, or a free one)")
    words.add_argument("--listen", metavar="ADDRESS", default=HERE, help=f"the address of page and instruments ({HERE})")
    words.add_argument("--save", metavar="FILE", help="where the script of the session is saved at the end")
    words.add_argument("--open", action="store_true", help="open the page in a browser")
    words.add_argument("--instruments", metavar="PORT", type=int, help="serve instruments of Virtual AGC from this port on")
    return words


def attached(port: Optional[int], listen: str = HERE) -> Optional[Callable[[Session], Any]]:
    """Returns what attaches the sockets of other programs' instruments, if there is a port for them."""
    if port is None:
        return None
    from agc_web import instruments  # not before: it is a program, too
    if is_reachable(listen):
        _say(f"warning: whoever reaches {listen} can use the machine by the instruments' ports: they know no passwords")
    return partial(instruments.attach, port=port, address=listen)


def _bound(session: Session, about: Dict[str, Any], port: Optional[int], films: Films, listen: str) -> Server:
    """Returns a server on a port, or on a free one if none is named and ours is taken. Raises `OSError`, which names the
    port or the address as its file."""
    try:
        return Server(session, about, PORT if port is None else port, films, listen)
    except OverflowError:
        raise OSError(errno.EINVAL, "ports are 0 to 65535", "port") from None
    except OSError as error:
        if isinstance(error, socket.gaierror) or error.errno == errno.EADDRNOTAVAIL:
            raise OSError(error.errno or 0, "is no address of this computer", listen) from None
        if port is not None:
            error.filename = "port"
            raise
        return Server(session, about, 0, films, listen)


def _is_shown(server: Server, open_page: bool, file: Optional[ScriptFile]) -> bool:
    """Prints the address, and opens the page by an address of its own: other users of this computer see the words with which a
    browser is started. Returns whether that went well: if the terminal is gone, the session ends, and its file takes the script
    all the same; without a file `OSError` is raised."""
    text = f"{server.address()}    (Control-C ends it)\n"
    if "phones" in server.about:
        _say("warning: plain HTTP: whoever listens on the network can read the address, and use the machine")
        text += f"\n    On the phones of this network:\n\n    {server.address()}\n\n"
    try:
        print_out(text)
    except OSError as error:
        if file is None:
            raise
        _say(f"{error.filename}: {error.strerror}")
        return False
    if open_page:
        threading.Thread(target=webbrowser.open, args=(server.address(server.gate.token_for_once()),), daemon=True).start()
    return True
