"""The DSKY and the inside of the machine in a browser.

    import agc, agc_web

    with agc.Console("examples/lander/rope", detached=True) as console:
        agc_web.serve(console, instruments=[..])

`agc_web.ticks` says what an instrument is, and `agc_web.session` what a `Session` offers to programs that sit beside the
page.

The parts need only Python's standard library. `session.py` is the one machine behind the page: `worker.py` has its turns and its pace,
`keyboard.py` the keys that wait, `ticks.py` the instruments, `journal.py` the events of which the script is made, and going back,
`searcher.py` a second console for the searches of the page (`page/web/searches.js`), `news.py` what is shown, and the WebSocket by
which `server.py` sends it to the page. The server takes JSON from those that `gate.py` lets in; `film.py` has films made.
`command.py` has the command line and `serve`, `beside.py` finds names, tables and texts for the page, `ending.py` has the signals, and
what becomes of the script. `instruments.py` and `protocol.py` serve the sockets of docs/INSTRUMENTS.md. `page/web`
is the page, `page/face` the DSKY's face, which films have too, `page/film` the rest of a film's page (`view.html` shows what
instruments showed; `film.py` adds it): after a change of these two run `page/generate`, which writes the film's page into its crate (`--check` compares), and prove that crate
again. `PICTURES=docs tests/web` makes the pictures of docs/WEB.md, `FIGURES=1 tests/web` prints what it measures.
"""

from agc_web.command import serve
from agc_web.session import Session

__all__ = ["Session", "serve"]
