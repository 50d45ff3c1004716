"""The server of the page: files, news by a WebSocket, commands by POST.

It listens on 127.0.0.1, or on another address of this computer. Each request has to name the host at which it came in and,
if it says where it comes from, that origin; and it has to have the token of the printed address, or the cookie that a token
has become. The session does what a request is for.
"""

import io
import ipaddress
import json
import re
import socket
import sys
import threading
import time
from contextlib import suppress
from http import HTTPStatus
from http.server import BaseHTTPRequestHandler, ThreadingHTTPServer
from typing import Any, Callable, Dict, List, Optional, Set, Tuple
from urllib.parse import parse_qs, urlsplit

from agc import Ended, Refused
from agc_web.film import PAGE, Films
from agc_web.gate import Gate, Room
from agc_web.news import END, PING, Listener, accept_key, frame
from agc_web.session import KEYS, NEWS, Session, Sure, Unable

HERE = "127.0.0.1"
ANYWHERE = "0.0.0.0"
LONGEST_BODY = 4096  # bytes
MOST_LINES = 200  # for a console, of one request
LINE = re.compile(r"([a-z]+)[ -~]{0,100}\Z")  # a console's command
LOOKS = {"cell", "channel"}  # the commands that change nothing
SEARCHES = {*LOOKS, "ahead", "back", "break", "continue", "next", "panel", "step"}  # those for a second console
WHOLE = 10  # seconds that a whole request may take
PATIENCE = 20  # seconds that a browser may take between two requests, or to take a part of an answer
HEARTBEAT = 5  # seconds after which a quiet stream sends a ping, which shows whether its browser is still there
TYPES = {
    ".html": "text/html; charset=utf-8", ".css": "text/css; charset=utf-8", ".js": "text/javascript; charset=utf-8",
    ".svg": "image/svg+xml",
}
NAMED = re.compile(r'(?:src|href)="([a-z]+/[a-z]+\.[a-z]+)"')  # a file that the page names
POLICY = (
    "default-src 'none'; script-src 'self'; style-src 'self'; connect-src 'self' {streams}; img-src 'self'; "
    "frame-src 'self'; base-uri 'none'; form-action 'none'; frame-ancestors 'none'"
)
FILM_POLICY = "sandbox allow-scripts; default-src 'none'; script-src 'unsafe-inline'; style-src 'unsafe-inline'"
FRAMED = {"Content_Security_Policy": f"{FILM_POLICY}; frame-ancestors 'self'", "X_Frame_Options": "SAMEORIGIN"}  # in our own page


class BadRequest(Exception):
    """A request that is refused, with its status."""

    def __init__(self, status: HTTPStatus, text: str) -> None:
        super().__init__(text)
        self.status = status


class Server(ThreadingHTTPServer):
    """Serves one session to any number of windows."""

    daemon_threads = True
    request_queue_size = 32

    def __init__(self, session: Session, about: Dict[str, Any], port: int, films: Films, listen: str = HERE) -> None:
        """Binds to a port of an address, or to a free one if it is 0. `about` is the first message to the page."""
        self.session = session
        self.about = about
        self.films = films
        self.source: Dict[str, Any] = {}
        """What the page compares before it shows the source: a listing and the rope."""
        self.gate = Gate(is_short=is_reachable(listen))
        self.room = Room()
        self._held: Dict[Optional[Tuple[int, str]], str] = {}  # the windows that hold buttons of instruments, and PRO (None)
        self._thread = threading.Thread(target=self.serve_forever, args=(0.1,), name="server", daemon=True)
        super().__init__((listen, port), Handler)
        self.port = self.server_address[1]
        self.name = own_address() if listen == ANYWHERE else listen
        if is_reachable(listen):
            self.about = {**about, "phones": self.address()}

    def start(self) -> None:
        """Begins to serve, on a thread of its own."""
        self._thread.start()

    def server_close(self) -> None:
        """Ends to serve."""
        if self._thread.is_alive():
            self.shutdown()
        super().server_close()

    def address(self, token: str = "") -> str:
        """Returns the address of the page: with the token of all browsers, or with another one of the gate."""
        return f"http://{self.name}:{self.port}/?token={token or self.gate.token}"

    def policy(self, address: str) -> str:
        """Returns what the page may load that came in at an address: files and news from here alone."""
        return POLICY.replace("{streams}", " ".join(f"ws://{host}" for host in self.hosts(address)))

    @property
    def cookie_name(self) -> str:
        """The name of our cookie: browsers send the cookies of all ports to each."""
        return f"agc-web-{self.port}"

    def hosts(self, address: str) -> Tuple[str, ...]:
        """Returns the names by which a browser may call us that reached us at an address: a name from elsewhere, which might
        be anybody's, is none. Browsers leave out port 80."""
        names = (HERE, "localhost") if address == HERE else (address,)
        return (*(f"{name}:{self.port}" for name in names), *(names if self.port == 80 else ()))

    def hold(self, window: str, down: bool, button: Optional[Tuple[int, str]] = None) -> None:
        """Presses a button of an instrument, or PRO, for a window, or lets it come up."""
        if button is None:
            self.session.press("PRO" if down else "PRO up")
        else:
            self.session.control(*button, down)
        self._held.pop(button, None)
        if down:
            self._held[button] = window

    def release(self, window: str) -> None:
        """Lets PRO and the buttons of instruments come up that a window that has gone held."""
        for button in [button for button, holder in self._held.items() if window and holder == window]:
            with suppress(Unable, Ended):
                self.hold(window, False, button)

    def process_request(self, request: Any, client_address: Any) -> None:
        self.room.enter(request)
        super().process_request(request, client_address)

    def shutdown_request(self, request: Any) -> None:
        self.room.leave(request)
        super().shutdown_request(request)

    def handle_error(self, request: Any, client_address: Any) -> None:
        """Reports a fault of our own; says nothing of a browser that went away."""
        error = sys.exc_info()[1]
        if not isinstance(error, (ConnectionError, socket.timeout, ValueError)):
            print(f"agc-web: {error!r}", file=sys.stderr)


class Reading(io.RawIOBase):
    """What a browser sends. A request has to be whole within ten seconds, so that nobody who sends a byte now and then
    keeps a connection."""

    def __init__(self, connection: socket.socket) -> None:
        self._connection = connection
        self.end: Optional[float] = time.monotonic() + WHOLE  # None between two requests: the next one may take its time to begin

    def readable(self) -> bool:
        return True

    def readinto(self, buffer: Any) -> int:
        left = PATIENCE if self.end is None else self.end - time.monotonic()
        if left <= 0:
            raise socket.timeout("timed out")
        self._connection.settimeout(left)
        count = self._connection.recv_into(buffer)
        self.end = self.end or time.monotonic() + WHOLE
        return count


class Handler(BaseHTTPRequestHandler):
    """One connection of a browser."""

    server: Server
    connection: socket.socket
    protocol_version = "HTTP/1.1"
    server_version = "agc-web"
    sys_version = ""
    disable_nagle_algorithm = True
    timeout = PATIENCE
    wbufsize = -1  # an answer leaves in one piece

    def setup(self) -> None:
        super().setup()
        self.rfile.close()
        self._reading = Reading(self.connection)
        self.rfile = io.BufferedReader(self._reading)

    @property
    def _address(self) -> str:
        """Our address at which the connection came in."""
        return str(self.connection.getsockname()[0])

    def handle_one_request(self) -> None:
        super().handle_one_request()
        self._reading.end = None

    def do_GET(self) -> None:
        self._answer(self._get)

    def do_POST(self) -> None:
        self._answer(self._post)

    def log_message(self, format: str, *args: Any) -> None:
        """Keeps quiet: the addresses have the token."""

    # what all requests go through

    def _answer(self, task: Callable[[str], None]) -> None:
        try:
            task(self._checked_path())
        except Sure as fault:
            self._send_json({"error": str(fault), "sure": fault.count}, HTTPStatus.CONFLICT)
        except (BadRequest, Unable, Ended, Refused, ValueError) as fault:
            usual = HTTPStatus.CONFLICT if isinstance(fault, (Unable, Ended)) else HTTPStatus.BAD_REQUEST
            self._send_json({"error": str(fault)}, fault.status if isinstance(fault, BadRequest) else usual)
        except (ConnectionError, socket.timeout):
            self.close_connection = True
        except Exception as fault:  # our own
            print(f"agc-web: {fault!r}", file=sys.stderr)
            self._send_json({"error": f"agc-web failed: {fault!r}"}, HTTPStatus.INTERNAL_SERVER_ERROR)

    def _checked_path(self) -> str:
        """Returns the path of a request that comes from our own page; refuses any other."""
        host, origin = self.headers.get("Host", ""), self.headers.get("Origin")
        if len(self.headers.get_all("Host", [])) != 1 or host not in self.server.hosts(self._address):
            raise self._closing(HTTPStatus.FORBIDDEN, "this is not our host")
        if origin is None and self.command == "POST" or origin is not None and origin != f"http://{host}":
            raise self._closing(HTTPStatus.FORBIDDEN, "this is not our origin")
        if self.headers.get("Sec-Fetch-Site", "none") not in ("none", "same-origin"):
            raise self._closing(HTTPStatus.FORBIDDEN, "this is not our page")
        path = urlsplit(self.path).path
        if not self._is_known(path, self._word("token")):
            raise self._closing(HTTPStatus.FORBIDDEN, "the token of the printed address is missing")
        if not self.server.room.know(self.connection):
            raise self._closing(HTTPStatus.SERVICE_UNAVAILABLE, "there are too many windows")
        return path

    def _word(self, name: str) -> str:
        """Returns a word of the query; one that it lacks is empty."""
        return parse_qs(urlsplit(self.path).query).get(name, [""])[0]

    def _is_known(self, path: str, token: str) -> bool:
        """Whether a request has the cookie, the token of the printed address, or for the page a token that is good once.
        A token in the page's address becomes the cookie."""
        gate = self.server.gate
        self._is_entering = path == "/" and token != "" and self.command == "GET"
        has_token = gate.lets_in(token) if self._is_entering else gate.is_token(token)  # used up in any case
        has_cookie = gate.is_cookie(self.headers.get("Cookie", ""), self.server.cookie_name)
        return has_token or has_cookie or gate.is_token(self.headers.get("X-Token", ""))

    def _closing(self, status: HTTPStatus, text: str) -> BadRequest:
        """Makes a refusal after which nothing more is read from the connection."""
        self.close_connection = True
        return BadRequest(status, text)

    def _body(self) -> Dict[str, Any]:
        """Reads a body of JSON, an object."""
        if "Transfer-Encoding" in self.headers or not self.headers.get("Content-Length", "").isdigit():
            raise self._closing(HTTPStatus.LENGTH_REQUIRED, "a body needs its length")
        length = int(self.headers["Content-Length"])
        if length > LONGEST_BODY:
            raise self._closing(HTTPStatus.REQUEST_ENTITY_TOO_LARGE, f"a body has {LONGEST_BODY} bytes at most")
        if self.headers.get_content_type() != "application/json":
            raise self._closing(HTTPStatus.UNSUPPORTED_MEDIA_TYPE, "a body is application/json")
        try:
            body = json.loads(self.rfile.read(length))
        except (ValueError, RecursionError):
            raise ValueError("the body is not JSON") from None
        if not isinstance(body, dict):
            raise ValueError("the body is not an object")
        return body

    def _send(self, body: bytes, kind: str, status: HTTPStatus = HTTPStatus.OK, **more: str) -> None:
        self._send_head(status, {
            "Content-Type": kind, "Content-Length": str(len(body)), "Cache-Control": "no-store",
            "Content-Security-Policy": self.server.policy(self._address),
            "Referrer-Policy": "no-referrer", "X-Content-Type-Options": "nosniff", "X-Frame-Options": "DENY",
            "Cross-Origin-Resource-Policy": "same-origin", "Cross-Origin-Opener-Policy": "same-origin",
            **{name.replace("_", "-"): value for name, value in more.items()},
            **({"Connection": "close"} if self.close_connection else {}),
        })
        self._send_bytes(body)

    def _send_head(self, status: HTTPStatus, headers: Dict[str, str]) -> None:
        """Sends the head of an answer, of which the browser has to take each part in time."""
        self.connection.settimeout(PATIENCE)
        self.send_response(status)
        for name, value in headers.items():
            self.send_header(name, value)
        self.end_headers()

    def _send_json(self, value: Any, status: HTTPStatus = HTTPStatus.OK) -> None:
        try:
            self._send(json.dumps(value).encode(), "application/json", status)
        except (ConnectionError, socket.timeout):
            self.close_connection = True

    # GET

    def _get(self, path: str) -> None:
        if path == "/":
            self._send_page()
        elif path == "/events":
            self._send_news()
        elif path == "/script":
            self._send(self.server.session.script().encode(), "text/plain; charset=utf-8",
                       Content_Disposition='attachment; filename="session.script"')
        elif path == "/film":
            self._send_film()
        elif path == "/timeline" and self._word("kept"):
            self._send_made(self.server.films.kept_timeline, **FRAMED)
        elif path == "/timeline":
            self._send_made(lambda: self.server.films.timeline(self.server.session.repeat()))
        elif path == "/source":
            self._send_json(self.server.source)
        elif path[1:] in NAMED.findall(_page()):
            file = PAGE / path[1:]
            self._send(file.read_bytes(), TYPES[file.suffix])
        else:
            raise BadRequest(HTTPStatus.NOT_FOUND, "there is no such page")

    def _send_page(self) -> None:
        """Sends the page; if its address has a token, the cookie, and the address without it."""
        if self._is_entering:
            cookie = f"{self.server.cookie_name}={self.server.gate.cookie}; Path=/; HttpOnly; SameSite=Strict"
            self._send(b"", TYPES[".html"], HTTPStatus.SEE_OTHER, Location="/", Set_Cookie=cookie)
        else:
            self._send(_page().encode(), TYPES[".html"])

    def _send_news(self) -> None:
        """Sends what changes, as long as the browser listens: at most fifty messages a second."""
        if self.headers.get("Upgrade", "").lower() != "websocket":
            raise BadRequest(HTTPStatus.UPGRADE_REQUIRED, "the news come by a WebSocket")
        accepted = accept_key(self.headers.get("Sec-WebSocket-Key", ""))
        self.close_connection = True
        self._send_head(HTTPStatus.SWITCHING_PROTOCOLS, {"Upgrade": "websocket", "Connection": "Upgrade", "Sec-WebSocket-Accept": accepted})
        try:
            self._send_until_left(Listener(self.connection))
        finally:
            self.server.release(self._word("window"))

    def _send_until_left(self, listener: Listener) -> None:
        """Sends the news until the browser has left or there are no more."""
        news = self.server.session.news
        seen, parts = news.since(0, 0)
        self._send_bytes(frame(f'{{"about":{json.dumps(self.server.about)},{parts[1:]}'))
        while not news.closed and not listener.has_left():
            seen, parts = news.since(seen, HEARTBEAT)
            self._send_bytes(frame(parts) if parts else PING)
            time.sleep(NEWS)
        self._send_bytes(END)

    def _send_bytes(self, data: bytes) -> None:
        self.wfile.write(data)
        self.wfile.flush()

    def _send_film(self) -> None:
        repeat, views = self.server.session.repeat(), []
        with suppress(Unable):  # a machine that is busy has a film without them
            views = self.server.session.past_views()
        self._send_made(lambda: self.server.films.make(repeat, views))

    def _send_made(self, make: Callable[[], bytes], **more: str) -> None:
        """Sends a page that agc-study makes. It is separated from ours: it cannot reach this server."""
        try:
            self._send(make(), TYPES[".html"], HTTPStatus.OK, **{"Content_Security_Policy": FILM_POLICY, **more})
        except Unable as unable:
            self._send(str(unable).encode(), "text/plain; charset=utf-8", HTTPStatus.CONFLICT)

    # POST

    def _post(self, path: str) -> None:
        body = self._body()
        if path == "/do":
            name = body.get("do")
            if not isinstance(name, str) or name not in COMMANDS:
                raise ValueError("there is no such command")
            COMMANDS[name](self.server, body)
            self._send_json({})
        elif path == "/say":
            self._send_json(self.server.session.say(lines_of(body, LOOKS)))
        elif path == "/search":
            before = item(body, "before", int) if "before" in body else None
            self._send_json(self.server.session.search(lines_of(body, SEARCHES), before))
        elif path == "/timeline":
            repeat = self.server.session.repeat()
            self.server.films.keep_timeline(repeat)
            self._send_json({"cycle": repeat.limit})
        else:
            raise BadRequest(HTTPStatus.NOT_FOUND, "there is no such page")

    # what is no request of ours

    def do_other(self) -> None:
        self.close_connection = True
        self._send_json({"error": "GET or POST"}, HTTPStatus.METHOD_NOT_ALLOWED)

    do_HEAD = do_PUT = do_DELETE = do_PATCH = do_OPTIONS = do_TRACE = do_CONNECT = do_other

    def send_error(self, code: int, message: Optional[str] = None, explain: Optional[str] = None) -> None:
        """Refuses what cannot be read as a request."""
        self.close_connection = True
        self._send_json({"error": "this is no request"}, HTTPStatus(code) if 400 <= code < 500 else HTTPStatus.BAD_REQUEST)

    def finish(self) -> None:
        """Ends a connection; reads for a second what a refused request still sends, so that its browser gets the answer."""
        with suppress(OSError):
            self.connection.settimeout(1)
            super().finish()
            self.connection.shutdown(socket.SHUT_WR)
            end = time.monotonic() + 1
            while time.monotonic() < end and self.connection.recv(65536):
                pass


def _page() -> str:
    return (PAGE / "web" / "index.html").read_text(encoding="utf-8")


def is_reachable(address: str) -> bool:
    """Whether other computers may reach an address."""
    try:
        return not ipaddress.ip_address(address).is_loopback
    except ValueError:
        return address != "localhost"


def own_address() -> str:
    """Returns the address by which other computers of the network reach this one; nothing is sent to find it."""
    with socket.socket(socket.AF_INET, socket.SOCK_DGRAM) as probe:
        try:
            probe.connect(("192.0.2.1", 9))
            return str(probe.getsockname()[0])
        except OSError:
            return HERE


def item(body: Dict[str, Any], name: str, kind: type) -> Any:
    """Returns an item of a body, which has to be of this type."""
    value = body.get(name)
    if type(value) is not kind:
        raise ValueError(f"{name} is missing, or of another type")
    return value


COMMANDS: Dict[str, Callable[[Server, Dict[str, Any]], None]] = {
    "key": lambda server, body: server.session.press(named_key(item(body, "name", str))),
    "pro": lambda server, body: server.hold(item(body, "window", str), item(body, "down", bool)),
    "play": lambda server, body: server.session.play(),
    "pause": lambda server, body: server.session.pause(),
    "speed": lambda server, body: server.session.set_speed(item(body, "times", int)),
    "step": lambda server, body: server.session.step(),
    "over": lambda server, body: server.session.step_by_call(with_job("over", body)),
    "finish": lambda server, body: server.session.step_by_call(with_job("finish", body)),
    "go": lambda server, body: server.session.go_there(item(body, "cycle", int), body.get("sure") is True),
    "back": lambda server, body: server.session.go_back_to_change(body.get("sure") is True),
    "undo": lambda server, body: server.session.undo(body.get("sure") is True),
    "break": lambda server, body: server.session.add_breakpoint(item(body, "place", str)),
    "unbreak": lambda server, body: server.session.remove_breakpoint(item(body, "place", str)),
    "ignore": lambda server, body: server.session.ignore_hits(item(body, "place", str), item(body, "hits", int)),
    "control": lambda server, body: server.hold(
        item(body, "window", str), item(body, "down", bool), (item(body, "instrument", int), item(body, "name", str))
    ),
}


def named_key(name: str) -> str:
    """Returns a key's name; PRO has a command of its own, since it is held."""
    if name not in KEYS:
        raise ValueError(f"no key: {name!r:.20}")
    return name


def with_job(way: str, body: Dict[str, Any]) -> str:
    """Returns a step by calls, in the present job alone if the body names the cell that differs from job to job."""
    return f"{way} job {item(body, 'job', str)}" if "job" in body else way


def lines_of(body: Dict[str, Any], commands: Set[str]) -> List[str]:
    """Returns the lines of a body for a console, each of which is one of these commands."""
    lines: List[str] = item(body, "lines", list)
    found = [LINE.match(line) if isinstance(line, str) else None for line in lines]
    if len(lines) > MOST_LINES or not all(each and each[1] in commands for each in found):
        raise ValueError(f"lines are up to {MOST_LINES}, of {', '.join(sorted(commands))}")
    return lines
