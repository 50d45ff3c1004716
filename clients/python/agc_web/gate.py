"""Who may use the server, and how many connections there may be."""

import hmac
import secrets
import socket
import threading
from contextlib import suppress
from typing import Dict, Set

LETTERS = "abcdefghjkmnpqrstuvwxyz23456789"  # that are not taken for others
SHORT = 10  # letters
MOST_STRANGERS = 32  # connections that have not shown the token yet
MOST_KNOWN = 64  # connections that have


class Gate:
    """The secrets: the token of the printed address, which lets any number of browsers in; the tokens of addresses that are
    good for once; and the cookie that both become."""

    def __init__(self, is_short: bool = False) -> None:
        """A short token, which can be typed on a phone, is one of 800 million millions."""
        self.token = "".join(secrets.choice(LETTERS) for _ in range(SHORT)) if is_short else secrets.token_urlsafe(24)
        self.cookie = secrets.token_urlsafe(24)
        self._once: Set[str] = set()
        self._lock = threading.Lock()

    def token_for_once(self) -> str:
        """Returns a token that lets one browser in, and none after it."""
        token = secrets.token_urlsafe(24)
        self._once.add(token)
        return token

    def is_token(self, text: str) -> bool:
        """Whether a text is the token of the printed address."""
        return _are_same(text, self.token)

    def is_cookie(self, cookies: str, name: str) -> bool:
        """Whether a header of cookies has ours, under this name."""
        pairs = (each.strip().partition("=") for each in cookies.split(";"))
        return any(each[0] == name and _are_same(each[2], self.cookie) for each in pairs)

    def lets_in(self, text: str) -> bool:
        """Whether a text is a token that lets a browser in; one for once is used up by that."""
        with self._lock:
            found = {token for token in self._once if _are_same(text, token)}
            self._once -= found
        return bool(found) or self.is_token(text)


class Room:
    """The connections. One that has not shown the token gives way to newer ones, so that those who have it always get in."""

    def __init__(self) -> None:
        self._lock = threading.Lock()
        self._strangers: Dict[socket.socket, None] = {}  # the oldest first
        self._known: Set[socket.socket] = set()

    def enter(self, connection: socket.socket) -> None:
        """Takes a connection in; the oldest stranger leaves if there are too many."""
        with self._lock:
            self._strangers[connection] = None
            if len(self._strangers) > MOST_STRANGERS:
                oldest = next(iter(self._strangers))
                del self._strangers[oldest]
                with suppress(OSError):
                    oldest.shutdown(socket.SHUT_RDWR)  # ends what its thread reads

    def know(self, connection: socket.socket) -> bool:
        """Notes that a connection has shown the token; returns whether there is room for it."""
        with self._lock:
            if connection not in self._known and len(self._known) >= MOST_KNOWN:
                return False
            self._strangers.pop(connection, None)
            self._known.add(connection)
            return True

    def leave(self, connection: socket.socket) -> None:
        with self._lock:
            self._strangers.pop(connection, None)
            self._known.discard(connection)


def _are_same(text: str, secret: str) -> bool:
    return hmac.compare_digest(text.encode(errors="replace"), secret.encode())
