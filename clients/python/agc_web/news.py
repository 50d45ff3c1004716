"""What there is to show, part by part, and the stream of it to a window, a WebSocket: a browser opens only six connections to a host
for all else, which streams of its tabs would use up.

Here are the parts of RFC 6455 that we need: frames to the browser are texts, pings and the end; of those from the browser
only the end matters, since the page sends its commands by POST.
"""

import base64
import binascii
import hashlib
import json
import select
import socket
import threading
from typing import Any, Dict, Tuple

GUID = b"258EAFA5-E914-47DA-95CA-C5AB0DC85B11"
PING = b"\x89\x00"
END = b"\x88\x00"
END_CODE = 8
LONGEST_CONTROL = 125  # bytes of a frame that a browser sends without being asked
MASK = 4  # bytes


class News:
    """The parts that a window shows. Each stream waits for those that changed."""

    def __init__(self) -> None:
        self._changed = threading.Condition()
        self._parts: Dict[str, Tuple[int, str]] = {}
        self._count = 0
        self.closed = False

    def publish(self, part: str, value: Any) -> None:
        """Sets a part, if it is another than before."""
        text = json.dumps(value, separators=(",", ":"))
        with self._changed:
            if part not in self._parts or self._parts[part][1] != text:
                self._count += 1
                self._parts[part] = (self._count, text)
                self._changed.notify_all()

    def since(self, count: int, patience: float) -> Tuple[int, str]:
        """Waits for parts that changed after a count. Returns the new count, and the parts as JSON ("" if none)."""
        with self._changed:
            if self._count <= count and not self.closed:
                self._changed.wait(patience)
            parts = [f'"{name}":{text}' for name, (at, text) in self._parts.items() if at > count]
            return self._count, "{" + ",".join(parts) + "}" if parts else ""

    def close(self) -> None:
        """Wakes all streams: there will be no more news."""
        with self._changed:
            self.closed = True
            self._changed.notify_all()


def accept_key(key: str) -> str:
    """Returns the answer to a browser's key. Raises ValueError unless the key is sixteen bytes in base 64."""
    try:
        if len(base64.b64decode(key, validate=True)) != 16:
            raise ValueError("a key has sixteen bytes")
    except binascii.Error:
        raise ValueError("a key is in base 64") from None
    return base64.b64encode(hashlib.sha1(key.encode() + GUID).digest()).decode()


def frame(text: str) -> bytes:
    data = text.encode()
    if len(data) <= LONGEST_CONTROL:
        return bytes([0x81, len(data)]) + data
    if len(data) < 1 << 16:
        return b"\x81\x7e" + len(data).to_bytes(2, "big") + data
    return b"\x81\x7f" + len(data).to_bytes(8, "big") + data


class Listener:
    """Finds out whether a browser has left its stream."""

    def __init__(self, connection: socket.socket) -> None:
        self._connection = connection
        self._read = b""

    def has_left(self) -> bool:
        """Takes what the browser has sent; returns whether that is its end, or nothing that a page of ours sends."""
        while select.select([self._connection], [], [], 0)[0]:
            data = self._connection.recv(4096)
            if not data:
                return True
            self._read += data
            while len(self._read) >= 2:
                code, length = self._read[0] & 0xF, self._read[1] & 0x7F
                if code == END_CODE or length > LONGEST_CONTROL:
                    return True
                if len(self._read) < 2 + MASK + length:
                    break
                self._read = self._read[2 + MASK + length:]
        return False
