"""A DSKY over sockets, and the protocol's bytes, both written from the protocol's text and not from the program's code.

Each byte was worked out by hand: a channel's first five bits stand in the first byte, its last three in the second; a
word's first octal digit in the second byte, its next two in the third and its last two in the fourth.
"""

import select
import socket
import time

LONGEST = 240

# channel 15 is 00001 101
KEYS = {
    "0": "016880d0", "1": "016880c1", "2": "016880c2", "3": "016880c3", "4": "016880c4", "5": "016880c5",
    "6": "016880c6", "7": "016880c7", "8": "016880c8", "9": "016880c9", "VERB": "016880d1", "NOUN": "016880df",
    "ENTR": "016880dc", "CLR": "016880de", "RSET": "016880d2", "KEYREL": "016880d9", "+": "016880da", "-": "016880db",
}
RELEASE = "016880c0"
# channel 32 is 00011 010, and bit 14 is the 2 of 20000
PRO_MASK, PRO_DOWN, PRO_UP = "235280c0", "035080c0", "035280c0"

DIGITS = {
    0o00: "_", 0o25: "0", 0o03: "1", 0o31: "2", 0o33: "3", 0o17: "4", 0o36: "5", 0o34: "6", 0o23: "7", 0o35: "8", 0o37: "9",
}


class Gone(Exception):
    """The other end has closed the connection."""


class Dsky:
    """A client of one port, which keeps what it was sent."""

    def __init__(self, port, receive_buffer=None):
        self.socket = socket.socket()
        if receive_buffer:
            self.socket.setsockopt(socket.SOL_SOCKET, socket.SO_RCVBUF, receive_buffer)
        self.socket.settimeout(LONGEST)
        self.socket.connect(("127.0.0.1", port))
        self.bytes = b""
        self.packets = []
        """Channel, word and time of each packet."""
        self.is_open = True

    def send(self, *packets):
        """Sends packets, which are named in hexadecimal."""
        self.socket.sendall(bytes.fromhex("".join(packets)))

    def keys(self, *names):
        self.send(*(KEYS[name] for name in names))

    def take(self, seconds):
        """Takes what comes within this many seconds, or at once."""
        if not self.is_open or not select.select([self.socket], [], [], seconds)[0]:
            return
        try:
            data = self.socket.recv(1 << 16)
        except ConnectionError:
            data = b""
        self.is_open = bool(data)
        self.bytes += data
        while len(self.bytes) >= 4:
            one, two, three, four = self.bytes[:4]
            self.bytes = self.bytes[4:]
            if (one & 0xE0, two & 0xC0, three & 0xC0, four & 0xC0) != (0, 0x40, 0x80, 0xC0):
                raise ValueError(f"no packet: {one:02x}{two:02x}{three:02x}{four:02x}")
            channel = one % 32 * 8 + two // 8 % 8
            word = two % 8 * 4096 + three % 64 * 64 + four % 64
            self.packets.append((channel, word, time.monotonic()))

    def until(self, is_so, seconds=LONGEST):
        """Takes packets until something is so; returns whether it came to be."""
        end = time.monotonic() + seconds
        while not is_so(self):
            if time.monotonic() > end or not self.is_open:
                return is_so(self)
            self.take(0.05)
        return True

    def drain(self):
        """Takes all that is there already."""
        while self.is_open and select.select([self.socket], [], [], 0)[0]:
            self.take(0)

    def lasts(self, seconds=LONGEST):
        """Whether the connection is still there after this many seconds."""
        self.until(lambda dsky: not dsky.is_open, seconds)
        return self.is_open

    def welcomed(self):
        """Waits for the words that a new client receives: the last of them are the lamps."""
        assert self.until(lambda dsky: dsky.words(0o163)), "no lamps were sent"
        self.first = len(self.packets)
        return self

    def words(self, channel):
        """The words of a channel, as they came."""
        return [word for at, word, _ in self.packets if at == channel]

    def writes(self):
        """The channel writes since the welcome."""
        return [(channel, word) for channel, word, _ in self.packets[self.first:] if channel != 0o163]

    def shown(self):
        """PROG, VERB, NOUN, R1, R2 and R3, as agc prints them."""
        rows = {row: 0 for row in range(16)}
        for word in self.words(0o10):
            rows[word >> 11] = word % 2048
        left = {row: DIGITS.get(word >> 5 & 31, "?") for row, word in rows.items()}
        right = {row: DIGITS.get(word & 31, "?") for row, word in rows.items()}
        sign = {row: word >> 10 == 1 for row, word in rows.items()}

        def signed(plus, minus, digits):
            return ("+" if sign[plus] else "-" if sign[minus] else "_") + digits

        return [
            "PROG " + left[11] + right[11],
            "VERB " + left[10] + right[10],
            "NOUN " + left[9] + right[9],
            "R1 " + signed(7, 6, right[8] + left[7] + right[7] + left[6] + right[6]),
            "R2 " + signed(5, 4, left[5] + right[5] + left[4] + right[4] + left[3]),
            "R3 " + signed(2, 1, right[3] + left[2] + right[2] + left[1] + right[1]),
        ]

    def close(self):
        self.socket.close()
        self.is_open = False
