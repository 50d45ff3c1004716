"""The packets of Virtual AGC's socket protocol, and what they mean to this machine.

Nothing here touches a socket, a clock or a machine: bytes become packets, packets become commands of `agc-console`, and
channel writes become packets. Channels, words and counters are written in octal.
"""

import functools
from typing import Dict, Iterator, List, Mapping, NamedTuple

FIRST_CHANNEL = 0o5  # below it stand L, Q and the scaler, which no script sets
RELAYS = 0o10
LAMPS = 0o11
KEYBOARD = 0o15
SECOND_KEYBOARD = 0o16
PRO_CHANNEL = 0o32
PRO = 0o20000  # bit 14: 0 while the key is down
SHOWN_LAMPS = 0o163  # invented by the protocol: lamps as the DSKY shows them
UPLINK = 0o173  # invented by the protocol: a word for INLINK
LAST_CHANNEL = 0o377  # what a packet can name
FIRST_COUNTER_CHANNEL = 0o200  # a counter's channel is its address and this
INLINK = 0o45
COUNTERS = range(0o24, 0o61)  # the counters that a script can pulse
ALL_BITS = 0o77777

OUTPUTS = (0o5, 0o6, 0o7, 0o11, 0o12, 0o13, 0o14, 0o34, 0o35)
"""The output channels whose words a new client receives, beside the relay rows of channel 10."""

RELAY_ROWS = range(1, 13)
"""The relay rows that a new client receives in any case: one without a word is blank."""

INTERRUPTS = {KEYBOARD: 5, SECOND_KEYBOARD: 6, UPLINK: 7}
KEY_NAMES = {
    0o20: "0", 0o1: "1", 0o2: "2", 0o3: "3", 0o4: "4", 0o5: "5", 0o6: "6", 0o7: "7", 0o10: "8", 0o11: "9",
    0o21: "VERB", 0o22: "RSET", 0o31: "KEYREL", 0o32: "+", 0o33: "-", 0o34: "ENTR", 0o36: "CLR", 0o37: "NOUN",
}
PULSES = {0: "pinc", 1: "pcdu", 2: "minc", 3: "mcdu", 5: "shinc", 6: "shanc", 0o21: "pcdu", 0o23: "mcdu"}
DINC = 4

# the lamps of channel 11 that channel 163 repeats at the same bits
TEMP = 0o10
KEY_REL = 0o20
FLASH = 0o40  # in channel 11 verb and noun flash; in channel 163 they are blank at the moment
OPR_ERR = 0o100

PULSES_A_CYCLE = 12
BLINK_PULSES = 1_310_720  # 1.28 seconds of 1,024,000 pulses each
LIT_PULSES = 983_040  # three quarters of that


class Packet(NamedTuple):
    """Four bytes: a channel, a word for it, and the u bit, which makes the word a mask."""

    channel: int
    word: int
    is_mask: bool = False

    def encode(self) -> bytes:
        """Returns the four bytes: each has its place in its two upper bits, and below it the next six bits of the packet."""
        bits = self.is_mask << 23 | self.channel << 15 | self.word
        return bytes(place << 6 | bits >> 18 - 6 * place & 0x3F for place in range(4))

    @staticmethod
    def decode(data: bytes) -> "Packet":
        """Returns the packet of four bytes whose upper bits are right."""
        bits = functools.reduce(lambda before, byte: before << 6 | byte & 0x3F, data, 0)
        return Packet(bits >> 15 & 0xFF, bits & ALL_BITS, bool(bits >> 23))


class Fault(Exception):
    """Why a client loses its connection."""


class PacketReader:
    """Cuts a stream of bytes into packets, however it is divided."""

    def __init__(self) -> None:
        self.begun = b""  # of a packet that is not whole

    def feed(self, data: bytes) -> List[Packet]:
        """Takes the next bytes, and returns the packets that are whole. Raises `Fault`, and returns none of them, if one of
        the bytes has not the upper bits of its place: this is no client of the protocol."""
        begun = self.begun + data
        if any(byte >> 6 != at & 3 for at, byte in enumerate(begun)):
            raise Fault("it sends rubbish")
        end = len(begun) & ~3
        self.begun = begun[end:]
        return [Packet.decode(begun[at:at + 4]) for at in range(0, end, 4)]


class Inexpressible(Exception):
    """An input that no line of a script says."""


def merged(word: int, mask: int, before: int) -> int:
    """Returns the word before with the masked bits replaced."""
    return word & mask | before & ~mask & ALL_BITS


def commands_for(channel: int, word: int, before: int) -> List[str]:
    """Returns the console's commands for a word that comes into a channel with another word before; none if nothing
    changes. Raises `Inexpressible` if a script cannot say it."""
    if channel >= FIRST_COUNTER_CHANNEL:
        return [_pulse(channel - FIRST_COUNTER_CHANNEL, word)]
    if channel < FIRST_CHANNEL:
        raise Inexpressible(f"channel {channel:o} takes no input: a script's begin at {FIRST_CHANNEL:o}")
    if channel == UPLINK:
        return [f"poke 0 {INLINK:o} {word:05o}", f"raise {INTERRUPTS[UPLINK]}"]
    if channel == KEYBOARD and word in KEY_NAMES:
        return [f"key {KEY_NAMES[word]}"]
    if channel in (KEYBOARD, SECOND_KEYBOARD) and word:  # 0 is a release
        return [f"input {channel:o} {word:05o}", f"raise {INTERRUPTS[channel]}"]
    if word == before:
        return []
    if channel == PRO_CHANNEL and word ^ before == PRO:
        return ["pro up" if word & PRO else "pro down"]
    return [f"input {channel:o} {word:05o}"]


def _pulse(counter: int, kind: int) -> str:
    if counter not in COUNTERS:
        raise Inexpressible(f"counter {counter:o} takes no pulse: those of a script are 24 to 60")
    if kind == DINC:
        raise Inexpressible("DINC is no pulse of a script")
    if kind not in PULSES:
        raise Inexpressible(f"a pulse of kind {kind:o} is unknown")
    return f"pulse {counter:o} {PULSES[kind]}"


def shown_lamps(lamps: int, cycle: int) -> int:
    """Returns the word of channel 163 at a cycle, by the word that the program wrote to channel 11. What blinks is lit for three
    quarters of each 1.28 seconds, and then dark."""
    is_dark = cycle * PULSES_A_CYCLE % BLINK_PULSES >= LIT_PULSES
    return lamps & (TEMP | (FLASH if is_dark else KEY_REL | OPR_ERR))


class Board:
    """What the machine has written for a DSKY: the last word of each relay row, and the lamps."""

    def __init__(self) -> None:
        self.rows: Dict[int, int] = {}
        self.lamps = 0

    def note(self, channel: int, word: int) -> None:
        """Takes a channel write."""
        if channel == RELAYS:
            self.rows[word >> 11] = word
        elif channel == LAMPS:
            self.lamps = word

    def packets(self, outputs: Mapping[int, int], cycle: int) -> Iterator[Packet]:
        """Yields what a client is sent that knows nothing: the relay rows, the words of the outputs, and the lamps."""
        for row in sorted({*RELAY_ROWS, *self.rows}):
            yield Packet(RELAYS, self.rows.get(row, row << 11))
        for channel in sorted(outputs):
            yield Packet(channel, outputs[channel])
        yield Packet(SHOWN_LAMPS, shown_lamps(self.lamps, cycle))
