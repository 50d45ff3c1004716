"""Instruments of Virtual AGC over sockets: DSKYs, simulators and monitors, which take this machine for yaAGC.

    python3 -m agc_web.instruments ROPE [SCRIPT] [--port N] [--save FILE] [--listen ADDRESS] [--speed N]

`attach(session, port)` serves the instruments of a session that has a page, too. The packets are those of
agc_web.protocol, and docs/INSTRUMENTS.md describes what is served.

Two threads meet here. The sockets belong to the network thread, which runs `Instruments`. The `Desk` is used in the machine's
turn: by that thread, to do what the clients want, and by whoever else has the turn. What the machine writes goes from there
into the outbox of each client.
"""

import argparse
import asyncio
import os
import socket
import sys
import threading
import time
from collections import deque
from contextlib import suppress
from functools import partial
from itertools import takewhile
from typing import Any, Callable, Deque, Dict, List, NamedTuple, Optional, Tuple

from agc import LAST_CYCLE, Console, Ended, Error, Refused, Write
from agc_web import protocol
from agc_web.ending import REFUSED, SAVED, UNSAVED, Ending, ScriptFile, naming, say
from agc_web.protocol import Board, Fault, Inexpressible, Packet, PacketReader
from agc_web.searcher import second
from agc_web.server import HERE, is_reachable
from agc_web.session import KEY_GAP, SPEEDS, Session, Unable

PORT = 19697
PORTS = 10
WAITING = 16  # connections that wait to be taken on each port
TICK = 0.02  # seconds between two looks at the machine, for what blinks and keys that wait
CHUNK = 65_536  # bytes that are taken from a client at once: more than it may spend, so that a flood is seen whole
SLICE = 200  # inputs that the machine takes at once
ALLOWANCE = 10_000  # what a client may spend a second: a pulse or a mask costs 1
INPUT_COST = 10  # of any other input
MOST_UNSENT = 65_536  # packets that wait for a client
MOST_KEYS = 64  # keys of a client that wait for the machine
HALFWAY = 5.0  # seconds for which a client may leave a packet half sent
SEND_BUFFER = 65_536  # bytes that the system keeps for a client
RELEASE_GAP = 853  # cycles from a key to its release at least: a hundredth of a second
PIECE = 1_000_000  # cycles that are run at once to find what is shown at a cycle
LINES_A_SECOND = 100
PRESSES = {protocol.KEYBOARD: ("key ", "raise 5"), protocol.SECOND_KEYBOARD: ("raise 6",)}  # how commands begin that press a key
_say = partial(say, "instruments")


class Log:
    """Lines on standard error, a bounded number of them in each second."""

    def __init__(self) -> None:
        self._second = self._lines = 0

    def __call__(self, text: str) -> None:
        second = int(time.monotonic())
        self._second, self._lines = second, self._lines + 1 if second == self._second else 1
        if self._lines <= LINES_A_SECOND:
            _say(text)
        elif self._lines == LINES_A_SECOND + 1:
            _say("more lines of this second are left out")


class Input(NamedTuple):
    """A word for a channel, of which the mask's bits count."""

    channel: int
    word: int
    mask: int


class Client:
    """One connection: what it has sent, and what it is still to be sent."""

    def __init__(self, writer: Optional[asyncio.StreamWriter], port: int, now: float) -> None:
        self.port = port
        self.outbox: Deque[bytes] = deque()  # packets of the machine
        self.refused = 0  # inputs of this client
        self.holds_pro = False
        self._writer = writer
        self._is_behind = False  # whether the outbox was full
        self._reader = PacketReader()
        self._masks: Dict[int, int] = {}
        self._left = float(ALLOWANCE)  # that it may spend
        self._heard_at = now

    def inputs(self, data: bytes, now: float) -> List[Input]:
        """Takes bytes from the client, keeps its masks, and returns its inputs. Raises `Fault` if it misbehaves: then no
        input of these bytes acts. So a page of a browser, whose request begins with a letter, does nothing here."""
        found, cost = [], 0
        for packet in self._reader.feed(data):
            if packet.is_mask:
                self._masks[packet.channel] = packet.word
            else:
                found.append(Input(packet.channel, packet.word, self._masks.get(packet.channel, protocol.ALL_BITS)))
            cost += 1 if packet.is_mask or packet.channel >= protocol.FIRST_COUNTER_CHANNEL else INPUT_COST
        # so much a second, and as much at once if it was quiet for a second
        self._left = min(float(ALLOWANCE), self._left + (now - self._heard_at) * ALLOWANCE) - cost
        self._heard_at = now
        if self._left < 0:
            raise Fault("it floods the machine")
        return found

    def check(self, now: float) -> None:
        """Raises `Fault` if the client keeps us waiting."""
        if self._is_behind:
            raise Fault("it does not read")
        if self._reader.begun and now - self._heard_at > HALFWAY:
            raise Fault("it left a packet half sent")

    def put(self, packet: bytes) -> None:
        """Puts a packet into the outbox, if there is room."""
        if len(self.outbox) < MOST_UNSENT:
            self.outbox.append(packet)
        else:
            self._is_behind = True

    def send(self) -> None:
        """Sends what there is, if the system has taken all that was sent before."""
        if self.outbox and self._writer is not None and not self._writer.transport.get_write_buffer_size():
            self._writer.write(b"".join(self.outbox.popleft() for _ in range(len(self.outbox))))

    def close(self) -> None:
        """Ends the connection, whatever still waits."""
        if self._writer is not None:
            self._writer.transport.abort()


Keys = Deque[Tuple[Client, Input]]  # the keys and releases of a keyboard that wait, and who sent them


class Desk:
    """What stands between the machine and the clients. It is used in the machine's turn alone."""

    def __init__(self, session: Session, log: Log) -> None:
        """Listens to the machine's writes from now on, and finds what is shown already."""
        self.refused = 0  # inputs
        self._session = session
        self._console = session.console
        self._log = log
        self._log_refusal = Log()
        self._board = Board()
        self._seen = 0  # how many of the machine's writes are on the board
        self._search: Optional[List[Write]] = None  # the writes since a search began for what is on the board, if there is one
        self._lamps = 0
        self._clients: Tuple[Client, ...] = ()
        self._keys: Dict[int, Keys] = {protocol.KEYBOARD: deque(), protocol.SECOND_KEYBOARD: deque()}
        session.on_write(self._note)
        self._begin_search()()

    def _note(self, write: Write) -> None:
        """Takes a channel write, and puts its packet into each outbox."""
        self._seen += 1
        self._board.note(write.channel, write.value)
        if self._search is not None:
            self._search.append(write)
        if write.channel <= protocol.LAST_CHANNEL and write.channel != protocol.SHOWN_LAMPS:
            self._broadcast(Packet(write.channel, write.value))
        if write.channel == protocol.LAMPS:
            self._show_lamps(write.cycle)

    def _broadcast(self, packet: Packet) -> None:
        data = packet.encode()
        for client in self._clients:
            client.put(data)

    def _show_lamps(self, cycle: int) -> None:
        """Sends the lamps, if they are others than before."""
        lamps = protocol.shown_lamps(self._board.lamps, cycle)
        if lamps != self._lamps:
            self._lamps = lamps
            self._broadcast(Packet(protocol.SHOWN_LAMPS, lamps))

    def welcome(self, client: Client) -> None:
        """Sends a client all that the machine shows now, and its writes from now on."""
        self._send_all(client)
        self._clients = (*self._clients, client)

    def _send_all(self, client: Client) -> None:
        outputs = {channel: self._console.channel(channel) for channel in protocol.OUTPUTS}
        for packet in self._board.packets(outputs, self._console.cycle):
            client.put(packet.encode())

    def forget(self, client: Client, drop_keys: bool) -> None:
        """Sends a client nothing more. If it held PRO down, that comes up."""
        self._clients = tuple(each for each in self._clients if each is not client)
        if drop_keys:
            for channel, waiting in self._keys.items():
                self._keys[channel] = deque(each for each in waiting if each[0] is not client)
        if client.holds_pro and self._console.stop is None:
            self._give(client, Input(protocol.PRO_CHANNEL, protocol.PRO, protocol.PRO))

    def refresh(self) -> None:
        """Does what is due as time goes by, and finds out whether time went back."""
        if self._console.count_of_writes() != self._seen:
            threading.Thread(target=self._begin_search(), name="board", daemon=True).start()
        for waiting in self._keys.values():
            self._press_due(waiting)
        self._show_lamps(self._console.cycle)

    def _begin_search(self) -> Callable[[], None]:
        """Returns what any thread may call to find what is shown now, if writes were not reported, as when time goes back. A search that
        has begun before counts no more."""
        self._seen = self._console.count_of_writes()
        self._search = []
        return partial(self._find, self._search, self._console.cycle, self._session.script())

    def _find(self, search: List[Write], cycle: int, script: str) -> None:
        board = self._board_at(cycle, script)
        with suppress(Ended, Unable):
            self._session.call(partial(self._take_found, search, board))

    def _board_at(self, cycle: int, script: str) -> Optional[Board]:
        """Returns what is shown at a cycle, by another run of a script; None if there is none."""
        board = Board()
        try:
            with second(self._session.console, script) as other:
                while other.cycle < cycle and other.stop is None:
                    for write in other.go_to(min(cycle, other.cycle + PIECE)):
                        board.note(write.channel, write.value)
        except Error as error:
            self._log(f"the display is not up to date: {error}")
            return None
        return board

    def _take_found(self, search: List[Write], board: Optional[Board]) -> None:
        """Takes what a search has found, with the writes since it began, and sends it to the clients."""
        if search is not self._search:
            return
        self._search = None
        if board is not None:
            for write in search:
                board.note(write.channel, write.value)
            self._board = board
        for client in self._clients:
            self._send_all(client)

    def take(self, client: Client, inputs: List[Input]) -> None:
        """Gives the machine what a client has sent. Keys wait for the keys before them."""
        for entry in inputs:
            waiting = self._keys.get(entry.channel)
            if waiting is None:
                self._give(client, entry)
            elif sum(each is client for each, _ in waiting) >= MOST_KEYS:
                self._refuse(client, f"{MOST_KEYS} keys wait already")
            else:
                waiting.append((client, entry))
                self._press_due(waiting)

    def _press_due(self, waiting: Keys) -> None:
        """Gives the machine the keys and releases of a keyboard whose time has come."""
        while waiting and self._is_due(waiting[0][1]):
            self._give(*waiting.popleft())

    def _is_due(self, entry: Input) -> bool:
        """Whether the last key of a keyboard, whoever pressed it, was long enough ago; a machine that has stopped refuses at once."""
        since = self._console.cycle - (KEY_GAP if entry.word & entry.mask else RELEASE_GAP)
        late = takewhile(lambda event: event.cycle > since, reversed(self._session.journal.events))
        return self._console.stop is not None or not any(event.command.startswith(PRESSES[entry.channel]) for event in late)

    def _give(self, client: Client, entry: Input) -> None:
        """Gives the machine an input now, or refuses it."""
        try:
            before = self._word_before(entry.channel)
            word = protocol.merged(entry.word, entry.mask, before)
            for command in protocol.commands_for(entry.channel, word, before):
                self._console.say(command)
            if entry.channel == protocol.PRO_CHANNEL and entry.mask & protocol.PRO:
                client.holds_pro = not word & protocol.PRO
        except (Inexpressible, Refused) as fault:
            self._refuse(client, str(fault))

    def _word_before(self, channel: int) -> int:
        """Returns the word of a channel, after the script's own events of this cycle."""
        if not protocol.FIRST_CHANNEL <= channel < protocol.FIRST_COUNTER_CHANNEL:
            return 0
        while self._console.next().startswith("- event"):
            self._console.step()
        return self._console.cell(protocol.INLINK) if channel == protocol.UPLINK else self._console.channel(channel)

    def _refuse(self, client: Client, reason: str) -> None:
        """Counts an input that the machine did not take, and says why."""
        client.refused += 1
        self.refused += 1
        self._log_refusal(f"port {client.port}: input refused: {reason}")


class Instruments:
    """Ten ports, each with one client at most, and the session that they share."""

    def __init__(self, session: Session, listeners: List[socket.socket]) -> None:
        self._session = session
        self._log = Log()
        self.desk: Desk = session.call(lambda: Desk(session, self._log))
        self._listeners = listeners
        self._clients: Dict[int, Client] = {}
        self._closing = False
        self._thread = threading.Thread(target=lambda: asyncio.run(self._run()), name="instruments", daemon=True)
        self._thread.start()

    def close(self) -> None:
        self._closing = True
        self._thread.join(timeout=10)

    async def _run(self) -> None:
        """Serves until it is closed or the machine is gone."""
        servers = [await asyncio.start_server(self._serve, sock=each, backlog=WAITING) for each in self._listeners]
        while not self._closing:
            self._in_turn(self.desk.refresh)
            for client in list(self._clients.values()):
                self._send(client)
            await asyncio.sleep(TICK)
        clients, self._clients = self._clients, {}
        for server in servers:
            server.close()
        for client in clients.values():
            client.close()
        await asyncio.sleep(TICK)  # their connections end

    async def _serve(self, reader: asyncio.StreamReader, writer: asyncio.StreamWriter) -> None:
        """Serves a connection, if its port is free."""
        port = writer.get_extra_info("sockname")[1]
        if port in self._clients:
            writer.close()
            self._log(f"port {port} has a client already: another one is turned away")
            return
        for option, value in ((socket.SO_KEEPALIVE, 1), (socket.SO_SNDBUF, SEND_BUFFER)):
            writer.get_extra_info("socket").setsockopt(socket.SOL_SOCKET, option, value)
        client = self._clients[port] = Client(writer, port, time.monotonic())
        self._log(f"port {port}: a client has come")
        self._in_turn(self.desk.welcome, client)
        fault = None
        try:
            while data := await reader.read(CHUNK):
                inputs = client.inputs(data, time.monotonic())
                for at in range(0, len(inputs), SLICE):
                    self._in_turn(self.desk.take, client, inputs[at:at + SLICE])
                self._send(client)
        except OSError:
            pass
        except Fault as found:
            fault = found
        self._drop(client, fault)

    def _send(self, client: Client) -> None:
        """Sends what there is to send, unless the client keeps us waiting."""
        try:
            client.check(time.monotonic())
            client.send()
        except Fault as fault:
            self._drop(client, fault)

    def _drop(self, client: Client, fault: Optional[Fault]) -> None:
        """Lets go of a client, whose port is free again. Keys that wait are dropped if it was at fault."""
        if self._clients.get(client.port) is not client:
            return  # it is gone already
        del self._clients[client.port]
        reason = f"{fault}, and loses its connection" if fault else "it has gone"
        refused = f"; {client.refused} of its inputs were refused" if client.refused else ""
        self._log(f"port {client.port}: {reason}{refused}")
        client.close()
        self._in_turn(self.desk.forget, client, fault is not None)

    def _in_turn(self, task: Callable[..., None], *words: Any) -> None:
        """Does something in the machine's turn, for which it waits."""
        try:
            self._session.call(partial(task, *words))
        except Ended:
            self._closing = True
        except Unable:
            pass  # a machine that runs anew for long does it later
        except Error as error:
            self._log(f"the machine refused: {error}")


def attach(session: Session, port: int = PORT, address: str = HERE) -> Instruments:
    """Serves instruments on ten ports of an address. Raises `OSError` if one of the ports cannot be had."""
    instruments = Instruments(session, _listeners(address, port))
    _say(f"ports {port} to {port + PORTS - 1} of {address}")
    return instruments


def _listeners(address: str, first: int) -> List[socket.socket]:
    """Returns sockets that listen on ten ports from the first on."""
    listeners: List[socket.socket] = []
    try:
        for port in range(first, first + PORTS):
            with naming(f"port {port} of {address}"):
                if not 0 < port < 65536:
                    raise OSError(0, "ports are 1 to 65535")
                family, *_, place = socket.getaddrinfo(address, port, type=socket.SOCK_STREAM)[0]
                listeners.append(socket.socket(family, socket.SOCK_STREAM))
                listeners[-1].setsockopt(socket.SOL_SOCKET, socket.SO_REUSEADDR, 1)
                listeners[-1].bind(place)
                listeners[-1].listen(WAITING)
    except OSError:
        for each in listeners:
            each.close()
        raise
    return listeners


def main(words: Optional[List[str]] = None) -> int:
    """Runs a machine with instruments and without a page. Returns its status: 0 if it was ended and its script saved or
    printed, 1 if a file or a port is refused or the machine died, 3 if the script was not saved."""
    asked = _arguments().parse_args(words)
    try:
        file = ScriptFile(asked.save) if asked.save is not None else None
        with Console(
            asked.rope, asked.script, form=asked.form, limit=asked.limit, program=asked.program, detached=True
        ) as console:
            return _serve(Session(console), asked, file)
    except Error as error:
        _say(str(error))
    except OSError as error:
        _say(f"{error.filename}: {error.strerror or error}")
    except KeyboardInterrupt:  # before there was a session, or after it was saved
        return SAVED
    return REFUSED


def _serve(session: Session, asked: argparse.Namespace, file: Optional[ScriptFile]) -> int:
    """Serves a session until it is to end, and saves its script before anything else is ended."""
    with Ending() as ending:
        ending.kills = [session.console.kill]
        instruments = None
        try:
            if is_reachable(asked.listen):
                _say(f"warning: whoever reaches {asked.listen} can use the machine: the protocol knows no passwords")
            instruments = attach(session, asked.port, asked.listen)
            session.set_speed(asked.speed)
            session.play()
            _wait(session, ending)
            ended = session.ended
            status = _keep(ending, session, asked, file)
        finally:
            session.close()  # first: the network thread may wait for a machine that stands still
            if instruments is not None:
                instruments.close()
        if instruments.desk.refused:
            _say(f"{instruments.desk.refused} inputs were refused")
        if ended is None:
            return status
        _say(ended)
        return REFUSED


def _wait(session: Session, ending: Ending) -> None:
    """Waits until the program is to end or the machine is gone; says if the machine stops."""
    has_stopped = False
    while not ending.wait(0.1) and session.ended is None:
        if session.console.stop is not None and not has_stopped:
            has_stopped = True
            _say(f"the machine has stopped: {session.console.stop} at cycle {session.console.cycle}")


def _keep(ending: Ending, session: Session, asked: argparse.Namespace, file: Optional[ScriptFile]) -> int:
    """Saves or prints the script. Returns the status."""
    try:
        ending.save(session.repeat(), file, asked.rope, asked.form)
        return SAVED
    except OSError as error:
        _say(f"{error.filename}: {error.strerror}: here is the script" if file else f"{error.filename}: {error.strerror}")
        return UNSAVED


def _arguments() -> argparse.ArgumentParser:
    words = argparse.ArgumentParser(
        prog="agc_web.instruments", description="Runs a rope with instruments of Virtual AGC, over its socket protocol."
    )
    words.add_argument("rope", metavar="ROPE", help="the core rope")
    words.add_argument("script", metavar="SCRIPT", nargs="?", default=os.devnull, help="a script of events (none)")
    words.add_argument("--port", metavar="N", type=int, default=PORT, help=f"the first of ten ports ({PORT})")
    words.add_argument("--listen", metavar="ADDRESS", default=HERE, help=f"the address of the ports ({HERE})")
    words.add_argument("--speed", metavar="N", type=int, default=1, choices=SPEEDS, help="times the hardware's pace (1)")
    words.add_argument("--save", metavar="FILE", help="where the script of the session is saved at the end")
    words.add_argument("--form", metavar="FORM", choices=("classic", "parity"), help="the rope's form: classic or parity")
    words.add_argument("--limit", metavar="N", type=int, help=f"the cycle at which the machine stops ({LAST_CYCLE})")
    words.add_argument("--program", metavar="FILE", help="another agc-console")
    return words


if __name__ == "__main__":
    sys.exit(main())
