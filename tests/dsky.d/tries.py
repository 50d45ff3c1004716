"""Sessions of agc-dsky on terminals, compared with the plain run of agc on the script that each prints.

Nothing waits for
a fixed time to be right: what is to come is waited for, for LONGEST seconds at most.
"""

import fcntl
import os
import pty
import re
import resource
import select
import shlex
import signal
import struct
import subprocess
import sys
import termios
import time

from judge import AGC, DSKY, STUDY, TOP, attempt, depends_on_time, finish, judge, scratch_folder, slowness, soon
import pictures
from painter import CAUTIONS, KEYS, LONG_HINT, SHORT_HINT, below, painted
from pictures import LARGE, SMALL
from screen import DIM, GREEN, LAMPS, WHITE, YELLOW, Screen

dsky, agc, study, top, scratch = DSKY, AGC, STUDY, TOP, scratch_folder()

LONGEST = 300
KEYS_ROPE = os.path.join(top, "examples", "keys", "rope")
FIELDS = ("PROG", "VERB", "NOUN", "R1", "R2", "R3")
SPACING = 8533
PRO_HELD = 17067
HOUR = 307_200_000
# The kilobytes of stack that README says are enough.
STACK = 384
NAMES = {"v": "VERB", "n": "NOUN", "c": "CLR", "k": "KEYREL", "r": "RSET", "\r": "ENTR", **{key: key for key in "0123456789+-"}}
# The programs agc and agc-study that the last lines name: beside the one that was started.
AGAIN, FILM = (os.path.join(os.path.dirname(dsky), name) for name in ("agc", "agc-study"))


class Late(Exception):
    """What was waited for has not come."""


class Terminal:
    """agc-dsky on a terminal of this size, which answers what it is asked. The slave side stays open here."""

    def __init__(self, words, size=LARGE, program=dsky, folder=None, **names):
        self.screen, self.answers = Screen(*size), True
        self.master, self.slave = pty.openpty()
        self.sized(*size)
        self.before = termios.tcgetattr(self.slave)
        self.process = started(words, self.slave, self.slave, self.slave, names, program, folder)

    def sized(self, lines, columns):
        fcntl.ioctl(self.slave, termios.TIOCSWINSZ, struct.pack("HHHH", lines, columns, 0, 0))

    def resize(self, lines, columns):
        self.sized(lines, columns)
        self.screen.sized(lines, columns)

    def type(self, text):
        os.write(self.master, text if isinstance(text, bytes) else text.encode())

    def take(self, seconds):
        """Takes what is written within this many seconds; false if that is nothing."""
        if not select.select([self.master], [], [], seconds)[0]:
            return False
        try:
            data = os.read(self.master, 1 << 16)
        except OSError:
            return False
        self.screen.feed(data)
        if self.screen.replies and self.answers:
            os.write(self.master, self.screen.replies)
            self.screen.replies = b""
        return bool(data)

    def until(self, what, is_so):
        """Waits until something is so after a drawing, or now."""
        came = []

        def look():
            if is_so(self.screen):
                came.append(True)

        self.screen.at_frame = look
        end = time.monotonic() + LONGEST
        look()
        while not came and time.monotonic() < end:
            # In the middle of a drawing the screen is neither the one before nor the one after.
            if not self.take(0.05):
                look()
        self.screen.at_frame = None
        if not came:
            shown = self.screen.text() if "?1049" in self.screen.modes else self.screen.plain[-500:]
            raise Late(f"{what}:\n{shown}")

    def begun(self):
        """Waits for the first picture of the right size: a small one if the terminal has not sent its size."""
        small = self.screen.lines < LARGE[0] or not self.answers
        self.until("no picture", lambda screen: screen.cycle() is not None and small == ("R1 " in screen.text()))
        self.screen.overruns = 0

    def pause(self):
        """Stops the time, and returns the cycle that is shown."""
        self.type(" ")
        self.until("no pause", is_paused)
        return self.screen.cycle()

    def on_to(self, cycle):
        """Waits until a cycle is shown that is not before this one."""
        self.until(f"not on to {cycle}", lambda screen: (screen.cycle() or 0) >= cycle)

    def saved(self, name):
        """Types s, and returns the text of the file."""
        self.type("<>")
        self.until("no remark is left", lambda screen: last_line(screen) != " saved")
        self.type("s")
        self.until("not saved", lambda screen: last_line(screen) == " saved")
        return read(name)

    def status(self):
        """Waits for the end of the program; its status."""
        end = time.monotonic() + LONGEST
        while self.process.poll() is None:
            if time.monotonic() > end:
                raise Late("no end:\n" + self.screen.text())
            self.take(0.02)
        end = time.monotonic() + 5
        while self.take(0.3) and time.monotonic() < end:
            pass
        return self.process.returncode

    def quit(self, by="q"):
        """Types what ends the session, and returns the status and what stands on the terminal then."""
        self.type(by)
        status = self.status()
        return status, self.printed()

    def printed(self):
        """What stands on the terminal beside the picture. It also shows answers of its own for which the program has not waited:
        they are left out."""
        return re.sub(r"\^\[\[\d+;\d+R", "", self.screen.plain).replace("\r\n", "\n")

    def is_put_back(self):
        """Whether modes, cursor and screen are those of before."""
        return termios.tcgetattr(self.slave) == self.before and self.screen.modes == {"?7", "?25"} and self.screen.colour == ""

    def close(self):
        if self.process.poll() is None:
            for pid in (*children(self.process.pid), self.process.pid):
                os.kill(pid, signal.SIGKILL)
            self.process.wait()
        for end in (self.master, self.slave):
            try:
                os.close(end)
            except OSError:
                pass


def started(words, keys, out, err, names, program=dsky, folder=None):
    """agc-dsky with these streams, the terminal among them as its controlling one, in a folder. A file that would be
    larger than a limit is an error, as a full disk is."""

    def own_terminal():
        os.setsid()
        signal.signal(signal.SIGXFSZ, signal.SIG_IGN)
        for stream in (0, 1):
            if os.isatty(stream):
                fcntl.ioctl(stream, termios.TIOCSCTTY, 0)
                return

    environment = {name: value for name, value in os.environ.items() if name != "NO_COLOR"}
    environment.update({"TERM": "xterm", **names})
    return subprocess.Popen([program, *words], stdin=keys, stdout=out, stderr=err, env=environment, cwd=folder, preexec_fn=own_terminal)


def children(pid):
    try:
        return [int(word) for word in read(f"/proc/{pid}/task/{pid}/children").split()]
    except OSError:
        return []


def program_of(terminal):
    """The process of the program itself, below its launcher."""
    end = time.monotonic() + LONGEST
    while time.monotonic() < end:
        below = children(terminal.process.pid)
        if below:
            return below[0]
        time.sleep(0.01)
    raise Late("no program below the launcher")


def read(name):
    with open(name, encoding="utf-8") as file:
        return file.read()


def written(name, text):
    path = os.path.join(scratch, name)
    with open(path, "w", encoding="utf-8") as file:
        file.write(text)
    return path


def is_paused(screen):
    return "  PAUSED" in screen.text()


def is_idle(screen):
    return "KEYS WAITING" not in screen.text()


def speed_of(screen):
    found = re.search(r"SPEED (\S+)", screen.text())
    return found and found[1]


def last_line(screen):
    return next((line for line in reversed(screen.text().split("\n")) if line), "")


def told(text):
    """The script on the terminal, the limit with which the session is repeated, and all behind the script."""
    found = re.search(rf"(?m)^(?:agc-dsky: [^\n]*\s)?again: {re.escape(AGAIN)} [^\n]*? --limit (\d+)", text)
    if not found:
        raise Late(f"nothing tells how to repeat it: {text[-500:]!r}")
    return text[: found.start()], int(found[1]), text[found.start() :]


def keys_of(script):
    return [line.split()[2] for line in script.splitlines() if " key " in line]


def cycles_of(script):
    return [int(line.split()[0]) for line in script.splitlines()]


def gaps_of(script):
    cycles = cycles_of(script)
    return [after - before for before, after in zip(cycles, cycles[1:])]


def panel_of(rope, script, cycle):
    """The eight lines that agc prints for a run up to a cycle, by their names."""
    name = written("plain", script)
    run = subprocess.run([agc, rope, name, "--limit", str(cycle)], capture_output=True, text=True)
    lines = run.stdout.splitlines()[:8]
    return dict(line.split(" ", 1) for line in lines) if run.returncode == 0 else {"status": run.returncode, "said": run.stderr}


def seen_on(screen):
    """Digits and lamps on the screen as agc prints them."""
    names = screen.lamps()
    lamps = ", ".join(name for name in LAMPS if name in names) or "none"
    return {**(screen.fields() or {}), "LAMPS": lamps if names <= set(LAMPS) else sorted(names)}


def shows(name, terminal, panel):
    """The screen of a session whose time has stopped shows a panel: with the flash on, verb and noun come and go."""
    panel = dict(panel)
    flash = panel.pop("FLASH", None)
    dark = {**panel, "VERB": "__", "NOUN": "__"}
    wanted = [panel, dark] if flash == "on" and dark != panel else [panel]
    seen = []

    def note(screen):
        now = seen_on(screen)
        if now not in seen:
            seen.append(now)
        return all(each in seen for each in wanted)

    try:
        terminal.until("", note)
    except Late:
        pass
    if flash == "off":
        # A flash would come within this time.
        end = time.monotonic() + 1
        terminal.screen.at_frame = lambda: note(terminal.screen)
        while time.monotonic() < end:
            terminal.take(0.05)
        terminal.screen.at_frame = None
    judge(name, sorted(map(str, wanted)), sorted(map(str, seen)))
    judge(f"{name}: sequences", [], terminal.screen.faults)
    judge(f"{name}: lines that have no room", 0, terminal.screen.overruns)


def shows_whole(name, terminal, panel, cycle, hint):
    """The whole screen of a session whose time has stopped is the picture of a panel; with the flash on, in both halves."""
    size = (terminal.screen.lines, terminal.screen.columns)
    halves = [panel, {**panel, "VERB": "__", "NOUN": "__"}] if panel["FLASH"] == "on" else [panel]
    for half in halves:
        wanted = painted(half, size, below(cycle, "1", hint), size[0] >= LARGE[0])
        found = wanted
        try:
            terminal.until("", lambda screen, wanted=wanted: screen.text() == wanted)
        except Late:
            found = terminal.screen.text()
        judge(f"{name}: the whole screen", wanted.split("\n"), found.split("\n"))


def a_rope(name, relay_words, lamps, by_key):
    """A rope that sends relay words and lights lamps at its start, and sends a relay word more for each key."""
    places = [0o5200 + place for place in range(len(relay_words))]
    code = [(0o30000 + place, 0o00006, 0o01010) for place in places] + [(0o35177, 0o00006, 0o01011)]
    orders = [order for three in code for order in three]
    words = {0o5000 + place: order for place, order in enumerate(orders)}
    end = 0o5000 + len(orders)
    words[end] = 0o10000 + end
    words.update({0o4004 + 4 * vector: 0o50017 for vector in range(10)})
    words.update({0o4000: 0o15000, 0o4024: 0o15100, 0o5177: lamps})
    words.update(zip(range(0o5100, 0o5106), (0o50102, 0o35140, 0o00006, 0o01010, 0o24102, 0o50017)))
    words.update(zip(range(0o5140, 0o5177), by_key))
    words.update(zip(places, relay_words))
    source = written(f"{name}.words", "".join(f"{place:04o} {word:05o}\n" for place, word in sorted(words.items())))
    made = subprocess.run([study, "weave", source], capture_output=True)
    judge(f"the rope {name}", (0, b""), (made.returncode, made.stderr))
    path = os.path.join(scratch, f"{name}.rope")
    with open(path, "wb") as file:
        file.write(made.stdout)
    return path


# The relays' codes of digits; any other one that is not 0 shows no digit.
CODES = {"0": 0o25, "1": 0o03, "2": 0o31, "3": 0o33, "4": 0o17, "5": 0o36, "6": 0o34, "7": 0o23, "8": 0o35, "9": 0o37, "_": 0, "?": 0o01}


def relay(row, sign, digits):
    return row << 11 | sign << 10 | CODES[digits[0]] << 5 | CODES[digits[1]]


def relays(plus, minus, *registers):
    """The relay words of three registers, with the signs of those whose numbers are given."""
    one, two, three = registers
    pairs = ["_" + one[0], one[1:3], one[3:], two[:2], two[2:4], two[4] + three[0], three[1:3], three[3:]]
    rows = {7: (1, plus), 6: (1, minus), 5: (2, plus), 4: (2, minus), 2: (3, plus), 1: (3, minus)}
    signs = [row in rows and rows[row][0] in rows[row][1] for row in range(8, 0, -1)]
    return [relay(row, sign, pair) for row, sign, pair in zip(range(8, 0, -1), signs, pairs)]


BY_KEY = [relay(10, 0, "16"), relay(9, 0, "_8"), relay(9, 0, "68"), relay(11, 0, "37"), relay(7, 0, "9?"), relay(12, 0, "__")]


ROW_12 = 12 << 11
# The relay words of pictures.ALL and pictures.NONE.
FIRST = [relay(11, 0, "01"), relay(10, 0, "23"), relay(9, 0, "45"), *relays((1,), (2,), "67890", "12345", "?8_79")]
SECOND = [relay(11, 0, "98"), relay(10, 0, "76"), relay(9, 0, "54"), *relays((3,), (1,), "3_210", "_____", "24680")]


def faces():
    """Ropes that show each digit and sign and light each lamp, some by the lamps' row and some by channel 11."""
    keys = BY_KEY + [ROW_12 | 0o674]
    return [
        ("all lamps", a_rope("all", [*FIRST, ROW_12 | 0o674], 0o137, keys), "v16n6"),
        ("the flash", a_rope("flash", [*FIRST, ROW_12 | 0o054], 0o042, keys), "v16"),
        ("other digits", a_rope("other", [*SECOND, ROW_12 | 0o600], 0o121, keys), "n"),
        ("no lamps", a_rope("none", SECOND, 0o040, []), "p"),
        ("each key", a_rope("each", FIRST, 0o014, keys), "v16n68\r"),
    ]


def try_face(name, rope, typed, size):
    """Keys typed before a rope; then the screen, the saved script and the printed lines lie beside agc."""
    save = os.path.join(scratch, "face.script")
    terminal = Terminal([rope, "--save", save, "--force"], size)
    try:
        terminal.begun()
        terminal.on_to(1000)
        begun = terminal.screen.cycle()
        terminal.type(typed)
        terminal.until("keys wait for ever", lambda screen: is_idle(screen) and screen.cycle() > begun + SPACING * (len(typed) + 1))
        cycle = terminal.pause()
        hint = terminal.screen.text().split("\n")[-1]
        judge(f"{name}: the hint", LONG_HINT if size == LARGE else SHORT_HINT, hint)
        script = terminal.saved(save)
        judge(f"{name}: keys", [NAMES[key] for key in typed if key in NAMES], keys_of(script))
        shows_whole(name, terminal, panel_of(rope, script, cycle), cycle, " saved")
        judge(f"{name}: the picture's size", size == LARGE, terminal.screen.is_large())
        shows(name, terminal, panel_of(rope, script, cycle))
        for lamp in LAMPS:
            colour = DIM if lamp not in terminal.screen.lamps() else YELLOW if lamp in CAUTIONS else WHITE
            judge(f"{name}: the colour of {lamp}", {colour}, terminal.screen.lamp_colours(lamp))
        y, x = (8, 34) if size == LARGE else (4, 33)
        judge(f"{name}: the colour of digits", {GREEN}, terminal.screen.colours_at(y, x, 5))
        status, text = terminal.quit()
        judge(f"{name}: the end", (0, True), (status, terminal.is_put_back()))
        wanted = f"again: {AGAIN} {rope} {save} --limit {cycle}\n"
        wanted += f"as a film: {FILM} film {rope} {save} --limit {cycle} > film.html\n"
        judge(f"{name}: what is printed", wanted, text)
        judge(f"{name}: the file at the end", script, read(save))
    finally:
        terminal.close()


def is_picture(terminal, name, is_coloured=True):
    """The whole screen of a session becomes a stored picture, with its colours."""
    wanted = read(os.path.join(pictures.FOLDER, name))
    wanted = wanted if is_coloured else wanted[:wanted.index(pictures.COLOURS)]
    shown = []

    def look(screen):
        shown[:] = [pictures.stored_text(screen) if is_coloured else f"{screen.text()}\n"]
        return shown[0] == wanted

    try:
        terminal.until("", look)
    except Late:
        pass
    judge(f"the picture {name}", wanted.split("\n"), shown[0].split("\n"))
    judge(f"the picture {name}: sequences", [], terminal.screen.faults)


def woven(name, listing):
    """A rope of this listing."""
    made = subprocess.run([study, "weave", written(f"{name}.words", listing)], capture_output=True)
    judge(f"the rope {name}", (0, b""), (made.returncode, made.stderr))
    path = os.path.join(scratch, f"{name}.rope")
    with open(path, "wb") as file:
        file.write(made.stdout)
    return path


def try_pictures():
    """Whole screens against the stored pictures, which painter.py draws: all digits, signs and lamps in both sizes, with and
    without colour, in both halves of the flash; the inspector, the tables, a search, a key, a terminal too small."""
    for name, picture in pictures.pictures().items():
        judge(f"what is painted is stored as {name}", pictures.stored_text(picture), read(os.path.join(pictures.FOLDER, name)))
    judge("no other picture is stored", sorted(pictures.pictures()), sorted(os.listdir(pictures.FOLDER)))
    lit = a_rope("lit", [*FIRST, ROW_12 | 0o674], 0o177, [])
    none = a_rope("unlit", SECOND, 0, [])
    half = a_rope("half", [*SECOND, ROW_12 | 0o270], 0o012, [])
    sends = woven("pictured", SENDS)
    names = written("pictured.names", "4000 START\n5000 SEND\n5005 IDLE\n")
    pokes = written("pokes", "".join(f"0 poke 0 {place:o} {word:o}\n" for place, word in pictures.POKES))
    last = ["--limit", "11", "--names", names]
    stops = ["--limit", "100000"]
    sessions = [(["tables"], [sends, pokes, *last, "--watch", pictures.WATCH], pictures.HIGH, "t", True)]
    sessions += [(["inspector"], [sends, *last], LARGE, "i", True), (["no-room"], [sends, *last], SMALL, "i", True)]
    for size, name in ((LARGE, "large"), (SMALL, "small")):
        sessions += [([f"half-{name}"], [half, *stops], size, "", True), ([f"none-{name}"], [none, *stops], size, "", True)]
        sessions += [([f"all-{name}", f"all-{name}-dark"], [lit, *stops], size, "", is_coloured) for is_coloured in (True, False)]
    for shown, words, size, typed, is_coloured in sessions:
        terminal = Terminal([*words, "--speed", "max"], size, **({} if is_coloured else {"NO_COLOR": "1"}))
        try:
            terminal.begun()
            terminal.until("no stop", lambda screen: " STOP Limit" in screen.text())
            terminal.type(typed + " ")
            for name in shown:
                is_picture(terminal, name, is_coloured)
                judge(f"the picture {name}: lines that have no room", 0, terminal.screen.overruns)
            judge(f"the picture {name}: is it in colour", is_coloured, bool(terminal.screen.colours))
            judge(f"the picture {name}: the end", (0, True), (terminal.quit()[0], terminal.is_put_back()))
        finally:
            terminal.close()
    try_moving_pictures(sends)


def try_moving_pictures(rope):
    """The pictures of a search that found something, of a key that was pressed just now, and of terminals without room."""
    terminal = Terminal([rope, "--limit", "844807", "--speed", "max"])
    try:
        terminal.begun()
        terminal.until("no stop", lambda screen: " CYCLE 844807 STOP Limit" in screen.text())
        terminal.type("D")
        is_picture(terminal, "found")
        terminal.type("v35")
        is_picture(terminal, "key")
        for size, name in (((13, 80), "too-small"), ((24, 57), "too-narrow")):
            terminal.resize(*size)
            is_picture(terminal, name)
        judge("the picture of a key: the end", (0, True), (terminal.quit()[0], terminal.is_put_back()))
    finally:
        terminal.close()


def try_keys(size):
    """VERB 3 5 ENTR before the rope that echoes keys, and the insides; the script is printed at the end."""
    name = f"VERB 35 ENTR at {size[0]} lines"
    terminal = Terminal([KEYS_ROPE], size)
    try:
        terminal.begun()
        for key, brackets in (("v", "[VERB]"), ("3", "[3]"), ("5", "[5]"), ("\r", "[ENTR]")):
            terminal.type(key)
            terminal.until(f"{brackets} is never lit", lambda screen: brackets in screen.text())
        terminal.until("NOUN 5_", lambda screen: (screen.fields() or {}).get("NOUN") == "5_")
        cycle = terminal.pause()
        shown = seen_on(terminal.screen)
        judge(f"{name}: the last line", True, terminal.screen.row(size[0] - 1).startswith(" v n c k r p"))
        terminal.type("i")
        terminal.until("no insides", lambda screen: re.search(r"(?m)^ next ", screen.text()) or size == SMALL)
        insides = [line[1:] for line in terminal.screen.text().split("\n") if re.match(" (A [0-7]{6} |next )", line)]
        judge(f"{name}: the insides leave the digits", shown, seen_on(terminal.screen))
        judge(f"{name}: sequences", [], terminal.screen.faults)
        judge(f"{name}: lines that have no room", 0, terminal.screen.overruns)
        status, text = terminal.quit()
        script, ended, _ = told(text)
        judge(f"{name}: the end", (0, cycle, True), (status, ended, terminal.is_put_back()))
        judge(f"{name}: the script", ["VERB", "3", "5", "ENTR"], keys_of(script))
        judge(f"{name}: how close", True, min(gaps_of(script)) >= SPACING)
        panel = panel_of(KEYS_ROPE, script, cycle)
        judge(f"{name}: FLASH", "off", panel.pop("FLASH", None))
        judge(f"{name}: the panel", panel, shown)
        if size == LARGE:
            lines = trace_of(KEYS_ROPE, script, cycle + 2)
            wanted = [next(line for line in lines if line.startswith(f"{at} ")) for at in (cycle - 1, cycle)]
            wanted = [wanted[0].split(" | ")[1].rstrip(), "next " + wanted[1].split(" | ")[0].split(" ", 1)[1]]
            judge(f"{name}: the insides", wanted, [re.sub(r" BB [0-7]+$", "", line) for line in insides])
        film = subprocess.run(
            [study, "film", KEYS_ROPE, written("filmed", script), "--limit", str(cycle)], capture_output=True
        )
        judge(f"{name}: a film of it", (0, True), (film.returncode, film.stdout.rstrip().endswith(b"</html>")))
    finally:
        terminal.close()


def trace_of(rope, script, limit):
    words = [study, "trace", rope, written("traced", script), "--limit", str(limit), "--from", str(limit - 8)]
    return subprocess.run(words, capture_output=True, text=True).stdout.splitlines()


def is_refused(name, words, line, status=1):
    """A session does not start: it ends with a status and a line, and draws nothing."""
    terminal = Terminal(words)
    try:
        ended = terminal.status()
        judge(name, (status, f"agc-dsky: {line}\r\n", True), (ended, terminal.screen.plain, terminal.is_put_back()))
    finally:
        terminal.close()


def try_unsaved():
    """What is not a file is named for what it is, no file is written over unasked, and none is made in no folder."""
    save = written("old", "mine\n")
    nowhere = os.path.join(scratch, "none", "x")
    link, pipe = os.path.join(scratch, "link"), os.path.join(scratch, "pipe")
    os.symlink(os.path.join(scratch, "absent"), link)
    os.mkfifo(pipe)
    odd = written("odd\x1b[31m name's", "mine\n")
    for name, path, line in (
        ("a folder", scratch, "a folder; name a file in it"),
        ("a link to nothing", link, "a link to a file that is not there; create that file first"),
        ("a pipe", pipe, "a pipe or a device; name a file"),
        ("a device", "/dev/full", "a pipe or a device; name a file"),
        ("no folder", nowhere, "cannot be created; its folder must exist and be writable"),
    ):
        is_refused(name, [KEYS_ROPE, "--save", path], f"{path}: {line}")
        is_refused(f"{name}, by force", [KEYS_ROPE, "--save", path, "--force"], f"{path}: {line}")
    taken = "not empty; name another file, or overwrite it with --force"
    is_refused("a file that is there", [KEYS_ROPE, "--save", save], f"{save}: {taken}")
    escaped = f"$'{scratch}/odd\\033[31m name\\'s'"
    is_refused("a name with an escape", [KEYS_ROPE, "--save", odd], f"{escaped}: {taken}")
    for name, words, path, line in (
        ("a pipe as rope", [pipe], pipe, "a pipe, and no key is heard while it is read; write it to a file first"),
        ("a pipe as script", [KEYS_ROPE, pipe], pipe, "a pipe, and no key is heard while it is read; write it to a file first"),
        ("no rope", [nowhere], nowhere, "cannot read rope"),
        ("no script", [KEYS_ROPE, nowhere], nowhere, "cannot read script"),
        ("a script with a mistake", [KEYS_ROPE, save], save, "script line 1: BadCycle; agc-study check explains it"),
    ):
        is_refused(name, words, f"{path}: {line}")
    is_refused("a limit of 0", [KEYS_ROPE, "--limit", "0"], "limit: Zero; --limit takes 1 to 1000000000000")
    line = "watch: BadSpec; --watch takes BANK,OFFSET,SETS,BANK,OFFSET,BANK,OFFSET in octal"
    is_refused("no tables", [KEYS_ROPE, "--watch", "x"], line)
    judge("nothing is changed", ("mine\n", "mine\n"), (read(save), read(odd)))
    judge("nothing is made", [], [name for name in os.listdir(scratch) if name.endswith(".tmp") or name == "absent"])


def types_key(terminal, key, noun):
    terminal.type(key)
    terminal.until(f"NOUN {noun}", lambda screen: screen.fields()["NOUN"] == noun)


def says(terminal, remark):
    terminal.until("no remark", lambda screen: last_line(screen) == f" {remark}")


def try_saving():
    """Each save is the whole script, under the permissions that the file had, and a link stays one."""
    save, fresh, link = written("old", "mine\n"), os.path.join(scratch, "fresh"), os.path.join(scratch, "to-old")
    os.chmod(save, 0o600)
    os.symlink(save, link)
    for name, words, path in (("--force", [link, "--force"], save), ("a new file", [fresh], fresh)):
        terminal = Terminal([KEYS_ROPE, "--save", *words])
        try:
            terminal.begun()
            terminal.type("47")
            terminal.until("NOUN 47", lambda screen: screen.fields()["NOUN"] == "47")
            script = terminal.saved(path)
            judge(f"{name}: by s", ["4", "7"], keys_of(script))
            types_key(terminal, "1", "71")
            status, text = terminal.quit()
            judge(f"{name}: at the end", (0, "", ["4", "7", "1"]), (status, told(text)[0], keys_of(read(path))))
            judge(f"{name}: the same begin", script, read(path)[: len(script)])
        finally:
            terminal.close()
    judge("a link stays a link", save, os.readlink(link))
    judge("permissions stay", 0o600, os.stat(save).st_mode & 0o777)
    terminal = Terminal([KEYS_ROPE])
    try:
        terminal.begun()
        terminal.type("s")
        says(terminal, "no file is named: start with --save FILE")
        judge("s without a file", 0, terminal.quit()[0])
    finally:
        terminal.close()


def try_marks():
    """A key that was pressed just now is in brackets, and no other one is."""
    terminal = Terminal([KEYS_ROPE])
    try:
        terminal.begun()
        for key, name in {**NAMES, "p": "PRO"}.items():
            terminal.type(key)
            terminal.until(f"[{name}]", lambda screen, name=name: re.findall(r"\[\S*\]", screen.text()) == [f"[{name}]"])
            row = next(row for row in KEYS if f" {name} " in f"{row} ")
            marked = f" {row} ".replace(f" {name} ", f"[{name}]").strip()
            judge(f"the mark of {name}", True, marked in terminal.screen.text())
        judge("the end of the marks", 0, terminal.quit()[0])
    finally:
        terminal.close()


def try_waiting_keys():
    """While time is stopped one key may go down, and the line with the time counts the others."""
    terminal = Terminal([KEYS_ROPE])
    try:
        terminal.begun()
        terminal.on_to(1000)
        cycle = terminal.pause()
        terminal.type("4567")
        wanted = below(cycle, "1", "")[1] + "  KEYS WAITING 3"
        terminal.until(wanted, lambda screen: screen.text().split("\n")[22] == wanted)
        judge("keys that wait", 0, terminal.quit()[0])
    finally:
        terminal.close()


def try_fastest():
    """As fast as possible, the line with the time says how fast that is; a parity rope's form is in the lines at the end."""
    rope = os.path.join(top, "examples", "parity", "rope")
    terminal = Terminal([rope, "--form", "parity", "--speed", "max"])
    try:
        terminal.begun()
        pattern = r" TIME \d+\.\d s  SPEED max  RUNS AT [1-9]\d*"
        terminal.until("no speed", lambda screen: re.fullmatch(pattern, screen.text().split("\n")[22]) is not None)
        cycle = terminal.pause()
        status, text = terminal.quit()
        wanted = f"again: {AGAIN} {rope} /dev/null --limit {cycle} --form parity\n"
        wanted += f"as a film: {FILM} film {rope} /dev/null --limit {cycle} --form parity > film.html\n"
        judge("the end of a parity rope", (0, wanted), (status, text))
    finally:
        terminal.close()


def try_remarks():
    """What the last line says of a key that does nothing."""
    full = written("full-script", "1000000000 raise 1\n" * 65536)
    for words, key, remark in (
        ([KEYS_ROPE], "t", "no tables: start with --watch SPEC"),
        ([KEYS_ROPE, full], "4", "key dropped: the script is full, with 65536 events"),
    ):
        terminal = Terminal(words)
        try:
            terminal.begun()
            terminal.type(key)
            says(terminal, remark)
            judge(f"{remark}: no key is shown", "__", terminal.screen.fields()["NOUN"])
        finally:
            terminal.close()


def try_full_disk():
    """A save that fails leaves the last one, and the script is printed at the end."""
    save = os.path.join(scratch, "full")
    terminal = Terminal([KEYS_ROPE, "--save", save])
    try:
        terminal.begun()
        types_key(terminal, "4", "_4")
        script = terminal.saved(save)
        resource.prlimit(program_of(terminal), resource.RLIMIT_FSIZE, (3, 3))
        types_key(terminal, "7", "47")
        terminal.type("s")
        says(terminal, "not saved: the file cannot be written; it is as it was")
        judge("a full disk: by s", script, read(save))
        status, text = terminal.quit()
        printed, _, rest = told(text)
        judge("a full disk", (3, ["4", "7"], True), (status, keys_of(printed), terminal.is_put_back()))
        judge("a full disk: a line", f"agc-dsky: {save}: the script could not be saved; it is printed above", rest.splitlines()[-1])
        judge("a full disk: at the end", script, read(save))
        judge("a full disk: beside it", ["full"], [name for name in os.listdir(scratch) if name.startswith("full") and name != "full-script"])
    finally:
        terminal.close()


def try_two_sessions():
    """Of two sessions with one file the second to save does not write over the first, unless it is forced to."""
    save = os.path.join(scratch, "shared")
    for name, words in (("another session", []), ("another session, by force", ["--force"])):
        written("shared", "")
        first, second = Terminal([KEYS_ROPE, "--save", save, *words]), Terminal([KEYS_ROPE, "--save", save])
        try:
            first.begun()
            second.begun()
            types_key(first, "1", "_1")
            types_key(second, "2", "_2")
            script = second.saved(save)
            first.type("s")
            says(first, "saved" if words else "not saved: another program changed the file")
            judge(f"{name}: by s", ["1" if words else "2"], keys_of(read(save)))
            status, text = first.quit()
            line = "" if words else f"agc-dsky: {save}: changed by another program, and left so; the script is printed above"
            judge(f"{name}: the end", (0 if words else 3, [] if words else ["1"]), (status, keys_of(told(text)[0])))
            judge(f"{name}: a line", line, "".join(text.splitlines()[-1:]) if status else "")
            judge(f"{name}: at the end", words or script, words or read(save))
        finally:
            first.close()
            second.close()


def try_little_memory():
    """Where memory runs out, each key that was pressed is in the script that is printed or saved at the end."""
    save = os.path.join(scratch, "little")
    for name, words in (("little memory", []), ("little memory, saved", ["--save", save])):
        terminal = Terminal([KEYS_ROPE, "--speed", "max", *words])
        try:
            terminal.begun()
            program = program_of(terminal)
            size = 1024 * int(re.search(r"(?m)^VmSize:\s+(\d+)", read(f"/proc/{program}/status"))[1]) + (1 << 19)
            resource.prlimit(program, resource.RLIMIT_AS, (size, size))
            typed = ("4711290" * 5000)[:30000]
            left, end = typed, time.monotonic() + LONGEST
            while left and terminal.process.poll() is None and time.monotonic() < end:
                if select.select([], [terminal.master], [], 0)[1]:
                    terminal.type(left[:100])
                    left = left[100:]
                terminal.take(0.001)
            # Where there is no memory to draw, the session ends by itself.
            if terminal.process.poll() is None:
                terminal.until("keys wait for ever", lambda screen: is_idle(screen) or terminal.process.poll() is not None)
                terminal.type("q")
            status, text = terminal.status(), terminal.printed()
            printed, limit, _ = told(text)
            script = read(save) if words else printed
            keys, rest = keys_of(script), iter(typed)
            print(f"dsky: with little memory {len(keys)} of {len(typed)} keys were pressed")
            judge(name, (True, True), (status in (0, 1), len(keys) > 1000))
            judge(f"{name}: the keys in order", True, all(key in rest for key in keys))
            judge(f"{name}: the last keys", "".join(keys[-2:]), panel_of(KEYS_ROPE, script, limit).get("NOUN"))
        finally:
            terminal.close()


def try_last_keys():
    """A key that comes together with q or s, or while time stands, is in the printed script, and the printed limit reaches it."""
    for name, stands in (("a key with q", False), ("a key while time stands", True)):
        terminal = Terminal([KEYS_ROPE])
        try:
            terminal.begun()
            terminal.on_to(1000)
            if stands:
                terminal.pause()
                terminal.type("4")
                terminal.until("[4] is never lit", lambda screen: "[4]" in screen.text())
            status, text = terminal.quit("q" if stands else "4q")
            script, limit, _ = told(text)
            judge(name, (0, ["4"], True), (status, keys_of(script), cycles_of(script)[-1] < limit))
        finally:
            terminal.close()
    path = written("empty", "")
    terminal = Terminal([KEYS_ROPE, "--save", path])
    try:
        terminal.begun()
        terminal.type("4s")
        terminal.until("not saved", lambda screen: last_line(screen) == " saved")
        judge("a key with s, in a file with nothing in it", ["4"], keys_of(read(path)))
        terminal.quit()
    finally:
        terminal.close()


def try_told_names():
    """The lines that repeat a session are those that a shell reads where it was started, with the programs beside the one
    that was started, and need no script where nothing was typed. No name reaches the terminal as a sequence."""
    examples = os.path.join(top, "examples")
    beside = os.path.relpath(dsky, examples)
    agc_beside = os.path.join(os.path.dirname(beside), "agc")
    for name, program, folder, rope, shown in (
        ("a space and a quote", dsky, scratch, os.path.join(scratch, "my rope's"), "'{}/my rope'\\''s'"),
        ("an escape", dsky, scratch, os.path.join(scratch, "my\x1b[31m rope's"), "$'{}/my\\033[31m rope\\'s'"),
        ("a leading -", dsky, scratch, "-r", "./-r"),
        ("another folder", beside, examples, "keys/rope", "keys/rope"),
    ):
        if folder == scratch:
            with open(KEYS_ROPE, "rb") as file, open(os.path.join(scratch, rope), "wb") as copy:
                copy.write(file.read())
        terminal = Terminal(["--", rope], program=program, folder=folder)
        try:
            terminal.begun()
            status, text = terminal.quit()
            limit = re.search(r" --limit (\d+)", text)[1]
            agc_path = AGAIN if program == dsky else agc_beside
            line = f"again: {agc_path} {shown.format(scratch)} /dev/null --limit {limit}"
            judge(name, (0, line, []), (status, text.splitlines()[0], terminal.screen.faults))
            again = subprocess.run(["bash", "-c", line.removeprefix("again: ")], cwd=folder, capture_output=True, text=True)
            judge(f"{name}: again", (0, "", True), (again.returncode, again.stderr, f"STOP Limit CYCLE {limit} " in again.stdout))
        finally:
            terminal.close()


def try_leaving():
    """However the program ends, the terminal is put back."""
    for name, byte in (("q", b"q"), ("control-C", b"\x03"), ("control-D", b"\x04")):
        terminal = Terminal([KEYS_ROPE])
        try:
            terminal.begun()
            judge(f"{name}: the screen while it runs", {"?1049"}, terminal.screen.modes)
            judge(f"{name}: modes while it runs", False, termios.tcgetattr(terminal.slave) == terminal.before)
            judge(f"{name}: status", 0, terminal.quit(byte)[0])
            judge(f"{name}: put back", True, terminal.is_put_back())
        finally:
            terminal.close()
    for name, end, wanted in (("SIGTERM", signal.SIGTERM, 143), ("SIGKILL", signal.SIGKILL, 137)):
        terminal = Terminal([KEYS_ROPE])
        try:
            terminal.begun()
            program = program_of(terminal)
            os.kill(terminal.process.pid if name == "SIGTERM" else program, end)
            judge(f"{name}: status", wanted, terminal.status())
            judge(f"{name}: put back", True, terminal.is_put_back())
            judge(f"{name}: the program is gone", False, os.path.exists(f"/proc/{program}"))
        finally:
            terminal.close()
    save = os.path.join(scratch, "hung")
    terminal = Terminal([KEYS_ROPE, "--save", save])
    try:
        terminal.begun()
        terminal.type("36")
        terminal.until("NOUN 36", lambda screen: screen.fields()["NOUN"] == "36")
        program = program_of(terminal)
        os.close(terminal.master)
        judge("hangup: status", 3, terminal.process.wait(LONGEST))
        judge("hangup: the program is gone", False, os.path.exists(f"/proc/{program}"))
        script = read(save)
        judge("hangup: the script", ["3", "6"], keys_of(script))
        last = max([0, *cycles_of(script)])
        judge("hangup: its run", "36", panel_of(KEYS_ROPE, script, last + 100).get("NOUN"))
    finally:
        terminal.close()


def try_ink():
    terminal = Terminal([KEYS_ROPE], NO_COLOR="1")
    try:
        terminal.begun()
        terminal.type("4")
        terminal.until("NOUN _4", lambda screen: screen.fields()["NOUN"] == "_4")
        judge("NO_COLOR", (0, set(), []), (terminal.quit()[0], terminal.screen.colours, terminal.screen.faults))
    finally:
        terminal.close()
    for value in ({}, {"NO_COLOR": ""}):
        terminal = Terminal([KEYS_ROPE], **value)
        try:
            terminal.begun()
            judge(f"colour {value}", {GREEN, DIM, "0"}, terminal.screen.colours)
            terminal.quit()
        finally:
            terminal.close()


def try_no_terminal():
    """Beside a terminal, or on one that knows no sequences, nothing begins."""
    terminal = Terminal([KEYS_ROPE], TERM="dumb")
    try:
        judge("TERM=dumb", 2, terminal.status())
        line = "agc-dsky: TERM=dumb says that the terminal cannot draw; set TERM to its kind, as xterm\r\n"
        judge("TERM=dumb: a line", (line, True), (terminal.screen.plain, terminal.is_put_back()))
    finally:
        terminal.close()
    save = os.path.join(scratch, "beside")
    words = [KEYS_ROPE, "--save", save]
    master, slave = pty.openpty()
    nothing, pipe = subprocess.DEVNULL, subprocess.PIPE
    for name, keys, out, line in (
        ("no input", nothing, slave, b"agc-dsky: standard input is not a terminal; start it in one, without < or |\n"),
        ("no output", slave, pipe, b"agc-dsky: standard output is not a terminal; start it in one, without > or |\n"),
        ("neither", nothing, pipe, b"agc-dsky: standard input is not a terminal; start it in one, without < or |\n"),
    ):
        process = started(words, keys, out, pipe, {})
        said, error = process.communicate(timeout=LONGEST)
        judge(name, (2, said or b"", line, False), (process.returncode, b"" if out == pipe else said or b"", error, os.path.exists(save)))
    os.close(slave)
    os.close(master)


def try_resizing():
    terminal = Terminal([KEYS_ROPE])
    try:
        terminal.begun()
        terminal.type("4")
        terminal.until("NOUN _4", lambda screen: screen.is_large() and screen.fields()["NOUN"] == "_4")
        for size, has_come in (
            (SMALL, lambda screen: screen.is_small() and screen.fields()["NOUN"] == "_4"),
            (LARGE, lambda screen: screen.is_large() and screen.fields()["NOUN"] == "_4"),
            ((10, 40), lambda screen: screen.text().rstrip() == "terminal too small:\n40 x 10, need 58 x 14"),
            (SMALL, lambda screen: screen.is_small() and screen.fields()["NOUN"] == "_4"),
            ((13, 80), lambda screen: screen.text().rstrip() == "terminal too small:\n80 x 13, need 58 x 14"),
            ((14, 58), lambda screen: screen.is_small() and screen.fields()["NOUN"] == "_4"),
            ((23, 80), lambda screen: screen.is_small() and screen.fields()["NOUN"] == "_4"),
            ((50, 200), lambda screen: screen.is_large() and screen.fields()["NOUN"] == "_4"),
        ):
            terminal.resize(*size)
            try:
                terminal.until("", has_come)
                judge(f"resized to {size}", True, True)
            except Late as late:
                judge(f"resized to {size}", "its picture", str(late))
        judge("resized: the end", (0, []), (terminal.quit()[0], terminal.screen.faults))
    finally:
        terminal.close()


def try_script():
    """The events of a script happen beside the keys, an arrow key is none, and a terminal may be silent about its size."""
    given = os.path.join(top, "examples", "keys", "script")
    terminal = Terminal([KEYS_ROPE, given, "--speed", "10"])
    terminal.answers = False
    try:
        terminal.begun()
        terminal.until("NOUN 42", lambda screen: screen.fields()["NOUN"] == "42")
        terminal.type(b"\x1b[A\x1b[1;5C\x1bOP\x1a7")
        terminal.until("NOUN 27", lambda screen: screen.fields()["NOUN"] == "27")
        cycle = terminal.pause()
        shown = seen_on(terminal.screen)
        status, text = terminal.quit()
        script, ended, _ = told(text)
        judge("a script and keys", (0, cycle, ["10 key 4", "200 key 2"]), (status, ended, script.splitlines()[:2]))
        judge("a script and keys: all", ["4", "2", "7"], keys_of(script))
        panel = panel_of(KEYS_ROPE, script, cycle)
        judge("a script and keys: the panel", {**shown, "FLASH": "off"}, panel)
    finally:
        terminal.close()


def try_refusals():
    """What is refused makes no file."""
    empty, save = written("empty", ""), os.path.join(scratch, "unmade")
    for name, words, status, line in (
        ("an empty rope", [empty], 1, f"agc-dsky: {empty}: rope: Empty; agc-study check explains it\r\n"),
        ("a limit of 0", [KEYS_ROPE, "--limit", "0"], None, ""),
        ("an unknown speed", [KEYS_ROPE, "--speed", "2"], 2, "error: "),
        ("no rope", [], 2, "error: "),
    ):
        terminal = Terminal([*words, "--save", save])
        try:
            ended = terminal.status()
            judge(name, (True, True), (ended == status or status is None and ended in (1, 2), terminal.screen.plain.startswith(line)))
            judge(f"{name}: nothing is drawn or made", (True, False), (terminal.is_put_back(), os.path.exists(save)))
        finally:
            terminal.close()


def try_many_keys():
    terminal = Terminal([KEYS_ROPE, "--speed", "1000"])
    try:
        terminal.begun()
        keys = ("v1n2c3k4r5+6-7\r890" * 60)[:1000]
        terminal.type(keys)
        terminal.until("no KEYS WAITING", lambda screen: (screen.number("KEYS WAITING") or 0) > 100)
        terminal.until("keys wait for ever", is_idle)
        cycle = terminal.screen.cycle()
        terminal.on_to(cycle + 1)
        status, text = terminal.quit()
        script, _, _ = told(text)
        judge("1000 keys", (0, [NAMES[key] for key in keys]), (status, keys_of(script)))
        judge("1000 keys: how close", (999, True), (len(gaps_of(script)), min(gaps_of(script)) >= SPACING))
    finally:
        terminal.close()


def try_going_back():
    save = os.path.join(scratch, "back")
    terminal = Terminal([KEYS_ROPE, "--save", save])
    try:
        terminal.begun()
        terminal.type("3")
        terminal.until("NOUN _3", lambda screen: screen.fields()["NOUN"] == "_3")
        terminal.type(" ")
        terminal.until("no pause", is_paused)
        first = cycles_of(terminal.saved(save))[0]
        terminal.type(" ")
        terminal.on_to(first + 4 * SPACING)
        terminal.type("8")
        terminal.until("NOUN 38", lambda screen: screen.fields()["NOUN"] == "38")
        cycle = terminal.pause()
        script = terminal.saved(save)
        judge("two keys", ["3", "8"], keys_of(script))
        second = cycles_of(script)[1]
        while cycle > second:
            terminal.type(b"\x7f")
            terminal.until("not back", lambda screen: screen.cycle() == max(0, cycle - SPACING))
            cycle = terminal.screen.cycle()
        judge("back before the second key", "_3", terminal.screen.fields()["NOUN"])
        judge("the second key is gone", ["3"], keys_of(terminal.saved(save)))
        while cycle > 0:
            terminal.type(b"\x08")
            terminal.until("not back", lambda screen: screen.cycle() == max(0, cycle - SPACING))
            cycle = terminal.screen.cycle()
        terminal.type(b"\x7f\x7f")
        judge("back to the start", ("__", ""), (terminal.screen.fields()["NOUN"], terminal.saved(save)))
        judge("no further back", 0, terminal.screen.cycle())

        # PRO, on from the start
        terminal.type("p")
        terminal.until("PRO is not lit", lambda screen: "[PRO]" in screen.text())
        terminal.type(" ")
        terminal.on_to(PRO_HELD + 100)
        cycle = terminal.pause()
        script = terminal.saved(save)
        judge("PRO", ["pro down", "pro up"], [line.split(" ", 1)[1] for line in script.splitlines()])
        judge("PRO is held", True, gaps_of(script)[0] >= PRO_HELD)
        while cycle >= PRO_HELD:
            terminal.type(b"\x7f")
            terminal.until("not back", lambda screen: screen.cycle() == max(0, cycle - SPACING))
            cycle = terminal.screen.cycle()
        judge("PRO is down", "0 pro down\n", terminal.saved(save))
        terminal.type(" ")
        terminal.on_to(PRO_HELD + 100)
        terminal.pause()
        judge("PRO goes up again", script, terminal.saved(save))
        judge("going back: the end", (0, []), (terminal.quit()[0], terminal.screen.faults))
    finally:
        terminal.close()


# Counts in its cell 100 for ever.
COUNTS = "4000 24100\n4001 14000\n" + "".join(f"{0o4004 + 4 * vector:o} 50017\n" for vector in range(10))


def rerun_of(screen):
    """The cycle that a session is rerun to, if it is."""
    found = re.match(r" rerunning to cycle (\d+): \d+ %; q quits$", last_line(screen))
    return found and int(found[1])


def try_a_long_way_back():
    """Going back after a long run is quick, since the session keeps copies of the machine; the end is that of the place gone back to."""
    made = subprocess.run([study, "weave", written("counts.words", COUNTS)], capture_output=True)
    rope = os.path.join(scratch, "counts.rope")
    with open(rope, "wb") as file:
        file.write(made.stdout)
    save = os.path.join(scratch, "long")
    for name, by in (("q", "q"), ("control-C", b"\x03")):
        terminal = Terminal([rope, "--speed", "max", "--save", save, "--force"])
        try:
            terminal.begun()
            terminal.type("4")
            end = time.monotonic() + 5
            while time.monotonic() < end:
                terminal.take(0.05)
            cycle = terminal.pause()
            for times in (1, 2):
                begun = time.monotonic()
                terminal.type(b"\x7f")
                place = cycle - times * SPACING
                terminal.until("not back", lambda screen: rerun_of(screen) is None and place <= screen.cycle() < place + 12)
                soon(f"going back to {name}: quick", begun, 1.5)
            came = terminal.screen.cycle()
            status, text = terminal.quit(by)
            judge(f"going back to {name}: the end", (0, came), (status, told(text)[1]))
            judge(f"going back to {name}: the script", ["4"], keys_of(read(save)))
        finally:
            terminal.close()


# Waits for its cell 100 to be more than 0, and then divides by cell 101, which is 0: the machine stops.
DIVIDES = "4000 30100\n4001 00006\n4002 14000\n4003 00006\n4004 10101\n"
DIVIDES += "".join(f"{0o4010 + 4 * vector:o} 50017\n" for vector in range(9))


def boundaries_on(screen):
    """The lines of boundaries on the screen, and what it says that comes next."""
    lines = screen.text().split("\n")
    return [line[1:] for line in lines if re.match(r" \d+ .* \| A [0-7]{6} ", line)], [line[6:] for line in lines if line.startswith(" next ")]


def boundaries_by(rope, script, cycle, limit, names=()):
    """The boundaries that agc-study traces up to a cycle, an event at it among them, and what comes next."""
    words = [study, "trace", rope, written("stepped", script), "--limit", str(limit), "--from", str(max(0, cycle - SPACING - 100)), *names]
    lines = subprocess.run(words, capture_output=True, text=True).stdout.splitlines()
    taken = 0
    while taken < len(lines) and (int(lines[taken].split()[0]) < cycle or lines[taken].startswith(f"{cycle} - event ")):
        taken += 1
    coming = [re.split(r" [|>] ", line)[0].split(" ", 1)[1] for line in lines[taken : taken + 1]]
    return lines[:taken], coming


def folded(lines):
    """The lines of a trace, in which an order that is repeated with nothing in between is one line with its count."""
    out, counts, gap = [], [], 0
    for line in lines:
        cycle, rest = line.split(" ", 1)
        repeats = bool(out) and out[-1][1] == rest and not rest.startswith("- ") and " > " not in rest
        if repeats and (counts[-1] == 1 or int(cycle) - out[-1][0] == gap):
            gap = int(cycle) - out[-1][0]
            out[-1] = (int(cycle), rest)
            counts[-1] += 1
        else:
            out.append((int(cycle), rest))
            counts.append(1)
    return [f"{cycle} {rest}" if count == 1 else f"{cycle} {rest.replace(' | ', f' x {count} | ', 1)}" for (cycle, rest), count in zip(out, counts)]


def counted(lines):
    """How many boundaries these lines stand for."""
    return sum(int(found[1]) if (found := re.search(r" x (\d+) \|", line)) else 1 for line in lines)


def shows_boundaries(name, terminal, rope, save, most=12, taken=None, names=()):
    """The screen of a session whose time has stopped shows the last boundaries of the run, in this many lines at most, and what
    comes next; with `taken` it shows that many boundaries."""
    script, cycle = terminal.saved(save), terminal.screen.cycle()
    lines, coming = boundaries_by(rope, script, cycle, cycle + 100, names)
    shown = boundaries_on(terminal.screen)
    number = counted(shown[0])
    wanted = [line[: terminal.screen.columns - 2].rstrip() for line in folded(lines[-number:])]
    judge(name, (wanted, coming), shown)
    judge(f"{name}: how many", True, 0 < len(shown[0]) <= most and taken in (None, number))
    judge(f"{name}: sequences", [], terminal.screen.faults)


def try_boundaries():
    """The last boundaries before the time stopped, as a trace has them, wherever it stops."""
    save = os.path.join(scratch, "boundaries")
    terminal = Terminal([KEYS_ROPE, "--save", save, "--watch", "1,0,1,0,100,0,110"], (40, 132))
    try:
        terminal.begun()
        terminal.type("i")
        terminal.until("no insides", lambda screen: boundaries_on(screen)[1])
        terminal.type("47")
        terminal.until("NOUN 47", lambda screen: screen.fields()["NOUN"] == "47")
        judge("no boundaries while time goes", [], boundaries_on(terminal.screen)[0])
        terminal.pause()
        shows_boundaries("where time stops", terminal, KEYS_ROPE, save, taken=12)
        for step in range(5):
            cycle = terminal.screen.cycle()
            terminal.type(".")
            terminal.until("no step", lambda screen: screen.cycle() > cycle)
            shows_boundaries(f"step {step}", terminal, KEYS_ROPE, save, taken=13 + step)
        terminal.type(" ")
        terminal.until("no going on", lambda screen: not is_paused(screen) and screen.cycle() > cycle + SPACING)
        terminal.pause()
        terminal.type("1")
        terminal.until("no key", lambda screen: any(" - event key 1 " in line for line in boundaries_on(screen)[0]))
        shows_boundaries("where a key goes down", terminal, KEYS_ROPE, save, taken=13)
        for step in range(14):
            cycle = terminal.screen.cycle()
            terminal.type(".")
            terminal.until("no step", lambda screen: screen.cycle() > cycle)
            shows_boundaries(f"after the key, step {step}", terminal, KEYS_ROPE, save)
        cycle = terminal.screen.cycle()
        terminal.type(b"\x7f")
        terminal.until("not back", lambda screen: screen.cycle() < cycle)
        shows_boundaries("back", terminal, KEYS_ROPE, save)
        for size, most in (((24, 80), 8), ((17, 58), 1), ((28, 132), 12)):
            terminal.resize(*size)
            terminal.until(f"no picture of {size}", lambda screen: len(boundaries_on(screen)[0]) == most)
            shows_boundaries(f"at {size}", terminal, KEYS_ROPE, save, most)
        terminal.type("t")
        terminal.until("no tables", lambda screen: "LST2" in screen.text())
        shows_boundaries("beside tables", terminal, KEYS_ROPE, save, 1)
        terminal.type("t ")
        terminal.until("no going on", lambda screen: not is_paused(screen))
        judge("none where time goes on", [], boundaries_on(terminal.screen)[0])
        judge("boundaries: the end", 0, terminal.quit()[0])
    finally:
        terminal.close()
    made = subprocess.run([study, "weave", written("divides.words", DIVIDES)], capture_output=True)
    rope = os.path.join(scratch, "divides.rope")
    with open(rope, "wb") as file:
        file.write(made.stdout)
    script = "200000 poke 0 100 1\n"
    for name, rope, words, keys, ended in (
        ("at a limit", KEYS_ROPE, [written("no-events", ""), "--limit", "200000"], "i", "Limit"),
        ("at a division", rope, [written("poked", script), "--limit", "1000000"], "i", "DivisionUndefined"),
        ("at a division that is past", rope, [written("poked", script), "--limit", "1000000"], "", "DivisionUndefined"),
    ):
        terminal = Terminal([rope, *words, "--save", save, "--force"], (40, 132))
        try:
            terminal.begun()
            terminal.type("p" + keys)
            terminal.until("no stop", lambda screen: f" STOP {ended}\n" in screen.text())
            if not keys:
                terminal.type("i")
            terminal.until("no boundaries", lambda screen: boundaries_on(screen)[0])
            told = terminal.saved(save)
            lines, _ = boundaries_by(rope, told, terminal.screen.cycle() + 1, int(words[2]))
            judge(f"{name}: a stop", f" - stop {ended} |", lines[-1][lines[-1].index(" -") : lines[-1].index("|") + 1])
            # An order that stops the machine is a boundary by itself, and the stop stands before it for ever.
            taken = lines if ended == "Limit" else lines[:-1]
            shown, coming = boundaries_on(terminal.screen)
            judge(name, (12, folded(taken[-counted(shown) :]), [f"- stop {ended}"]), (len(shown), shown, coming))
            judge(f"{name}: PRO", ["down", "up"], [line.split()[2] for line in told.splitlines() if " pro " in line])
            judge(f"{name}: the end", (0, told), (terminal.quit()[0], read(save)))
        finally:
            terminal.close()


def try_start():
    """A session that ends where it began is repeated with a limit that agc takes."""
    terminal = Terminal([KEYS_ROPE])
    try:
        terminal.begun()
        cycle = terminal.pause()
        while cycle > 0:
            terminal.type(b"\x7f")
            terminal.until("not back", lambda screen: screen.cycle() == max(0, cycle - SPACING))
            cycle = terminal.screen.cycle()
        status, text = terminal.quit()
        judge("an end at the start", (0, "", 1), (status, *told(text)[:2]))
    finally:
        terminal.close()


def try_speeds():
    terminal = Terminal([KEYS_ROPE])
    try:
        terminal.begun()
        for key, speed in [(">", "10"), (">", "100"), (">", "1000"), (">", "max"), (">", "max"), ("<", "1000"), ("<", "100"),
                           ("<", "10"), ("<", "1"), ("<", "1/10"), ("<", "1/100"), ("<", "1/100"), (">", "1/10"), (">", "1")]:
            terminal.type(key)
            terminal.until(f"{key} does not lead to {speed}", lambda screen: speed_of(screen) == speed)
            judge(f"{key} leads to {speed}", speed, speed_of(terminal.screen))
        terminal.type(".")
        terminal.until("no pause", is_paused)
        for _ in range(3):
            cycle = terminal.screen.cycle()
            terminal.type(".")
            terminal.until("no step", lambda screen: screen.cycle() == cycle + 1)
        judge("three steps", 0, terminal.quit()[0])
    finally:
        terminal.close()
    terminal = Terminal([KEYS_ROPE, "--speed", "1000"])
    try:
        begun = time.monotonic()
        terminal.begun()
        terminal.on_to(HOUR)
        took = time.monotonic() - begun
        judge("an hour at 1000", True, 3.5 < took < LONGEST)
        print(f"dsky: an hour of machine time took {took:.1f} seconds")
        terminal.quit()
    finally:
        terminal.close()
    terminal = Terminal([KEYS_ROPE, "--limit", "100000"])
    try:
        terminal.begun()
        terminal.type("4")
        terminal.until("NOUN _4", lambda screen: screen.fields()["NOUN"] == "_4")
        terminal.until("no stop", lambda screen: " CYCLE 100000 STOP Limit\n" in screen.text())
        terminal.type("5>")
        terminal.until("no speed", lambda screen: speed_of(screen) == "10" and is_idle(screen))
        status, text = terminal.quit()
        judge("no key after the stop", (0, ["4"], 100000), (status, keys_of(told(text)[0]), told(text)[1]))
    finally:
        terminal.close()


def try_slow_speeds():
    """At 1/10 and 1/100 a second of the clock has 8,533 and 853 cycles. A key goes down at once, and slows nothing down."""
    for speed, a_second in (("1/10", 8533.3), ("1/100", 853.3)):
        terminal = Terminal([KEYS_ROPE, "--speed", speed])
        try:
            terminal.begun()
            judge(f"{speed}: its name", speed, speed_of(terminal.screen))
            first, begun = terminal.screen.cycle(), time.monotonic()
            terminal.type("4")
            while time.monotonic() < begun + 3:
                terminal.type(b"\x1b[A" if time.monotonic() < begun + 2 else "ii")
                terminal.take(0.02)
            seconds = time.monotonic() - begun
            cycles = terminal.screen.cycle() - first
            judge(f"{speed}: {cycles} cycles in {seconds:.2f} seconds", True, abs(cycles - a_second * seconds) < a_second * 0.15 * slowness())
            judge(f"{speed}: keeps up", None, terminal.screen.number("RUNS AT"))
            status, text = terminal.quit()
            key = cycles_of(told(text)[0])[0]
            judge(f"{speed}: the key", (0, True), (status, key < first + 0.2 * a_second * slowness()))
        finally:
            terminal.close()


# Sends PROG 12 twice, at cycles 4 and 7, and then jumps to itself for ever; its interrupts go back at once.
SENDS = "4000 15000\n5000 35020\n5001 00006\n5002 01010\n5003 00006\n5004 01010\n5005 15005\n5020 54171\n"
SENDS += "".join(f"{0o4004 + 4 * vector:o} 50017\n" for vector in range(10))


# 4010 puts 3 into EB, 4012 puts 30 into FB: the superbank counts with that.
SWITCHES = "4000 34010\n4001 54003\n4002 55406\n4003 53411\n4004 34012\n4005 54004\n4006 12100\n4010 01400\n4012 60000\n30,2100 12101\n30,2101 12101\n"
# E2,1010 and 40,2100 are at the same addresses, in other banks.
SWITCHED_NAMES = "4000 START\nE2,1010 WRONG\nE3,1406 LOW\nE3,1410 FLAGS\n30,2100 HIGH\n40,2100 HIGHER\n"
# Each order with its first cycle. CA and TS take two cycles, DXCH three.
SWITCHED = [
    "0 4000 START        34010 CA START +8", "2 4001 START +1     54003 TS 0003", "4 4002 START +2     55406 TS LOW",
    "6 4003 START +3     53411 DXCH FLAGS", "9 4004 START +4     34012 CA START +10", "11 4005 START +5     54004 TS 0004",
    "13 4006 START +6     12100 TCF HIGH", "14 30,2100 HIGH         12101 TCF HIGH +1", "15 30,2101 HIGH +1      12101 TCF HIGH +1",
]


def try_switched_names():
    """Operands by their names in switched banks: before an order the machine has the banks; after it a line has EB and FB, which leave
    open what TS 1406 wrote if that was EB itself, and whether FB 30 was bank 30 or 40."""
    rope, names = woven("switches", SWITCHES), written("switches.names", SWITCHED_NAMES)
    terminal = Terminal([rope, "--names", names, "--limit", "1000", "--speed", "max"], (40, 132))
    try:
        terminal.begun()
        terminal.until("no stop", lambda screen: " STOP Limit" in screen.text())
        terminal.type("i ")
        goes_to(terminal, b"\x7f", 0)
        for line, after in zip(SWITCHED, SWITCHED[1:]):
            cycle, order = line.split(" ", 1)
            judge(f"what comes at cycle {cycle}", [order], boundaries_on(terminal.screen)[1])
            goes_to(terminal, ".", int(after.split()[0]))
        unsure = [line.replace("TS LOW", "TS 1406").replace("TCF HIGH", "TCF 2100") if line.split()[1] in ("4002", "4006") else line for line in SWITCHED]
        judge("the orders in switched banks", unsure[:-1], [line.split(" | ")[0] for line in boundaries_on(terminal.screen)[0]])
        judge("switched banks: the end", (0, []), (terminal.quit()[0], terminal.screen.faults))
    finally:
        terminal.close()


def goes_to(terminal, key, cycle):
    """A key takes a session whose time stands to a cycle."""
    terminal.type(key)
    terminal.until(f"{key!r} does not lead to {cycle}", lambda screen: screen.cycle() == cycle and rerun_of(screen) is None)


def try_names_and_counts():
    """Names beside orders, and the turns of an idle loop on one line. CA 5020 begins at cycle 1, the first EXTEND at 3, the first
    WRITE at 4, the second at 7; each takes two cycles. Then the loop takes one cycle a turn, as a timer's step does."""
    made = subprocess.run([study, "weave", written("sends.words", SENDS)], capture_output=True)
    rope = os.path.join(scratch, "sends.rope")
    with open(rope, "wb") as file:
        file.write(made.stdout)
    names = written("sends.names", "4000 START\n5000 SEND\n5005 IDLE\nC010 OUT0\n")
    terminal = Terminal([rope, "--limit", "844807", "--names", names, "--speed", "max"], (40, 132))
    try:
        terminal.begun()
        terminal.type("i")
        # TIME4 is last stepped at 10,135,040 pulses, of which a cycle has 12, so at cycle 844587, TIME1 and TIME3 at 10,137,600,
        # so at 844800 and after it
        terminal.until("no stop", lambda screen: any("- stop" in line for line in boundaries_on(screen)[0]) and rerun_of(screen) is None)
        judge("the idle loop", [
            "844799 5005 IDLE         15005 TCF IDLE x 212 | A 154171 L 00000 Q 000000 Z 5006 EB 0 FB 00",
            "844800 - timer TIME1 | A 154171 L 00000 Q 000000 Z 5006 EB 0 FB 00",
            "844801 - timer TIME3 | A 154171 L 00000 Q 000000 Z 5006 EB 0 FB 00",
            "844806 5005 IDLE         15005 TCF IDLE x 5 | A 154171 L 00000 Q 000000 Z 5006 EB 0 FB 00",
            "844807 - stop Limit | A 154171 L 00000 Q 000000 Z 5006 EB 0 FB 00",
        ], boundaries_on(terminal.screen)[0][-5:])
        terminal.type(" ")
        cycle = 844807
        while cycle > 0:
            cycle = max(0, cycle - SPACING)
            goes_to(terminal, b"\x7f", cycle)
        for cycle in (1, 3, 4, 6, 7, 9, 10, 11):
            goes_to(terminal, ".", cycle)
        judge("the lines with names", [
            "0 4000 START        15000 TCF SEND | A 000000 L 00000 Q 000000 Z 5001 EB 0 FB 00",
            "1 5000 SEND         35020 CA IDLE +11 | A 154171 L 00000 Q 000000 Z 5002 EB 0 FB 00",
            "3 5001 SEND +1      00006 EXTEND | A 154171 L 00000 Q 000000 Z 5003 EB 0 FB 00",
            "4 5002 SEND +2      01010 WRITE OUT0 > 010 54171 | A 154171 L 00000 Q 000000 Z 5004 EB 0 FB 00",
            "6 5003 SEND +3      00006 EXTEND | A 154171 L 00000 Q 000000 Z 5005 EB 0 FB 00",
            "7 5004 SEND +4      01010 WRITE OUT0 > 010 54171 | A 154171 L 00000 Q 000000 Z 5006 EB 0 FB 00",
            "10 5005 IDLE         15005 TCF IDLE x 2 | A 154171 L 00000 Q 000000 Z 5006 EB 0 FB 00",
        ], boundaries_on(terminal.screen)[0])
        judge("what comes next", ["5005 IDLE         15005 TCF IDLE"], boundaries_on(terminal.screen)[1])
        # a key is a boundary between two turns
        terminal.type("4")
        terminal.until("no key", lambda screen: any(" - event key 4 " in line for line in boundaries_on(screen)[0]))
        judge("a key after two turns", True, " TCF IDLE x 2 |" in boundaries_on(terminal.screen)[0][-2])
        judge("names: the end", (0, []), (terminal.quit()[0], terminal.screen.faults))
    finally:
        terminal.close()


def try_source_lines():
    """The source line of each order stands behind it, as far as it fits, and behind what comes next."""
    source = written("sends.agc", "        SETLOC  4000\n        TCF     SEND\n        SETLOC  5000\nSEND    CA      WORD    # what is sent\n"
                     "        EXTEND\n        WRITE   10\nIDLE    TCF     IDLE    # for ever \x1b[2J\nWORD    OCT     54171\n")
    listing, rope = os.path.join(scratch, "sends.listing"), os.path.join(scratch, "sends2.rope")
    if os.path.exists(listing):
        os.remove(listing)
    made = subprocess.run([study, "weave", source, "--write-listing", listing], capture_output=True)
    with open(rope, "wb") as file:
        file.write(made.stdout)
    terminal = Terminal([rope, "--limit", "20", "--listing", listing, "--speed", "max"], (40, 132))
    try:
        terminal.begun()
        terminal.type("i")
        terminal.until("no stop", lambda screen: any("- stop" in line for line in boundaries_on(screen)[0]) and rerun_of(screen) is None)
        terminal.type(" ")
        for cycle in (0, 1, 3, 4, 6):
            goes_to(terminal, b"\x7f" if cycle == 0 else ".", cycle)
        judge("lines with their source", [
            "0 4000 15000 TCF 5000 | A 000000 L 00000 Q 000000 Z 5001 EB 0 FB 00 # sends.agc 2:         TCF     SEND",
            "1 5000 35004 CA 5004 | A 154171 L 00000 Q 000000 Z 5002 EB 0 FB 00 # sends.agc 4: SEND    CA      WORD    # what is sent",
            "3 5001 00006 EXTEND | A 154171 L 00000 Q 000000 Z 5003 EB 0 FB 00 # sends.agc 5:         EXTEND",
            "4 5002 01010 WRITE 010 > 010 54171 | A 154171 L 00000 Q 000000 Z 5004 EB 0 FB 00 # sends.agc 6:         WRITE   10",
        ], boundaries_on(terminal.screen)[0])
        judge("what comes next, with its source", ["5003 15003 TCF 5003 # sends.agc 7: IDLE    TCF     IDLE    # for ever \\033[2J"], boundaries_on(terminal.screen)[1])
        judge("source lines: the end", (0, []), (terminal.quit()[0], terminal.screen.faults))
    finally:
        terminal.close()
    is_refused("a listing of another rope", [KEYS_ROPE, "--listing", listing], f"{listing}: listing: it is not of this rope: at 02,4000 it has 15000, and the rope 14000")
    away = os.path.join(scratch, "no.listing")
    is_refused("no listing", [KEYS_ROPE, "--listing", away], f"{away}: cannot read listing")


def finds(terminal, key, cycle, remark):
    """A key searches in time: time stands at a cycle then, and a remark says so."""
    goes_to(terminal, key, cycle)
    terminal.until(f"{key!r} does not say {remark!r}", lambda screen: last_line(screen) == f" {remark}" and is_paused(screen))
    judge(f"{key!r} leads to {cycle}", cycle, terminal.screen.cycle())


def try_searches():
    """Each search stands after the next boundary that hits, or before the last one, with the keys that came before it. The
    first WRITE of SENDS, from 4 to 6, changes the panel, the second, from 7 to 9, does not. A key at 7 interrupts after it."""
    made = subprocess.run([study, "weave", written("searched.words", SENDS)], capture_output=True)
    rope, save = os.path.join(scratch, "searched.rope"), os.path.join(scratch, "searched")
    with open(rope, "wb") as file:
        file.write(made.stdout)
    terminal = Terminal([rope, "--limit", "844807", "--speed", "max", "--save", save], (40, 132))
    try:
        terminal.begun()
        terminal.until("no stop", lambda screen: " CYCLE 844807 STOP Limit" in screen.text())
        for key, cycle, remark in (
            ("D", 4, "found: just before a change of the panel"),
            ("W", 4, "no channel write before now"),
            ("d", 6, "found: just after a change of the panel"),
            ("w", 9, "found: just after a channel write"),
            ("U", 9, "no interrupt before now"),
            ("u", 844807, "no interrupt before the stop"),
            ("W", 7, "found: just before a channel write"),
        ):
            finds(terminal, key, cycle, remark)
        terminal.type("4")
        judge("a key before the write", "7 key 4\n", terminal.saved(save))
        for key, cycle, remark in (
            ("u", 12, "found: just after an interrupt"),
            ("U", 9, "found: just before an interrupt"),
            ("W", 7, "found: just before a channel write"),
            ("d", 844807, "no change of the panel before the stop"),
            ("U", 9, "found: just before an interrupt"),
        ):
            finds(terminal, key, cycle, remark)
            judge(f"the key at {cycle}", "7 key 4\n", terminal.saved(save))
        terminal.type("i")
        terminal.until("no boundaries", lambda screen: boundaries_on(screen)[0])
        shows_boundaries("before the interrupt", terminal, rope, save)
        finds(terminal, "u", 12, "found: just after an interrupt")
        terminal.until("no boundaries", lambda screen: boundaries_on(screen)[0] and rerun_of(screen) is None)
        judge("the interrupt is the last one", "9 - interrupt KEYRUPT1", boundaries_on(terminal.screen)[0][-1].split(" |")[0])
        finds(terminal, "D", 4, "found: just before a change of the panel")
        judge("the key is undone", "", terminal.saved(save))
        judge("searches: the end", (0, []), (terminal.quit()[0], terminal.screen.faults))
    finally:
        terminal.close()


def asks(terminal, typed, cycle, remark):
    """A condition that is typed leads to a cycle, and a remark says so."""
    terminal.type(f"{typed}\r")
    stands = lambda screen: (last_line(screen), screen.cycle()) == (f" {remark}", cycle) and is_paused(screen) and rerun_of(screen) is None
    terminal.until(f"{typed!r} does not lead to {cycle} with {remark!r}", stands)
    judge(f"{typed!r} leads to {cycle}", cycle, terminal.screen.cycle())


def try_conditions():
    """A typed condition is searched for, forward to where it next holds or back to where it held last. SENDS begins its orders at 0, 1,
    3, 4 (WRITE), 6, 7 (WRITE) and 9, from where on it idles, an order a cycle; CA puts 54171 into A from 1 to 3."""
    rope, save = woven("conditions", SENDS), os.path.join(scratch, "conditions")
    names = written("conditions.names", "4000 START\n5000 SEND\n5005 IDLE\n")
    terminal = Terminal([rope, "--limit", "844807", "--speed", "max", "--save", save, "--names", names], (40, 132))
    try:
        terminal.begun()
        terminal.until("no stop", lambda screen: " CYCLE 844807 STOP Limit" in screen.text())
        for typed, cycle, remark in (
            ("b5002", 844807, "none before the stop: 5002"),
            ("B5002", 4, "found: 5002"),
            ("B", 4, "none before now: 5002"),
            ("bIDLE", 9, "found: IDLE"),
            ("Bwrite 010 ignore 1", 4, "found: write 010 ignore 1"),
            ("bwrite 010", 6, "found: write 010"),
            ("b", 9, "found: write 010"),
            ("Bwrite 010 54170", 9, "none before now: write 010 54170"),
            ("BSTART", 0, "found: START"),
            ("bIDLE if A = 54171 ignore 2", 11, "found: IDLE if A = 54171 ignore 2"),
            ("BSEND+1", 3, "found: SEND+1"),
            ("BSTART", 0, "found: START"),
            ("bcell 0000", 3, "found: cell 0000"),
            ("bpanel", 6, "found: panel"),
            ("bIDLA", 6, "unknown name; did you mean IDLE?"),
            ("bcell IDLE", 6, "a cell is in erasable memory: octal, such as 0100 or E3,1400"),
            ("bIDLE if", 6, "type PLACE [if CELL < WORD], write CCC, cell, interrupt or panel"),
        ):
            asks(terminal, typed, cycle, remark)
        terminal.type("b50q\x7f0")
        terminal.until("no line", lambda screen: last_line(screen) == " until: 500_")
        terminal.type("\x7f\x7f\x7f\x7f")
        terminal.until("the line is not left", lambda screen: last_line(screen) == LONG_HINT)
        terminal.type("B4")
        terminal.until("no line for the way back", lambda screen: last_line(screen) == " back until: 4_")
        terminal.type("\x03")
        terminal.until("control-C does not leave the line", lambda screen: last_line(screen) == LONG_HINT)
        judge("no key was pressed", "", terminal.saved(save))
        judge("conditions: the end", (0, []), (terminal.quit()[0], terminal.screen.faults))
    finally:
        terminal.close()


def try_long_search():
    """A search stops the time that runs, and ends after 100,000,000 cycles. Keys are heard meanwhile."""
    terminal = Terminal([KEYS_ROPE])
    try:
        terminal.begun()
        terminal.type("w")
        terminal.until("no pause", is_paused)
        terminal.until("no end of the search", lambda screen: last_line(screen) == " no channel write in 100000000 cycles")
        cycle = terminal.screen.cycle()
        judge("a search of 100,000,000 cycles", True, 100_000_000 <= cycle < 101_000_000)
        begun = time.monotonic()
        terminal.type("d")
        terminal.until("no search", lambda screen: last_line(screen).startswith(" searching for a change of the panel;"))
        terminal.type(" ")
        terminal.until("the search goes on", lambda screen: last_line(screen) == " search ended")
        soon("a search is ended at once", begun, 1)
        terminal.type("u4")
        terminal.until("no search by u", lambda screen: last_line(screen) == " found: just after an interrupt")
        terminal.type("w")
        terminal.until("no search by w", lambda screen: last_line(screen) == " found: just after a channel write")
        judge("a key while a search goes on", "_4", terminal.screen.fields()["NOUN"])
        terminal.type("w")
        begun = time.monotonic()
        judge("control-C in a search", (0, ["4"]), (terminal.quit(b"\x03")[0], keys_of(told(terminal.printed())[0])))
        soon("control-C is heard at once", begun, 1.5)
    finally:
        terminal.close()


def searches_back(terminal, typed):
    """Begins a search back that goes on for seconds, and waits until the screen says so. Returns when it was typed."""
    begun = time.monotonic()
    terminal.type(typed)
    terminal.until("no search back", lambda screen: last_line(screen) == " searching back; space ends the search" and is_paused(screen))
    return begun


def try_ending_a_search_back():
    """A search back over a long run hears what ends it: space, which changes nothing, q and control-C, also if they come
    together with it. It loses no key."""
    made = subprocess.run([study, "weave", written("quiet.words", COUNTS)], capture_output=True)
    rope, save = os.path.join(scratch, "quiet.rope"), os.path.join(scratch, "quiet")
    with open(rope, "wb") as file:
        file.write(made.stdout)
    for name, typed, by in (("q", b"D", b"q"), ("control-C", b"D", b"\x03"), ("q with D", b"Dq", b"")):
        terminal = Terminal([rope, "--speed", "max", "--save", save, "--force"])
        try:
            terminal.begun()
            terminal.type("4")
            end = time.monotonic() + 8
            while time.monotonic() < end:
                terminal.take(0.05)
            cycle = terminal.pause()
            begun = searches_back(terminal, "D")
            terminal.type("5 ")
            terminal.until("the search back goes on", lambda screen: last_line(screen) == " search ended")
            soon(f"space in a search back, before {name}: heard at once", begun, 1.5)
            judge(f"space in a search back, before {name}: no change", (cycle, True), (terminal.screen.cycle(), is_paused(terminal.screen)))
            begun = searches_back(terminal, typed)
            status = terminal.quit(by)[0]
            soon(f"{name} in a search back: heard at once", begun, 1.5)
            judge(f"{name} in a search back: the end", (0, ["4", "5"]), (status, keys_of(read(save))))
            judge(f"{name} in a search back: the terminal", (True, []), (terminal.is_put_back(), terminal.screen.faults))
        finally:
            terminal.close()


def try_small_stack():
    """README says how small a stack may be: with it a session with keys, a search back and a rerun ends as usual."""
    limited = os.path.join(scratch, "limited")
    with open(limited, "w") as file:
        file.write(f'#!/bin/bash\nulimit -s {STACK} && exec {shlex.quote(os.path.abspath(dsky))} "$@"\n')
    os.chmod(limited, 0o755)
    save = os.path.join(scratch, "stack")
    terminal = Terminal([KEYS_ROPE, "--save", save, "--force"], program=limited)
    try:
        terminal.begun()
        terminal.type("45")
        terminal.on_to(10 * SPACING)
        terminal.pause()
        terminal.type("U")
        terminal.until("no search back", lambda screen: last_line(screen) == " found: just before an interrupt")
        cycle = terminal.screen.cycle()
        terminal.type(b"\x7f")
        terminal.until("not back", lambda screen: rerun_of(screen) is None and screen.cycle() < cycle)
        status, text = terminal.quit()
        judge("a small stack: the end", 0, status)
        judge("a small stack: the terminal", (True, ""), (terminal.is_put_back(), told(text)[0]))
    finally:
        terminal.close()


def try_lesson():
    """The way of docs/DEBUGGING.md: from OPR ERR back to the 0 in R1, and the order before it that makes -0."""
    folder = os.path.join(top, "examples", "debugging")
    words = [os.path.join(folder, name) for name in ("rope", "script")]
    terminal = Terminal([*words, "--names", os.path.join(folder, "names"), "--limit", "400000"], (40, 132))
    try:
        terminal.begun()
        terminal.until("no OPR ERR", lambda screen: "OPR ERR" in screen.lamps())
        finds(terminal, "D", 300010, "found: just before a change of the panel")
        judge("no lamp yet", False, "OPR ERR" in terminal.screen.lamps())
        finds(terminal, "D", 255811, "found: just before a change of the panel")
        judge("R1 before", "_____1", terminal.screen.fields()["R1"])
        terminal.type("i")
        terminal.until("no boundaries", lambda screen: boundaries_on(screen)[0])
        judge("the order at fault", ["255803 4074 TICK +6      26100 ADS LEFT | A 177777 L 00000 Q 000003 Z 4076 EB 0 FB 00"],
              [line for line in boundaries_on(terminal.screen)[0] if " ADS " in line])
        asks(terminal, "Bcell LEFT", 255803, "found: cell LEFT")
        asks(terminal, "BTICK if LEFT = 1", 255792, "found: TICK if LEFT = 1")
        judge("the lesson: the end", (0, []), (terminal.quit()[0], terminal.screen.faults))
    finally:
        terminal.close()


def try_names():
    """A file of names that cannot be used is refused."""
    nowhere, pipe = os.path.join(scratch, "no-names"), os.path.join(scratch, "pipe-of-names")
    os.mkfifo(pipe)
    wrong = written("wrong.names", "4000 LOOP\n4001\n")
    is_refused("no names", [KEYS_ROPE, "--names", nowhere], f"{nowhere}: cannot read names")
    is_refused("wrong names", [KEYS_ROPE, "--names", wrong], f"{wrong}: names line 2: after the place comes a name: 1 to 8 characters, no comma, not only digits and signs")
    is_refused("a pipe of names", [KEYS_ROPE, "--names", pipe], f"{pipe}: a pipe, and no key is heard while it is read; write it to a file first")


def try_idleness():
    """At the speed of the hardware the program takes little of a processor."""
    terminal = Terminal([KEYS_ROPE])
    try:
        terminal.begun()
        program = program_of(terminal)

        def used():
            words = read(f"/proc/{program}/stat").rsplit(")", 1)[1].split()
            return (int(words[11]) + int(words[12])) / os.sysconf("SC_CLK_TCK"), time.monotonic()

        first, begun = used()
        while time.monotonic() < begun + 3:
            terminal.take(0.05)
        last, ended = used()
        part = (last - first) / (ended - begun)
        print(f"dsky: at the speed of the hardware it takes {100 * part:.1f} in 100 of a processor")
        judge("a tenth of a processor at most", True, part < 0.1)
        terminal.quit()
    finally:
        terminal.close()


GROUPS = (
    try_pictures, try_unsaved, try_saving, try_marks, try_waiting_keys, try_fastest, try_remarks, try_full_disk, try_two_sessions,
    try_little_memory, try_last_keys, try_told_names, try_leaving, try_ink, try_no_terminal, try_resizing, try_script,
    try_refusals, try_many_keys, try_going_back, try_a_long_way_back, try_boundaries, try_start, try_speeds,
    try_slow_speeds, try_names_and_counts, try_switched_names, try_source_lines, try_searches, try_conditions, try_long_search, try_ending_a_search_back, try_small_stack,
    try_lesson, try_names, try_idleness,
)


def main(names):
    """Tries the groups of these names, `try_faces` among them, or all."""
    depends_on_time()  # each try closes its terminals
    for size in (LARGE, SMALL):
        if not names:
            attempt(try_keys, size)
        for face, made, keys in faces() if not names or "try_faces" in names else ():
            attempt(try_face, f"{face} at {size[0]} lines", made, keys, size)
    for group in GROUPS:
        if not names or group.__name__ in names:
            attempt(group)
    finish()


main(sys.argv[1:])
