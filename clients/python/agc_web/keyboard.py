"""The keys that wait until the machine can take them, and PRO, which is held."""

from collections import deque
from typing import Deque, List, Sequence

from agc import Console, Refused
from agc_web.journal import Event

KEYS = tuple("0123456789+-") + ("VERB", "NOUN", "ENTR", "CLR", "RSET", "KEYREL")
KEY_GAP = 8533  # cycles between two keys: a tenth of a second


class Keyboard:
    """It is used in the machine's turn alone. PRO goes down as "PRO", and comes up as "PRO up"."""

    def __init__(self) -> None:
        self.waiting: Deque[str] = deque()
        self.pro_down = False
        self._last_key = -KEY_GAP

    @property
    def pro_comes_down(self) -> bool:
        """Whether PRO is down once the keys that wait are through."""
        waiting = [name for name in self.waiting if name.startswith("PRO")]
        return waiting[-1] == "PRO" if waiting else self.pro_down

    def next_cycles(self, cycle: int) -> List[int]:
        """Returns the cycle at which the next key is due, if one waits."""
        return [max(self._last_key + KEY_GAP, cycle + 1)] if self.waiting else []

    def press_due(self, console: Console) -> bool:
        """Presses the key that waits first, if the key before it was long enough ago; returns whether it did."""
        if not self.waiting or console.cycle < self._last_key + KEY_GAP:
            return False
        name, self._last_key = self.waiting.popleft(), console.cycle
        try:
            if name.startswith("PRO"):
                console.pro(name == "PRO")
                self.pro_down = name == "PRO"
            else:
                console.key(name)
        except Refused as refused:
            raise Refused(f"{name} was not taken: {refused}", refused.name) from None
        return True

    def release_pro(self, console: Console) -> None:
        """Lets PRO come up: it was held at a time that is over."""
        console.pro(False)
        self.pro_down = False
        self._last_key = console.cycle

    def find(self, events: Sequence[Event]) -> None:
        """Finds in the events when the last key went down, and whether PRO is down."""
        keys = [event for event in events if event.command.startswith(("key", "pro"))]
        self._last_key = keys[-1].cycle if keys else -KEY_GAP
        self.pro_down = [event.command for event in keys if event.command.startswith("pro")][-1:] == ["pro down"]
