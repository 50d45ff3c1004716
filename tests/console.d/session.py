"""A console to which commands are said one by one."""

import re
import subprocess

END = re.compile(r"(?:at|stop (\w+) at) (\d+)$")


class Session:
    """A console, to which commands are said one by one."""

    def __init__(self, console, words):
        self.process = subprocess.Popen([console, *words], stdin=subprocess.PIPE, stdout=subprocess.PIPE)
        self.said = b""
        self.answered = b""
        self.cycle = 0
        self.stop = None
        self.error = None

    def say(self, command):
        """Says a command, and returns the lines of its answer before the last one, or None for an error."""
        line = command if isinstance(command, bytes) else command.encode()
        self.said += line + b"\n"
        self.process.stdin.write(line + b"\n")
        self.process.stdin.flush()
        lines = []
        self.error = None
        while True:
            answer = self.process.stdout.readline()
            if not answer:
                raise EOFError(f"no answer to {command!r}")
            self.answered += answer
            text = answer.decode().rstrip("\n")
            if text.startswith("error: "):
                self.error = text[len("error: ") :]
                return None
            end = END.match(text)
            if end:
                self.stop = end[1]
                self.cycle = int(end[2])
                return lines
            lines.append(text)

    def close(self):
        rest, _ = self.process.communicate()
        return rest, self.process.returncode


def meaning(event):
    """An event's line or its command: its words, with numbers as numbers, so that zeros in front are none."""
    words = event.split()
    cycle = [int(words.pop(0))] if words[0].isdigit() else []
    bases = {"input": (8, 8), "pulse": (8, None), "raise": (10,), "poke": (8, 8, 8)}.get(words[0], (None,))
    return (*cycle, words[0], *(int(word, base) if base else word for word, base in zip(words[1:], bases)))
