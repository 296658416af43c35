"""A program at the other end of a pipe or a terminal: a line is written once the one before it is answered."""
import os
import pty
import select
import subprocess
import termios
import time
from contextlib import suppress
from dataclasses import dataclass
from pathlib import Path
from typing import List, Optional

END_OF_INPUT = b"\x04"


@dataclass(frozen=True)
class Step:
    """What is written to the program, and what it has to answer before anything more is written."""

    line: bytes
    answer: bytes = b""


@dataclass
class Driven:
    """What came of it: the status, what was printed and said, and the line that wasn't answered in time."""

    status: int
    printed: bytes
    said: bytes
    unanswered: Optional[bytes] = None


class Dialogue:
    """A program that runs in a folder, with its standard input held here."""

    def __init__(self, words: List[str], folder: Path, is_terminal: bool, seconds: float) -> None:
        self.is_terminal = is_terminal
        self.deadline = time.monotonic() + seconds
        self.printed = b""
        self.over = False
        reader, self.writer = terminal() if is_terminal else os.pipe()
        self.errors = open(folder / "said", "w+b")
        try:
            self.program = subprocess.Popen(words, cwd=folder, stdin=reader, stdout=subprocess.PIPE, stderr=self.errors)
        finally:
            os.close(reader)

    def write(self, text: bytes) -> None:
        """Writes a text, as far as the program takes it."""
        with suppress(BrokenPipeError, OSError):
            while text:
                text = text[os.write(self.writer, text) :]

    def read(self) -> bool:
        """Reads what is printed, once there is something. False where nothing comes any more, or not in time."""
        assert self.program.stdout
        left = self.deadline - time.monotonic()
        if self.over or left <= 0 or not select.select([self.program.stdout], [], [], left)[0]:
            return False
        some = os.read(self.program.stdout.fileno(), 65536)
        self.printed += some
        self.over = not some
        return bool(some)

    def waits_for(self, wanted: bytes) -> bool:
        """Whether all that is printed comes to be this, before anything more is written."""
        while len(self.printed) < len(wanted) and wanted.startswith(self.printed):
            if not self.read():
                return False
        return self.printed == wanted

    def end(self) -> Driven:
        """Ends the input, and waits for the program's end."""
        if self.is_terminal:
            self.write(END_OF_INPUT)
        else:
            os.close(self.writer)
        while self.read():
            pass
        if not self.over:
            self.program.kill()
        status = self.program.wait()
        if self.is_terminal:
            os.close(self.writer)
        assert self.program.stdout
        self.program.stdout.close()
        with self.errors:
            self.errors.seek(0)
            return Driven(status, self.printed, self.errors.read())


def terminal() -> List[int]:
    """Both ends of a terminal that shows nothing of what is written to it."""
    writer, reader = pty.openpty()
    modes = termios.tcgetattr(reader)
    modes[3] &= ~termios.ECHO
    termios.tcsetattr(reader, termios.TCSANOW, modes)
    return [reader, writer]


def drive(words: List[str], folder: Path, steps: List[Step], is_terminal: bool, seconds: float) -> Driven:
    """Runs a program in a folder, and writes it one step after another, each once the one before is answered."""
    dialogue = Dialogue(words, folder, is_terminal, seconds)
    wanted, unanswered = b"", None
    for step in steps:
        dialogue.write(step.line)
        wanted += step.answer
        if unanswered is None and step.answer and not dialogue.waits_for(wanted):
            unanswered = step.line
    ended = dialogue.end()
    ended.unanswered = unanswered
    return ended
