"""A session of the program that is kept open: what is written to it, and what it answers."""
import queue
import re
import subprocess
import threading
from dataclasses import dataclass
from typing import List, Optional, Tuple

COUNTS = re.compile(r"stats \d+ (.*)")
# So many seconds a session has to end by itself once there is nothing more to come.
PARTING = 1


class Ended(Exception):
    """The session has ended: its status, and what it said last."""

    def __init__(self, status, said):
        super().__init__(said)
        self.status, self.said = status, said


@dataclass(frozen=True)
class Answer:
    """What a run came to: its lines, the result's first, each a name and a value, or else its fault; its counts, and what was said beside it."""

    lines: List[Tuple[str, str]]
    fault: Optional[str]
    counts: str
    said: List[str]


class Lines:
    """The lines of a pipe. A thread of its own takes them out, so that who writes into the pipe never has to wait."""

    def __init__(self, pipe):
        self.lines = queue.SimpleQueue()
        threading.Thread(target=self.take, args=(pipe,), daemon=True).start()

    def take(self, pipe):
        with pipe:
            for line in pipe:
                self.lines.put(line.decode(errors="replace").rstrip("\n"))
        self.lines.put(None)

    def next(self):
        """The next line, once it is there, or None behind the last one."""
        line = self.lines.get()
        if line is None:
            self.lines.put(None)
        return line

    def rest(self):
        """All lines to the end of the pipe."""
        return list(iter(self.next, None))


class LiveSession:
    """A live session of that program over the two texts of these paths, with some options, of a program with so many reducers."""

    def __init__(self, program, paths, options, reducers):
        words = [program, *paths, "--live", "--stats", "--explain", *options]
        pipes = {"stdin": subprocess.PIPE, "stdout": subprocess.PIPE, "stderr": subprocess.PIPE}
        # A group of its own, or the keys that end the watching would end the session in the middle of a line.
        self.process = subprocess.Popen(words, start_new_session=True, **pipes)
        self.answers, self.notes = Lines(self.process.stdout), Lines(self.process.stderr)
        self.reducers = reducers

    def write(self, text):
        try:
            self.process.stdin.write(text.encode())
            self.process.stdin.flush()
        except BrokenPipeError:
            raise self.ended() from None

    def ended(self):
        """That the session has ended, with what is left of its words."""
        return Ended(self.process.wait(), "\n".join(self.notes.rest()))

    def line(self):
        line = self.answers.next()
        if line is None:
            raise self.ended()
        return line

    def edit(self, commands):
        """Writes edits, each of one line or more, and says whether all were accepted."""
        self.write("".join(f"{command}\n" for command in commands))
        return {self.line() for _ in commands} <= {"ok"}

    def run(self):
        """Has the program run, and returns the answer."""
        self.write("run\n")
        self.line()
        first = self.line()
        lines = [] if first.startswith("fault ") else [first] + [self.line() for _ in range(self.reducers)]
        counts, said = self.noted()
        parted = [line.partition(" ") for line in lines]
        return Answer([(name, value) for name, _, value in parted], None if lines else first, counts, said)

    def noted(self):
        """The counts of a run, which are noted last, and what was said before them."""
        said = []
        for line in iter(self.notes.next, None):
            counts = COUNTS.match(line)
            if counts:
                return counts[1], said
            said.append(line)
        raise Ended(self.process.wait(), "\n".join(said))

    def end(self):
        """Ends the session, in the middle of a run too."""
        try:
            self.process.stdin.close()
            self.process.wait(PARTING)
        except (BrokenPipeError, subprocess.TimeoutExpired):
            pass
        finally:
            self.process.kill()
            self.process.wait()
