#!/usr/bin/env python3
"""Prints how the memory of one live session grows with its edits, and how long an edit and the run behind it take: over the flat loop of
README and 1000 rows, each edit a put of a row with its run, a tenth of them behind a delete of that row. Each line says how much memory the
process has, and what the edits before it took, by the clock: the median of the last hundredth, beside that of the first hundred. Of a
hundred edits at each such place it says besides for how long a processor had the session, with what is done behind an answer: the greatest
of these counts, since nobody else's work is in it. Fails where an answer is wrong, and where memory grows by more than a hundredth from the
first line to the last.

usage: long_session.py [--program FILE] [EDITS]     by default ./cilkreport as it is built, and 1000000 edits, which take some minutes
"""
import argparse
import os
import random
import statistics
import subprocess
import sys
import tempfile
import time

sys.path.insert(0, os.path.dirname(os.path.realpath(__file__)))
sys.dont_write_bytecode = True
import flat  # noqa: E402  (found by the path above)

ROWS = 1000
LINES = 10
FEW = 100


class Session:
    """A live session, with its table's rows as they should be, and its last answer."""

    def __init__(self, program, folder):
        words = [program, f"{folder}/program", f"{folder}/tables", "--live"]
        self.run = subprocess.Popen(words, stdin=subprocess.PIPE, stdout=subprocess.PIPE)
        self.rows = {row: (row % 97, row % 89) for row in range(1, ROWS + 1)}
        self.said = b""

    def ask(self, text, lines):
        """Microseconds from sending commands to having so many lines of answers."""
        begun = time.perf_counter()
        os.write(self.run.stdin.fileno(), text)
        self.said = b""
        while self.said.count(b"\n") < lines:
            self.said += os.read(self.run.stdout.fileno(), 65536)
        return (time.perf_counter() - begun) * 1e6

    def edit(self, drawn, deletes):
        """Microseconds of an edit with its run."""
        row = drawn.randint(1, ROWS)
        self.rows[row] = drawn.randint(1, 99), drawn.randint(1, 99)
        deleted = b"del sales %d\n" % row if deletes else b""
        return self.ask(deleted + b"put sales %d %d %d\nrun\n" % (row, *self.rows[row]), 5 + deletes)

    def is_right(self):
        """Whether the last answer is that of the rows as they are."""
        worth = {row: quantity * price for row, (quantity, price) in self.rows.items()}
        best = max(worth, key=lambda row: (worth[row], -row))
        return {b"total %d" % sum(worth.values()), b"top %d %d" % (worth[best], best)} <= set(self.said.splitlines())

    def processor(self):
        """Microseconds for which a processor had the session, once it waits again."""
        time.sleep(0.0002)
        with open(f"/proc/{self.run.pid}/schedstat", encoding="ascii") as file:
            return int(file.read().split()[0]) / 1000

    def memory(self):
        """KiB that the process has."""
        with open(f"/proc/{self.run.pid}/status", encoding="ascii") as file:
            return int(next(line for line in file if line.startswith("VmRSS")).split()[1])


def looked_at(session, drawn):
    """Microseconds of a processor of few edits."""
    took = []
    for turn in range(FEW):
        before = session.processor()
        session.edit(drawn, turn % 10 == 9)
        took.append(session.processor() - before)
    return took


def measure(session, edits):
    """Prints a line for each tenth of so many edits, and gives whether all was right and memory level."""
    drawn, first, right = random.Random(5), None, True
    session.ask(b"run\n", 4)
    begun = statistics.median(session.edit(drawn, turn % 10 == 9) for turn in range(FEW))
    print(f"the first {FEW}: median {begun:.1f} microseconds; of the next a processor's {statistics.median(looked_at(session, drawn)):.1f}", flush=True)
    for line in range(1, LINES + 1):
        behind = [session.edit(drawn, turn % 10 == 9) for turn in range(edits // LINES)][-max(edits // 100, 1) :]
        right, memory = right and session.is_right(), session.memory()
        first = first or memory
        alone = looked_at(session, drawn)
        print(
            f"{edits * line // LINES} edits: {memory} KiB; median {statistics.median(behind):.1f} microseconds,"
            f" of a processor's {statistics.median(alone):.1f}, at most {max(alone):.1f}",
            flush=True,
        )
    return right and session.memory() <= first + first // 100


def main():
    asked = argparse.ArgumentParser(description=__doc__, formatter_class=argparse.RawDescriptionHelpFormatter)
    asked.add_argument("--program", default=f"{flat.TOP}/crates/cilkreport/out/cilkreport")
    asked.add_argument("edits", nargs="?", type=int, default=1_000_000)
    words = asked.parse_args()
    with tempfile.TemporaryDirectory() as folder:
        for name, text in (("program", flat.REPORT), ("tables", flat.tables(ROWS))):
            with open(f"{folder}/{name}", "w", encoding="ascii") as file:
                file.write(text)
        session = Session(os.path.realpath(words.program), folder)
        is_fine = measure(session, words.edits)
        session.run.stdin.close()
        session.run.wait()
    sys.exit(not is_fine)


if __name__ == "__main__":
    main()
