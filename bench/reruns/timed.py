#!/usr/bin/env python3
"""Prints what a user of a live session waits for: milliseconds from sending commands to having their answers.

usage: timed.py [--rounds N] [--short] PROGRAM ..     six sessions of each program in turn by default; --short leaves out what is long

Of each report the least of all sessions, and of a put with the run behind it the median of a session's puts too:
- the flat loop of README over 100,000 and 1,000,000 rows: the first run, a run again, a put of a row and the run behind it, by one
  worker and by four;
- a hand-written tree of ranges over 100,000 rows: a put of a row and the run behind it;
- 100,000 heavy rows, 78 steps of a generator of numbers each, grain 16, of which 1 % are put: the run behind them, by 1, 2 and 4 workers.
"""
import argparse
import os
import random
import statistics
import subprocess
import sys
import tempfile
import time

sys.path.insert(0, os.path.dirname(os.path.realpath(__file__)))
sys.path.insert(0, os.path.join(os.path.dirname(os.path.dirname(os.path.realpath(__file__))), "reports"))
sys.dont_write_bytecode = True
import askers  # noqa: E402  (found by the paths above)
import flat  # noqa: E402

PUTS = 40
STEPS = 78
HEAVY = """reducer total : add;
memo proc line(r) {{ x0 = sales[r].qty; {steps}update total x{last} * sales[r].price; }}
proc main() {{ cilk_for r in 1 .. limit sales grain 16 : line(r); t = read total; return t; }}
"""


def heavy_report(count=STEPS):
    """A report of rows that take so many steps of the generator each."""
    steps = "".join(f"x{i} = (x{i - 1} * 1103 + 12345) % 65536; " for i in range(1, count + 1))
    return HEAVY.format(steps=steps, last=count)


class Session:
    """A live session whose answers are waited for."""

    def __init__(self, program, folder, report, workers):
        self.lines = 2 + report.count("reducer ")
        words = [program, f"{folder}/program", f"{folder}/tables", "--live", "--workers", str(workers), "--kits", "256"]
        self.run = subprocess.Popen(words, stdin=subprocess.PIPE, stdout=subprocess.PIPE, stderr=subprocess.DEVNULL, text=True)
        self.ask([], 0)

    def send(self, text):
        self.run.stdin.write(text)
        self.run.stdin.flush()

    def read(self, lines):
        for _ in range(lines):
            self.run.stdout.readline()

    def settle(self):
        """Waits until the session reads again, which the answer to a line that is no command shows."""
        self.send("settled\n")
        self.read(1)

    def ask(self, edits, runs=1):
        """Milliseconds until the answers to edits and so many runs are there."""
        begun = time.perf_counter()
        self.send("".join(f"{edit}\n" for edit in edits) + "run\n" * runs)
        self.read(len(edits) + self.lines * runs)
        took = (time.perf_counter() - begun) * 1000
        self.settle()
        return took

    def end(self):
        self.run.stdin.close()
        self.run.wait()


def put_of(row, turn):
    return f"put sales {row} {turn % 90 + 2} {turn % 7 + 3}"


def single_puts(program, folder, report, rows, workers):
    """The first run, a run again, and the puts of a session."""
    session = Session(program, folder, report, workers)
    drawn = random.Random(7)
    first = session.ask([])
    again = min(session.ask([]) for _ in range(8))
    puts = [session.ask([put_of(drawn.randint(1, rows), turn)]) for turn in range(PUTS)]
    session.end()
    return {"first run": first, "run again": again, "put and run, least": min(puts), "put and run, median": statistics.median(puts)}


def many_puts(program, folder, report, rows, workers):
    """The run behind puts of a hundredth of the rows, twice."""
    session = Session(program, folder, report, workers)
    drawn = random.Random(11)
    first = session.ask([])
    session.ask([])
    behind = []
    for turn in range(3):
        session.ask([put_of(row, row + turn) for row in drawn.sample(range(1, rows + 1), rows // 100)], 0)
        behind.append(session.ask([]))
    session.end()
    return {"first run": first, "run behind 1 % put": min(behind)}


def write(folder, report, tables):
    for name, text in (("program", report), ("tables", tables)):
        with open(f"{folder}/{name}", "w", encoding="ascii") as file:
            file.write(text)


def measure(title, ask, programs, report, tables, rows, workers, rounds):
    with tempfile.TemporaryDirectory() as folder:
        write(folder, report, tables)
        least = [{} for _ in programs]
        for _ in range(rounds):
            for program, found in zip(programs, least):
                for name, took in ask(program, folder, report, rows, workers).items():
                    found[name] = min(took, found.get(name, took))
    for name in least[0]:
        print(f"{title}, {workers} worker{'s' * (workers > 1)}: {name}: " + ", ".join(f"{found[name]:.3f}" for found in least), flush=True)


def main():
    asked = argparse.ArgumentParser(description=__doc__, formatter_class=argparse.RawDescriptionHelpFormatter)
    asked.add_argument("--rounds", type=int, default=6)
    asked.add_argument("--short", action="store_true")
    asked.add_argument("programs", nargs="+")
    words = asked.parse_args()
    programs = [os.path.realpath(program) for program in words.programs]
    some, many = 100_000, 1_000_000
    for workers in (1, 4):
        measure("flat, 100,000 rows", single_puts, programs, flat.REPORT, flat.tables(some), some, workers, words.rounds)
    measure("tree, 100,000 rows", single_puts, programs, askers.halves_report("light"), askers.tables_text(some), some, 1, words.rounds)
    for workers in (1, 2, 4):
        measure("heavy rows", many_puts, programs, heavy_report(), flat.tables(some), some, workers, words.rounds)
    if not words.short:
        for workers in (1, 4):
            measure("flat, 1,000,000 rows", single_puts, programs, flat.REPORT, flat.tables(many), many, workers, min(2, words.rounds))


if __name__ == "__main__":
    main()
