#!/usr/bin/env python3
"""Counts the instructions of reruns of a loop over recorded calls: each rerun alone, with the edit before it, in one live session.

usage: flat.py [--program FILE] [--report FILE] [ROWS ..]    by default ./cilkreport as it is built, and 10000 100000 rows

The report is the flat loop of README over a table of so many rows, or one of your own over the same table. Each line says what was
sent, and how many instructions it took, with what reading the line and writing the answer take, and with the blocks of records that a
live session makes behind an answer. Takes valgrind.
"""
import argparse
import os
import re
import subprocess
import tempfile

TOP = os.path.dirname(os.path.dirname(os.path.dirname(os.path.realpath(__file__))))
REPORT = """reducer total : add;
reducer top : argmax;
memo proc line(r) { v = sales[r].qty * sales[r].price; update total v; update top v, r; return v; }
proc main() { cilk_for r in 1 .. limit sales : line(r); t = read total; return t; }
"""


def tables(rows):
    """The text of a table whose rows are counted from 1."""
    lines = ",\n".join(f"  [{row}, {row % 97}, {row % 89}]" for row in range(1, rows + 1))
    return f'[sales]\ncolumns = ["qty", "price"]\nrows = [\n{lines}\n]\n'


def steps(rows):
    """What is done, in order: commands of a session, each list counted as one."""
    middle = rows // 2 + 7
    yield ["run"]
    for row in (5, middle, rows - 3, rows // 3):
        yield [f"put sales {row} 9 7", "run"]
    yield [f"put sales {middle} 9 8"]
    yield [f"put sales {middle} 9 7", "run"]
    yield [f"put sales {rows + 1} 1 1", "run"]
    yield ["define", "proc main() { cilk_for r in 1 .. limit sales : line(r); return 0; }", "end", "run"]
    yield ["run"]


class Session:
    """A live session of the program below callgrind, which counts only while it is told to."""

    def __init__(self, program, folder):
        self.out = f"{folder}/out"
        words = ["valgrind", "--tool=callgrind", "--instr-atstart=no", f"--callgrind-out-file={self.out}"]
        words += [program, f"{folder}/program", f"{folder}/tables", "--live"]
        self.run = subprocess.Popen(words, stdin=subprocess.PIPE, stdout=subprocess.PIPE, stderr=subprocess.DEVNULL, text=True)

    def answer(self, commands, reducers):
        """Sends commands, and reads their answers."""
        self.run.stdin.write("".join(f"{command}\n" for command in commands))
        self.run.stdin.flush()
        edits = sum(command.startswith(("put", "end")) for command in commands)
        for _ in range(edits + commands.count("run") * (2 + reducers)):
            self.run.stdout.readline()

    def settle(self):
        """Waits until the session reads again: what it does behind an answer is done before the next line's."""
        self.run.stdin.write("settled\n")
        self.run.stdin.flush()
        self.run.stdout.readline()

    def control(self, *words):
        subprocess.run(["callgrind_control", *words, str(self.run.pid)], check=True, stdout=subprocess.DEVNULL, stderr=subprocess.DEVNULL)

    def counted(self, commands, reducers):
        """The instructions that these commands take."""
        before = set(os.listdir(os.path.dirname(self.out)))
        self.control("--instr=on")
        self.answer(commands, reducers)
        self.settle()
        self.control("--dump")
        self.control("--instr=off")
        found = [name for name in os.listdir(os.path.dirname(self.out)) if name not in before]
        texts = [open(f"{os.path.dirname(self.out)}/{name}", encoding="utf-8").read() for name in found]
        return sum(int(total) for text in texts for total in re.findall(r"^totals: (\d+)", text, re.M))


def begun(program, folder, report, rows):
    """A session of that report over so many rows, with its files in that folder."""
    for name, text in (("program", report), ("tables", tables(rows))):
        with open(f"{folder}/{name}", "w", encoding="utf-8") as file:
            file.write(text)
    return Session(program, folder)


def measure(program, report, rows):
    """Prints a line for each step of a session over so many rows."""
    reducers = report.count("reducer ")
    with tempfile.TemporaryDirectory() as folder:
        session = begun(program, folder, report, rows)
        session.answer(["run"], reducers)
        session.settle()
        settling = session.counted([], reducers)
        for commands in steps(rows):
            print(f"{rows} rows: {', '.join(commands)}: {session.counted(commands, reducers) - settling:,}", flush=True)
        session.run.stdin.close()
        session.run.wait()


def main():
    parser = argparse.ArgumentParser(description=__doc__, formatter_class=argparse.RawDescriptionHelpFormatter)
    parser.add_argument("--program", default=f"{TOP}/crates/cilkreport/out/cilkreport")
    parser.add_argument("--report")
    parser.add_argument("rows", nargs="*", type=int, default=[10_000, 100_000])
    words = parser.parse_args()
    report = REPORT
    if words.report:
        with open(words.report, encoding="utf-8") as file:
            report = file.read()
    for rows in words.rows:
        measure(os.path.realpath(words.program), report, rows)


if __name__ == "__main__":
    main()
