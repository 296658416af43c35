#!/usr/bin/env python3
"""Counts the instructions of a run behind puts of a tenth of the rows, beside the first run: where these rows lie together, and where every
tenth is put. The report is the flat loop of README, one worker, a live session, with the blocks of records that are made behind an answer.

usage: tenth.py [--program FILE] [--rows N]     by default ./cilkreport as it is built, and 20000 rows; takes valgrind
"""
import argparse
import os
import sys
import tempfile

sys.path.insert(0, os.path.dirname(os.path.realpath(__file__)))
sys.dont_write_bytecode = True
import flat  # noqa: E402  (found by the path above)


def measure(program, rows, title, chosen):
    """Prints what the first run, the puts and the run behind them take."""
    reducers = flat.REPORT.count("reducer ")
    with tempfile.TemporaryDirectory() as folder:
        session = flat.begun(program, folder, flat.REPORT, rows)
        session.settle()
        settling = session.counted([], reducers)
        first = session.counted(["run"], reducers) - settling
        session.answer(["run"], reducers)
        session.settle()
        puts = session.counted([f"put sales {row} 9 {7 + row % 5}" for row in chosen], reducers) - settling
        behind = session.counted(["run"], reducers) - settling
        print(f"{title}: first run {first:,}, puts {puts:,}, run behind them {behind:,}: {behind / first:.2f} of the first", flush=True)
        session.run.stdin.close()
        session.run.wait()


def main():
    asked = argparse.ArgumentParser(description=__doc__, formatter_class=argparse.RawDescriptionHelpFormatter)
    asked.add_argument("--program", default=f"{flat.TOP}/crates/cilkreport/out/cilkreport")
    asked.add_argument("--rows", type=int, default=20_000)
    words = asked.parse_args()
    program, rows = os.path.realpath(words.program), words.rows
    measure(program, rows, "together", range(rows // 4 + 1, rows // 4 + rows // 10 + 1))
    measure(program, rows, "spread", range(5, rows + 1, 10))


if __name__ == "__main__":
    main()
