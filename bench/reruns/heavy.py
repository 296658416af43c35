#!/usr/bin/env python3
"""Prints how much sooner several workers answer than one behind puts of a hundredth of 100,000 rows, by how much work a row is: each run is
timed by one worker and by several in turn, in live sessions side by side. Beside it stands what the machine itself gives: how much so many
sessions of one worker each do together, asked at the same moment, of what one does alone.

usage: heavy.py [--pairs N] [--workers N] [--rows N] [--steps N] .. PROGRAM ..
                         by default 30 pairs, 4 workers and rows of 78 and 234 steps of a generator of numbers each
"""
import argparse
import os
import random
import statistics
import sys
import tempfile
import time

sys.path.insert(0, os.path.dirname(os.path.realpath(__file__)))
sys.dont_write_bytecode = True
import flat  # noqa: E402  (found by the path above)
import timed  # noqa: E402


def together(sessions):
    """Milliseconds until sessions that are told to run at the same moment have all answered."""
    begun = time.perf_counter()
    for session in sessions:
        session.send("run\n")
    for session in sessions:
        session.read(session.lines)
    took = (time.perf_counter() - begun) * 1000
    for session in sessions:
        session.settle()
    return took


def times_of(alone, many, others, rows, pairs):
    """Of each round the milliseconds that one worker takes, several, and the sessions of one worker each at once; in turn the first of them
    comes first."""
    drawn, found = random.Random(11), []
    ways = [lambda: alone.ask([]), lambda: many.ask([]), lambda: together(others)]
    for turn in range(pairs):
        edits = [timed.put_of(row, row + turn) for row in drawn.sample(range(1, rows + 1), rows // 100)]
        for session in (alone, many, *others):
            session.ask(edits, 0)
        took = {}
        for number in range(len(ways)):
            way = (number + turn) % len(ways)
            took[way] = ways[way]()
        found.append([took[way] for way in range(len(ways))])
    return found


def quartiles_of(numbers):
    low, middle, high = statistics.quantiles(numbers, n=4)
    return f"{middle:.2f} ({low:.2f} to {high:.2f})"


def measure(program, report, rows, workers, pairs, title):
    with tempfile.TemporaryDirectory() as folder:
        timed.write(folder, report, flat.tables(rows))
        sessions = [timed.Session(program, folder, report, count) for count in (1, workers, *[1] * workers)]
        for session in sessions:
            session.ask([])
        alone, many, *others = sessions
        found = times_of(alone, many, others, rows, pairs)
        for session in sessions:
            session.end()
    one, several, all_at_once = zip(*found)
    print(f"{title}: ms by one worker {quartiles_of(one)}, least {min(one):.2f}; by {workers} {quartiles_of(several)}, least {min(several):.2f}")
    print(f"  times as fast, of each pair: {quartiles_of([a / b for a, b in zip(one, several)])}; of the least {min(one) / min(several):.2f}")
    print(f"  what the machine gives: {quartiles_of([workers * a / b for a, b in zip(one, all_at_once)])}", flush=True)


def main():
    asked = argparse.ArgumentParser(description=__doc__, formatter_class=argparse.RawDescriptionHelpFormatter)
    asked.add_argument("--pairs", type=int, default=30)
    asked.add_argument("--workers", type=int, default=4)
    asked.add_argument("--steps", type=int, action="append")
    asked.add_argument("--rows", type=int, default=100_000)
    asked.add_argument("programs", nargs="+")
    words = asked.parse_args()
    for steps in words.steps or [timed.STEPS, 3 * timed.STEPS]:
        for program in map(os.path.realpath, words.programs):
            title = f"{steps} steps, {os.path.basename(os.path.dirname(program))}"
            measure(program, timed.heavy_report(steps), words.rows, words.workers, words.pairs, title)


if __name__ == "__main__":
    main()
