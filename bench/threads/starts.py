#!/usr/bin/env python3
"""Prints how soon this system lets new threads begin, by who starts them.

usage: starts.py [--rounds N]      by default twenty; wants a quiet machine, and the C compiler cc

Microseconds by the clock, the least and the quartiles of so many rounds of starts.c, each a process of its own, and the middle of when each
thread began. Where a new thread stays on its maker's processor for a while, what that one should start comes later still.
"""
import argparse
import os
import subprocess
import tempfile

HERE = os.path.dirname(os.path.realpath(__file__))
WAYS = ["one thread", "all by the first", "the third by the first new one", "each by the one before", "each on a processor of its own", "kept asleep, and woken", "asleep at once, and woken"]


def main():
    asked = argparse.ArgumentParser(description=__doc__, formatter_class=argparse.RawDescriptionHelpFormatter)
    asked.add_argument("--rounds", type=int, default=20)
    rounds = asked.parse_args().rounds
    took = [[] for _ in WAYS]
    with tempfile.TemporaryDirectory() as room:
        subprocess.run(["cc", "-O2", "-pthread", f"{HERE}/starts.c", "-o", f"{room}/starts"], check=True)
        for _ in range(rounds):
            for way, times in enumerate(took):
                said = subprocess.run([f"{room}/starts", str(way)], stdout=subprocess.PIPE, check=True).stdout
                times.append([int(word) for word in said.split()])
    for name, times in zip(WAYS, took):
        first, *begun = [sorted(column) for column in zip(*times)]
        least, low, middle, high = (first[rounds * part // 4] for part in range(4))
        print(f"{name}: least {least}, quartiles {low}, {middle}, {high}; began at {[column[rounds // 2] for column in begun]}")


if __name__ == "__main__":
    main()
