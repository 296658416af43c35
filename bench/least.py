#!/usr/bin/env python3
"""Runs commands in turn, so many times each, and prints the least of what each took: a line `NAME PROCESSOR CLOCK`, in
microseconds of a processor and by the clock.

usage: least.py TIMES < commands

A command is a line whose words are parted by tabs: its name, the file of its standard input, and its words.
"""
import os
import subprocess
import sys
import time


def run(file, words):
    """What a command took, in seconds."""
    with open(file, "rb") as script:
        begun = time.monotonic()
        process = subprocess.Popen(words, stdin=script, stdout=subprocess.DEVNULL)
    _, status, used = os.wait4(process.pid, 0)
    process.returncode = os.waitstatus_to_exitcode(status)
    if process.returncode != 0:
        sys.exit(f"{words}: status {process.returncode}")
    return [used.ru_utime + used.ru_stime, time.monotonic() - begun]


def main():
    times = int(sys.argv[1])
    commands = [line.rstrip("\n").split("\t") for line in sys.stdin]
    least = {}
    for _ in range(times):
        for name, file, *words in commands:
            took = run(file, words)
            least[name] = [min(pair) for pair in zip(took, least.get(name, took))]
    for name, took in least.items():
        print(name, *(f"{seconds * 1e6:.1f}" for seconds in took))


if __name__ == "__main__":
    main()
