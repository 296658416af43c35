#!/usr/bin/env python3
"""Runs the sessions of all askers in turn, and prints a table for each number of rows and each weight of rows.

usage: sessions.py PROGRAM BY_HAND MARKS ROOM ROWS ..      run.sh makes these
"""
import mmap
import os
import re
import struct
import subprocess
import sys

import askers

# How often each session is run, by the number of rows.
TIMES = ((1_000, 25), (10_000, 15), (100_000, 7), (sys.maxsize, 3))


def marks_of(asker, room, preload):
    """A session of cilkreport or of a program by hand: the marks that were noted, and its answers."""
    noted = f"{room}/noted"
    with open(noted, "wb") as file:
        file.truncate(16 * (asker.turns + 2))
    with open(f"{room}/{asker.name}.script", "rb") as script:
        words = {"env": {**os.environ, "LD_PRELOAD": preload, "MARKS": noted}, "stderr": subprocess.DEVNULL}
        answers = subprocess.run(asker.words, stdin=script, stdout=subprocess.PIPE, check=True, **words).stdout
    with open(noted, "rb") as file, mmap.mmap(file.fileno(), 0, access=mmap.ACCESS_READ) as found:
        marks = [(used / 1e6, clock / 1e6) for used, clock in struct.iter_unpack("QQ", found) if clock]
    return marks, re.findall(r"^total (-?\d+)$", answers.decode(), re.M)


def sqlite_marks_of(asker, room):
    """The same of sqlite3, by the times that it tells behind each statement."""
    with open(f"{room}/{asker.name}.script", "rb") as script:
        said = subprocess.run(asker.words, stdin=script, stdout=subprocess.PIPE, check=True).stdout.decode()
    marks, totals, used, elapsed = [], [], 0.0, 0.0
    for line in said.splitlines():
        timed = re.match(r"Run Time: real ([\d.]+) user ([\d.]+) sys ([\d.]+)", line)
        if timed:
            elapsed += float(timed[1]) * 1e3
            used += (float(timed[2]) + float(timed[3])) * 1e3
        elif line == "stats":
            marks.append((used, elapsed))
        else:
            totals.append(line)
    return marks, totals


def took(asker, marks):
    """Milliseconds of the first run and of a turn, each by the processor and by the clock."""
    if len(marks) != asker.turns + 2:
        sys.exit(f"{asker.title}: {len(marks)} marks")
    begun, first, last = marks[0], marks[1], marks[-1]
    return [first[i] - begun[i] for i in (0, 1)] + [(last[i] - first[i]) / asker.turns for i in (0, 1)]


def times_of(rows):
    return next(times for most, times in TIMES if rows <= most)


def write_files(rows, weight, found, room):
    texts = {"tables": askers.tables_text(rows), "halves": askers.halves_report(weight), "whole": askers.whole_report(weight)}
    made = {"query": askers.query_texts, "triggers": askers.trigger_texts}
    for asker in found:
        if asker.is_sqlite:
            texts[f"{asker.name}.script"] = askers.sqlite_script(rows, asker.turns, made[asker.name](weight))
        else:
            texts[f"{asker.name}.script"] = askers.script_text(rows, asker.turns)
    for name, text in texts.items():
        with open(f"{room}/{name}", "w", encoding="ascii") as file:
            file.write(text)


def measure(rows, weight, found, room, preload):
    """The least of what each asker took; stops where one answers something else."""
    write_files(rows, weight, found, room)
    least, wanted = {}, None
    for _ in range(times_of(rows)):
        for asker in found:
            marks, totals = sqlite_marks_of(asker, room) if asker.is_sqlite else marks_of(asker, room, preload)
            wanted = wanted or totals
            if totals != wanted[: asker.turns + 1]:
                sys.exit(f"{asker.title}, {rows} rows: other answers")
            times = took(asker, marks)
            least[asker] = [min(pair) for pair in zip(times, least.get(asker, times))]
    return least


def written(milliseconds):
    return f"{milliseconds:.4f}" if milliseconds < 0.1 else f"{milliseconds:.3g}" if milliseconds < 100 else f"{milliseconds:.0f}"


def ratio(part, whole):
    value = part / whole
    return f"{value:.4f}" if value < 0.01 else f"{value:.3g}" if value < 100 else f"{value:.0f}"


def print_table(rows, weight, least):
    """Processor time, and its ratio to that of the first asker; the clock's is written behind it, but for sqlite3."""
    base = next(iter(least.values()))
    print(f"\n| {rows} {weight} rows, ms of a processor (by the clock) | first run | its ratio | put and run | its ratio |")
    print("|---|---|---|---|---|")
    for asker, (first, first_clock, again, again_clock) in least.items():
        clocks = ("", "") if asker.is_sqlite else (f" ({written(first_clock)})", f" ({written(again_clock)})")
        cells = (asker.title, written(first) + clocks[0], ratio(first, base[0]), written(again) + clocks[1], ratio(again, base[2]))
        print(f"| {' | '.join(cells)} |", flush=True)


def main():
    program, by_hand, preload, room, *counts = sys.argv[1:]
    for rows in map(int, counts):
        for weight in ("light", "heavy"):
            found = askers.askers_of(program, by_hand, rows, weight, room)
            print_table(rows, weight, measure(rows, weight, found, room, preload))


if __name__ == "__main__":
    main()
