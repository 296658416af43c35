#!/usr/bin/env python3
"""Prints how long runs take by 1, 2 and 4 workers, and which share that is of what the machine gives.

usage: speed.py [--rounds N] [--only WORD] [PROGRAM]      by default 60 rounds of each report by ./cilkreport as it is built; wants a quiet
                                                          machine; with WORD only the reports that have it in their names

Milliseconds by the clock. In each round each way takes its turn, and so does the session without the run, which is taken off at once. What
the machine gives is how many times as much four sessions of one worker each do at once as one of them does: less than 4 where processors
share what they have, or others work. The share is how many times as fast four workers are as one, of that: so it says of one round how long
four sessions at once took, beside four times what four workers took in the next moment.

Each figure is the middle of the rounds' figures; the quartiles of the shares stand behind them. The least of each way would be of moments
minutes apart: where a machine is twice as fast in one second as in the next, the ratio of two of these says nothing.
"""
import argparse
import os
import statistics
import subprocess
import tempfile
import time

TOP = os.path.dirname(os.path.dirname(os.path.dirname(os.path.realpath(__file__))))
KITS = 64
AT_ONCE = 4


def steps(count):
    """So many steps of a generator of numbers, from x0 on: some 2 us for 78."""
    return "".join(f"x{i} = (x{i - 1} * 1103 + 12345) % 65536; " for i in range(1, count + 1))


def rows(count, grain, steps_each, word=""):
    """A loop over so many rows, in pieces of so many, each of which takes so many steps."""
    return f"""reducer total : add;
{word}proc row(i) {{ x0 = i; {steps(steps_each)}update total x{steps_each}; }}
proc main() {{ cilk_for i in 0 .. {count} grain {grain} : row(i); t = read total; return t; }}
"""


def fib(number):
    return f"""proc fib(n) {{ if n < 2 {{ return n; }} x = spawn fib(n - 1); y = call fib(n - 2); sync; return x + y; }}
proc main() {{ x = call fib({number}); return x; }}
"""


REPORTS = {
    "100,000 rows of 78 steps, grain 16": rows(100_000, 16, 78),
    "the same with a record for each row": rows(100_000, 16, 78, "memo "),
    "1,000,000 light rows, grain 1": rows(1_000_000, 1, 0),
    "the same, grain 64": rows(1_000_000, 64, 0),
    "the same, grain 1024": rows(1_000_000, 1024, 0),
    "fib(25) with spawns": fib(25),
}


def session(program, room, workers, script):
    """Begins a session."""
    words = [program, f"{room}/report", f"{room}/tables", "--workers", str(workers), "--kits", str(KITS)]
    with open(f"{room}/{script}", "rb") as lines:
        return subprocess.Popen(words, stdin=lines, stdout=subprocess.DEVNULL)


def took(program, room, workers, sessions, script):
    """Milliseconds until so many sessions, begun at once, are all over."""
    begun = time.monotonic()
    for run in [session(program, room, workers, script) for _ in range(sessions)]:
        if run.wait():
            raise SystemExit(f"a session ended with status {run.returncode}")
    return (time.monotonic() - begun) * 1000


def spent(program, room, rounds):
    """What a run took in each round, by how many workers in how many sessions at once. The ways take their turns forth and back."""
    ways = [(1, 1), (2, 1), (4, 1), (1, AT_ONCE)]
    times = {way: [] for way in ways}
    for turn in range(rounds):
        for way in ways[:: -1 if turn % 2 else 1]:
            once, nothing = (took(program, room, *way, script) for script in ("once", "nothing"))
            times[way].append(once - nothing)
    return [times[way] for way in ways]


def middle(figures):
    return statistics.median(figures)


def line(title, one, two, four, at_once):
    """A line of the table, of what the rounds took."""
    faster = middle([alone / together for alone, together in zip(one, four)])
    gives = middle([AT_ONCE * alone / together for alone, together in zip(one, at_once)])
    low, share, high = statistics.quantiles([apart / AT_ONCE / together for apart, together in zip(at_once, four)], n=4)
    times = " | ".join(f"{middle(way):.1f}" for way in (one, two, four))
    return f"| {title} | {times} | {faster:.2f} | {gives:.2f} | {share:.2f} | {low:.2f} to {high:.2f} |"


def main():
    asked = argparse.ArgumentParser(description=__doc__, formatter_class=argparse.RawDescriptionHelpFormatter)
    asked.add_argument("--rounds", type=int, default=60)
    asked.add_argument("--only", default="")
    asked.add_argument("program", nargs="?", default=f"{TOP}/crates/cilkreport/out/cilkreport")
    words = asked.parse_args()
    program = os.path.realpath(words.program)
    print("| ms | 1 worker | 2 workers | 4 workers | 1 to 4 | the machine gives | share | its quartiles |\n|---|---|---|---|---|---|---|---|")
    with tempfile.TemporaryDirectory() as room:
        for name, text in (("tables", ""), ("nothing", ""), ("once", "run\n")):
            with open(f"{room}/{name}", "w", encoding="ascii") as file:
                file.write(text)
        for title, report in REPORTS.items():
            if words.only not in title:
                continue
            with open(f"{room}/report", "w", encoding="ascii") as file:
                file.write(report)
            print(line(title, *spent(program, room, words.rounds)), flush=True)


if __name__ == "__main__":
    main()
