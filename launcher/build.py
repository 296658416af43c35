"""Proves and builds cilkreport, and says on standard error how far it is.

Only the crates that the program stands on are proved, without their must-fail edits, in a copy of the repository, by
`rt ci` as launcher/prove.py runs it: it works on as many crates side by side as there are processors, the longest chain
of crates first, and gives the processors that no other crate waits for to the proofs that begin. What it printed is kept
in out/build.log.
"""
import os
import re
import shutil
import subprocess
import sys
import tempfile
import threading
import time

from builds import PROVED, in_a_group, in_turn
from sources import PARTS, PROGRAM, TOP, crates_below, lines_for, sum_of

LOG = f"{TOP}/out/build.log"
# What the proofs took on a machine with 4 cores, in minutes: of all processors together, and by the clock.
WORK, CHAIN = 74, 30


def copy_to(room, crates):
    """Copies the crates and what tells `rt ci` of them."""
    for name in crates:
        for part in PARTS:
            source, target = f"{TOP}/crates/{name}/{part}", f"{room}/crates/{name}/{part}"
            if os.path.isdir(source):
                shutil.copytree(source, target)
            elif os.path.isfile(source):
                os.makedirs(os.path.dirname(target), exist_ok=True)
                shutil.copyfile(source, target)
    shutil.copyfile(f"{TOP}/HANDLES", f"{room}/HANDLES")
    with open(f"{room}/crates.txt", "w", encoding="utf-8") as file:
        file.writelines(lines_for(crates))


def crates_in_work(room):
    """The crates in whose folders a process works now."""
    found, start = set(), f"{os.path.realpath(room)}/crates/"
    for process in filter(str.isdigit, os.listdir("/proc")):
        try:
            folder = os.readlink(f"/proc/{process}/cwd")
        except OSError:
            continue
        if folder.startswith(start):
            found.add(folder[len(start) :].split("/")[0])
    return sorted(found)


class Progress:
    """What is said while the crates are proved: a line for each crate that is, and one each half minute."""

    def __init__(self, room, count):
        self.room, self.count, self.done, self.begun = room, count, 0, time.monotonic()
        self.is_over = threading.Event()
        threading.Thread(target=self.repeat, daemon=True).start()

    def say(self, what):
        elapsed = int(time.monotonic() - self.begun)
        now = ", ".join(crates_in_work(self.room)) or "nothing"
        print(
            f"[{elapsed // 60:2}:{elapsed % 60:02}] {self.done} of {self.count} crates proved{what}; at work on {now}",
            file=sys.stderr,
            flush=True,
        )

    def repeat(self):
        while not self.is_over.wait(30):
            self.say("")

    def proved(self, name, is_kept):
        """Counts a crate, and tells of it unless an earlier run has proved it."""
        self.done += 1
        if not is_kept:
            self.say(f" ({name})")


def prove(room, count):
    """Runs the gate in the copy, and returns whether everything was proved and the program ran."""
    how = {"stdout": subprocess.PIPE, "stderr": subprocess.STDOUT, "text": True, "errors": "replace"}
    with in_a_group([sys.executable, f"{TOP}/launcher/prove.py"], cwd=room, **how) as gate, open(LOG, "w", encoding="utf-8") as log:
        progress = Progress(room, count)
        try:
            for line in gate.stdout:
                log.write(line)
                log.flush()
                found = re.match(r"rt: (\w+) (proved$|is kept)", line)
                if found:
                    progress.proved(found[1], is_kept=found[2] == "is kept")
        finally:
            progress.is_over.set()
        return gate.wait() == 0


def announce(count):
    """Says how long it will take, before anything is done."""
    minutes = max(CHAIN, WORK // len(os.sched_getaffinity(0)))
    print(
        f"building {PROGRAM}: {count} crates are proved first, which takes about {minutes} minutes where none of them was proved on this machine before.\n"
        f"./{PROGRAM} --quick PROGRAM TABLES .. answers in one to two minutes, with run-time checks and without any proof.\n"
        f"The log is {LOG}",
        file=sys.stderr,
        flush=True,
    )


def build():
    """Proves the sources as they are and builds the program from them, whatever stands built, and returns a status."""
    if not shutil.which("rt"):
        print(f"{PROGRAM} is built by the Rattle kit, and its command rt is not on the path", file=sys.stderr)
        return 69
    crates = crates_below()
    os.makedirs(os.path.dirname(LOG), exist_ok=True)
    announce(len(crates))
    with tempfile.TemporaryDirectory(prefix=f"{PROGRAM}-") as room:
        copy_to(room, crates)
        sources = sum_of(room)
        if not prove(room, len(crates)):
            print(f"{PROGRAM} could not be built: {LOG} says why", file=sys.stderr)
            return 70
        PROVED.put(f"{room}/crates/{PROGRAM}/out/{PROGRAM}", sources)
    return 0


def build_lacking():
    """The same, but where another process has built it meanwhile."""
    with in_turn(f"{TOP}/out/build.lock"):
        return build() if PROVED.lack(sum_of()) else 0
