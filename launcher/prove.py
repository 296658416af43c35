#!/usr/bin/env python3
"""Runs `rt ci`, so that the proofs that most others wait for have all processors.

`rt ci` shares idle processors among all its tasks that are ready. The tests of crates that have none are over at once, but
they count, so a proof that nothing else runs beside gets one processor alone. Here they come after all others, but for those
of crates with edits, which wait for them. And a proof keeps the processors that it began with, of which a large one gets one,
since each is reckoned to take the memory that the first one does. Here each proof of the longest chain, and of those that are
nearly as long, gets two where there are four processors and memory holds them: the second shares what the first has loaded. It gets
up to four where no other task would wait for these: such a proof is at work alone for minutes, since all that is left waits for it,
and four jobs take no more of the processors than two for the same work. All else stands back, the further the less work its
longest chain has, and gets what these proofs leave of the processors: beside equals they have half of one for each job. A program
comes before the tests that are ready by then, which would go first, being longer: its sessions and figures wait for it. Must-fail
edits are tried together, over what the crate's proof has checked (launcher/together.py). What is below a crate is found once, which
rt finds anew at each look, a minute and a half in all before its first proof. And by a signal it is asked to end once what is at work
has ended, for a run in another folder (launcher/handover.py).
Where rt's files are made otherwise than this knows of, this is `rt ci` and no more.
"""
import contextlib
import importlib.machinery
import importlib.util
import os
import shutil
import sys
import threading
from concurrent.futures import ThreadPoolExecutor

TOP = os.path.dirname(os.path.dirname(os.path.realpath(__file__)))
sys.path.insert(0, f"{TOP}/launcher")
import handover  # noqa: E402  (found by the path above)
import together  # noqa: E402
from proved_modules import ProvedModules  # noqa: E402

# What the first job of a proof takes of memory at most, and what each further one takes beside it, in bytes.
FIRST, FURTHER = 3_500_000_000, 1_000_000_000
# What part of the longest chain's work makes another one long.
LONG = 0.85
# How far behind such a chain all others stand at most, as `nice` counts it, and how far for each part of the longest chain's work that a chain
# lacks to be long: what a long one waits for soon would come too late if it stood as far behind as what nobody waits for.
BEHIND, LACKING = 10, 60
# How many jobs a proof of a long chain has at most beside other tasks, for how many processors it has each, and how many it has at most
# where no other task would wait.
BESIDE, EACH, MOST = 2, 2, 4


def loaded(path):
    """The program at that path as a module."""
    loader = importlib.machinery.SourceFileLoader("rt", path)
    module = importlib.util.module_from_spec(importlib.util.spec_from_loader("rt", loader))
    sys.path.insert(0, path.rpartition("/")[0])
    loader.exec_module(module)
    return module


def found_once(crate_type):
    """Has crates of that type find once which libraries are below them: rt walks along all ways that lead down, more than a million."""
    walk = crate_type.below

    def below(crate):
        if "libraries_below" not in vars(crate):
            crate.libraries_below = walk(crate)
        return [*crate.libraries_below]

    crate_type.below = below


def summed_once(crate_type):
    """Has a sum of all that a crate of that type is made of, the crates below it too, read each of these once: by one build of the kit (13b) it
    reads them along each way that leads down."""
    made_of, at_work = crate_type.stamp, threading.local()

    def stamp(crate):
        sums = getattr(at_work, "sums", None)
        if sums is None:
            at_work.sums = {}
            try:
                return stamp(crate)
            finally:
                at_work.sums = None
        if crate.folder not in sums:
            sums[crate.folder] = made_of(crate)
        return sums[crate.folder]

    crate_type.stamp = stamp


def kind_of(name):
    """What is done in a task: a proof, tests, edits, the check that these begin with, or what is left to do behind them."""
    return name[1]


def parts_of_longest(tasks):
    """What part of the longest chain's work the longest one through each task has; each task comes after those that it waits for."""
    ahead, behind = {}, {}
    for name, (before, work, *_) in tasks.items():
        ahead[name] = work + max((ahead[other] for other in before), default=0)
    for name in reversed([*tasks]):
        before, work, *_ = tasks[name]
        behind[name] = work + behind.get(name, 0)
        for other in before:
            behind[other] = max(behind.get(other, 0), behind[name])
    longest = max(behind.values(), default=0) or 1
    return {name: (ahead[name] + behind[name] - work) / longest for name, (_, work, *_) in tasks.items()}


def on_long_chains(parts):
    """The proofs and tests of chains with nearly as much as the longest one's work, by what part of it each has."""
    return {name for name, part in parts.items() if part >= LONG and kind_of(name) in ("proof", "tests")}


def niceness_of(part):
    """How far a task of no long chain stands back whose longest chain has that part of the longest one's work; edits do so all the way."""
    return BEHIND if part >= LONG else min(BEHIND, round((LONG - part) * LACKING))


def part_of_each(rt, tasks, chains, given):
    """How many processors a proof of these chains has where each other task that is at work, or could be, has one, by what was given so far.

    Tests of crates that have none are over at once.
    """
    can_be = {
        name
        for name, (before, work, *_) in tasks.items()
        if name not in given and (work or kind_of(name) != "tests") and all(other in given for other in before)
    }
    return (rt.processors() - len(can_be - chains)) // max(len(can_be & chains), 1)


def with_jobs(rt, tasks, chains):
    """The tasks, where those of these chains have more jobs, as many as the memory that is free by then holds."""

    def call_of(call):
        def run(given, jobs):
            held = 1 + int((rt.free() - FIRST) / FURTHER)
            beside = min(BESIDE, rt.processors() // EACH)
            alone = min(MOST, part_of_each(rt, tasks, chains, given))
            return call(given, max(jobs, min(held, max(beside, alone))))

        return run

    return {name: (*task, call_of(call) if name in chains else call) for name, (*task, call) in tasks.items()}


def stand_back(niceness):
    """Has this thread, and all processes that it starts from now on, stand so far behind the others. There is no way back for it."""
    with contextlib.suppress(OSError):
        own = threading.get_native_id()
        os.setpriority(os.PRIO_PROCESS, own, min(os.getpriority(os.PRIO_PROCESS, own) + niceness, 19))


def standing_back(call, niceness):
    """The call, by a thread of its own that stands so far back."""

    def run(given, jobs):
        with ThreadPoolExecutor(1, initializer=stand_back, initargs=(niceness,)) as thread:
            return thread.submit(call, given, jobs).result()

    return run


def with_others_behind(tasks, chains, parts):
    """The tasks, where those of no such chain stand back, by what part of the longest one's work theirs have."""
    return {
        name: (*task, call if name in chains else standing_back(call, niceness_of(parts.get(name, 0))))
        for name, (*task, call) in tasks.items()
    }


def is_program(crate):
    """Whether the crate of that name is a program."""
    return os.path.exists(f"{TOP}/crates/{crate}/src/main.rt")


def programs_first(tasks):
    """The tasks, where each program counts for as much as the largest crate with tests, so that none of these comes before it."""
    largest = max((work for name, (_, work, *_) in tasks.items() if kind_of(name) == "tests"), default=0)
    return {
        name: (before, work + largest * (kind_of(name) == "proof" and is_program(name[0])), *rest)
        for name, (before, work, *rest) in tasks.items()
    }


def without_work(tasks):
    """The tests of crates that have none, as far as no other task waits for them."""
    waited_for = {other for before, *_ in tasks.values() for other in before}
    return [name for name, (_, work, *_) in tasks.items() if kind_of(name) == "tests" and not work and name not in waited_for]


def work_first(rt, in_lanes):
    """The same, with the tasks that have no work behind the others. A task is what it waits for, its work, its memory, and a call."""

    def run(tasks):
        behind = without_work(tasks)
        left = {name: task for name, task in tasks.items() if name not in behind}
        parts = parts_of_longest(left)
        chains = on_long_chains(parts)
        given = in_lanes(with_others_behind(with_jobs(rt, together.behind_proofs(programs_first(left)), chains), chains, parts))
        for name in behind:
            *_, call = tasks[name]
            given[name] = call(given, 1)
        return given

    return run


def with_edits(top):
    """The names of the crates below that folder that have must-fail edits."""
    return [name for name in os.listdir(f"{top}/crates") if os.path.isdir(f"{top}/crates/{name}/must-fail")]


def main():
    path, here = os.path.realpath(shutil.which("rt")), os.path.realpath(".")
    rt = loaded(path)
    if all(hasattr(rt, name) for name in ("in_lanes", "ending")):
        handover.begin(rt)
    if all(hasattr(rt, name) for name in ("in_lanes", "free", "processors")):
        rt.in_lanes = work_first(rt, rt.in_lanes)
    if hasattr(getattr(rt, "rtlib", None), "Crate"):
        found_once(rt.rtlib.Crate)
        if hasattr(rt.rtlib.Crate, "stamp"):
            summed_once(rt.rtlib.Crate)
    with ProvedModules(here, os.path.dirname(os.path.dirname(path)), with_edits(here)) as modules:
        together.begin(rt, modules)
        return rt.main(["ci"])


if __name__ == "__main__":
    sys.exit(main())
