#!/usr/bin/env python3
"""Checks one crate over libraries that are kept by their content, so that a library is proved once and not once a clone.

usage: tools/check.py CRATE [FLAGS OF rattle check ..]   proves the crate: --only FN, --allow-holes, --test, --jobs N ..
       tools/check.py CRATE --lib                        proves it and keeps its library for the crates above
       tools/check.py CRATE --run [WORD]                 proves, builds and runs its tests, those whose names have WORD
       tools/check.py CRATE --edits [EDIT ..]            tries its must-fail edits, all together: each has to be refused
       tools/check.py CRATE --plant [FLAGS OF rt plant]  lists the wrong bodies that its contracts let through
       tools/check.py --type CRATE ..                    reads the crates and their tests from sources: types and borrows
       tools/check.py --beside FOLDER LOG                stays beside `rt ci` in that clone until its log ends, and keeps what it proves: its
                                                         libraries, and its modules, so that no crate's first check here begins from nothing

Libraries below that aren't kept yet are proved first. They are kept in $HEARTSPLUM_LIBRARIES, or ~/.cache/heartsplum, by
the sum of the sources that they are made of; rt's own checks know nothing of them. $HEARTSPLUM_JOBS says how many
processors a proof takes, else one. What a check has proved of the crate
itself stays in the crate's folder out/, so a check again takes seconds. None of this is a verdict: the gate is `rt ci`.
It works by what this kit's rt is made of, and says so where that is otherwise.
"""
import fcntl
import glob
import importlib.machinery
import importlib.util
import os
import re
import shutil
import sys
import tempfile
import time

TOP = os.path.dirname(os.path.dirname(os.path.realpath(__file__)))
KEPT_IN = os.environ.get("HEARTSPLUM_LIBRARIES", os.path.expanduser("~/.cache/heartsplum"))
JOBS = ["--jobs", os.environ.get("HEARTSPLUM_JOBS", "1")]
KIT = os.path.dirname(os.path.realpath(shutil.which("rt") or sys.exit("rt is not on the path")))


def program(name):
    """A program of the kit as a module."""
    loader = importlib.machinery.SourceFileLoader(name.replace("-", "_"), f"{KIT}/{name}")
    module = importlib.util.module_from_spec(importlib.util.spec_from_loader(loader.name, loader))
    loader.exec_module(module)
    return module


sys.path[:0] = [KIT, f"{TOP}/launcher"]
sys.dont_write_bytecode = True
import rtlib  # noqa: E402  (found by the path above)
import together  # noqa: E402

if not all(hasattr(rtlib, name) for name in ("Crate", "RATTLE", "KEPT", "guarded")):
    sys.exit("this kit's rt is made otherwise than this tool knows of")


def keeps_libraries(crate_type):
    """Has crates of that type read the libraries below them from where they are kept."""
    made_of, crate_type.sums = crate_type.stamp, {}

    def stamp(self):
        if self.folder not in self.sums:
            self.sums[self.folder] = made_of(self)
        return self.sums[self.folder]

    def library(self):
        return f"{KEPT_IN}/{self.name}/{stamp(self)[:24]}/{self.name}.rlib"

    crate_type.stamp = stamp
    crate_type.rlib = property(library, lambda self, path: None)
    crate_type.is_built = lambda self: os.path.isdir(self.rlib)
    crate_type.build_rlib = lambda self, flags, anew: make(self)


def make(crate):
    """Proves the crate, and keeps its library; the work stays in the crate's out/ too."""
    room, file = os.path.split(crate.rlib)
    os.makedirs(os.path.dirname(room), exist_ok=True)
    with open(f"{room}.lock", "w", encoding="utf-8") as lock:
        fcntl.flock(lock, fcntl.LOCK_EX)
        if os.path.isdir(crate.rlib):
            return 0
        print(f"making the library {crate.name}", flush=True)
        begin_with_kept(crate)
        made = tempfile.mkdtemp(dir=os.path.dirname(room))
        words = [*crate.words(JOBS, keeps=False), *rtlib.KEPT]
        status = crate.call(rtlib.RATTLE, "build", *words, "-o", f"{made}/{file}")
        crate.sums.clear()
        if status or os.path.dirname(crate.rlib) != room:
            shutil.rmtree(made)
            return status or print("the sources were changed meanwhile: once more") or 1
        # (one that was taken from a gate meanwhile stays: the gate's libraries above stand on it)
        if os.path.isdir(crate.rlib):
            shutil.rmtree(made)
        else:
            os.rename(made, room)
        return 0


def take(folder, log):
    """Keeps the libraries that `rt ci` has made in a clone, of each crate of which the log says that it is proved or kept."""
    with open(log, encoding="utf-8") as file:
        proved = sorted(set(re.findall(r"^rt: (\w+) (?:proved$|is kept)", file.read(), re.M)))
    for name in proved:
        crate = rtlib.Crate(f"{folder}/crates/{name}", folder, {})
        made, room = f"{crate.folder}/out/rlib/{name}.rlib", os.path.dirname(crate.rlib)
        if os.path.isdir(made) and not os.path.isdir(room):
            # (what another one that was ended has left half copied is in nobody's way)
            os.makedirs(os.path.dirname(room), exist_ok=True)
            copied = tempfile.mkdtemp(dir=os.path.dirname(room))
            shutil.copytree(made, f"{copied}/{name}.rlib", symlinks=True)
            if os.path.isdir(room):
                shutil.rmtree(copied)
            else:
                os.rename(copied, room)
                print(f"took the library {name}", flush=True)
    return 0


def keep_modules(folder, seen):
    """Keeps the modules that checks in a clone have saved by now: rattle has them in a folder of its own, and drops it at its end."""
    for its in glob.glob(f"{tempfile.gettempdir()}/rattle-logic-built-locked-*"):
        process = its.split("-")[-2]
        try:
            with open(f"/proc/{process}/cmdline", encoding="utf-8", errors="replace") as file:
                words = file.read().split("\0")
            at = os.readlink(f"/proc/{process}/cwd")
            if not at.startswith(f"{folder}/crates/") or "--crate-name" not in words:
                continue
            kept = f"{KEPT_IN}/{words[words.index('--crate-name') + 1]}/modules"
            os.makedirs(kept, exist_ok=True)
            for entry in os.scandir(its):
                if entry.path not in seen and entry.name.endswith(".oantt"):
                    if os.path.exists(f"{kept}/{entry.name}"):
                        os.remove(f"{kept}/{entry.name}")
                    os.link(entry.path, f"{kept}/{entry.name}")
                    seen.add(entry.path)
        except OSError:
            continue


def beside(folder, log):
    """Keeps libraries and modules of `rt ci` in a clone until its log ends."""
    seen = set()
    while True:
        for _ in range(60):
            keep_modules(folder, seen)
            time.sleep(0.5)
        take(folder, log)
        with open(log, "rb") as file:
            lines = file.read().splitlines()
        if lines and re.search(rb"^\d+ passed, \d+ failed", lines[-1]):
            return 0


def begin_with_kept(crate):
    """Has a check of the crate begin with the modules that are kept, where it hasn't its own."""
    rooms = glob.glob(f"{TOP}/crates/*/{rtlib.KEPT[1]}/antt-checked-*")
    if rooms and os.path.isdir(f"{KEPT_IN}/{crate.name}/modules"):
        room = f"{crate.folder}/{rtlib.KEPT[1]}/{os.path.basename(rooms[0])}"
        os.makedirs(room, exist_ok=True)
        for entry in os.scandir(f"{KEPT_IN}/{crate.name}/modules"):
            if not os.path.exists(f"{room}/{entry.name}"):
                os.link(entry.path, f"{room}/{entry.name}")


def typed(crate):
    """Reads the crate and its tests from sources."""
    tests = ["--test"] * crate.has_tests()
    return crate.call(rtlib.RATTLE, "check", *crate.words(["--jobs", "1", "--only", "", *tests], as_source=True))


def edits(crate, names):
    """Tries the crate's must-fail edits together, over what was proved of the crate, and those alone that aren't refused so."""
    rt = program("rt")
    found, wrong = rt.edits_of(crate)
    kept = f"{crate.folder}/{rtlib.KEPT[1]}"
    os.makedirs(kept, exist_ok=True)
    tried = [edit for edit in found if not names or os.path.basename(edit)[: -len(".edit")] in names]
    it = together.Together(rt, None)
    refused = it.refused_together(crate, tried, ["--jobs", "1"], kept, True)
    failed, good = len(wrong), [getattr(rt, name, True) for name in ("REFUSED", "AT_LIMIT")]
    for edit in tried:
        kind, said = (good[0], together.words_of(crate, edit)) if edit in refused else it.must_fail(crate, edit, ["--jobs", "1"], kept)
        failed += kind not in good
        print(said, flush=True)
    return int(failed > 0)


def plants(crate, flags):
    """Lists the wrong bodies that the crate's contracts let through."""
    plant = program("rt-plant")
    keeps_libraries(plant.rt.Crate)
    os.chdir(crate.folder)
    return plant.main(*flags)


def crate_of(name):
    return rtlib.Crate(f"{TOP}/crates/{name}", TOP, {})


def main(words):
    if not words or words[0] in ("-h", "--help"):
        print(__doc__)
        return 0
    os.chdir(TOP)
    rtlib.guarded()
    rtlib.Crate.may_have_bugs = rtlib.Crate.may_be_empty = True
    keeps_libraries(rtlib.Crate)
    if words[0] == "--type":
        return max([typed(crate_of(name)) for name in words[1:]], default=0)
    if words[0] == "--beside":
        folder, log = map(os.path.realpath, words[1:3])
        os.chdir(folder)
        return beside(folder, log)
    crate, flags = crate_of(words[0]), words[1:]
    if any(make(below) for below in crate.below()):
        return 1
    begin_with_kept(crate)
    verb, rest = (flags[0], flags[1:]) if flags else ("", [])
    if verb == "--edits":
        return edits(crate, rest)
    if verb == "--plant":
        return plants(crate, rest)
    if verb == "--run":
        crate.held = []
        return crate.run(JOBS, rest[:1], tests=crate.has_tests())
    if verb == "--lib":
        return make(crate)
    return crate.check(flags if "--jobs" in flags else [*flags, *JOBS])


if __name__ == "__main__":
    sys.exit(main(sys.argv[1:]))
