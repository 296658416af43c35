"""Keeps the modules that the proofs of some crates have checked, for the checks that their must-fail edits begin with.

rattle saves the modules of a check in a folder of its own, which it drops at the check's end; until then each gets a second name here. A
check that is given them loads those that are up to date in it, and checks the others itself. They stay until the run is over: one that is
ended from outside, even while it tries edits, leaves them to the next one, which may take the crates' proofs as they are kept.
"""
import contextlib
import fcntl
import glob
import os
import re
import shutil
import stat
import tempfile
import threading

# How often the folders of checks are looked at, in seconds.
EACH = 0.5


def folder_of(kit):
    """The folder in which rattle looks for modules below what `--incremental` names; none where the kit doesn't say."""
    with contextlib.suppress(OSError):
        with open(f"{kit}/logic_built/format", encoding="utf-8") as file:
            found = re.search(r"^kernel (antt-checked-\S+)$", file.read(), re.MULTILINE)
        return found and found[1].replace("/", "_")
    return None


class ProvedModules:
    """The modules that proofs below a folder's `crates/` have saved so far, of those crates, and what runs in other folders have of these."""

    def __init__(self, top, kit, crates):
        self.top, self.folder, self.crates, self.saved_by, self.given = top, folder_of(kit), frozenset(crates), {}, set()
        self.rooms = f"{tempfile.gettempdir()}/proved-modules"
        self.room, self.held, self.over = f"{self.rooms}-{os.getpid()}", None, threading.Event()
        self.looking = threading.Thread(target=self.stay, daemon=True)

    def __enter__(self):
        if self.folder:
            self.take_over()
            self.looking.start()
        return self

    def __exit__(self, *_error):
        self.over.set()
        if self.folder:
            self.looking.join()
            shutil.rmtree(self.room, ignore_errors=True)
            os.close(self.held)

    def take_over(self):
        """Makes the folder for the modules, with those that are left of runs that have ended: a run holds a lock on its folder, which goes with it,
        while its number may be another process's by then."""
        shutil.rmtree(self.room, ignore_errors=True)
        os.mkdir(self.room, 0o700)
        self.held = os.open(self.room, os.O_RDONLY)
        fcntl.flock(self.held, fcntl.LOCK_EX)
        for left in self.others():
            with contextlib.suppress(OSError):
                its = os.open(left, os.O_RDONLY)
                try:
                    fcntl.flock(its, fcntl.LOCK_EX | fcntl.LOCK_NB)
                    for crate in self.crates.intersection(os.listdir(left)).difference(os.listdir(self.room)):
                        os.rename(f"{left}/{crate}", f"{self.room}/{crate}")
                    shutil.rmtree(left, ignore_errors=True)
                finally:
                    os.close(its)

    def others(self):
        """The folders of other runs of the same user, the newest first."""
        found = []
        for other in set(glob.glob(f"{self.rooms}-*")) - {self.room}:
            with contextlib.suppress(OSError):
                its = os.lstat(other)
                if its.st_uid == os.getuid() and stat.S_ISDIR(its.st_mode):
                    found.append((its.st_mtime, other))
        return [other for _, other in sorted(found, reverse=True)]

    def stay(self):
        """Looks at the folders of checks until it is over."""
        while not self.over.wait(EACH):
            for saved in glob.glob(f"{tempfile.gettempdir()}/rattle-logic-built-locked-*"):
                with contextlib.suppress(OSError, ValueError, IndexError):
                    process = int(saved.split("-")[-2])
                    crate = self.crate_of(process)
                    if crate in self.crates:
                        self.take(crate, process, saved)

    def crate_of(self, process):
        """Which of the crates' proofs a process is; none of its tests, and none of a check elsewhere."""
        with open(f"/proc/{process}/cmdline", encoding="utf-8", errors="replace") as file:
            words = file.read().split("\0")
        at = os.readlink(f"/proc/{process}/cwd")
        crate = words[words.index("--crate-name") + 1]
        return crate if at == f"{self.top}/crates/{crate}" and "--test" not in words else None

    def take(self, crate, process, saved):
        """Gives each module that the process has saved there by now a second name, in place of what another one had saved of the crate."""
        to = f"{self.room}/{crate}"
        if self.saved_by.get(crate) != process:
            shutil.rmtree(to, ignore_errors=True)
            self.saved_by[crate] = process
        os.makedirs(to, exist_ok=True)
        there = set(os.listdir(to))
        for name in os.listdir(saved):
            if name.endswith(".oantt") and name not in there:
                with contextlib.suppress(OSError):
                    os.link(f"{saved}/{name}", f"{to}/{name}")

    def give(self, crate, to):
        """Puts the modules of a crate's proof where a check looks for them whose `--incremental` is that folder, by a further name each, and says
        whether there were any; they are given once."""
        found = [f"{room}/{crate}" for room in (self.room, *self.others()) if os.path.isdir(f"{room}/{crate}")]
        if not self.folder or not found or crate in self.given:
            return False
        os.mkdir(f"{to}/{self.folder}")
        for name in os.listdir(found[0]):
            os.link(f"{found[0]}/{name}", f"{to}/{self.folder}/{name}")
        self.given.add(crate)
        return True
