"""The programs that stand built in a checkout, each beside a note of what it was built from, and how one is held against another."""
import contextlib
import enum
import fcntl
import hashlib
import os
import shutil
import signal
import subprocess
import sys
from dataclasses import dataclass

from sources import PROGRAM, TOP, kit, sum_of


def sum_of_file(path):
    with open(path, "rb") as file:
        return hashlib.sha256(file.read()).hexdigest()


@dataclass(frozen=True)
class Build:
    """A program, and a note that holds the sum of its sources, its own, and the line of the kit that built it."""

    program: str
    note: str

    def __str__(self):
        return os.path.relpath(self.program, TOP)

    def noted(self):
        """What the note holds, by the words that its lines begin with; nothing where there is none."""
        try:
            with open(self.note, encoding="utf-8") as file:
                return dict(line.rstrip("\n").split(" ", 1) for line in file)
        except (OSError, ValueError):
            return {}

    def lack(self, sources):
        """Why this isn't the program of the sources with that sum, in words that go on from its path; None where it is."""
        noted = self.noted()
        if not noted or not os.path.isfile(self.program):
            return "isn't there"
        if noted.get("sources") != sources:
            return "was built from other sources"
        if noted.get("program") != sum_of_file(self.program):
            return f"isn't the file that {os.path.relpath(self.note, TOP)} tells of"
        return None if os.access(self.program, os.X_OK) else "isn't marked as a file that can be run"

    def put(self, program, sources):
        """Puts a copy of that program here, which the kit on the path has built from the sources with that sum."""
        os.makedirs(os.path.dirname(self.program), exist_ok=True)
        if not os.path.exists(self.program) or not os.path.samefile(program, self.program):
            # A program that runs can't be written to, but another can take its place.
            shutil.copyfile(program, f"{self.program}.new")
            os.chmod(f"{self.program}.new", 0o755)
            os.replace(f"{self.program}.new", self.program)
        with open(f"{self.note}.new", "w", encoding="utf-8") as file:
            file.write(f"sources {sources}\nprogram {sum_of_file(self.program)}\nkit {kit()}\n")
        os.replace(f"{self.note}.new", self.note)


# What was proved and built in this checkout, where `rt ci` leaves it too.
PROVED = Build(f"{TOP}/crates/{PROGRAM}/out/{PROGRAM}", f"{TOP}/crates/{PROGRAM}/out/built_from")
# What stands in the repository.
RELEASE = Build(f"{TOP}/release/{PROGRAM}", f"{TOP}/release/sources")


def built():
    """The program that was proved for the sources as they are: what was built here, else the release; None where neither is."""
    sources = sum_of()
    return next((build.program for build in (PROVED, RELEASE) if not build.lack(sources)), None)


class Comparison(enum.Enum):
    """What is said of a release beside the program that was just proved and built."""

    SAME = "is the same byte for byte"
    DIFFERENT = "has OTHER BYTES than what is built from its sources"
    BY_ANOTHER_KIT = "was built by another kit, so nothing is compared"
    OF_OTHER_SOURCES = "was built from other sources than these, so nothing is compared"
    MISSING = "isn't there, so nothing is compared"

    def __str__(self):
        return f"{RELEASE} {self.value}"


def compared(proved=PROVED, release=RELEASE):
    """Holds the release against the program that was proved here."""
    ours, theirs = proved.noted(), release.noted()
    if not theirs:
        return Comparison.MISSING
    if ours["sources"] != theirs.get("sources"):
        return Comparison.OF_OTHER_SOURCES
    if ours["kit"] != theirs.get("kit"):
        return Comparison.BY_ANOTHER_KIT
    is_same = os.path.isfile(release.program) and sum_of_file(release.program) == ours["program"]
    return Comparison.SAME if is_same else Comparison.DIFFERENT


def can_run(program):
    """Whether that program can be run here."""
    try:
        quiet = {"stdin": subprocess.DEVNULL, "stdout": subprocess.DEVNULL, "stderr": subprocess.DEVNULL}
        return subprocess.run([program, "--version"], **quiet).returncode == 0
    except OSError:
        return False


@contextlib.contextmanager
def in_turn(lock):
    """Waits while another process is inside with the same lock, a path."""
    os.makedirs(os.path.dirname(lock), exist_ok=True)
    with open(lock, "w", encoding="utf-8") as file:
        fcntl.flock(file, fcntl.LOCK_EX)
        yield


@contextlib.contextmanager
def in_a_group(words, **how):
    """Starts a program with a group of processes of its own, of which none goes on where this is left early."""
    started = subprocess.Popen(words, stdin=subprocess.DEVNULL, start_new_session=True, **how)
    try:
        yield started
    finally:
        if started.poll() is None:
            os.killpg(started.pid, signal.SIGKILL)
            started.wait()


def become(program, words):
    """Runs that program with these words in the place of this process."""
    # Python has a pipe that nobody reads be an error in place of an end, and a program that it becomes would inherit that.
    for number in (signal.SIGPIPE, signal.SIGXFSZ):
        signal.signal(number, signal.SIG_DFL)
    try:
        os.execv(program, [program, *words])
    except OSError as error:
        print(f"{program} can't be run here: {error.strerror}", file=sys.stderr)
        sys.exit(126)
