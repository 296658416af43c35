"""Files that are looked at again and again, until what stands in them is whole."""
import contextlib
import errno
import fcntl
import os
import time

# So many seconds files have to stay as they are before they are read,
SETTLED = 0.1
# so many where what stands in one may be half of what is to come,
DOUBTFUL = 1.0
# and so many where somebody has one open to write to it.
HELD_OPEN = 5.0
# Files that never stay as they are for long are read all the same, each time that this has passed.
LONGEST = 10.0


def stamp(path):
    """Which file stands there, its time and its size, or None where there is none."""
    try:
        found = os.stat(path)
    except OSError:
        return None
    return found.st_dev, found.st_ino, found.st_mtime_ns, found.st_size


def is_held_open(file):
    """Whether somebody is known to have that file open to write to it. Such a one keeps others from taking a lease on it."""
    try:
        fcntl.fcntl(file, fcntl.F_SETLEASE, fcntl.F_RDLCK)
    except OSError as error:
        return error.errno == errno.EAGAIN
    with contextlib.suppress(OSError):
        fcntl.fcntl(file, fcntl.F_SETLEASE, fcntl.F_UNLCK)
    return False


def is_whole(file, is_by_lines):
    """Whether nothing is seen to be missing at a file's end. One that is read line by line may be cut within a line."""
    size = os.fstat(file.fileno()).st_size
    file.seek(max(0, size - 1))
    return size > 0 and (not is_by_lines or file.read(1) == b"\n")


class WatchedFiles:
    """Files by their paths, as they were when they were last looked at, and as they were when they were last dealt with."""

    def __init__(self, paths, by_lines=(), now=time.monotonic):
        self.paths, self.by_lines, self.now = list(paths), set(by_lines), now
        self.seen = self.dealt_with = [None] * len(self.paths)
        self.began = self.changed = now()
        self.least, self.never_let_go = SETTLED, set()

    def look(self):
        """Looks at the files, and says whether they are others than when they were last dealt with."""
        stamps = [stamp(path) for path in self.paths]
        if stamps != self.seen:
            if self.seen == self.dealt_with:
                self.began = self.now()
            self.seen, self.changed, self.least = stamps, self.now(), SETTLED
        return self.seen != self.dealt_with

    def rest(self):
        """For how many seconds they are as they are."""
        return self.now() - self.changed

    def are_due(self):
        """Whether they have stayed as they are for as long as is wanted, or may not be waited for any longer."""
        wanted = max(self.wanted(path) for path in self.paths)
        return self.rest() >= max(wanted, self.least) or self.now() - self.began >= LONGEST

    def wanted(self, path):
        """For how many seconds a file has to stay as it is, by what is seen of it now."""
        try:
            with open(path, "rb") as file:
                if self.is_being_written(path, file):
                    return HELD_OPEN
                return SETTLED if is_whole(file, path in self.by_lines) else DOUBTFUL
        except OSError:
            return DOUBTFUL

    def is_being_written(self, path, file):
        """Whether somebody has a file open to write to it, who isn't known to have it open always."""
        if not is_held_open(file):
            self.never_let_go.discard(path)
            return False
        if self.rest() >= HELD_OPEN:
            # So it is with a log, and on file systems of a network that lease nothing.
            self.never_let_go.add(path)
        return path not in self.never_let_go

    def are_as_seen(self):
        """Whether they are still what they were at the last look: then what was read meanwhile is what stood there then."""
        return [stamp(path) for path in self.paths] == self.seen

    def doubt(self):
        """What was read can't be right: has them stay as they are for longer, and says whether they have done so already."""
        self.began = self.now()
        if self.rest() >= DOUBTFUL:
            return True
        self.least = DOUBTFUL
        return False

    def deal(self):
        """They are dealt with as they were at the last look."""
        self.dealt_with = self.seen
