"""What cilkreport is built from: the crates that it stands on, and one sum over all that the kit reads of them."""
import hashlib
import os
import shutil
import subprocess

TOP = os.path.dirname(os.path.dirname(os.path.realpath(__file__)))
PROGRAM = "cilkreport"
# What `rt ci` reads of a crate.
PARTS = ("src", "specs", "proofs", "data", "args", "stdin", "stdout", "status")


def crates_below(top=TOP):
    """The program's crates with the libraries that each names, as crates.txt lists them."""
    listed = {}
    with open(f"{top}/crates.txt", encoding="utf-8") as file:
        for line in file:
            name, found, libraries = line.partition("#")[0].partition(":")
            if found:
                listed[name.split()[0]] = libraries.split()
    needed, left = {}, [PROGRAM]
    while left:
        name = left.pop()
        if name in listed and name not in needed:
            needed[name] = listed[name]
            left += listed[name]
    return needed


def lines_for(crates):
    """The crates' lines of a crates.txt."""
    return [f"{name}: {' '.join(libraries)}\n" for name, libraries in crates.items()]


def files_below(path):
    """That file, or each file of that folder, and none where there is no such thing."""
    if os.path.isfile(path):
        return [path]
    return [f"{at}/{name}" for at, _, names in os.walk(path) for name in names]


def sum_of(top=TOP):
    """A sum over the crates' lines of crates.txt, HANDLES, and the paths and bytes of all files that the program is built from."""
    crates = crates_below(top)
    found = hashlib.sha256("".join(sorted(lines_for(crates))).encode())
    paths = [f"{top}/HANDLES"]
    for name in crates:
        for part in PARTS:
            paths += files_below(f"{top}/crates/{name}/{part}")
    for path in sorted(paths):
        with open(path, "rb") as file:
            held = file.read()
        found.update(f"{path[len(top) :]} {len(held)}\n".encode())
        found.update(held)
    return found.hexdigest()


def kit():
    """The line by which the kit on the path names itself, or None where there is no kit."""
    if not shutil.which("rt"):
        return None
    said = subprocess.run(["rt", "version"], stdin=subprocess.DEVNULL, stdout=subprocess.PIPE, text=True, errors="replace")
    return said.stdout.strip() or None
