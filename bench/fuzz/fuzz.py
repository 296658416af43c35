#!/usr/bin/env python3
"""Tries random sessions on the built program until a time is over; run.sh says how."""
import argparse
import os
import sys
import tempfile
import time
from pathlib import Path
from typing import Optional

sys.dont_write_bytecode = True

import limits
import loops
import model
import reports
import texts
from shrink import smaller
from trial import Find, Harness, Session, check

TOP = Path(__file__).resolve().parent.parent.parent
BUILT = TOP / "crates" / "cilkreport" / "out" / "cilkreport"
PARTS = {
    "loops": (loops.session_of, check),
    "reports": (reports.session_of, check),
    "texts": (texts.session_of, texts.check),
    "limits": (limits.session_of, limits.check),
}
AS_FOUND = ("refused", "limit")  # what wouldn't stay the same thing in a smaller session


def options() -> argparse.Namespace:
    parser = argparse.ArgumentParser(usage="run.sh [--seconds N] [--program FILE] [--against FILE] [--seed S] [--part NAME]")
    parser.add_argument("--seconds", type=float, default=60)
    parser.add_argument("--program", type=Path, default=BUILT)
    parser.add_argument("--against", type=Path)
    parser.add_argument("--seed", type=int, default=1)
    parser.add_argument("--part", choices=PARTS)
    return parser.parse_args()


def kept(session: Session, find: Find, part: str, number: int) -> Path:
    """The folder in which the texts of a find are kept."""
    folder = TOP / "out" / "fuzz" / f"{part}_{number}"
    folder.mkdir(parents=True, exist_ok=True)
    for name, text in zip(session._fields, session):
        (folder / name).write_bytes(text)
    (folder / "what").write_text(f"{find.kind} with {' '.join(find.words)}\n{find.detail}\n", encoding="latin-1")
    return folder


def finds_in(harness: Harness, part: str, session: Session, seed: str) -> Optional[Find]:
    """What is wrong with a session, if it isn't too long."""
    try:
        return PARTS[part][1](harness, session, seed)
    except model.TooLong:
        harness.left_out += 1
        return None


def made_smaller(harness: Harness, part: str, session: Session, seed: str, find: Find) -> Session:
    """A smaller session in which the same kind of thing is wrong."""

    def is_wrong(other: Session) -> bool:
        try:
            found = finds_in(harness, part, other, seed)
        except Exception:  # pylint: disable=broad-except
            return False  # the model can't read what is left
        return found is not None and found.kind == find.kind

    return smaller(session, is_wrong)


def report(harness: Harness, part: str, number: int, session: Session, find: Find) -> None:
    seed = f"{part} {number}"
    if find.kind not in AS_FOUND:
        session = made_smaller(harness, part, session, seed, find)
        find = finds_in(harness, part, session, seed) or find
    folder = kept(session, find, part, number)
    print(f"{part}, case {number}: {find.kind} with {' '.join(find.words)}\n{find.detail}")
    print(f"Its texts are in {folder}, made smaller. To run it again, as it is there and as it was:")
    beside = f" --against {harness.against}" if harness.against else ""
    print(f"  cd {folder} && {command(harness, find)} < script")
    print(f"  {TOP / 'bench' / 'fuzz' / 'run.sh'} --part {part} --seed {number} --seconds 0 --program {harness.program}{beside}")


def command(harness: Harness, find: Find) -> str:
    """The words with which the find shows."""
    files = ("program",) if "--print" in find.words else ("program", "tables")
    return " ".join((str(harness.program), *find.words, *files))


def first_find(asked: argparse.Namespace, harness: Harness) -> int:
    """Tries one case after another until something is wrong or the time is over. Gives the status to end with."""
    names = [asked.part] if asked.part else list(PARTS)
    counts = dict.fromkeys(names, 0)
    end = time.monotonic() + asked.seconds
    number = asked.seed
    while number == asked.seed or time.monotonic() < end:
        for part in names:
            seed = f"{part} {number}"
            session = PARTS[part][0](seed)
            find = finds_in(harness, part, session, seed)
            counts[part] += 1
            if find:
                report(harness, part, number, session, find)
                return 1
        number += 1
    said = ", ".join(f"{part} {count}" for part, count in counts.items())
    print(f"{said} cases, {harness.left_out} of them too long, {harness.runs} runs, nothing found; the next case is {number}")
    return 0


def main() -> int:
    asked = options()
    programs = [program.resolve() for program in (asked.program, asked.against) if program]
    for program in programs:
        if not os.access(program, os.X_OK):
            print(f"{program} is no program", file=sys.stderr)
            return 2
    with tempfile.TemporaryDirectory() as folder:
        return first_find(asked, Harness(programs[0], programs[1] if asked.against else None, Path(folder)))


if __name__ == "__main__":
    sys.exit(main())
