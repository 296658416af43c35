"""Runs sessions by the built program, and compares what it answers with the model, with other options, and with another build."""
import os
import random
import re
import subprocess
from pathlib import Path
from typing import Iterator, List, NamedTuple, Optional, Tuple

import model

SECONDS = int(os.environ.get("LIMIT", "10"))
STEPS = 1_000_000
STATS = re.compile(r"^stats \d+ (?:executed (\d+) reused (\d+) unrecorded (\d+) .*|(none))$", re.MULTILINE)
WHY = re.compile(r"^  [a-z0-9_]+ executed (\d+) reused (\d+) unrecorded (\d+)$", re.MULTILINE)
ONE_WORKER = ("--workers", "1")


class Session(NamedTuple):
    """The texts of a session."""

    program: bytes
    tables: bytes
    script: bytes


class Outcome(NamedTuple):
    """What a run of the program has come to. Its status is that of Python: a signal is a negative number, and none means that it hung."""

    status: Optional[int]
    answers: List[str]
    said: str

    def counts(self) -> List[str]:
        """What `--stats` says of each run but for steals, folds and kits."""
        return [" ".join(filter(None, found)) for found in STATS.findall(self.said)]

    def reasoned(self) -> List[str]:
        """The same by what `--why` says of each procedure."""
        runs = [WHY.findall(part) for part in re.split(r"^why \d+$", self.said, flags=re.MULTILINE)[1:]]
        return [" ".join(str(sum(map(int, numbers))) for numbers in zip(("0",) * 3, *procedures)) for procedures in runs]


class Find(NamedTuple):
    """What is wrong with a session: what kind of find it is, the words with which it shows, and more about it."""

    kind: str
    words: Tuple[str, ...]
    detail: str


class Harness:
    """The program under test, perhaps another build of it, and a folder for their files."""

    def __init__(self, program: Path, against: Optional[Path], folder: Path):
        self.program, self.against, self.folder = program, against, folder
        self.runs = self.left_out = 0
        self.written: Optional[Session] = None

    def write(self, session: Session) -> None:
        if session != self.written:
            for name, text in zip(session._fields, session):
                (self.folder / name).write_bytes(text)
            self.written = session

    def run(self, session: Session, words: Tuple[str, ...], program: Optional[Path] = None, is_print: bool = False) -> Outcome:
        """Runs a session with these options, or prints its program."""
        self.write(session)
        self.runs += 1
        files = ["--print", "program"] if is_print else ["program", "tables"]
        with open(self.folder / "script", "rb") as script:
            try:
                command = [str(program or self.program), *files, *words]
                ended = subprocess.run(command, cwd=self.folder, stdin=script, capture_output=True, timeout=SECONDS, check=False)
            except subprocess.TimeoutExpired:
                return Outcome(None, [], "")
        answers = [line.rstrip(" ") for line in ended.stdout.decode("latin-1").split("\n")]
        return Outcome(ended.returncode, answers[:-1], ended.stderr.decode("latin-1"))


def ending(outcome: Outcome, words: Tuple[str, ...]) -> Optional[Find]:
    """A find where the program hung or was ended by a signal."""
    if outcome.status is None:
        return Find("hang", words, f"no end within {SECONDS} s")
    if outcome.status < 0 or outcome.status > 3:
        return Find("signal", words, f"status {outcome.status}\n{outcome.said[-2000:]}")
    return None


def difference(kind: str, words: Tuple[str, ...], found: List[str], wanted: List[str]) -> Optional[Find]:
    """A find where lines aren't those that are wanted, with the first that differs."""
    if found == wanted:
        return None
    pairs = zip(found + ["(the end)"], wanted + ["(the end)"])
    line, (one, other) = next((line, pair) for line, pair in enumerate(pairs, 1) if pair[0] != pair[1])
    return Find(kind, words, f"line {line} is\n  {one[:300]}\nand should be\n  {other[:300]}")


def refusal(outcome: Outcome, words: Tuple[str, ...]) -> Optional[Find]:
    """A find where a session that should be well-formed is refused."""
    if outcome.status:
        return Find("refused", words, f"status {outcome.status}\n{outcome.said[-2000:]}")
    refused = [line for line in outcome.answers if re.match("refused E(8|9|19)", line)]
    return Find("refused", words, refused[0]) if refused else None


def option_sets(chance: random.Random) -> Iterator[Tuple[str, ...]]:
    """Options beside those of the first run, with which the answers are the same."""
    yield (*ONE_WORKER, "--kits", str(chance.choice((3, 2, 1))), "--stats", *chance.choice(((), ("--why",))))
    more = [(), ("--live",), ("--explain",), ("--why",)]
    for workers in (2, 4, 16):
        yield ("--workers", str(workers), "--kits", str(chance.choice((64, 64, 3, 2, 1))), *chance.choice(more))


def kits_of(words: Tuple[str, ...]) -> int:
    return int(words[words.index("--kits") + 1])


def is_counted(words: Tuple[str, ...]) -> bool:
    return words[:2] == ONE_WORKER


def model_says(session: Session, words: Tuple[str, ...]) -> Tuple[List[str], List[str]]:
    texts = [text.decode("latin-1") for text in session]
    return model.played(*texts, kits=kits_of(words), steps=STEPS)


def beside_model(outcome: Outcome, session: Session, words: Tuple[str, ...]) -> Optional[Find]:
    answers, counts = model_says(session, words)
    find = difference("model", words, outcome.answers, answers) or difference("counts", words, outcome.counts(), counts)
    return find or ("--why" in words and difference("why", words, reasoned(outcome), counts)) or None


def reasoned(outcome: Outcome) -> List[str]:
    """The counts by `--why`, but for runs that end with a fault."""
    return [count if count == "none" else reason for count, reason in zip(outcome.counts(), outcome.reasoned())]


def beside_another(harness: Harness, outcome: Outcome, session: Session, words: Tuple[str, ...]) -> Optional[Find]:
    """A find where the other build answers something else, or counts something else."""
    other = harness.run(session, words, harness.against)
    counts = other.counts()
    return difference("against", words, outcome.answers, other.answers) or difference("counts against", words, outcome.counts(), counts)


def check(harness: Harness, session: Session, seed: str) -> Optional[Find]:
    """What is wrong with a well-formed session. May raise `model.TooLong`, before the program is run."""
    first = (*ONE_WORKER, "--kits", "64", "--stats")
    model_says(session, first)
    wanted: List[str] = []
    for words in (first, *option_sets(random.Random(seed))):
        outcome = harness.run(session, words)
        find = ending(outcome, words) or refusal(outcome, words)
        if not find and is_counted(words):
            find = beside_model(outcome, session, words)
            find = find or harness.against and beside_another(harness, outcome, session, words)
        wanted = wanted or outcome.answers
        find = find or difference("options", words, outcome.answers, wanted)
        if find:
            return find
    return None
