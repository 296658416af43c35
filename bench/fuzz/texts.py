"""Texts of programs, tables and scripts that are changed at random, and what the program must make of whatever text."""
import random
import re
import sys
from functools import lru_cache
from pathlib import Path
from typing import List, Optional, Tuple

import loops
import model
import reports
from syntax import OtherForm, Unreadable
from trial import ONE_WORKER, STEPS, Find, Harness, Outcome, Session, difference, ending
from world import some

TESTS = Path(__file__).resolve().parent.parent.parent / "tests"
LONGEST = 20_000
NAME = "[a-z][a-z0-9_]{0,31}"
FAULTS = "divide by zero|missing row|range too long|too deep|bad element"
REFUSAL = rf"refused E8 \d+|refused E9 C([1-9]|10) {NAME} \d+"
ANSWERS = re.compile(
    rf"ok|refused E([4567]|18|19 \d+)|{REFUSAL}|run \d+|result -?\d+|fault ({FAULTS}) in {NAME} at \d+|{NAME}( none|( -?\d+(:-?\d+)?)*)"
)
REFUSALS = re.compile(rf"{REFUSAL}|refused E2|refused E3 [^\n]*|failed tables")
TOKENS = re.compile(rb"[a-z_][a-z0-9_]*|[0-9]+|[^\sa-z0-9_]|\s+")
WORDS = (
    "reducer memo proc call spawn sync update if else cilk_for in grain return read has limit sum run put del define end main sales rates "
    "columns rows add list hist argmax affine table unit from first last ( ) { } [ ] ; : , .. . = == != <= >= < > + - * / % # "
    "\" ' \"\"\" 0x1f 1_000 1e5 inf true 1979-05-27"
).encode().split()
SMALL = (0, 1, 31, 32, 63, 64, 65, 255, 256, 257, 4096, 4097, 65536, 65537, 1048576, 1048577)
NUMBERS = (*SMALL, 2147483647, 2147483648, (1 << 63) - 1, 1 << 63, 1 << 64, 10**40, 10**400)
BYTES = (0, 9, 10, 13, 27, 34, 35, 39, 92, 127, 128, 192, 195, 237, 239, 240, 244, 255)
NESTS = ((b"(", b")"), (b"[", b"]"), (b"{", b"}"), (b"-", b""), (b"if 1 {", b"}"), (b"has sales[", b"]"), (b"{a=", b"}"), (b"1+", b""))


# Where the texts come from.


@lru_cache(maxsize=None)
def stored() -> List[Session]:
    """The short sessions of tests/."""
    sys.path.insert(0, str(TESTS))
    from session_form import raw, sessions_of, unrolled  # pylint: disable=import-error,import-outside-toplevel

    found = []
    for path in sorted(TESTS.rglob("*.session")):
        for session in sessions_of(path, path.read_text(encoding="utf-8").split("\n")[:-1]):
            script = session.setting.script or raw(unrolled([part.rest for part in session.all_of(">")]))
            if session.setting.program is not None and session.setting.line is None:
                found.append(Session(session.setting.program, session.setting.tables or b"", script))
    return [session for session in found if sum(map(len, session)) < LONGEST]


def session_of(seed: str) -> Session:
    chance = random.Random(seed)
    kind = chance.random()
    session = chance.choice(stored()) if kind < 0.5 else reports.session_of(seed) if kind < 0.8 else loops.LoopMaker(seed, 5, 40).session()
    for name in chance.choices(session._fields, (4, 2, 3), k=chance.choice((1, 1, 2))):
        text = getattr(session, name)
        for _ in range(chance.choice((1, 1, 1, 2, 3, 8))):
            text = chance.choice(CHANGES)(chance, text)
        session = session._replace(**{name: text})
    return session


# Changes.


def stretch(chance: random.Random, text: bytes) -> Tuple[int, int]:
    """Where a stretch of the text begins and ends, mostly a short one."""
    begin = chance.randint(0, len(text))
    return begin, min(len(text), begin + int(chance.choice((1, 3, 20, 400)) * chance.random() + 1))


def byte_changed(chance: random.Random, text: bytes) -> bytes:
    at = chance.randint(0, len(text))
    byte = chance.choice(BYTES) if some(chance, 0.5) else chance.randrange(256)
    return text[:at] + bytes([byte]) + text[at + chance.randint(0, 1) :]


def left_out(chance: random.Random, text: bytes) -> bytes:
    begin, end = stretch(chance, text)
    return text[:begin] + text[end:]


def doubled(chance: random.Random, text: bytes) -> bytes:
    begin, end = stretch(chance, text)
    at = chance.choice((begin, chance.randint(0, len(text))))
    return text[:at] + text[begin:end] * chance.choice((1, 1, 1, 2, 20)) + text[at:]


def cut(chance: random.Random, text: bytes) -> bytes:
    return text[: chance.randint(0, len(text))]


def whole_doubled(_chance: random.Random, text: bytes) -> bytes:
    return text + text


def tokens_swapped(chance: random.Random, text: bytes) -> bytes:
    tokens = TOKENS.findall(text) or [b""]
    one, other = chance.randrange(len(tokens)), chance.randrange(len(tokens))
    tokens[one], tokens[other] = tokens[other], tokens[one]
    return b"".join(tokens)


def token_replaced(chance: random.Random, text: bytes) -> bytes:
    """Another token, of the text or not, in place of one or in front of it."""
    tokens = TOKENS.findall(text) or [b""]
    at = chance.randrange(len(tokens))
    tokens[at : at + chance.randint(0, 1)] = [chance.choice((*tokens[:50], *WORDS)), b" "]
    return b"".join(tokens)


def number_replaced(chance: random.Random, text: bytes) -> bytes:
    found = list(re.finditer(rb"-?\d+", text))
    if not found:
        return text
    number = chance.choice(NUMBERS) + chance.choice((0, 0, -1, 1))
    at = chance.choice(found)
    return text[: at.start()] + str(chance.choice((number, number, -number))).encode() + text[at.end() :]


def nested(chance: random.Random, text: bytes) -> bytes:
    """Marks that open and close, some of them very deep."""
    opening, closing = chance.choice(NESTS)
    count = chance.choice((1, 31, 32, 33, 63, 64, 65, 66, 1000, 100_000))
    begin, end = stretch(chance, text)
    return text[:begin] + opening * count + text[begin:end] + closing * (count - chance.choice((0, 0, 1))) + text[end:]


def ends_of_lines(_chance: random.Random, text: bytes) -> bytes:
    return text.replace(b"\n", b"\r\n")


CHANGES = (
    *(byte_changed, left_out, doubled, cut, whole_doubled, tokens_swapped, tokens_swapped, token_replaced, token_replaced, token_replaced),
    *(number_replaced, number_replaced, number_replaced, nested, ends_of_lines),
)


# What the program must make of them.


def form(outcome: Outcome, words: Tuple[str, ...]) -> Optional[Find]:
    """A find where the status isn't a right one, or what is printed and said hasn't the form that goes with it."""
    said = outcome.said.split("\n")[0]
    if outcome.status not in (0, 1):
        return Find("status", words, f"status {outcome.status}: {said}")
    if outcome.status == 1:
        good = not outcome.answers and REFUSALS.fullmatch(said)
        return None if good else Find("refusal", words, f"{outcome.answers[:3]} and on standard error {said}")
    odd = next((line for line in outcome.answers if not ANSWERS.fullmatch(line)), None)
    return None if odd is None else Find("answer", words, odd)


def beside_model(session: Session, outcome: Outcome, words: Tuple[str, ...]) -> Optional[Find]:
    """Compares with the model where all of the session is well-formed. May raise `model.TooLong`."""
    try:
        answers, counts = model.played(*(text.decode("latin-1") for text in session), steps=STEPS)
    except OtherForm:
        return None
    except Unreadable as error:
        return Find("reader", words, f"the model can't read what the program takes: {error}")
    return difference("model", words, outcome.answers, answers) or difference("counts", words, outcome.counts(), counts)


def is_too_long(session: Session) -> bool:
    """Whether the program may well take long for this."""
    try:
        model.played(*(text.decode("latin-1") for text in session), steps=STEPS)
    except model.TooLong:
        return True
    except Exception:  # pylint: disable=broad-except
        return False  # what the model can't read, or what has no meaning, has to be refused in time
    return False


def normal_form(harness: Harness, session: Session) -> Optional[Find]:
    """A find where the normal form of a program isn't its own normal form."""
    words = ("--print",)
    printed = harness.run(session, (), is_print=True)
    find = ending(printed, words)
    if find or printed.status:
        return find or (None if re.match(r"refused E8 \d+$", printed.said.split("\n")[0]) else Find("print", words, printed.said[:300]))
    again = harness.run(session._replace(program="\n".join([*printed.answers, ""]).encode()), (), is_print=True)
    return difference("print", words, again.answers, printed.answers)


def is_well_formed(outcome: Outcome) -> bool:
    return outcome.status == 0 and not any(re.match("refused E(8|9|19)", line) for line in outcome.answers)


def check(harness: Harness, session: Session, seed: str) -> Optional[Find]:
    """What is wrong with what the program makes of these texts."""
    chance = random.Random(seed)
    if is_too_long(session):
        raise model.TooLong
    words = (*ONE_WORKER, "--stats")
    outcome = harness.run(session, words)
    find = ending(outcome, words) or form(outcome, words)
    if not find and is_well_formed(outcome):
        find = beside_model(session, outcome, words)
    return find or others(harness, session, outcome, chance) or normal_form(harness, session)


def others(harness: Harness, session: Session, outcome: Outcome, chance: random.Random) -> Optional[Find]:
    """A find where other workers, another way of reading, or another build come to something else."""
    more = chance.choice(((), ("--live",), ("--explain",), ("--why",)))
    words = ("--workers", str(chance.choice((2, 4, 16))), "--kits", str(chance.choice((64, 1))), *more)
    runs = [("options", words, harness.run(session, words))]
    if harness.against:
        runs.append(("against", (*ONE_WORKER, "--stats"), harness.run(session, (*ONE_WORKER, "--stats"), harness.against)))
    for kind, words, other in runs:
        find = ending(other, words) or difference(kind, words, [str(other.status), *other.answers], [str(outcome.status), *outcome.answers])
        if not find and outcome.status:
            find = difference(kind, words, other.said.split("\n")[:1], outcome.said.split("\n")[:1])
        if find:
            return find
    return None
