"""Makes a session smaller in which something is wrong, by leaving out lines of its texts while the same kind of thing stays wrong."""
import time
from typing import Callable, List

from model import commands_of
from trial import Session

SECONDS = 60

Test = Callable[[List[str]], bool]


def fewest(units: List[str], is_wrong: Test, end: float) -> List[str]:
    """The units without those that can be left out, the longest stretches first."""
    length = len(units) // 2
    while length and time.monotonic() < end:
        at = 0
        while at < len(units) and time.monotonic() < end:
            fewer = units[:at] + units[at + length :]
            if is_wrong(fewer):
                units = fewer
            else:
                at += length
        length //= 2
    return units


def lines_of(text: bytes) -> List[str]:
    return text.decode("latin-1").split("\n")


def script_units(text: bytes) -> List[str]:
    """The commands of a script, each with all of its lines."""
    return ["\n".join(command) for command in commands_of(text.decode("latin-1"))]


def as_text(units: List[str]) -> bytes:
    return "\n".join(units).encode("latin-1")


def as_script(units: List[str]) -> bytes:
    return b"".join(as_text([unit]) + b"\n" for unit in units)


def smaller(session: Session, is_wrong: Callable[[Session], bool], seconds: float = SECONDS) -> Session:
    """A smaller session with the same thing wrong, as small as can be found in that time."""
    end = time.monotonic() + seconds
    parts = {"script": (script_units, as_script), "tables": (lines_of, as_text), "program": (lines_of, as_text)}
    before = None
    while session != before and time.monotonic() < end:
        before = session
        for name, (units_of, joined) in parts.items():
            units = fewest(units_of(getattr(session, name)), lambda units: is_wrong(session._replace(**{name: joined(units)})), end)
            if is_wrong(session._replace(**{name: joined(units)})):
                session = session._replace(**{name: joined(units)})
    return session
