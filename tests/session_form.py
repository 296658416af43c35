"""The form of session files: what a file says, as sessions. tests/README.md describes it."""
import re
import shlex
from dataclasses import dataclass, replace
from pathlib import Path
from typing import Iterator, List, Optional, Tuple

HERE = Path(__file__).resolve().parent
TOP = HERE.parent

SETTINGS = ("words", "line", "workers", "program", "tables", "script", "input", "output", "beginnings", "memory", "stack", "long", "live", "terminal")
EXPECTED = ("counts", "status", "said", "trace", "printed")
WITH_BLOCKS = ("program", "tables", "said", "trace", "printed")


class BadForm(Exception):
    """A session file that isn't in the form."""


@dataclass(frozen=True)
class Part:
    """Some lines of a session: what they are, the words behind that, the lines as they stand, and those below the first."""

    kind: str
    rest: str
    lines: Tuple[str, ...]
    block: Tuple[str, ...] = ()


@dataclass(frozen=True)
class Setting:
    """What a session runs. A text is None where there is no such file; a line stands for all words of the program's line. The output
    takes `all`, `none`, nothing since it is `closed`, or is `absent`; or, one run for each of the rooms, so many bytes. The memory is
    in MiB, and each thread's stack in KiB, where there is a limit; or each allocation is refused in turn."""

    words: Tuple[str, ...] = ()
    line: Optional[Tuple[str, ...]] = None
    workers: Tuple[int, ...] = (1, 2, 4, 16)
    program: Optional[bytes] = None
    tables: Optional[bytes] = b""
    script: Optional[bytes] = None
    input: bool = True
    output: str = "all"
    rooms: Tuple[int, ...] = ()
    beginnings: Tuple[int, ...] = ()
    memory: Optional[int] = None
    refuses: bool = False
    stack: Optional[int] = None
    long: bool = False
    live: bool = False
    terminal: bool = False


@dataclass(frozen=True)
class Session:
    """A session: its file, its title, at which of the file's lines its parts begin, and these."""

    path: Path
    title: str
    begin: int
    setting: Setting
    parts: Tuple[Part, ...]

    def all_of(self, kind: str) -> List[Part]:
        return [part for part in self.parts if part.kind == kind]

    def one_of(self, kind: str) -> Optional[Part]:
        found = self.all_of(kind)
        return found[0] if found else None

    def says_workers(self) -> bool:
        """Whether the number of workers is in the session's own words."""
        setting = self.setting
        return setting.line is not None or any(word.startswith("--workers") for word in setting.words)

    def lines(self) -> List[str]:
        return [line for part in self.parts for line in part.lines]


# Texts.


def raw(lines: List[str]) -> bytes:
    """The bytes of lines: `<0D>` is the byte of that number, and `<END>` the text's end without an end of line."""
    text = "".join(line + "\n" for line in lines).encode()
    text = re.sub(rb"<([0-9A-F]{2})>", lambda found: bytes([int(found[1], 16)]), text)
    return text[: -len(b"<END>\n")] if text.endswith(b"<END>\n") else text


def shown(text: bytes) -> List[str]:
    """The lines of bytes, as `raw` reads them."""
    text = text if not text or text.endswith(b"\n") else text + b"<END>\n"
    lines = "".join(chr(byte) if byte == 10 or 32 <= byte < 127 else f"<{byte:02X}>" for byte in text)
    return lines.split("\n")[:-1]


def unrolled(lines: List[str]) -> List[str]:
    """The lines, with N of them for `repeat N: LINE`, their number from 1 on in place of each `@`."""
    result: List[str] = []
    for line in lines:
        found = re.match(r"\s*repeat (\d+): ?(.*)", line)
        if found:
            result += [found[2].replace("@", str(number + 1)) for number in range(int(found[1]))]
        else:
            result.append(line)
    return result


def indented(lines: List[str]) -> List[str]:
    return ["  " + line if line else "" for line in lines]


# Session files.


def parts_of(lines: List[str]) -> Iterator[Part]:
    """The parts of a file's lines."""
    is_asked, at = False, 0
    while at < len(lines):
        line, begin = lines[at], at
        kind, _, rest = line.partition(" ")
        if not line.strip() or line.startswith("#"):
            kind, rest = "", ""
        elif kind in ("==", ">") or kind in EXPECTED:
            is_asked = kind != "=="
        elif is_asked and not line.startswith(" "):
            kind, rest = "answer", line
        elif kind not in SETTINGS:
            raise BadForm(f"line {at + 1}: nothing of the form begins so: {line}")
        at = end_of_part(lines, at, kind, rest)
        below = [line[2:] if kind in WITH_BLOCKS else line for line in lines[begin + 1 : at]]
        yield Part(kind, rest, tuple(lines[begin:at]), tuple(below))


def end_of_part(lines: List[str], at: int, kind: str, rest: str) -> int:
    """Where the part ends that begins there: behind its block, or behind the line under a status."""
    end = at + 1
    if kind == "status" and end < len(lines) and not lines[end].startswith("#"):
        return end + (lines[end].partition(" ")[0] not in ("", "==", ">", *EXPECTED))
    if kind in WITH_BLOCKS and not rest:
        for place in range(end, len(lines)):
            if lines[place].startswith("  "):
                end = place + 1
            elif lines[place].strip():
                break
    return end


def text_of(part: Part, path: Path) -> Optional[bytes]:
    """The text of a part's block, or of the file that it names."""
    if not part.rest:
        return raw(unrolled(list(part.block)))
    if part.rest == "none":
        return None
    for folder in (path.parent, TOP):
        if (folder / part.rest).is_file():
            return (folder / part.rest).read_bytes()
    raise BadForm(f"{part.kind} {part.rest}: there is no such file")


def numbers(text: str) -> Tuple[int, ...]:
    """The numbers of a line, with `3..5` for those from 3 to 5."""
    result: List[int] = []
    for word in text.split():
        low, _, high = word.partition("..")
        result += range(int(low), int(high or low) + 1)
    return tuple(result)


def with_part(setting: Setting, part: Part, path: Path) -> Setting:
    """The setting with what a part says."""
    if part.kind in ("words", "line"):
        return replace(setting, **{part.kind: tuple(shlex.split(part.rest))})
    if part.kind in ("workers", "beginnings"):
        return replace(setting, **{part.kind: numbers(part.rest)})
    if part.kind in ("program", "tables", "script"):
        return replace(setting, **{part.kind: text_of(part, path)})
    if part.kind == "memory" and part.rest == "refused":
        return replace(setting, refuses=True)
    if part.kind in ("memory", "stack"):
        return replace(setting, **{part.kind: int(part.rest)})
    if part.kind == "input":
        return replace(setting, input=part.rest != "none")
    if part.kind == "output" and part.rest in ("none", "closed", "absent"):
        return replace(setting, output=part.rest)
    if part.kind == "output":
        return replace(setting, rooms=numbers(part.rest))
    return replace(setting, **{part.kind: True}) if part.kind in ("long", "live", "terminal") else setting


def sessions_of(path: Path, lines: List[str]) -> List[Session]:
    """The sessions of a file: what stands before the first `==` holds for each of them."""
    found: List[List[Part]] = [[]]
    for part in parts_of(lines):
        found += [[]] if part.kind == "==" else []
        found[-1].append(part)
    sessions, begin, common = [], 0, Setting()
    for parts in found:
        setting = common
        for part in parts:
            setting = with_part(setting, part, path)
        is_section = bool(parts) and parts[0].kind == "=="
        common = common if is_section else setting
        name = str(path.relative_to(TOP) if TOP in path.parents else path)
        title = f"{name} == {parts[0].rest}" if is_section else name
        if any(part.kind == ">" or part.kind in EXPECTED for part in parts):
            sessions.append(checked(Session(path, title, begin, setting, tuple(parts))))
        elif is_section or len(found) == 1:
            raise BadForm(f"{title}: nothing is compared")
        begin += sum(len(part.lines) for part in parts)
    return sessions


def checked(session: Session) -> Session:
    """The session, where each thing that it expects is compared."""
    for kind in EXPECTED:
        if len(session.all_of(kind)) > 1 and kind != "counts":
            raise BadForm(f"{session.title}: {kind} stands twice")
    if session.one_of("printed") and session.all_of("answer"):
        raise BadForm(f"{session.title}: answers stand beside `printed`")
    is_one_worker = 1 in session.setting.workers or session.says_workers()
    if not is_one_worker and any(session.one_of(kind) for kind in ("counts", "said", "trace")):
        raise BadForm(f"{session.title}: counts, `said` and `trace` are those of one worker, and it isn't among `workers`")
    return session
