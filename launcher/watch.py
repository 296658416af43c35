"""Watches the files of a report, and answers anew each time that they change."""
import gc
import os
import re
import signal
import subprocess
import sys
import tempfile
import time
from argparse import Action, ArgumentParser
from dataclasses import dataclass
from typing import Dict, Optional

from answers import Shown, counts_shown, milliseconds
from live_session import Ended, LiveSession
from outlines import Outline, definitions, others, outline_of
from table_edits import Table, edits, headings, other_shape
from watched_files import WatchedFiles
from watched_tables import CsvTables, Refused, TomlTables, bytes_of, csv_tool

# So many seconds pass between two looks at the files, and between two while they change.
LOOKS, SOON = 0.25, 0.025
# As many edits are shown of those that are made at once.
FEW = 3
# The options that are handed on to the program, beside --trace.
OPTIONS = (
    ("workers", "N", "how many threads run the program"),
    ("kits", "N", "how many kits there are"),
)


def say(words):
    print(words, file=sys.stderr, flush=True)


class OutputFailed(Exception):
    """Answers can't be written."""


def show(words):
    """Writes to standard output, which is None where it is closed."""
    if sys.stdout is None:
        raise OutputFailed
    try:
        print(words, flush=True)
    except BrokenPipeError:
        raise
    except OSError:
        raise OutputFailed from None


def heading(words):
    return f"-- {time.strftime('%H:%M:%S')} {words}"


def leads_to(path, other):
    """Whether two paths lead to one file, as links do too."""
    try:
        return os.path.samefile(path, other)
    except OSError:
        return False


@dataclass(frozen=True)
class Held:
    """A session, and what stands in it. Its tables are None where they can't be compared with others."""

    session: LiveSession
    text: bytes
    outline: Outline
    tables: Optional[Dict[str, Table]]


def summary(names, rows):
    """Which procedures are defined, and some of the edits of rows."""
    parts = [f"define {', '.join(names)}"] if names else []
    parts += rows[:FEW] + ([f"and {len(rows) - FEW:,} more"] if len(rows) > FEW else [])
    return "; ".join(parts)


def all_edits(held, text, outline, tables):
    """What is said of the edits that lead from what a session holds to these texts, and their commands."""
    names, rows = others(held.outline, outline), edits(held.tables, tables)
    defines = ["\n".join(definitions(text.decode("ascii"), outline))] if names else []
    return summary(names, rows), defines + rows


def hindrance(held, outline, tables):
    """Why no edits lead from what a session holds to these reducers and tables, or None where some do."""
    if held.tables is None or tables is None:
        return "the tables can't be compared with those before"
    if list(held.outline.reducers.items()) != list(outline.reducers.items()):
        return "the reducers are others"
    return other_shape(held.tables, tables)


class Program:
    """The program, with options for its sessions, where these write their traces, and a folder for the texts that are handed to it."""

    def __init__(self, program, options, trace, room):
        self.program, self.room, self.trace = program, room, trace
        self.options = options if trace is None else [*options, f"--trace={trace}"]

    def put(self, name, text):
        with open(f"{self.room}/{name}", "wb") as file:
            file.write(text)
        return file.name

    def asked(self, *words):
        """What the program writes where it is called with these words and nothing to do, or raises what it refuses."""
        done = subprocess.run([self.program, *words], stdin=subprocess.DEVNULL, capture_output=True, check=False)
        if done.returncode:
            raise Refused(done.stderr.decode(errors="replace").rstrip())
        return done.stdout.decode(errors="replace")

    def outline(self, text):
        """The outline of a program's text, where it has the grammar of one."""
        return outline_of(self.asked("--print", self.put("program", text)))

    def check(self, text, tables):
        """Raises why a program isn't one over these tables: the rules ask for their columns alone."""
        self.asked(self.put("program", text), self.put("headings", headings(tables).encode()))

    def spare(self, paths, what):
        """Raises that a trace would take the place of one of these files. The program can't see it, since it reads copies of them."""
        if self.trace is not None and any(leads_to(self.trace, path) for path in paths):
            raise Refused(f"failed {self.trace}\n  It is {what}, which a trace would take the place of.")

    def session(self, text, tables, outline):
        """A new session over these texts."""
        paths = self.put("program", text), self.put("tables", tables)
        return LiveSession(self.program, paths, self.options, len(outline.reducers))


class Watch:
    """The watching of a program's file and its tables."""

    def __init__(self, program, path, tables):
        self.program, self.path, self.tables = program, path, tables
        self.files = WatchedFiles([path, *tables.paths], tables.by_lines)
        self.held, self.shown, self.began = None, Shown(), 0.0

    def spare(self):
        """Raises that a trace would take the place of a file that is read here."""
        self.program.spare(self.files.paths, "the file of the program or of the tables")
        self.program.spare(self.tables.codes(), "a file of codes")

    def look(self):
        """Looks at the files, deals with them where they are others than before, and returns how long to wait before the next look."""
        if not self.files.look():
            return LOOKS
        if not self.files.are_due():
            return SOON
        try:
            self.began = time.monotonic()
            text, given = bytes_of(self.path), self.tables.read()
            if not self.files.are_as_seen():
                return SOON
            self.tables.keep()
            self.answer(text, given)
        except BrokenPipeError:
            raise
        except (Refused, OSError) as refusal:
            if not self.files.are_as_seen() or not self.files.doubt():
                return SOON
            self.refuse(refusal)
        self.files.deal()
        return LOOKS

    def refuse(self, why):
        say(f"{heading('refused')}\n{why}\n{'The last answers stand.' if self.held else 'There is no answer yet.'}")

    def answer(self, text, given):
        """Answers for these texts: by edits of the session that is held where some lead to them, else in a new one."""
        outline = self.held.outline if self.held and self.held.text == text else self.program.outline(text)
        if not self.held:
            self.begin(text, given, outline, "begun")
            return
        why = hindrance(self.held, outline, given.tables)
        try:
            why = why or self.change(text, given, outline)
        except Ended as ended:
            why = f"the last one has ended with status {ended.status}: {ended.said}"
        if why:
            self.begin(text, given, outline, f"a new session, since {why}")

    def change(self, text, given, outline):
        """Edits the session that is held and answers, or returns why it can't be edited so."""
        if text != self.held.text:
            self.program.check(text, given.tables)
        said, commands = all_edits(self.held, text, outline, given.tables)
        session = self.held.session
        if not session.edit(commands):
            return "the last one refuses these edits"
        self.held = Held(session, text, outline, given.tables)
        if commands:
            self.run(said)
        else:
            show(heading("as before: nothing that counts has changed"))
        return None

    def begin(self, text, given, outline, why):
        """Begins a new session in place of the one that is held, where the program takes these texts."""
        self.spare()
        begun = Held(self.program.session(text, given.text(), outline), text, outline, given.tables)
        before, self.held = self.held, begun
        try:
            self.run(why)
        except Ended as ended:
            self.held = before
            begun.session.end()
            if not before and not ended.said.startswith("refused "):
                raise
            raise Refused(ended.said or f"The program has ended with status {ended.status}.") from None
        if before:
            before.session.end()

    def run(self, why):
        """Runs the session that is held, and shows the answer."""
        started = time.monotonic()
        answer = self.held.session.run()
        now = time.monotonic()
        lines = [heading(why), *self.shown.lines(answer, self.held.outline.reducers)]
        counts = counts_shown(answer.counts)
        took = f"{milliseconds(now - started)} to run, {milliseconds(now - self.began)} in all"
        show("\n".join(lines + [f"{counts}; {took}" if counts else took]))
        if answer.said:
            # Which run of the session it was is nobody's concern here.
            say(re.sub(r"^run \d+: ", heading(""), "\n".join(answer.said), flags=re.MULTILINE))

    def end(self):
        if self.held:
            self.held.session.end()


class Once(Action):
    """An option that may stand once, as it may for the program."""

    def __call__(self, parser, given, value, option_string=None):
        if getattr(given, self.dest) is not None:
            parser.print_usage(sys.stderr)
            parser.exit(2, f"  `{option_string}` stands twice.\n")
        setattr(given, self.dest, value)


def form(tool):
    """The words of this way to call the program."""
    words = ArgumentParser(
        prog="cilkreport --watch",
        usage="cilkreport --watch PROGRAM TABLES.toml [OPTIONS]\n       cilkreport --watch PROGRAM [NAME=]FILE.csv .. [OPTIONS]",
        description="Answers a report, and answers anew each time that its program or its tables change. Ctrl-C ends it.",
        allow_abbrev=False,
    )
    words.add_argument("program", metavar="PROGRAM", help="the file of the report program")
    words.add_argument("files", nargs="*", metavar="TABLES", help="the file of its tables in TOML, or CSV files of which they are made")
    for option, value, meaning in OPTIONS:
        words.add_argument(f"--{option}", action=Once, metavar=value, help=meaning)
    words.add_argument("--trace", action=Once, metavar="FILE", help="where the history of each run is written")
    for option in ("--stats", "--explain"):
        words.add_argument(option, action=Once, nargs=0, help="this is done in any case")
    tool.add_options(words.add_argument_group("of CSV files"))
    return words


def parsed(words, tool):
    """The program's path, the tables, the options that are the program's own, and where the trace is written."""
    asked = form(tool)
    given = asked.parse_intermixed_args(words)
    files = given.table + given.files
    options = [f"--{option}={getattr(given, option)}" for option, _, _ in OPTIONS if getattr(given, option) is not None]
    if given.table or any("=" in file or file.lower().endswith(".csv") for file in files):
        try:
            return given.program, CsvTables(tool, files, tool.Options(given)), options, given.trace
        except tool.Unfit as error:
            asked.error(str(error))
    if len(files) != 1:
        asked.error("one file of tables is wanted, or CSV files")
    if tool.are_given(given):
        asked.error("these options are for CSV files")
    return given.program, TomlTables(files[0]), options, given.trace


def watch(program, path, tables, options, trace):
    """Watches these files until it is interrupted, or the program can't be run so. Returns a status."""
    for file in (path, *tables.paths):
        if not os.path.isfile(file):
            say(f"failed {file}")
            return 1
    with tempfile.TemporaryDirectory(prefix="cilkreport-watch-") as room:
        watching = Watch(Program(program, options, trace, room), path, tables)
        try:
            watching.spare()
            while True:
                time.sleep(watching.look())
        except Refused as refusal:
            say(refusal)
            return 1
        except Ended as ended:
            say(ended.said)
            return ended.status
        finally:
            watching.end()


def run(program, words):
    """Watches the files that the words name, by that program, and returns a status. Being interrupted is its way to end."""
    path, tables, options, trace = parsed(words, csv_tool())
    # This is sent here where somebody opens a file to write to it in the moment in which it is asked whether anybody has.
    signal.signal(signal.SIGIO, signal.SIG_IGN)
    # The terminal has gone.
    signal.signal(signal.SIGHUP, lambda *_: sys.exit(129))
    # Rows by the hundred thousand come and go, and none of them refers to another.
    gc.disable()
    try:
        return watch(program, path, tables, options, trace)
    except KeyboardInterrupt:
        return 0
    except (BrokenPipeError, OutputFailed) as failure:
        if isinstance(failure, OutputFailed):
            say("failed output")
        # Nothing may be left to be written where nobody reads the answers any more, or they can't be written.
        if sys.stdout:
            os.dup2(os.open(os.devnull, os.O_WRONLY), sys.stdout.fileno())
        return 1
