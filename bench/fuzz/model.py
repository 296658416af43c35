"""A slow model of the language: what docs/LANGUAGE.md says that a session answers, and how many instances one worker executes and reuses.

Each run does everything from the beginning, in serial order. A record changes no answer here: where one would answer an instance, the
instance is only counted as reused, and nothing in it is counted.
"""
import sys
from typing import Dict, List, NamedTuple, Optional, Tuple

from syntax import Procedure, Reducer, Table, program_of, tables_of

DEEPEST = 256
LONGEST_RANGE = 1 << 20
LAST_ROW = (1 << 31) - 1
GREATEST = (1 << 63) - 1
LEAST = -(1 << 63)
sys.setrecursionlimit(8_000)  # 256 instances under one another, each with a few blocks around what it enters


class Fault(Exception):
    """The fault of a run: its kind, and the procedure and statement where it is."""


class MissingRow(Exception):
    """A cell is asked for where there is no such row."""


class TooLong(Exception):
    """A session that takes more steps than it may."""


def wrapped(value: int) -> int:
    return (value - LEAST) % (1 << 64) + LEAST


def divided(left: int, right: int) -> int:
    """The quotient towards 0."""
    quotient = abs(left) // abs(right)
    return wrapped(quotient if (left < 0) == (right < 0) else -quotient)


OPERATORS = {
    "+": lambda left, right: wrapped(left + right),
    "-": lambda left, right: wrapped(left - right),
    "*": lambda left, right: wrapped(left * right),
    "==": lambda left, right: int(left == right),
    "!=": lambda left, right: int(left != right),
    "<": lambda left, right: int(left < right),
    "<=": lambda left, right: int(left <= right),
    ">": lambda left, right: int(left > right),
    ">=": lambda left, right: int(left >= right),
}
FOLDS = {
    "add": (0, OPERATORS["+"]),
    "mul": (1, OPERATORS["*"]),
    "min": (GREATEST, min),
    "max": (LEAST, max),
    "and": (-1, lambda left, right: left & right),
    "or": (0, lambda left, right: left | right),
    "xor": (0, lambda left, right: left ^ right),
}
PAIRED = ("argmax", "affine", "hist")


class View:
    """What a reducer holds: at first its initial value."""

    def __init__(self, reducer: Reducer):
        self.kind, self.numbers = reducer.kind, reducer.numbers
        beginnings = {"list": [], "first": [], "last": [], "argmax": None, "affine": (1, 0), "hist": {}}
        if self.kind == "table":
            self.value = self.numbers[1]
        else:
            self.value = FOLDS[self.kind][0] if self.kind in FOLDS else beginnings[self.kind]
        size = 2 if self.kind in PAIRED else 1
        for at in range(0, len(reducer.initial), size):
            self.update(list(reducer.initial[at : at + size]))

    def is_element(self, values: List[int]) -> bool:
        return self.kind != "table" or 0 <= values[0] < self.numbers[0]

    def update(self, values: List[int]) -> None:
        kind, value = self.kind, values[0]
        if kind in FOLDS:
            self.value = FOLDS[kind][1](self.value, value)
        elif kind == "table":
            self.value = self.numbers[2 + self.value * self.numbers[0] + value]
        elif kind == "argmax":
            if self.value is None or value > self.value[0]:
                self.value = values
        elif kind == "affine":
            factor, added = self.value
            self.value = wrapped(factor * value), wrapped(value * added + values[1])
        elif kind == "hist":
            self.value[value] = wrapped(self.value.get(value, 0) + values[1])
        elif kind != "first" or len(self.value) < self.numbers[0]:
            self.value.append(value)

    def printed(self) -> str:
        if self.kind == "hist":
            return " ".join(f"{key}:{amount}" for key, amount in sorted(self.value.items()))
        if self.kind == "argmax" and self.value is None:
            return "none"
        if isinstance(self.value, int):
            return str(self.value)
        return " ".join(map(str, self.value[-self.numbers[0] :] if self.kind == "last" else self.value))


class Note:
    """What an instance that is recorded has read and entered, each with the answer that it had, and how deep it went."""

    def __init__(self, depth: int):
        self.depth = self.deepest = depth
        self.read: Dict[tuple, object] = {}

    def add(self, other: "Note") -> None:
        self.read.update(other.read)
        self.deepest = max(self.deepest, other.deepest)


class Session:
    """A session with its tables, its procedures with their revisions, and its records."""

    def __init__(self, program: str, tables: str, steps: int):
        self.reducers, procedures = program_of(program)
        self.procedures: Dict[str, Procedure] = {}
        self.revisions: Dict[str, int] = {}
        self.tables: Dict[str, Table] = tables_of(tables)
        self.records: Dict[tuple, Note] = {}
        self.steps = steps
        self.runs = 0
        self.define(procedures)

    def define(self, procedures: List[Procedure]) -> None:
        for procedure in procedures:
            if self.procedures.get(procedure.name) != procedure:
                self.procedures[procedure.name] = procedure
                self.revisions[procedure.name] = max(self.revisions.values(), default=0) + 1

    def row_refusal(self, table: str, row: int) -> Optional[str]:
        if table not in self.tables:
            return "refused E4"
        return None if 0 <= row <= LAST_ROW else "refused E6"

    def put(self, table: str, row: int, values: List[int]) -> str:
        refusal = self.row_refusal(table, row)
        if refusal or len(values) != len(self.tables[table].columns):
            return refusal or "refused E5"
        self.tables[table].rows[row] = values
        return "ok"

    def delete(self, table: str, row: int) -> str:
        refusal = self.row_refusal(table, row)
        if refusal or row not in self.tables[table].rows:
            return refusal or "refused E7"
        del self.tables[table].rows[row]
        return "ok"

    def run(self, kits: int) -> Tuple[List[str], str]:
        """A run's answer and its counts by one worker."""
        self.runs += 1
        run = Run(self, kits)
        try:
            value = run.enter("main", [], 1)
        except Fault as fault:
            kind, procedure, statement = fault.args
            return [f"run {self.runs}", f"fault {kind} in {procedure} at {statement}"], "none"
        except RecursionError:
            raise TooLong from None
        self.records.update(run.made)
        views = [f"{name} {view.printed()}".rstrip() for name, view in run.views.items()]
        return [f"run {self.runs}", f"result {value}", *views], f"{run.executed} {run.reused} {run.unrecorded}"


class Frame(NamedTuple):
    """An instance: its procedure, its depth, and the names that it has bound."""

    procedure: str
    depth: int
    names: Dict[str, int]


class Run:
    """One run of a session."""

    def __init__(self, session: Session, kits: int):
        self.session = session
        self.views = {reducer.name: View(reducer) for reducer in session.reducers}
        self.limits = {name: max(table.rows, default=-1) + 1 for name, table in session.tables.items()}
        self.sums = {
            (name, column): wrapped(sum(values[at] for values in table.rows.values()))
            for name, table in session.tables.items()
            for at, column in enumerate(table.columns)
        }
        self.made: Dict[tuple, Note] = {}
        self.notes = [Note(1)]
        self.free = kits - 1
        self.is_answered = False
        self.executed = self.reused = self.unrecorded = 0

    # Instances and their records.

    def enter(self, name: str, arguments: List[int], depth: int) -> int:
        procedure = self.session.procedures[name]
        if not procedure.is_memo or self.is_answered:
            return self.instance(procedure, arguments, depth)
        record = self.session.records.get((name, *arguments))
        if record and self.holds(record, depth):
            self.reused += 1
            self.is_answered = True
            value = self.instance(procedure, arguments, depth)
            self.is_answered = False
            return value
        self.executed += 1
        if self.free == 0:
            self.unrecorded += 1
            return self.instance(procedure, arguments, depth)
        return self.recorded(procedure, arguments, depth)

    def recorded(self, procedure: Procedure, arguments: List[int], depth: int) -> int:
        self.free -= 1
        self.notes.append(Note(depth))
        value = self.instance(procedure, arguments, depth)
        note = self.notes.pop()
        self.free += 1
        self.made[(procedure.name, *arguments)] = note
        self.notes[-1].add(note)
        return value

    def instance(self, procedure: Procedure, arguments: List[int], depth: int) -> int:
        note = self.notes[-1]
        note.deepest = max(note.deepest, depth)
        self.ask("procedure", procedure.name)
        value = self.block(procedure.body, Frame(procedure.name, depth, dict(zip(procedure.parameters, arguments))))
        return 0 if value is None else value

    def holds(self, record: Note, depth: int) -> bool:
        fits = depth + record.deepest - record.depth <= DEEPEST
        return fits and all(self.answer(*question) == answer for question, answer in record.read.items())

    def ask(self, *question):
        """The answer to a question, which is noted."""
        answer = self.answer(*question)
        self.notes[-1].read[question] = answer
        return answer

    def answer(self, kind: str, name: str, row: int = 0, column: str = ""):
        if kind == "procedure":
            return self.session.revisions[name]
        if kind == "limit":
            return self.limits[name]
        if kind == "sum":
            return self.sums[name, column]
        table = self.session.tables[name]
        if kind == "has":
            return int(row in table.rows)
        return table.rows[row][table.columns.index(column)] if row in table.rows else None

    # Statements. Each gives the value that its instance returns, or none where it goes on.

    def block(self, statements: tuple, frame: Frame) -> Optional[int]:
        for statement in statements:
            self.session.steps -= 1
            if self.session.steps < 0:
                raise TooLong
            try:
                value = getattr(self, f"do_{statement[0]}")(frame, *statement[1:])
            except ZeroDivisionError:
                raise Fault("divide by zero", frame.procedure, statement[1]) from None
            except MissingRow:
                raise Fault("missing row", frame.procedure, statement[1]) from None
            if value is not None:
                return value
        return None

    def do_bind(self, frame: Frame, _number: int, name: str, expression: tuple) -> None:
        frame.names[name] = self.value(expression, frame.names)

    def do_read(self, frame: Frame, _number: int, name: str, reducer: str) -> None:
        frame.names[name] = self.views[reducer].value

    def do_enter(self, frame: Frame, number: int, name: Optional[str], _how: str, procedure: str, arguments: tuple) -> None:
        values = self.values(arguments, frame.names)
        value = self.enter(procedure, values, self.below(frame, number))
        if name:
            frame.names[name] = value

    def below(self, frame: Frame, number: int) -> int:
        """The depth of an instance that this one enters."""
        if frame.depth == DEEPEST:
            raise Fault("too deep", frame.procedure, number)
        return frame.depth + 1

    def do_sync(self, _frame: Frame, _number: int) -> None:
        """There is nothing to wait for."""

    def do_update(self, frame: Frame, number: int, reducer: str, expressions: tuple) -> None:
        values, view = self.values(expressions, frame.names), self.views[reducer]
        if not view.is_element(values):
            raise Fault("bad element", frame.procedure, number)
        if not self.is_unseen(view):
            view.update(values)

    def is_unseen(self, _view: View) -> bool:
        return False

    def do_if(self, frame: Frame, _number: int, condition: tuple, first: tuple, second: tuple) -> Optional[int]:
        return self.block(first if self.value(condition, frame.names) else second, frame)

    def do_for(self, frame: Frame, number: int, variable: str, low: tuple, high: tuple, _grain: int, procedure: str, arguments: tuple) -> None:
        begin, end = self.values((low, high), frame.names)
        if end - begin > LONGEST_RANGE:
            raise Fault("range too long", frame.procedure, number)
        for index in range(begin, end):
            values = self.values(arguments, {**frame.names, variable: index})
            self.enter(procedure, values, self.below(frame, number))

    def do_return(self, frame: Frame, _number: int, expression: tuple) -> int:
        return self.value(expression, frame.names)

    # Expressions.

    def values(self, expressions: tuple, names: Dict[str, int]) -> List[int]:
        return [self.value(expression, names) for expression in expressions]

    def value(self, expression: tuple, names: Dict[str, int]) -> int:
        kind = expression[0]
        if kind == "number":
            return expression[1]
        if kind == "name":
            return names[expression[1]]
        if kind == "negative":
            return wrapped(-self.value(expression[1], names))
        if kind in ("cell", "has", "limit", "sum"):
            return self.asked(expression, names)
        left, right = self.value(expression[1], names), self.value(expression[2], names)
        if kind == "/":
            return divided(left, right)
        if kind == "%":
            return wrapped(left - divided(left, right) * right)
        return OPERATORS[kind](left, right)

    def asked(self, expression: tuple, names: Dict[str, int]) -> int:
        """The value of an expression that asks a table."""
        if expression[0] == "limit":
            return self.ask(*expression)
        if expression[0] == "sum":
            return self.ask("sum", expression[1], 0, expression[2])
        row = self.value(expression[2], names)
        answer = self.ask(expression[0], expression[1], row, *expression[3:])
        if answer is None:
            raise MissingRow
        return answer


# Scripts.


def commands_of(script: str) -> List[List[str]]:
    """The commands of a script, each with its lines; a `define` has all up to its `end`."""
    commands: List[List[str]] = []
    for line in script.split("\n"):
        if commands and commands[-1][0].split() == ["define"] and commands[-1][-1].split() != ["end"]:
            commands[-1].append(line)
        elif line.split() and not line.startswith("#"):
            commands.append([line])
    return commands


def played(program: str, tables: str, script: str, kits: int = 64, steps: int = 1 << 40) -> Tuple[List[str], List[str]]:
    """The answers to a script of well-formed commands, and the counts of its runs."""
    session = Session(program, tables, steps)
    answers, counts = [], []
    for lines in commands_of(script):
        words = lines[0].split()
        if words[0] == "run":
            answer, count = session.run(kits)
            answers += answer
            counts.append(count)
        elif words[0] == "define":
            session.define(program_of("\n".join(lines[1:-1]))[1])
            answers.append("ok")
        elif words[0] == "put":
            answers.append(session.put(words[1], int(words[2]), [int(word) for word in words[3:]]))
        elif words[0] == "del":
            answers.append(session.delete(words[1], int(words[2])))
    return answers, counts
