"""Reads the texts of programs and of tables into trees. It reads well-formed texts, and looks after no limit and no rule.

An expression is a tuple that begins with its kind or operator. A statement is a tuple of its kind, its number and its parts. Two procedures
are the same where these are equal.
"""
import json
import re
from typing import Dict, List, NamedTuple, Tuple

TOKEN = re.compile(r"(?:[ \t\n]+|#[^\n]*)*(==|!=|<=|>=|\.\.|[a-z][a-z0-9_]*|[0-9]+|[-+*/%<>=(){}\[\];:,.]|\Z)")
TABLE = re.compile(r"^\[([a-z0-9_]+)\]\ncolumns = (\[.*\])\nrows = (\[[^a-z]*\])$", re.MULTILINE)
COMPARISONS = ("==", "!=", "<", "<=", ">", ">=")


class Unreadable(Exception):
    """A text that isn't in the grammar."""


class OtherForm(Exception):
    """A text of tables in another form than the one that is read here."""


class Reducer(NamedTuple):
    """A reducer with the numbers of its kind, and those of its initial value."""

    name: str
    kind: str
    numbers: Tuple[int, ...]
    initial: Tuple[int, ...]


class Procedure(NamedTuple):
    name: str
    is_memo: bool
    parameters: Tuple[str, ...]
    body: tuple


class Table(NamedTuple):
    columns: List[str]
    rows: Dict[int, List[int]]


def tokens_of(text: str) -> List[str]:
    """The tokens, and an empty one at the text's end."""
    found, at = [""], 0
    while at < len(text) or found[-1]:
        match = TOKEN.match(text, at)
        if not match:
            raise Unreadable(text[at : at + 20])
        found.append(match[1])
        at = match.end()
    return found[1:]


class Reader:
    """The tokens of a program that aren't read yet."""

    def __init__(self, text: str):
        self.tokens = tokens_of(text) if text.strip() else [""]
        self.at = 0
        self.statements = 0

    def peek(self, ahead: int = 0) -> str:
        return self.tokens[min(self.at + ahead, len(self.tokens) - 1)]

    def take(self) -> str:
        self.at += 1
        return self.tokens[self.at - 1]

    def skip(self, mark: str) -> None:
        if self.take() != mark:
            raise Unreadable(f"no {mark}")

    def is_next(self, mark: str) -> bool:
        """Takes that token if it is the next one."""
        found = self.peek() == mark
        self.at += found
        return found

    def number(self) -> int:
        token = self.take()
        if not token.isdigit():
            raise Unreadable(f"{token} is no number")
        return int(token)

    def name(self) -> str:
        token = self.take()
        if not token[:1].isalpha():
            raise Unreadable(f"{token} is no name")
        return token

    # Declarations.

    def program(self) -> Tuple[List[Reducer], List[Procedure]]:
        reducers, procedures = [], []
        while self.peek():
            if self.is_next("reducer"):
                reducers.append(self.reducer())
            else:
                procedures.append(self.procedure())
        return reducers, procedures

    def reducer(self) -> Reducer:
        name = self.name()
        self.skip(":")
        kind, numbers = self.name(), []
        while self.peek() not in (";", "from"):
            token = self.take()
            if not token:
                raise Unreadable("the end in a reducer")
            numbers += [int(token)] if token.isdigit() else []
        initial = self.initial() if self.is_next("from") else []
        self.skip(";")
        return Reducer(name, kind, tuple(numbers), tuple(initial))

    def initial(self) -> List[int]:
        found = [self.signed()]
        while self.is_next(","):
            found.append(self.signed())
        return found

    def signed(self) -> int:
        return -self.number() if self.is_next("-") else self.number()

    def procedure(self) -> Procedure:
        is_memo = self.is_next("memo")
        self.skip("proc")
        name, parameters = self.name(), []
        self.skip("(")
        while not self.is_next(")"):
            parameters.append(self.name())
            self.is_next(",")
        self.statements = 0
        return Procedure(name, is_memo, tuple(parameters), self.block())

    # Statements.

    def block(self) -> tuple:
        self.skip("{")
        found = []
        while not self.is_next("}"):
            found.append(self.statement())
        return tuple(found)

    def statement(self) -> tuple:
        self.statements += 1
        number, kind = self.statements, self.peek()
        if kind == "if":
            return self.branch(number)
        if kind in ("sync", "update", "return", "cilk_for"):
            self.take()
            found = getattr(self, f"{kind}_statement")(number)
        elif kind in ("call", "spawn"):
            found = self.entry(number, None)
        else:
            found = self.bind(number)
        self.skip(";")
        return found

    def branch(self, number: int) -> tuple:
        self.skip("if")
        condition, first = self.expression(), self.block()
        return "if", number, condition, first, self.block() if self.is_next("else") else ()

    def sync_statement(self, number: int) -> tuple:
        return "sync", number

    def update_statement(self, number: int) -> tuple:
        name, values = self.name(), [self.expression()]
        while self.is_next(","):
            values.append(self.expression())
        return "update", number, name, tuple(values)

    def return_statement(self, number: int) -> tuple:
        return "return", number, self.expression()

    def cilk_for_statement(self, number: int) -> tuple:
        variable = self.name()
        self.skip("in")
        low = self.expression()
        self.skip("..")
        high = self.expression()
        grain = self.number() if self.is_next("grain") else 1
        self.skip(":")
        return "for", number, variable, low, high, grain, self.name(), self.arguments()

    def entry(self, number: int, name) -> tuple:
        how = self.take()
        return "enter", number, name, how, self.name(), self.arguments()

    def bind(self, number: int) -> tuple:
        name = self.name()
        self.skip("=")
        if self.peek() in ("call", "spawn"):
            return self.entry(number, name)
        if self.is_next("read"):
            return "read", number, name, self.name()
        return "bind", number, name, self.expression()

    def arguments(self) -> tuple:
        self.skip("(")
        found = []
        while not self.is_next(")"):
            found.append(self.expression())
            self.is_next(",")
        return tuple(found)

    # Expressions.

    def expression(self) -> tuple:
        left = self.side()
        return (self.take(), left, self.side()) if self.peek() in COMPARISONS else left

    def side(self) -> tuple:
        left = self.term()
        while self.peek() in ("+", "-"):
            left = (self.take(), left, self.term())
        return left

    def term(self) -> tuple:
        left = self.unary()
        while self.peek() in ("*", "/", "%"):
            left = (self.take(), left, self.unary())
        return left

    def unary(self) -> tuple:
        return ("negative", self.unary()) if self.is_next("-") else self.atom()

    def atom(self) -> tuple:
        if self.peek().isdigit():
            return "number", self.number()
        if self.is_next("("):
            inner = self.expression()
            self.skip(")")
            return inner
        if self.is_next("limit"):
            return "limit", self.name()
        if self.is_next("sum"):
            return ("sum", *self.column())
        if self.is_next("has"):
            return ("has", *self.row())
        if self.peek(1) != "[":
            return "name", self.name()
        table, row = self.row()
        self.skip(".")
        return "cell", table, row, self.name()

    def column(self) -> tuple:
        table = self.name()
        self.skip(".")
        return table, self.name()

    def row(self) -> tuple:
        table = self.name()
        self.skip("[")
        row = self.expression()
        self.skip("]")
        return table, row


def program_of(text: str) -> Tuple[List[Reducer], List[Procedure]]:
    return Reader(text).program()


def tables_of(text: str) -> Dict[str, Table]:
    """The tables of a text in the usual form: each with a line of its columns first, and then its rows."""
    if re.sub(r"#.*", "", TABLE.sub("", text)).strip():
        raise OtherForm
    try:
        return {name: Table(json.loads(columns), rows_of(rows)) for name, columns, rows in TABLE.findall(text)}
    except ValueError:
        raise OtherForm from None


def rows_of(text: str) -> Dict[int, List[int]]:
    return {row[0]: row[1:] for row in json.loads(re.sub(r",\s*\]", "]", text))}
