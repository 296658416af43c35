"""Tables as they stand in a file, and the edits that lead from some to others."""
import json
import re
from dataclasses import dataclass
from itertools import chain
from typing import Dict, List

try:
    import tomllib
except ImportError:
    # Python has it from 3.11 on. Without it tables in the plain form alone can be compared.
    tomllib = None

LAST_ROW = 2**31 - 1
SMALLEST, GREATEST = -(2**63), 2**63 - 1

# Tables as they are mostly written. Their columns and rows are JSON too, but for comments and a last comma, and that is read ten
# times as fast. What has this form and can be read so is the same document in TOML.
COMMENT = r"#[^\x00-\x08\x0a-\x1f\x7f]*\n"
BLANK = rf"(?:[ \t\n]|{COMMENT})*"
NAMES = r'\[[ \t]*"[a-z0-9_]+"(?:,[ \t]*"[a-z0-9_]+")*[ \t]*\]'
ROWS = r"[][0-9, \t\n-]*"
PLAIN = re.compile(
    rf"\[(?P<name>[a-z][a-z0-9_]*)\][ \t]*\n{BLANK}columns[ \t]*=[ \t]*(?P<columns>{NAMES})[ \t]*\n"
    rf"{BLANK}rows[ \t]*=[ \t]*(?P<rows>\[{ROWS}(?:{COMMENT}{ROWS})*\])[ \t]*(?:\n{BLANK}|\Z)"
)
LAST_COMMA = re.compile(r",[ \t\n]*\]\Z")


@dataclass(frozen=True)
class Table:
    """The names of its columns, and the values of each row by its number."""

    columns: List[str]
    rows: Dict[int, List[int]]


def plain(text):
    """The document of a text in the plain form, or None where it hasn't that form."""
    document, at = {}, re.match(BLANK, text).end()
    while at < len(text):
        found = PLAIN.match(text, at)
        if not found or found["name"] in document:
            return None
        try:
            rows = json.loads(LAST_COMMA.sub("]", re.sub(COMMENT, "\n", found["rows"])))
        except (ValueError, RecursionError):
            return None
        document[found["name"]] = {"columns": json.loads(found["columns"]), "rows": rows}
        at = found.end()
    return document


def document_of(text):
    """The document of a text in TOML, or None where it is none, or none that can be read here."""
    document = plain(text)
    if document is not None or not tomllib:
        return document
    try:
        return tomllib.loads(text)
    except (ValueError, RecursionError):
        return None


def are_rows(rows, width):
    """Whether these are rows of so many numbers, the first of which is the row's own."""
    if not isinstance(rows, list) or not set(map(type, rows)) <= {list} or not set(map(len, rows)) <= {width}:
        return False
    numbers = {row[0] for row in rows} if rows else set()
    return (
        set(map(type, chain.from_iterable(rows))) <= {int}
        and len(numbers) == len(rows)
        and 0 <= min(numbers, default=0)
        and max(numbers, default=0) <= LAST_ROW
        and SMALLEST <= min(chain.from_iterable(rows), default=0)
        and max(chain.from_iterable(rows), default=0) <= GREATEST
    )


def tables_of(text):
    """The tables of a text in TOML by their names, or None where it has none of the shape of tables, or none that can be read here."""
    document = document_of(text)
    if document is None:
        return None
    tables = {}
    for name, held in document.items():
        if not isinstance(held, dict) or set(held) != {"columns", "rows"} or not isinstance(held["columns"], list):
            return None
        if not are_rows(held["rows"], 1 + len(held["columns"])):
            return None
        tables[name] = Table(held["columns"], {row[0]: row[1:] for row in held["rows"]})
    return tables


def headings(tables):
    """A text of tables with the same columns, and no rows."""
    return "".join(f"[{name}]\ncolumns = {json.dumps(table.columns)}\nrows = []\n" for name, table in tables.items())


def other_shape(old, new):
    """What keeps edits of rows from leading from some tables to others, or None where nothing does."""
    for name in [*old, *new]:
        if name not in new:
            return f"there is no table {name} any more"
        if name not in old:
            return f"there is a table {name} now"
        if old[name].columns != new[name].columns:
            return f"the table {name} has other columns"
    return None


def edits(old, new):
    """The commands that make of some tables others with the same columns, one for each row."""
    commands = []
    for name, table in new.items():
        before = old[name].rows
        commands += [f"del {name} {number}" for number in before if number not in table.rows]
        for number, values in table.rows.items():
            if before.get(number) != values:
                commands.append(f"put {name} {number} {' '.join(map(str, values))}")
    return commands
