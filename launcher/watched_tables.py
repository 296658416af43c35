"""The tables of a report that is watched: what is handed to the program, and what is compared with the tables before."""
import contextlib
import importlib.util
import io
import sys
from dataclasses import dataclass
from importlib.machinery import SourceFileLoader
from typing import Callable, Dict, Optional

from sources import TOP
from table_edits import Table, tables_of


class Refused(Exception):
    """The files can't be answered as they stand, and why."""


@dataclass(frozen=True)
class Given:
    """What makes a text in TOML of tables, and the tables by their names; None where they are no tables, or can't be read here."""

    text: Callable[[], bytes]
    tables: Optional[Dict[str, Table]]


def csv_tool():
    """tools/tables_from_csv, as a module."""
    loader = SourceFileLoader("tables_from_csv", f"{TOP}/tools/tables_from_csv")
    tool = importlib.util.module_from_spec(importlib.util.spec_from_loader(loader.name, loader))
    loader.exec_module(tool)
    return tool


def bytes_of(path):
    try:
        with open(path, "rb") as file:
            return file.read()
    except OSError as error:
        raise Refused(f"{path}: {error.strerror}") from None


class TomlTables:
    """Tables that stand in a file in TOML."""

    by_lines = ()

    def __init__(self, path):
        self.paths = [path]

    def read(self):
        text = bytes_of(self.paths[0])
        try:
            return Given(lambda: text, tables_of(text.decode()))
        except UnicodeDecodeError:
            raise Refused(f"{self.paths[0]}: isn't UTF-8") from None

    def codes(self):
        """There are no files of codes."""
        return []

    def keep(self):
        """Nothing is kept beside the file."""


class CsvTables:
    """Tables that are made of CSV files, by the options of the tool that makes them."""

    def __init__(self, tool, files, options):
        self.tool, self.files, self.options = tool, files, options
        self.paths = self.by_lines = [word.rpartition("=")[2] for word in files]
        self.made, self.told = [], set()

    def read(self):
        said = io.StringIO()
        before, self.made = self.made, []
        try:
            with contextlib.redirect_stderr(said):
                self.made = self.tool.tables_of(self.files, self.options, before)
        except self.tool.Unfit as error:
            raise Refused(str(error)) from None
        self.tell(said.getvalue().splitlines(keepends=True))
        made = self.made
        return Given(lambda: self.text(made), {table.name: Table(list(table.columns), table.rows) for table in made})

    @staticmethod
    def text(made):
        text = io.StringIO()
        for table in made:
            table.write(text)
        return text.getvalue().encode()

    def tell(self, lines):
        """Says what hasn't been said yet."""
        sys.stderr.write("".join(line for line in lines if line not in self.told))
        sys.stderr.flush()
        self.told.update(lines)

    def codes(self):
        """The files of codes that are read and written beside the files."""
        return [codes.path for table in self.made for codes in table.codes]

    def keep(self):
        """Writes which codes stand for which texts, where there are new ones."""
        self.tool.write_codes(self.made)
