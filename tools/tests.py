#!/usr/bin/env python3
"""The tools' own tests: what tables_from_csv makes of files, and what it says where something doesn't fit."""
import argparse
import contextlib
import importlib.util
import io
import os
import re
import subprocess
import sys
import tempfile
import unittest
from importlib.machinery import SourceFileLoader

sys.dont_write_bytecode = True
TOOL = os.path.join(os.path.dirname(os.path.realpath(__file__)), "tables_from_csv")
SALES = "Day,Shop,Unit price,qty\n2025-01-01,North,2.50,3\n2025-01-02,South,4.75,2\n2025-01-02,North,,2\n2025-01-03,North,1,1\n"


def loaded():
    """The tool, as a module."""
    loader = SourceFileLoader("tables_from_csv", TOOL)
    tool = importlib.util.module_from_spec(importlib.util.spec_from_loader(loader.name, loader))
    loader.exec_module(tool)
    return tool


class TablesFromCsv(unittest.TestCase):
    def setUp(self):
        folder = tempfile.TemporaryDirectory()
        self.addCleanup(folder.cleanup)
        self.folder = folder.name

    def made(self, text, *words, name="sales.csv"):
        """What the tool writes of a file of that text, what it says, and its status."""
        with open(f"{self.folder}/{name}", "w", encoding="utf-8") as file:
            file.write(text)
        done = subprocess.run([sys.executable, TOOL, *words], cwd=self.folder, capture_output=True, text=True, check=False)
        return done.stdout, done.stderr, done.returncode

    def refused(self, text, *words):
        out, said, status = self.made(text, *words, "sales.csv")
        self.assertEqual((out, status), ("", 1))
        return said.splitlines()[-1]

    def test_days_decimals_texts_and_missing_values(self):
        words = ("--code", "Shop", "--scale", "Unit price=100", "--skip-empty", "sales.csv")
        out, said, status = self.made(SALES, *words)
        rows = "  [1, 20089, 1, 250, 3],\n  [2, 20090, 2, 475, 2],\n  [4, 20091, 1, 100, 1],\n"
        self.assertEqual(out, f'[sales]\ncolumns = ["day", "shop", "unit_price", "qty"]\nrows = [\n{rows}]\n')
        self.assertEqual(status, 0)
        left_out = "sales.csv: 1 line is left out, in which a value is missing. Its number is left out too: ask `has`\n"
        self.assertEqual(said, f"sales.csv: columns day (Day), shop (Shop), unit_price (Unit price)\n{left_out}")
        with open(f"{self.folder}/sales.shop.codes.csv", encoding="utf-8") as file:
            self.assertEqual(file.read().split(), ["code,text", "1,North", "2,South"])

    def test_codes_stay(self):
        self.made("shop\nNorth\nSouth\n", "sales.csv", "--code", "shop")
        out, _, _ = self.made("shop\nWest\nSouth\n", "sales.csv", "--code", "sales:shop")
        self.assertEqual(out, '[sales]\ncolumns = ["shop"]\nrows = [\n  [1, 3],\n  [2, 2],\n]\n')

    def test_a_file_of_codes_that_is_none(self):
        for text in ("code,text\nNorth\n", "code,text\nNorth,1\n"):
            with open(f"{self.folder}/sales.shop.codes.csv", "w", encoding="utf-8") as file:
                file.write(text)
            self.assertEqual(self.refused("shop\nNorth\n", "--code", "shop"), "./sales.shop.codes.csv: isn't a file of codes: each line has a number and a text")

    def test_rows_by_a_column(self):
        out, _, _ = self.made("id,v\n7,1\n3,2\n", "--table", "t=sales.csv", "--row", "id")
        self.assertEqual(out, '[t]\ncolumns = ["v"]\nrows = [\n  [7, 1],\n  [3, 2],\n]\n')

    def test_the_rows_column_needs_no_other_option(self):
        out, _, _ = self.made("id,a,b\n7,1,5\n3,2,6\n", "--row", "id", "--columns", "b", "sales.csv")
        self.assertEqual(out, '[sales]\ncolumns = ["b"]\nrows = [\n  [7, 5],\n  [3, 6],\n]\n')

    def test_names_of_the_language(self):
        out, said, _ = self.made("2nd,limit,Sum,a b,a-b\n1,2,3,4,5\n", "2025 Sales.csv", name="2025 Sales.csv")
        self.assertTrue(out.startswith('[c_2025_sales]\ncolumns = ["c_2nd", "limit_", "sum_", "a_b", "a_b_2"]\n'), out)
        self.assertEqual(said, "2025 Sales.csv: table c_2025_sales, columns c_2nd (2nd), limit_ (limit), sum_ (Sum), a_b (a b), a_b_2 (a-b)\n")

    def rows(self, text, *words):
        """The rows that the tool makes of a file, each as its numbers."""
        out, said, status = self.made(text, *words, "sales.csv")
        self.assertEqual(status, 0, said)
        return re.findall(r"^  \[(.*)\],$", out, re.MULTILINE)

    def test_what_parts_columns(self):
        for mark, words in ((";", (";",)), ("\t", ("tab", "\t", "\\t")), ("|", ("|",))):
            for word in words:
                self.assertEqual(self.rows(f"a{mark}b\n1{mark}2\n", "--parted-by", word), ["1, 1, 2"])
        self.assertEqual(self.rows("a;b\n1\n", "--parted-by", ","), ["1, 1"])
        self.assertEqual(self.rows("a;b,c\n1,2\n"), ["1, 1, 2"])
        for mark, called, cure in ((";", "`;`", "';'"), ("\t", "tab", "tab")):
            why = f"its first line is one column, with a {called} in it: --parted-by {cure} where that parts columns, else --parted-by ','"
            self.assertEqual(self.refused(f"a{mark}b\n1{mark}2\n"), f"sales.csv: {why}")
        for word in ("", ";;", "\n", '"'):
            self.assertEqual(self.refused("a\n1\n", "--parted-by", word), f"--parted-by takes a mark such as ';' or the word tab, and not {word!r}")

    def test_decimal_commas(self):
        words = ("--parted-by", ";", "--scale", "price=100")
        self.assertEqual(self.rows("price\n2,50\n-3\n", *words, "--decimal-comma"), ["1, 250", "2, -300"])
        self.assertEqual(self.refused("price\n2,50\n", *words), "sales.csv: line 2: column price: '2,50' isn't a number: --decimal-comma takes such ones")
        self.assertEqual(self.refused("price\n1.250,50\n", *words, "--decimal-comma"), "sales.csv: line 2: column price: '1.250,50' isn't a number with a decimal comma: marks that part thousands have to be taken out of the file")

    def read(self, text, *words):
        """The rows of a file of that text in this process, a line each, and what is said of it; or why it is refused."""
        with open(f"{self.folder}/sales.csv", "w", encoding="utf-8") as file:
            file.write(text)
        tool, form, said = loaded(), argparse.ArgumentParser(), io.StringIO()
        tool.add_options(form)
        with contextlib.redirect_stderr(said):
            try:
                (table,) = tool.tables_of([f"{self.folder}/sales.csv"], tool.Options(form.parse_args(words)))
            except tool.Unfit as error:
                return str(error).replace(f"{self.folder}/", "")
        return list(table.rows.values()), said.getvalue().replace(f"{self.folder}/", "")

    def test_commas_that_may_part_thousands(self):
        either = "--decimal-comma takes its comma for a decimal one, and one that parts thousands has to be taken out of the file"
        parted = "marks that part thousands have to be taken out of the file"
        for number, why in (("1,000", either), ("-12,345", either), ("1,000,000", parted), ("1,000.50", parted), ("0,500", "--decimal-comma takes such ones")):
            self.assertEqual(self.read(f'v\n"{number}"\n'), f"sales.csv: line 2: column v: '{number}' isn't a number: {why}")
        why = "and no number of the column shows what its commas are"
        cure = "--scale v=1000 takes them for decimal ones, and those that part thousands have to be taken out of the file"
        for scale in ("1", "100", "500"):
            for text, line, cell, point, joined in (("1,000", 2, "1,000", "1.000", 1000), ("7\n12,000\n2,000", 3, "12,000", "12.000", 12000), ("-1,000\n1234", 2, "-1,000", "-1.000", -1000)):
                said = self.read(f"v\n{text}\n", "--parted-by", ";", "--decimal-comma", "--scale", f"v={scale}")
                self.assertEqual(said, f"sales.csv: line {line}: column v: '{cell}' may be {point} or {joined}, {why}: {cure}")

    def test_commas_that_are_decimal_ones(self):
        words = ("--parted-by", ";", "--decimal-comma", "--scale")
        self.assertEqual(self.read("v\n1,250\n2,000\n", *words, "v=1000"), ([[1250], [2000]], ""))
        for other, value in (("2,50", 250), ("0,500", 50), ("1234,000", 123400), ("3,0", 300)):
            self.assertEqual(self.read(f"v\n1,000\n{other}\n", *words, "v=100"), ([[100], [value]], ""))

    def test_dots_that_may_part_thousands_are_told_of(self):
        told = "'1.000' is taken for a decimal number, and not for 1000: dots that part thousands have to be taken out of the file"
        rows, said = self.read("v,w,x,y\n1.000,1.000,1.000,1\n2.000,2.5,1.5,1\n", "--scale", "w=10", "--scale", "x=1000")
        self.assertEqual((rows[1], said), ([2, 25, 1500, 1], f"sales.csv: line 2: column v: {told}\n"))
        self.assertEqual(self.read("id,v\n1.000,2\n", "--row", "id"), "sales.csv: line 2: column id: '1.000' isn't a row's number: --row takes a column of whole numbers")

    def test_what_only_python_takes_for_a_number(self):
        for number in ("1_000", "\u0663", "1\u0663.5"):
            why = "isn't a number: those have the digits 0 to 9, and no `_` between them"
            self.assertEqual(self.read(f"v\n{number}\n"), f"sales.csv: line 2: column v: '{number}' {why}")
            why = "isn't a row's number: --row takes a column of whole numbers"
            self.assertEqual(self.read(f"id,v\n{number},1\n", "--row", "id"), f"sales.csv: line 2: column id: '{number}' {why}")
        self.assertEqual(self.read("d\n0\u0668.04.2025\n", "--date", "d=%d.%m.%Y"), "sales.csv: line 2: column d: '0\u0668.04.2025' isn't a day in the form %d.%m.%Y")
        for option, word in (("--scale", "v=1\u0663"), ("--empty", "v=\u0663")):
            self.assertIn(f"and not {word}", self.read("v\n1\n", option, word))
        self.assertEqual(self.read("v\ninf\n"), "sales.csv: line 2: column v: 'inf' isn't a number: a text column is taken by --code, or left out by --columns")

    def test_dates_in_other_forms(self):
        # 2025-04-08 is 55 years and 97 days behind 1970-01-01, and 14 of the years have a day more.
        text = "Day,back\n08.04.2025,4/8/25\n1.1.1970,12/31/69\n"
        self.assertEqual(self.rows(text, "--date", "Day=%d.%m.%Y", "--date", "back=%m/%d/%y"), ["1, 20186, 20186", "2, 0, -1"])
        self.assertEqual(self.rows("d\n2025-04-08 23:59\n", "--date", "d=%Y-%m-%d %H:%M"), ["1, 20186"])
        for day in ("08.04.2025", "4/8/25", "2025/04/08", "8-4-2025", "2025-04-08 10:00"):
            why = "isn't a number: days are written 2025-04-08, or in the form of --date COLUMN=%d.%m.%Y"
            self.assertEqual(self.refused(f"d\n{day}\n"), f"sales.csv: line 2: column d: '{day}' {why}")
        self.assertEqual(self.refused("d\n31.04.2025\n", "--date", "d=%d.%m.%Y"), "sales.csv: line 2: column d: '31.04.2025' isn't a day in the form %d.%m.%Y")
        for form in ("", "%d.%m.", "%Y", "%d.%m.%Y %Q", "%", "%d %d %m %Y"):
            why = f"--date takes COLUMN=FORM with day, month and year, as day=%d.%m.%Y, and not d={form}"
            self.assertEqual(self.refused("d\n31.04.2025\n", "--date", f"d={form}"), why)

    def test_columns_by_either_name(self):
        for name in ("Unit price", "unit_price", "sales:Unit price", "sales:unit_price"):
            self.assertEqual(self.rows("Unit price,b\n2.5,1\n", "--scale", f"{name}=10"), ["1, 25, 1"])
        # A title goes before the new name of another column, and the words for one table before those for all.
        self.assertEqual(self.rows("A b,a_b\n1,2\n", "--columns", "a_b"), ["1, 2"])
        self.assertEqual(self.rows("A b,a_b\n1,2\n", "--columns", "a_b_2, A b"), ["1, 1, 2"])
        self.assertEqual(self.rows("v\n2\n", "--scale", "v=10", "--scale", "sales:v=100"), ["1, 200"])
        self.assertEqual(self.rows("v,v\n2,3\n"), ["1, 2, 3"])

    def test_an_option_that_stands_twice_for_a_column(self):
        for option, one, other in (("--scale", "v=10", "v=100"), ("--date", "v=%d.%m.%Y", "v=%m.%d.%Y"), ("--empty", "v=0", "v=0")):
            self.assertEqual(self.read("v\n1\n", option, one, option, other), f"{option} v stands twice")

    def test_columns_that_there_are_not(self):
        self.made("Member\n1\n", name="loans.csv")
        there = "loans.csv has Member; sales.csv has Fine (EUR), b"
        for option, word in (("--code", "fine"), ("--row", "id"), ("--columns", "x"), ("--code", "loans:b"), ("--scale", "Fine=100"), ("--date", "x=%d.%m.%Y"), ("--empty", "x=0")):
            said = self.refused("Fine (EUR),b\n1,2\n", "loans.csv", option, word)
            self.assertEqual(said, f"{option} {word.partition('=')[0]}: no file has such a column. {there}")

    def test_numbers_for_missing_values(self):
        self.assertEqual(self.rows("a,b\n1,\n,2\n", "--empty", "a=-1", "--skip-empty"), ["2, -1, 2"])
        self.assertEqual(self.rows("day,b\n,1\n2025-04-08,2\n", "--empty", "day=0"), ["1, 0, 1", "2, 20186, 2"])
        self.assertEqual(self.rows("shop,b\n,1\nNorth,2\n", "--code", "shop", "--empty", "shop=0"), ["1, 0, 1", "2, 1, 2"])
        for number in ("", "1.5", "9223372036854775808"):
            self.assertEqual(self.refused("a\n1\n", "--empty", f"a={number}"), f"--empty takes COLUMN=NUMBER of 64 bits, as returned=0, and not a={number}")

    def test_lines_that_are_left_out(self):
        _, said, _ = self.made("a,b\n1,\n,2\n3,4\n", "sales.csv", "--skip-empty")
        self.assertEqual(self.rows("id,v\n,1\n5,2\n7,\n", "--skip-empty", "--row", "id"), ["5, 2"])
        self.assertEqual(said, "sales.csv: 2 lines are left out, in which a value is missing. Their numbers are left out too: ask `has`\n")

    def test_a_file_that_was_read_before_is_read_as_if_it_were_not(self):
        tool = loaded()
        form, path, before = argparse.ArgumentParser(), f"{self.folder}/sales.csv", []
        tool.add_options(form)
        words = ["--code", "shop", "--codes-in", self.folder, "--row", "id", "--skip-empty"]
        for text, kept in (
            ("id,shop,v\n1,North,2\n2,South,3\n", True),
            ("id,shop,v\n1,North,2\n3,West,\n4,South,3\n", True),
            ("id,v,shop\n1,2,North\n2,3,North\n", True),
            ("id,v,shop\n1,2,East\n2,3,North\n", False),
            ("id,v,shop\n1,2,Hill\n2,3,East\n", True),
        ):
            with open(path, "w", encoding="utf-8") as file:
                file.write(text)
            options = tool.Options(form.parse_args(words))
            with contextlib.redirect_stderr(io.StringIO()):
                fresh, known = tool.tables_of([path], options), tool.tables_of([path], options, before)
            self.assertEqual([(table.name, table.rows) for table in known], [(table.name, table.rows) for table in fresh])
            before = known
            if kept:
                tool.write_codes(known)

    def test_help_and_usage(self):
        out, said, status = self.made("v\n1\n", "--help")
        self.assertEqual((said, status), ("", 0))
        self.assertIn("--scale has a multiple of 1000 for it", " ".join(out.split()))
        self.assertIn("COLUMN=%d.%m.%Y", out)
        out, said, status = self.made("v\n1\n")
        self.assertEqual((out, status, said.splitlines()[-1]), ("", 2, "tables_from_csv: error: no CSV file is named"))

    def test_tables_that_can_not_be_written(self):
        self.made("v\n1\n")
        with open("/dev/full", "w", encoding="utf-8") as full:
            for how in ({"stdout": full}, {"preexec_fn": lambda: os.close(1)}):
                done = subprocess.run([sys.executable, TOOL, f"{self.folder}/sales.csv"], stderr=subprocess.PIPE, text=True, check=False, **how)
                self.assertEqual((done.returncode, done.stderr), (1, "failed output\n"))

    def test_what_does_not_fit(self):
        self.assertEqual(self.refused("v\n1\nx\n"), "sales.csv: line 3: column v: 'x' isn't a number: a text column is taken by --code, or left out by --columns")
        self.assertEqual(self.refused("v\n2.5\n"), "sales.csv: line 2: column v: '2.5' isn't a whole number: --scale makes it one")
        self.assertEqual(self.refused("v\n2.505\n", "--scale", "v=100"), "sales.csv: line 2: column v: '2.505' times 100 isn't a whole number")
        self.assertEqual(self.refused("v\n9223372036854775808\n"), "sales.csv: line 2: column v: '9223372036854775808' has no room in 64 bits")
        self.assertEqual(self.refused("v\n1e999999\n", "--scale", "v=10"), "sales.csv: line 2: column v: '1e999999' has no room in 64 bits")
        self.assertEqual(self.refused("d\n2025-02-30\n"), "sales.csv: line 2: column d: '2025-02-30' isn't a day of the calendar")
        self.assertEqual(self.refused("a,b\n1,\n"), "sales.csv: line 2: column b: a value is missing: --skip-empty leaves such lines out, --empty COLUMN=0 takes a number for it")
        self.assertEqual(self.refused("a,b\n1\n"), "sales.csv: line 2: 1 cells, where the first line names 2")
        self.assertEqual(self.refused("id,v\n1,2\n1,3\n", "--row", "id"), "sales.csv: line 3: column id: row 1 stands there twice")
        self.assertEqual(self.refused("id,v\n-1,2\n", "--row", "id"), "sales.csv: line 2: column id: row -1 is outside 0 to 2147483647")
        self.assertEqual(self.refused("v,id\nx,L1\n", "--row", "id"), "sales.csv: line 2: column id: 'L1' isn't a row's number: --row takes a column of whole numbers")
        self.assertEqual(self.refused("id,v\n1.5,2\n", "--row", "id"), "sales.csv: line 2: column id: '1.5' isn't a row's number: --row takes a column of whole numbers")
        self.assertEqual(self.refused("id,v\n,2\n", "--row", "id"), "sales.csv: line 2: column id: the row's number is missing: --skip-empty leaves such lines out")
        self.assertEqual(self.refused("id,v\n1,2\n", "--row", "id", "--row", "v"), "sales.csv: --row takes one column of a file, and not id, v")
        self.assertEqual(self.refused("v\n1\n", "--scale", "v"), "--scale takes COLUMN=FACTOR, as price=100, and not v")
        self.assertEqual(self.refused("v\nx\n", "--code", "v", "--codes-in", "nowhere"), "nowhere/sales.v.codes.csv.new: No such file or directory")
        self.assertEqual(self.refused("\n1\n"), "sales.csv: its first line names no column")
        self.assertEqual(self.refused(""), "sales.csv: its first line names no column")
        self.assertEqual(self.refused("a,b,c,d,e,f,g,h,i\n" + "1," * 8 + "1\n"), "sales.csv: 9 columns of values, where a table has 1 to 8: --columns A,B takes some")


if __name__ == "__main__":
    # Those of the smaller tools, of the picture of a trace, of bench/fuzz, of examples/year and of the house stand in modules beside it.
    sys.dont_write_bytecode = True
    suite = unittest.defaultTestLoader.loadTestsFromNames(["__main__", "text_and_edit_tests", "picture_tests", "fuzz_tests", "tutorial_tests", "house_tests"])
    result = unittest.TextTestRunner(stream=sys.stdout, verbosity=0).run(suite)
    failed = len(result.failures) + len(result.errors)
    print(f"{result.testsRun - len(result.skipped) - failed} passed, {failed} failed")
    sys.exit(int(failed > 0))
