"""The tests of examples/year: its README says what its commands print, and its reports answer what Python finds in the CSV."""
import os
import re
import runpy
import shlex
import shutil
import signal
import subprocess
import sys
import tempfile
import threading
import unittest

import page_commands

TOP = os.path.dirname(os.path.dirname(os.path.realpath(__file__)))
sys.path.insert(0, f"{TOP}/launcher")
import builds  # noqa: E402  (found by the path above)

WORKERS = ("1", "2", "4", "16")


class Year(unittest.TestCase):
    """A test in a checkout of its own, that has the example and what it calls."""

    def setUp(self):
        self.program = builds.built()
        self.assertIsNotNone(self.program, "there is no program that was proved for the sources as they are")
        room = tempfile.TemporaryDirectory()
        self.addCleanup(room.cleanup)
        self.folder = f"{room.name}/examples/year"
        kept = shutil.ignore_patterns("*.csv", "*.toml")
        shutil.copytree(f"{TOP}/examples/year", self.folder, ignore=kept)
        for name in ("cilkreport", "tools"):
            os.symlink(f"{TOP}/{name}", f"{room.name}/{name}")
        self.top = room.name

    def read(self, name):
        with open(f"{self.folder}/{name}", encoding="utf-8") as file:
            return file.read()

    def print_of(self, *words, script=""):
        ran = subprocess.run(words, cwd=self.folder, input=script, capture_output=True, text=True, check=True)
        return ran.stdout


class Page(Year):
    def test_its_commands_print_what_it_says(self):
        self.maxDiff = None
        page = self.read("README.md")
        self.assertGreater(len(page_commands.commands_of(page)), 20)
        self.assertEqual(page, page_commands.as_tried(page, self.top))


def without_times(lines):
    """The lines with 0 in place of what the clock says."""
    return [re.sub(r"\d[\d,]* ms|\d\d:\d\d:\d\d", "0", line) for line in lines]


class Watching(Year):
    """The page's last section: a report that is watched, while its files are changed."""

    def setUp(self):
        super().setUp()
        options = subprocess.run([self.program, "--help"], capture_output=True, text=True, check=True).stdout
        if "--live" not in options or not os.path.isfile(f"{TOP}/launcher/watch.py"):
            self.skipTest("the program has no --live, or the launcher no --watch")
        page_commands.as_tried(self.read("README.md"), self.top)

    def started(self, command):
        """The watching, which is ended with the test as by Ctrl-C, and is not waited for without an end."""
        how = {"cwd": self.folder, "stdin": subprocess.DEVNULL, "stdout": subprocess.PIPE, "text": True}
        # Tests that a shell runs in the background ignore Ctrl-C, and what they start would too.
        before = signal.signal(signal.SIGINT, signal.default_int_handler)
        watching = subprocess.Popen(shlex.split(command), **how)
        signal.signal(signal.SIGINT, before)
        limit = threading.Timer(page_commands.SECONDS, watching.kill)
        limit.start()
        self.addCleanup(limit.cancel)
        self.addCleanup(watching.stdout.close)
        self.addCleanup(watching.wait, 10)
        self.addCleanup(watching.send_signal, signal.SIGINT)
        return watching

    def test_it_prints_what_the_page_says(self):
        watching = None
        for command, said in page_commands.commands_of(self.read("README.md"), "watch"):
            if "--watch" in command:
                watching = self.started(command)
            else:
                subprocess.run(["bash", "-c", command], cwd=self.folder, check=True)
            printed = [watching.stdout.readline().rstrip("\n") for _ in said]
            self.assertEqual(without_times(printed), without_times(said))
        watching.send_signal(signal.SIGINT)
        self.assertEqual((watching.wait(10), watching.stdout.read()), (0, ""))


class Reports(Year):
    """The reports, after the edits too, beside what Python finds in the CSV with the same edits."""

    def setUp(self):
        super().setUp()
        with open(f"{self.folder}/sales.csv", "w", encoding="utf-8") as file:
            file.write(self.print_of("./make_sales"))
        words = ("--row", "sale", "--scale", "price=100", "--code", "shop", "--code", "article", "sales.csv")
        with open(f"{self.folder}/tables.toml", "w", encoding="utf-8") as file:
            file.write(self.print_of("../../tools/tables_from_csv", *words))
        self.python = runpy.run_path(f"{self.folder}/in_python")
        titles, *self.sales = [line.split(",") for line in self.read("sales.csv").splitlines()]
        self.titles = titles

    def expected(self, sales, **worth):
        """What Python finds, as the answers of a run."""
        lines = [dict(zip(self.titles, sale)) for sale in sales]
        codes = (self.python["codes_in"](self.folder, column) for column in ("shop", "article"))
        return self.python["answers"](lines, *codes, **worth)

    def answers(self, report, script, workers):
        """The values of the reducers, for each run of a script."""
        words = (self.program, report, "tables.toml", "--workers", workers)
        runs = self.print_of(*words, script=self.read(script)).replace("ok\n", "").split("run ")[1:]
        return [run.splitlines()[2:] for run in runs]

    def corrected(self):
        """The sales after each of the edits of `edit`."""
        sales = [list(sale) for sale in self.sales]
        yield sales
        self.assertEqual(sales[999][:3] + sales[999][4:], ["1000", "2025-04-18", "Harbour", "1", "42.00"])
        sales[999][4] = "12"
        yield sales
        yield sales + [["3373", "2025-12-31", "Hill", "cup", "2", "6.90"]]
        yield sales[:4] + sales[5:] + [["3373", "2025-12-31", "Hill", "cup", "2", "6.90"]]

    def test_after_each_edit(self):
        expected = [self.expected(sales) for sales in self.corrected()]
        self.assertEqual(len({tuple(answer) for answer in expected}), 4)
        for report in ("months.cilk", "pieces.cilk"):
            for workers in WORKERS:
                self.assertEqual(self.answers(report, "edit", workers), expected, (report, workers))

    def test_the_first_report_has_two_of_the_reducers(self):
        first_run = self.expected(self.sales)[:2]
        for workers in WORKERS:
            self.assertEqual(self.answers("total.cilk", "edit", workers)[0], first_run)

    def test_after_each_define(self):
        in_money = self.expected(self.sales)
        in_pieces = self.expected(self.sales, worth=lambda line: int(line["pieces"]))
        for workers in WORKERS:
            self.assertEqual(self.answers("pieces.cilk", "define", workers), [in_money, in_money, in_pieces])
