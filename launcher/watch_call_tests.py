"""Tests of `./cilkreport --watch` as it is called: its words, its files, and how it ends. launcher/tests.py runs them."""
import contextlib
import io
import os
import signal
import subprocess
import sys
import unittest

sys.dont_write_bytecode = True
import watch  # noqa: E402  (found beside this file)
from watch_tests import HERE, SALES, TABLES, WOULD_TAKE, InAFolder, write  # noqa: E402
from watched_tables import csv_tool  # noqa: E402


class Calls(InAFolder):
    """The whole of it, as it is called from a terminal, by a program that answers as often as it is asked."""

    PROGRAM = """#!/bin/sh
test "$1" = --print && { echo 'proc main ( ) {'; exit; }
case "$*" in *--workers=99*) echo 'usage: cilkreport ..' >&2; exit 2;; esac
runs=0
while read command words
do
  if test "$command" = run
  then runs=$((runs + 1)); echo "stats $runs none" >&2; echo "run $runs"; echo "result $runs"
  else echo ok
  fi
done
"""

    def setUp(self):
        super().setUp()
        write(f"{self.folder}/cilkreport", self.PROGRAM)
        os.chmod(f"{self.folder}/cilkreport", 0o755)
        write(f"{self.folder}/program", SALES)
        write(f"{self.folder}/tables", TABLES)

    def call(self, *words, **how):
        call = f"import sys; sys.dont_write_bytecode = True; sys.path.insert(0, {HERE!r}); import watch; sys.exit(watch.run({self.folder + '/cilkreport'!r}, sys.argv[1:]))"
        pipes = {"stdout": subprocess.PIPE, "stderr": subprocess.PIPE, **how}
        called = subprocess.Popen([sys.executable, "-c", call, *words], cwd=self.folder, text=True, **pipes)
        self.addCleanup(called.communicate)
        self.addCleanup(called.kill)
        return called

    def ended(self, *words):
        called = self.call(*words)
        printed, said = called.communicate()
        return called.returncode, printed, said

    def test_it_goes_on_until_it_is_interrupted_and_then_leaves_nothing(self):
        called = self.call("program", "--stats", "tables", "--workers", "4")
        lines = iter(called.stdout.readline, "")
        self.assertIn("result 1\n", lines)
        write(f"{self.folder}/tables", TABLES.replace("7]", "9]"))
        self.assertRegex(next(line for line in lines if line.startswith("-- ")), r"-- \d\d:\d\d:\d\d put sales 2 3 9\n")
        self.assertEqual(next(lines), "result 1 -> 2\n")
        next(lines)
        called.send_signal(signal.SIGINT)
        self.assertEqual((*called.communicate(), called.returncode), ("", "", 0))

    def test_nobody_reads_the_answers_any_more(self):
        called = self.call("program", "tables")
        called.stdout.readline()
        called.stdout.close()
        write(f"{self.folder}/tables", TABLES.replace("7]", "9]"))
        self.assertEqual((called.wait(), called.stderr.read()), (1, ""))

    def test_answers_that_can_not_be_written(self):
        with open("/dev/full", "w", encoding="utf-8") as full:
            for how in ({"stdout": full}, {"preexec_fn": lambda: os.close(1)}):
                called = self.call("program", "tables", **how)
                self.assertEqual((called.wait(), called.stderr.read()), (1, "failed output\n"))

    def test_a_trace_that_would_empty_a_watched_file_is_not_made(self):
        write(f"{self.folder}/other.csv", "a\n1\n")
        os.symlink("tables", f"{self.folder}/by name")
        os.link(f"{self.folder}/program", f"{self.folder}/by number")
        for tables, trace in (("tables", "by name"), ("tables", "by number"), ("other.csv", "other.csv")):
            self.assertEqual(self.ended("program", tables, "--trace", trace), (1, "", f"failed {trace}\n{WOULD_TAKE}\n"))
        for name, text in (("program", SALES), ("tables", TABLES), ("other.csv", "a\n1\n")):
            with open(f"{self.folder}/{name}", encoding="utf-8") as file:
                self.assertEqual(file.read(), text)

    def test_what_it_can_not_be_called_with(self):
        self.assertEqual(self.ended("program", "nowhere"), (1, "", "failed nowhere\n"))
        self.assertEqual(self.ended("program", "tables", "--workers", "99"), (2, "", "usage: cilkreport ..\n"))
        for words in ((), ("program",), ("program", "tables", "more"), ("program", "tables", "--row", "id"), ("program", "tables", "--parted-by", ";"), ("program", "tables", "--other"), ("program", "t.csv", "--scale", "a")):
            status, printed, said = self.ended(*words)
            self.assertEqual((status, printed), (2, ""), words)
            self.assertIn("usage: cilkreport --watch PROGRAM TABLES.toml", said)

    def test_an_option_that_stands_twice(self):
        tool = csv_tool()
        for option, values in (("--workers", ["2", "4"]), ("--kits", ["8", "8"]), ("--trace", ["a", "b"]), ("--stats", []), ("--explain", [])):
            said, words = io.StringIO(), [option, *values[:1], "program", "tables"]
            self.assertEqual(watch.parsed(words, tool)[0], "program")
            with contextlib.redirect_stderr(said), self.assertRaises(SystemExit) as raised:
                watch.parsed([*words, option, *values[1:]], tool)
            self.assertEqual((raised.exception.code, said.getvalue().splitlines()[-1]), (2, f"  `{option}` stands twice."))


if __name__ == "__main__":
    unittest.main()
