"""The tests of with_texts and edits_between: texts in place of codes in answers, and the edits from one tables file to another."""
import os
import shlex
import subprocess
import sys
import tempfile
import unittest

TOOLS = os.path.dirname(os.path.realpath(__file__))


class InAFolder(unittest.TestCase):
    """A test in a folder of its own."""

    def setUp(self):
        folder = tempfile.TemporaryDirectory()
        self.addCleanup(folder.cleanup)
        self.folder = folder.name

    def write(self, name, text):
        with open(f"{self.folder}/{name}", "w", encoding="utf-8") as file:
            file.write(text)

    def call(self, tool, *words, text=""):
        """What a tool writes and says, and its status."""
        how = {"cwd": self.folder, "input": text, "capture_output": True, "text": True, "check": False}
        done = subprocess.run([sys.executable, f"{TOOLS}/{tool}", *words], **how)
        return done.stdout, done.stderr, done.returncode


class Head(InAFolder):
    """Who reads the output may have had enough of it."""

    def test_nobody_reads_the_end(self):
        many = range(20000)
        self.write("s.csv", "v\n" + "1\n" * len(many))
        self.write("old.toml", '[s]\ncolumns = ["v"]\nrows = []\n')
        self.write("new.toml", '[s]\ncolumns = ["v"]\nrows = [\n' + "".join(f"[{row}, 1],\n" for row in many) + "]\n")
        self.write("s.cilk", "reducer seen : list;\n")
        self.write("s.v.codes.csv", "code,text\n1,North\n")
        self.write("answers", "seen 1\n" * len(many))
        for call, first in (("tables_from_csv s.csv", "[s]"), ("edits_between old.toml new.toml", "put s 0 1"), ("with_texts s.cilk seen=s.v < answers", "seen North")):
            command = f"{shlex.quote(sys.executable)} {shlex.quote(TOOLS)}/{call} | head -1"
            done = subprocess.run(["bash", "-c", command], cwd=self.folder, capture_output=True, text=True, check=False)
            self.assertEqual((done.stdout, done.stderr), (f"{first}\n", ""))


class WithTexts(InAFolder):
    PROGRAM = """# reducer total : hist;
reducer total : add;
reducer best : argmax;
reducer shops:hist; reducer seen
  : list;
reducer result : first 2;
proc main() { return 0; }
"""
    CODES = 'code,text\n1,North\n2,"South, East"\n3,7\n'

    def setUp(self):
        super().setUp()
        self.write("sales.cilk", self.PROGRAM)
        self.write("sales.shop.codes.csv", self.CODES)

    def printed(self, answers, *words):
        out, said, status = self.call("with_texts", "sales.cilk", *words, text=answers)
        self.assertEqual((said, status), ("", 0))
        return out

    def test_codes_by_the_kind_of_their_reducer(self):
        answers = "ok\nrun 1\nresult 1\ntotal 2\nbest 1 2\nshops 1:2 2:1 3:-1 4:3\nseen 2 1 1\nresult 3 1\nrun 2\nfault missing row in main at 1\n"
        words = ("best=sales.shop", "shops=sales.shop", "seen=sales.shop", "result=sales.shop")
        shown = 'ok\nrun 1\nresult 1\ntotal 2\nbest 1 "South, East"\nshops North:2 "South, East":1 "7":-1 4:3\nseen "South, East" North North\nresult "7" North\n'
        self.assertEqual(self.printed(answers, *words), shown + "run 2\nfault missing row in main at 1\n")

    def test_what_holds_no_code_stays(self):
        answers = "run 1\nresult 1\ntotal 1\nbest none\nshops\nseen 1\n"
        self.assertEqual(self.printed(answers, "best=sales.shop", "shops=sales.shop"), answers)

    def test_codes_in_another_folder(self):
        os.mkdir(f"{self.folder}/codes")
        self.write("codes/sales.shop.codes.csv", "code,text\n1,West\n")
        self.assertEqual(self.printed("seen 1 2\n", "seen=sales.shop", "--codes-in", "codes"), "seen West 2\n")

    def refused(self, *words):
        out, said, status = self.call("with_texts", *words, text="seen 1\n")
        self.assertEqual((out, status), ("", 1))
        return said.rstrip("\n")

    def test_what_does_not_fit(self):
        kinds = "and codes are in a reducer of kind hist, list, first, last, argmax"
        self.assertEqual(self.refused("sales.cilk", "total=sales.shop"), f"total=sales.shop: total is of kind add, {kinds}")
        self.assertEqual(self.refused("sales.cilk", "shop=sales.shop"), f"shop=sales.shop: shop isn't in the program, {kinds}")
        self.assertEqual(self.refused("sales.cilk", "seen"), "seen: which reducer has codes of which column is written REDUCER=TABLE.COLUMN")
        self.assertEqual(self.refused("sales.cilk", "seen=sales.day"), "./sales.day.codes.csv: No such file or directory")
        self.assertEqual(self.refused("nowhere", "seen=sales.shop"), "nowhere: No such file or directory")
        self.write("sales.shop.codes.csv", "code,text\nNorth,1\n")
        self.assertEqual(self.refused("sales.cilk", "seen=sales.shop"), "./sales.shop.codes.csv: isn't a file of codes: each line has a number and a text")


class EditsBetween(InAFolder):
    OLD = '[sales]\ncolumns = ["qty", "price"]\nrows = [\n  [1, 2, 5],\n  [2, 3, 7],\n  [3, 1, 100],\n]\n[days]\ncolumns = ["day"]\nrows = []\n'

    def test_rows_that_come_go_and_change(self):
        self.write("old.toml", self.OLD)
        self.write("new.toml", self.OLD.replace("  [1, 2, 5],\n", "").replace("3, 7", "3, 9").replace("rows = []", "rows = [[4, -1]]"))
        self.assertEqual(self.call("edits_between", "old.toml", "new.toml"), ("del sales 1\nput sales 2 3 9\nput days 4 -1\n", "", 0))
        self.assertEqual(self.call("edits_between", "new.toml", "old.toml"), ("put sales 1 2 5\nput sales 2 3 7\ndel days 4\n", "", 0))
        self.assertEqual(self.call("edits_between", "old.toml", "old.toml"), ("", "", 0))

    def refused(self, text):
        self.write("old.toml", self.OLD)
        self.write("new.toml", text)
        out, said, status = self.call("edits_between", "old.toml", "new.toml")
        self.assertEqual((out, status), ("", 1))
        return said.rstrip("\n")

    def test_what_edits_can_not_do(self):
        self.assertEqual(self.refused(self.OLD.replace("price", "cost")), "new.toml: the table sales has other columns, and edits change rows alone")
        self.assertEqual(self.refused(self.OLD.replace("days", "nights")), "new.toml: there is no table days any more, and edits change rows alone")
        self.assertEqual(self.refused("sales,price\n"), "new.toml: isn't a file of tables" + ("" if sys.version_info >= (3, 11) else ", or has a form that Python reads from 3.11 on"))
        self.assertEqual(self.call("edits_between", "old.toml", "nowhere"), ("", "nowhere: No such file or directory\n", 1))
        self.assertEqual(self.call("edits_between", "old.toml")[::2], ("", 2))
