"""The tests of the picture of a trace: that of the docs, the page for the browser, and what is no trace."""
import os
import subprocess
import sys
import tempfile
import unittest
import xml.etree.ElementTree
from html.parser import HTMLParser

TOP = os.path.dirname(os.path.dirname(os.path.realpath(__file__)))
TOOL = f"{TOP}/tools/trace_picture"
# Two workers: one takes what follows the first spawn, stalls, and joins both parts.
TRACE = "run 1\nsplit root 1 by 1\nstall 1\nend root\nfold root 1 by 1\nfinish root\nrun 2\nfinish root\nrun 3\nfault root\n"


class Page(HTMLParser):
    """What is looked at of a page: its bars and its rows by their numbers, and whether each element that is begun is ended."""

    def __init__(self, text):
        super().__init__()
        self.open, self.bars, self.rows, self.cells, self.outside = [], [], {}, None, []
        self.feed(text)
        self.close()

    def handle_starttag(self, tag, attrs):
        values = dict(attrs)
        self.outside += [values[name] for name in ("src", "href") if name in values]
        self.open.append(tag)
        if tag == "tr" and "id" in values:
            self.cells = self.rows[values["id"]] = []
        elif tag in ("td", "th") and self.cells is not None:
            self.cells.append("")

    def handle_startendtag(self, tag, attrs):
        values = dict(attrs)
        if values.get("class") == "strand":
            self.bars.append((values["aria-describedby"], values["aria-label"]))

    def handle_endtag(self, tag):
        if not self.open or self.open.pop() != tag:
            raise ValueError(f"{tag} is ended where it isn't open")
        if tag == "tr":
            self.cells = None

    def handle_data(self, data):
        if self.cells:
            self.cells[-1] += data


class Pictures(unittest.TestCase):
    def setUp(self):
        folder = tempfile.TemporaryDirectory()
        self.addCleanup(folder.cleanup)
        self.path = f"{folder.name}/trace"

    def drawn(self, *words, trace=TRACE):
        """What the tool prints of that trace, and its status."""
        with open(self.path, "w", encoding="utf-8") as file:
            file.write(trace)
        words = [self.path if word == "TRACE" else word for word in words]
        ran = subprocess.run([sys.executable, TOOL, *words], capture_output=True, text=True, check=False)
        self.said = ran.stderr
        return ran.stdout, ran.returncode

    def test_the_picture_of_the_docs(self):
        with open(f"{TOP}/docs/pictures/stock.svg", encoding="utf-8") as file:
            self.assertEqual(self.drawn(f"{TOP}/docs/pictures/stock.trace"), (file.read(), 0))

    def test_each_strand_of_a_page_has_its_facts(self):
        page = Page(self.drawn("--html", "TRACE")[0])
        self.assertEqual(page.bars, [("facts-0", "root, held by 0"), ("facts-1", "1, held by 1"), ("facts-2", "root, held by 1")])
        self.assertEqual(list(page.rows), [described for described, _ in page.bars])
        self.assertEqual(page.rows["facts-0"], [
            "root", "worker 0, from the beginning to step 3", "with the run: it is its first strand", "at step 1: worker 1 stole 1",
            "at step 3: it came to its end", "at step 4: worker 1 folded it with 1", "nothing: it is that of main"])
        self.assertEqual(page.rows["facts-1"], [
            "1", "worker 1, from step 1 to step 2", "at step 1: worker 1 stole it from root, which worker 0 held", "",
            "at step 2: it stalled at a sync, to wait for the strands in front of it", "at step 4: worker 1 folded it with root",
            "the spawn of the instance 1"])
        self.assertEqual(page.rows["facts-2"], [
            "root", "worker 1, from step 4 to step 5",
            "at step 4: worker 1 folded root and 1 into it, laid down by worker 0 and worker 1", "",
            "at step 5: it came to the end of the run", "", "nothing: it is that of main"])

    def test_further_runs_of_a_trace(self):
        finished, faulted = (Page(self.drawn("--html", "TRACE", run)[0]).rows["facts-0"] for run in ("2", "3"))
        self.assertEqual(finished[4:6], ["at step 1: it came to the end of the run", ""])
        self.assertEqual(faulted[4:6], ["at step 1: it came to a fault", "nothing more in this trace"])
        unended = Page(self.drawn("TRACE", "--html", trace="run 1\nsplit root 1 by 1\n")[0]).rows["facts-0"]
        self.assertEqual(unended[4:6], ["it was still held where the trace ends", "nothing more in this trace"])

    def test_a_page_is_well_formed_and_needs_no_other_file(self):
        text, status = self.drawn("--html", f"{TOP}/docs/pictures/stock.trace")
        self.assertEqual((status, self.said), (0, ""))
        page = Page(text)
        self.assertEqual((page.open, page.outside), ([], []))
        self.assertEqual(list(page.rows), [described for described, _ in page.bars])
        self.assertTrue(all(cells[0] and cells[1] and cells[2] and cells[4] and cells[6] for cells in page.rows.values()))
        numbers = {row.get("id"): row.get("data-near").split() for row in xml.etree.ElementTree.fromstring(text).iter() if row.get("data-near")}
        for row, near in numbers.items():
            self.assertTrue(all(row.rpartition("-")[2] in numbers[f"facts-{other}"] for other in near), row)

    def test_what_is_no_trace(self):
        for word in ([], ["--html"]):
            self.assertEqual(self.drawn(*word, "TRACE", trace="run 1\nfold root 1 by 1\n"), ("", 1))
            self.assertIn("the steps before line 2 don't allow its step", self.said)
            self.assertEqual(self.drawn(*word, "TRACE", "4"), ("", 1))
            self.assertIn("has no run 4", self.said)
            self.assertEqual(self.drawn(*word, "TRACE", "one"), ("", 2))
            self.assertEqual(self.drawn(*word, "TRACE", "1", "2"), ("", 2))
