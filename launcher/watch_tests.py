"""Tests of `./cilkreport --watch`: its parts, and reports whose files change while they are watched. launcher/tests.py runs them."""
import argparse
import contextlib
import io
import os
import re
import shutil
import signal
import sys
import tempfile
import unittest

sys.dont_write_bytecode = True
HERE = os.path.dirname(os.path.realpath(__file__))
TOP = os.path.dirname(HERE)
sys.path.insert(0, HERE)
import answers  # noqa: E402  (found by the path above)
import builds  # noqa: E402
import outlines  # noqa: E402
import table_edits  # noqa: E402
import watch  # noqa: E402
from live_session import Answer, Ended, LiveSession  # noqa: E402
from watched_files import DOUBTFUL, HELD_OPEN, LONGEST, SETTLED, WatchedFiles, is_held_open  # noqa: E402
from watched_tables import CsvTables, TomlTables, csv_tool  # noqa: E402

SALES = """reducer total : add;
reducer top : argmax;
memo proc line(r) { if has sales[r] { v = sales[r].qty * sales[r].price; update total v; update top v, r; } }
proc main() { cilk_for r in 1 .. limit sales : line(r); t = read total; return t; }
"""
TABLES = '[sales]\ncolumns = ["qty", "price"]\nrows = [[1, 2, 5], [2, 3, 7], [3, 1, 100]]\n'

WOULD_TAKE = "  It is the file of the program or of the tables, which a trace would take the place of."

# Who is started where being interrupted is ignored, as behind `&`, would ignore it too.
signal.signal(signal.SIGINT, signal.default_int_handler)


def write(path, text):
    with open(path, "w", encoding="utf-8", newline="") as file:
        file.write(text)


class Clock:
    """A clock that stands until it is set."""

    def __init__(self):
        self.time = 1000.0

    def __call__(self):
        return self.time


class InAFolder(unittest.TestCase):
    def setUp(self):
        folder = tempfile.TemporaryDirectory(prefix="watch tests ")
        self.addCleanup(folder.cleanup)
        self.folder = folder.name


class Files(InAFolder):
    def setUp(self):
        super().setUp()
        self.clock = Clock()
        self.path = f"{self.folder}/file"
        write(self.path, "one\n")

    def watched(self, by_lines=()):
        files = WatchedFiles([self.path], by_lines, self.clock)
        self.assertTrue(files.look())
        return files

    def due_after(self, files, seconds):
        """They aren't due before they have stayed as they are for so long, and are then."""
        files.look()
        self.clock.time = files.changed + seconds - 0.01
        self.assertFalse(files.look() and files.are_due())
        self.clock.time = files.changed + seconds + 0.01
        self.assertTrue(files.look() and files.are_due())
        files.deal()
        self.assertFalse(files.look())

    def test_files_are_due_once_they_have_stayed_as_they_are(self):
        files = self.watched()
        self.due_after(files, SETTLED)
        write(self.path, "two and more\n")
        self.due_after(files, SETTLED)
        write(f"{self.folder}/other", "three and more\n")
        os.replace(f"{self.folder}/other", self.path)
        self.due_after(files, SETTLED)

    def test_each_change_has_the_time_begin_anew(self):
        files = self.watched()
        for number in range(3):
            self.clock.time += SETTLED - 0.01
            write(self.path, "more\n" * number)
            self.assertTrue(files.look())
            self.assertFalse(files.are_due())

    def test_a_file_that_is_missing_or_empty_or_cut_within_its_last_line_is_waited_for_longer(self):
        files = self.watched(by_lines=[self.path])
        self.due_after(files, SETTLED)
        os.remove(self.path)
        self.due_after(files, DOUBTFUL)
        write(self.path, "")
        self.due_after(files, DOUBTFUL)
        write(self.path, "one\ntw")
        self.due_after(files, DOUBTFUL)
        write(self.path, "one\ntwo\n")
        self.due_after(files, SETTLED)
        write(self.path, "not by lines")
        self.due_after(self.watched(), SETTLED)

    def test_a_file_that_is_missing_for_a_moment_is_as_before_where_it_is_as_before(self):
        files = self.watched()
        files.deal()
        os.rename(self.path, f"{self.path}~")
        self.assertTrue(files.look())
        os.rename(f"{self.path}~", self.path)
        self.assertFalse(files.look())

    def test_a_file_that_is_open_to_be_written_is_waited_for_longest_unless_nobody_ever_lets_go_of_it(self):
        files = self.watched()
        self.due_after(files, SETTLED)
        with open(self.path, "a", encoding="utf-8") as writer:
            with open(self.path, encoding="utf-8") as reader:
                if not is_held_open(reader):
                    self.skipTest("who has a file open can't be seen here")
            print("one", file=writer, flush=True)
            self.due_after(files, HELD_OPEN)
            print("two", file=writer, flush=True)
            self.due_after(files, SETTLED)
        write(self.path, "three\n")
        self.due_after(files, SETTLED)
        with open(self.path, "a", encoding="utf-8") as writer:
            print("four", file=writer, flush=True)
            files.look()
            self.clock.time += HELD_OPEN - 0.01
            self.assertFalse(files.are_due())
        self.assertTrue(files.are_due())

    def test_files_that_change_all_the_time_are_read_now_and_then(self):
        files = self.watched()
        looks = 0
        while not files.are_due():
            looks += 1
            self.clock.time += SETTLED / 2
            write(self.path, f"{looks}\n" * looks)
            files.look()
        self.assertAlmostEqual(looks, LONGEST / SETTLED * 2, delta=1)

    def test_what_can_not_be_right_has_them_stay_longer(self):
        files = self.watched()
        self.clock.time += SETTLED
        self.assertTrue(files.are_due() and not files.doubt())
        self.assertFalse(files.are_due())
        self.clock.time += DOUBTFUL
        self.assertTrue(files.are_due() and files.doubt())

    def test_a_change_while_they_are_read_is_seen(self):
        files = self.watched()
        self.assertTrue(files.are_as_seen())
        write(self.path, "two and more\n")
        self.assertFalse(files.are_as_seen())


class Tables(unittest.TestCase):
    def edits(self, old, new):
        return table_edits.edits(table_edits.tables_of(old), table_edits.tables_of(new))

    def test_the_plain_form_is_read_as_toml_is(self):
        texts = (
            TABLES,
            '[a]\ncolumns = ["x"]\nrows = []\n\n[b]\ncolumns = [ "x", "y" ]\nrows = [\n  [1, -2, -0],\n  [2, 3,\t4],\n]',
            "# No tables.\n",
            '# First.\n\n[a]\n  # Columns.\ncolumns=["x"]\nrows = [ # Rows ]\n  [0, 1], # one [\n# é\n  [7, 2]\n]\n# Last.\n',
        )
        for text in texts:
            self.assertIsNotNone(table_edits.plain(text), text)
            if table_edits.tomllib:
                self.assertEqual(table_edits.plain(text), table_edits.tomllib.loads(text))

    def test_what_has_another_form_is_left_to_the_reader_of_toml(self):
        for odd in ("[a] columns = [\"x\"]\nrows = []\n", TABLES + TABLES, TABLES.replace("\n", "\r\n"), TABLES.replace("7", "07"), TABLES.replace("7", "7_0"), TABLES.replace("]]", ",]]"), "rows = " + "[" * 100000, TABLES[:-2], "x"):
            self.assertIsNone(table_edits.plain(odd), odd[:80])

    @unittest.skipUnless(table_edits.tomllib, "Python has no reader of TOML before 3.11")
    def test_all_of_toml_is_read(self):
        inline = 'sales = { rows = [[3, 1, 1_00], [+1, 0x2, 5], [2, 3, 7]], columns = ["qty", "price"] }'
        self.assertEqual(self.edits(TABLES, inline), [])
        self.assertEqual(table_edits.tables_of(""), {})

    def test_no_tables(self):
        good = '[t]\ncolumns = ["x"]\nrows = [[1, 2]]\n'
        self.assertIsNotNone(table_edits.tables_of(good))
        for rows in ("[[1, 2, 3]]", "[[1]]", "[1]", "[[1, 2], [1, 3]]", "[[-1, 2]]", "[[2147483648, 2]]", "[[1, 9223372036854775808]]", "[[1, true]]", "[[1, 2.0]]", "3", "[[1, [2]]]", "[[]]"):
            self.assertIsNone(table_edits.tables_of(good.replace("[[1, 2]]", rows)), rows)
        for text in (good + "more = 1\n", good.replace('["x"]', "3"), "t = 3\n", "[t]\nrows = []\n", TABLES[:-3]):
            self.assertIsNone(table_edits.tables_of(text), text)

    def test_edits_are_those_rows_alone_that_are_others(self):
        self.assertEqual(self.edits(TABLES, TABLES), [])
        self.assertEqual(self.edits(TABLES, TABLES.replace("7", "-9")), ["put sales 2 3 -9"])
        self.assertEqual(self.edits(TABLES, TABLES.replace("[3, 1", "[5, 1")), ["del sales 3", "put sales 5 1 100"])
        self.assertEqual(self.edits(TABLES, TABLES.replace("[1, 2, 5], [2, 3, 7]", "[2, 3, 7], [1, 2, 5]")), [])
        many = "".join(f"  [{number}, {number % 7}, 1],\n" for number in range(20000))
        text = f'[sales]\ncolumns = ["qty", "price"]\nrows = [\n{many}]\n'
        self.assertEqual(self.edits(text, text.replace("[9999, 3, 1]", "[9999, 3, 2]")), ["put sales 9999 3 2"])

    def test_other_tables_or_columns_are_no_edits(self):
        def why(new):
            return table_edits.other_shape(table_edits.tables_of(TABLES), table_edits.tables_of(new))

        self.assertIsNone(why(TABLES.replace("7", "9")))
        self.assertEqual(why(TABLES.replace("price", "cost")), "the table sales has other columns")
        self.assertEqual(why(TABLES + '[stock]\ncolumns = ["x"]\nrows = []\n'), "there is a table stock now")
        self.assertEqual(why(""), "there is no table sales any more")

    def test_the_headings_alone(self):
        self.assertEqual(table_edits.headings(table_edits.tables_of(TABLES)), '[sales]\ncolumns = ["qty", "price"]\nrows = []\n')


class Outlines(unittest.TestCase):
    NORMAL = "reducer m : table 1 unit 0 [ 0 ] ;\nmemo proc line ( r ) {\nif has sales [ r ] {\nreturn 1 ;\n}\n}\nreducer total : add from - 7 , 8 ;\nproc main ( ) {\n}\n"

    def test_what_a_program_declares(self):
        outline = outlines.outline_of(self.NORMAL)
        self.assertEqual(outline.reducers, {"m": "table 1 unit 0 [ 0 ]", "total": "add from - 7 , 8"})
        self.assertEqual(list(outline.procedures), ["line", "main"])
        self.assertEqual(outline.procedures["main"], "proc main ( ) {\n}\n")

    def test_procedures_that_are_others(self):
        old = outlines.outline_of(self.NORMAL)
        self.assertEqual(outlines.others(old, old), [])
        new = outlines.outline_of(self.NORMAL.replace("return 1", "return 2") + "proc more ( ) {\n}\n")
        self.assertEqual(outlines.others(old, new), ["line", "more"])

    def test_a_definition_has_each_procedure_on_its_line_and_no_reducer(self):
        text = "# reducer a : add;\nreducer m : # no end;\n table 1 unit 0 [0];proc main() { # ;\n reducer_ = 1; }\n"
        lines = outlines.definitions(text, outlines.outline_of(self.NORMAL))
        self.assertEqual(lines[:2], ["define", "# reducer a : add;"])
        self.assertEqual((lines[2].split(), lines[3].split(None, 1)), ([], ["proc", "main() { # ;"]))
        self.assertEqual(lines[4:], [" reducer_ = 1; }", "", "end"])

    def test_a_line_that_would_end_the_definition(self):
        lines = outlines.definitions("proc main() { x =\n end\n; }", outlines.outline_of(self.NORMAL))
        self.assertEqual(lines, ["define", "memo proc line ( r ) {", "if has sales [ r ] {", "return 1 ;", "}", "}", "proc main ( ) {", "}", "end"])


class Answers(unittest.TestCase):
    def test_a_value_stands_beside_the_one_before(self):
        shown, kinds = answers.Shown(), {"total": "add", "result": "list"}
        answer = Answer([("result", "131"), ("total", "131"), ("result", "")], None, "", [])
        self.assertEqual(shown.lines(answer, kinds), ["result 131", "total 131", "result"])
        self.assertEqual(shown.lines(Answer([], "fault too deep in f at 1", "", []), kinds), ["fault too deep in f at 1"])
        answer = Answer([("result", "131"), ("total", "138"), ("result", "4 5")], None, "", [])
        self.assertEqual(shown.lines(answer, kinds), ["result 131", "total 131 -> 138", "result empty -> 4 5"])
        self.assertEqual(shown.lines(answer, {"total": "max", "result": "list"}), ["result 131", "total 138", "result 4 5"])

    def test_of_a_long_value_a_few_parts_are_shown(self):
        value = " ".join(map(str, range(1000)))
        self.assertEqual(answers.difference("list", None, value), "0 1 2 3 4 5 and 994 more")
        self.assertEqual(answers.difference("list", value, value), "0 1 2 3 4 5 and 994 more")

    def test_what_came_into_a_long_list_and_left_it(self):
        def other(new):
            return answers.difference("list", " ".join(map(str, range(100))), " ".join(map(str, new)))

        self.assertEqual(other([*range(1, 100), 7, 7]), "added 7 7; gone 0; 101 values")
        self.assertEqual(other(range(90)), "gone 90 91 92 93 94 95 and 4 more; 90 values")
        self.assertEqual(other(reversed(range(100))), "the same values in another order; 100 values")

    def test_what_is_other_in_a_long_histogram(self):
        old = {key: 1 for key in range(100)}

        def other(new):
            return answers.difference("hist", *(" ".join(f"{key}:{value}" for key, value in held.items()) for held in (old, new)))

        self.assertEqual(other({**old, 3: 2, 5: -1}), "3:1 -> 3:2, 5:1 -> 5:-1; 100 keys")
        self.assertEqual(other({**{key: 1 for key in range(98)}, 200: 4}), "added 200:4; gone 98:1 99:1; 99 keys")
        changed = ", ".join(f"{key}:1 -> {key}:2" for key in range(6))
        self.assertEqual(other({key: 2 for key in range(100)}), f"{changed} and 94 more; 100 keys")

    def test_counts(self):
        self.assertEqual(answers.counts_shown("executed 1 reused 2 unrecorded 0 steals 0 folds 0 kits 64 of 64"), "executed 1, reused 2")
        self.assertEqual(answers.counts_shown("executed 1 reused 2 unrecorded 3 steals 4 folds 4 kits 64 of 64"), "executed 1, reused 2, unrecorded 3, steals 4")
        self.assertEqual(answers.counts_shown("none"), "")


class Sessions(InAFolder):
    def session(self, body, reducers=1):
        """A session of a program in Python that has such a body."""
        path = f"{self.folder}/program"
        write(path, f"#!{sys.executable}\nimport sys\ndef say(text, to=sys.stdout): print(text, file=to, flush=True)\n{body}")
        os.chmod(path, 0o755)
        session = LiveSession(path, ("a", "b"), ["--kits", "8"], reducers)
        self.addCleanup(session.end)
        return session

    def test_a_run_has_its_lines_its_counts_and_what_is_said_beside_it(self):
        session = self.session("""
for line in sys.stdin:
    say("note", sys.stderr)
    say("stats 1 " + " ".join(sys.argv[1:]), sys.stderr)
    say("run 1\\nresult 3\\ntotal 1 2")
""")
        self.assertEqual(session.run(), Answer([("result", "3"), ("total", "1 2")], None, "a b --live --stats --explain --kits 8", ["note"]))

    def test_a_fault(self):
        session = self.session("for line in sys.stdin:\n    say('stats 1 none', sys.stderr)\n    say('run 1\\nfault too deep in f at 1')\n")
        self.assertEqual(session.run(), Answer([], "fault too deep in f at 1", "none", []))

    def test_edits_are_accepted_or_not(self):
        session = self.session("for line in sys.stdin: say('refused E4' if 'b' in line else 'ok')\n")
        self.assertTrue(session.edit([]))
        self.assertTrue(session.edit(["put a 1", "put a 2"]))
        self.assertFalse(session.edit(["put a 1", "put b 2", "put a 3"]))

    def test_neither_side_waits_for_ever_however_much_there_is_to_say(self):
        session = self.session("for line in sys.stdin:\n    say('note ' * 100, sys.stderr)\n    say('ok')\n")
        self.assertTrue(session.edit([f"put sales {number} 1" for number in range(20000)]))

    def test_a_session_that_has_ended(self):
        for body in ("say('refused E2', sys.stderr); sys.exit(1)\n", "sys.stdin.readline(); say('run 1'); say('refused E2', sys.stderr); sys.exit(1)\n"):
            session = self.session(body)
            with self.assertRaises(Ended) as raised:
                session.run()
            self.assertEqual((raised.exception.status, raised.exception.said), (1, "refused E2"))

    def test_one_that_does_not_end_by_itself_is_ended(self):
        session = self.session("import time\ntime.sleep(1000)\n")
        session.end()
        self.assertLess(session.process.returncode, 0)


class Reports(InAFolder):
    """Reports that are watched by the program of these sources, while their files change and a clock goes on."""

    @classmethod
    def setUpClass(cls):
        cls.program = builds.built()
        if not cls.program:
            raise unittest.SkipTest("no program of these sources is built")

    def setUp(self):
        super().setUp()
        os.mkdir(f"{self.folder}/room")
        self.write(SALES, TABLES)

    def write(self, program=None, tables=None):
        for name, text in (("program", program), ("tables", tables)):
            if text is not None:
                write(f"{self.folder}/{name}", text)

    def watch(self, tables=None, trace=None):
        clock = Clock()
        program = watch.Program(self.program, [], trace, f"{self.folder}/room")
        self.watching = watch.Watch(program, f"{self.folder}/program", tables or TomlTables(f"{self.folder}/tables"))
        self.addCleanup(self.watching.end)
        self.watching.files.now = self.clock = clock
        self.watching.files.began = clock()

    def answered(self, seconds=60.0):
        """What is answered within that time. Headings have no time of the day, and counts no times that were taken."""
        printed, until = io.StringIO(), self.clock() + seconds
        with contextlib.redirect_stdout(printed), contextlib.redirect_stderr(printed):
            while self.clock() < until:
                self.clock.time += self.watching.look()
        return self.timeless(printed.getvalue()).splitlines()

    @staticmethod
    def timeless(printed):
        return re.sub(r"(?m)^-- \S+ |;? ?[\d,]+ ms to run.*$", "", printed)

    def test_a_row_that_is_changed_is_put_and_nothing_else(self):
        self.watch()
        self.assertEqual(self.answered(), ["begun", "result 131", "total 131", "top 100 3", "executed 3, reused 0"])
        self.assertEqual(self.answered(), [])
        self.write(tables=TABLES.replace("7]", "9]"))
        self.assertEqual(self.answered(), ["put sales 2 3 9", "result 131 -> 137", "total 131 -> 137", "top 100 3", "executed 1, reused 2"])
        self.write(tables=TABLES.replace("[2, 3, 7], [3", "[4"))
        self.assertEqual(self.answered()[0], "del sales 2; del sales 3; put sales 4 1 100")
        self.write(tables=TABLES.replace("]]", "], [5, 1, 1], [6, 0, 0], [7, 0, 0]]"))
        self.assertEqual(self.answered()[:2], ["del sales 4; put sales 2 3 7; put sales 3 1 100; and 3 more", "result 110 -> 132"])

    def test_a_procedure_that_is_changed_is_defined_and_the_others_keep_their_records(self):
        self.watch()
        self.answered()
        self.write(SALES.replace("return t;", "return t + 1;"))
        self.assertEqual(self.answered(), ["define main", "result 131 -> 132", "total 131", "top 100 3", "executed 0, reused 3"])
        self.write(SALES.replace("return t;", "u = call half(t); return u;").replace("t = read total;", "t = 9;") + "proc half(a) { return a / 2; }\n", TABLES.replace("7]", "9]"))
        self.assertEqual(self.answered()[:3], ["define main, half; put sales 2 3 9", "result 132 -> 4", "total 131 -> 137"])
        self.write(SALES)
        self.assertEqual(self.answered()[:2], ["define main", "result 4 -> 137"])

    def test_the_page_about_it_is_true(self):
        with open(f"{TOP}/docs/WATCHING.md", encoding="utf-8") as page:
            told = re.search(r"(?s)```\n(-- .*?)```", page.read())[1]
        for name, path in (("program", "examples/sales/sales.cilk"), ("tables", "examples/sales/tables.toml")):
            shutil.copy(f"{TOP}/{path}", f"{self.folder}/{name}")
        self.watch()
        printed = self.answered()
        self.write(tables=TABLES.replace("7]", "9]"))
        printed += self.answered()
        with open(f"{self.folder}/program", encoding="utf-8") as program:
            text = program.read()
        self.write(text.replace("sales[r].qty *", "2 * sales[r].qty *"))
        self.assertEqual("\n".join(printed + self.answered()), self.timeless(told).rstrip("\n"))

    def test_how_it_is_written_does_not_count(self):
        self.watch()
        self.answered()
        self.write("# A note.\n" + SALES, TABLES.replace(", ", ",  "))
        self.assertEqual(self.answered(), ["as before: nothing that counts has changed"])

    def test_a_program_that_is_refused_is_explained_by_its_own_lines_and_the_last_answers_stand(self):
        self.watch()
        self.answered()
        self.write("# A note.\n" + SALES.replace("qty", "count"))
        said = self.answered()
        self.assertEqual((said[:2], said[-1]), (["refused", "refused E9 C8 line 4"], "The last answers stand."))
        self.write(SALES.replace("update total v;", "update total v"), TABLES.replace("7]", "9]"))
        self.assertEqual(self.answered()[1], "refused E8 3")
        self.assertEqual(self.answered(), [])
        self.write(SALES)
        self.assertEqual(self.answered()[:2], ["put sales 2 3 9", "result 131 -> 137"])

    def test_tables_that_are_refused(self):
        self.watch()
        self.answered()
        for text, words in ((TABLES[:-3], "refused E2"), (TABLES.replace("[3,", "[2,"), "refused E3 sales"), (TABLES.replace('"price"', '"cost"'), "refused E9 C8 line 3")):
            self.write(tables=text)
            said = self.answered()
            self.assertEqual((said[1], said[-1]), (words, "The last answers stand."))
        with open(f"{self.folder}/tables", "wb") as file:
            file.write(b"\xff")
        self.assertEqual(self.answered()[1], f"{self.folder}/tables: isn't UTF-8")
        self.write(tables=TABLES.replace("7]", "9]"))
        self.assertEqual(self.answered()[0], "put sales 2 3 9")

    def test_other_reducers_columns_or_tables_begin_a_new_session(self):
        self.watch()
        self.answered()
        self.write(SALES.replace("reducer top", "reducer rows : add;\nreducer top").replace("{ v =", "{ update rows 1; v ="))
        self.assertEqual(self.answered(), ["a new session, since the reducers are others", "result 131", "total 131", "rows 3", "top 100 3", "executed 3, reused 0"])
        self.write(SALES, TABLES.replace("7]", "9]"))
        self.assertEqual(self.answered()[:3], ["a new session, since the reducers are others", "result 131 -> 137", "total 131 -> 137"])
        self.write(SALES.replace("price", "cost"), TABLES.replace("price", "cost"))
        self.assertEqual(self.answered()[:2], ["a new session, since the table sales has other columns", "result 137 -> 131"])
        self.write(tables=TABLES.replace("price", "cost") + '[stock]\ncolumns = ["x"]\nrows = []\n')
        self.assertEqual(self.answered()[:2], ["a new session, since there is a table stock now", "result 131"])

    def test_what_a_session_refuses_is_answered_by_a_new_one(self):
        self.write(SALES + "proc spare() { call line(1); }\n")
        self.watch()
        self.answered()
        self.write(SALES.replace("line(r)", "line(r, s)").replace(": line(r, s)", ": line(r, 0)"))
        self.assertEqual(self.answered()[:2], ["a new session, since the last one refuses these edits", "result 131"])

    def test_a_file_that_is_half_written_is_read_when_it_is_whole(self):
        self.watch()
        self.answered()
        changed = TABLES.replace("7]", "9]")
        for half in ("", changed[:5], changed[:-20], changed[:-2], None):
            if half is None:
                os.remove(f"{self.folder}/tables")
            self.write(tables=half)
            self.assertEqual(self.answered(DOUBTFUL / 2), [])
        self.write(tables=changed)
        self.assertEqual(self.answered()[0], "put sales 2 3 9")

    def test_a_file_that_is_gone_is_told_of_and_the_last_answers_stand(self):
        self.watch()
        self.answered()
        os.rename(f"{self.folder}/program", f"{self.folder}/elsewhere")
        self.assertEqual(self.answered(), ["refused", f"{self.folder}/program: No such file or directory", "The last answers stand."])
        self.write(SALES.replace("return t;", "return t + 1;"))
        self.assertEqual(self.answered()[0], "define main")

    def test_a_fault_is_explained_and_the_next_answer_stands_beside_the_last_one(self):
        self.watch()
        self.answered()
        self.write(SALES.replace("if has sales[r] {", "if 1 {"), TABLES.replace("[3,", "[5,"))
        said = self.answered()
        fault = "fault missing row in line at 2"
        self.assertEqual(said[:4], ["define line; del sales 3; put sales 5 1 100", fault, "", fault])
        self.assertIn("  The table `sales` has no row 3.", said)
        self.write(SALES)
        self.assertEqual(self.answered()[:4], ["define line", "result 131", "total 131", "top 100 3 -> 100 5"])

    def test_what_fails_here_is_told_of_and_the_last_answers_stand(self):
        self.watch()
        self.answered()
        room, self.watching.program.room = self.watching.program.room, f"{self.folder}/nowhere"
        self.write(SALES.replace("return t;", "return t + 1;"))
        self.assertEqual(self.answered()[1:], [f"[Errno 2] No such file or directory: '{self.folder}/nowhere/program'", "The last answers stand."])
        self.watching.program.room = room
        self.write(SALES.replace("return t;", "return t + 2;"))
        self.assertEqual(self.answered()[:2], ["define main", "result 131 -> 133"])

    def test_texts_that_are_refused_from_the_beginning_are_waited_for(self):
        self.write("proc main() {\n", TABLES)
        self.watch()
        said = self.answered()
        self.assertEqual((said[:2], said[-1]), (["refused", "refused E8 2"], "There is no answer yet."))
        self.write(SALES)
        self.assertEqual(self.answered()[:2], ["begun", "result 131"])

    def test_a_session_that_has_ended_is_begun_anew(self):
        self.watch()
        self.answered()
        self.watching.held.session.process.kill()
        self.write(tables=TABLES.replace("7]", "9]"))
        said = self.answered()
        self.assertRegex(said[0], "^a new session, since the last one has ended with status -9")
        self.assertEqual(said[1], "result 131 -> 137")

    def test_a_file_of_codes_and_one_that_has_become_a_watched_one_are_no_trace(self):
        write(f"{self.folder}/sales.csv", "qty,price\n2,5\n3,7\n1,100\n")
        tool, form = csv_tool(), argparse.ArgumentParser()
        tool.add_options(form)
        given = form.parse_args(["--code", "price", "--codes-in", self.folder])
        trace = f"{self.folder}/sales.price.codes.csv"
        self.watch(CsvTables(tool, [f"{self.folder}/sales.csv"], tool.Options(given)), trace)
        failed = [f"failed {trace}", "  It is a file of codes, which a trace would take the place of."]
        self.assertEqual(self.answered()[1:3], failed)
        with open(trace, encoding="utf-8") as file:
            self.assertEqual(file.read().split(), ["code,text", "1,5", "2,7", "3,100"])
        self.watch(trace=f"{self.folder}/trace")
        self.watching.spare()
        os.link(f"{self.folder}/program", f"{self.folder}/trace")
        self.assertEqual(self.answered()[1:3], [f"failed {self.folder}/trace", WOULD_TAKE])
        with open(f"{self.folder}/program", encoding="utf-8") as file:
            self.assertEqual(file.read(), SALES)

    def test_csv_files_are_the_tables(self):
        write(f"{self.folder}/sales.csv", "Price,shop,qty\n0.5,North,2\n0.7,South,3\n10,North,1\n")
        tool = csv_tool()
        form = argparse.ArgumentParser()
        tool.add_options(form)
        given = form.parse_args(["--scale", "Price=10", "--code", "shop", "--codes-in", self.folder])
        self.watch(CsvTables(tool, [f"{self.folder}/sales.csv"], tool.Options(given)))
        self.assertEqual(self.answered(), [f"{self.folder}/sales.csv: columns price (Price)", "begun", "result 131", "total 131", "top 100 3", "executed 3, reused 0"])
        write(f"{self.folder}/sales.csv", "Price,shop,qty\n0.5,North,2\n0.9,West,3\n10,North,1\n")
        self.assertEqual(self.answered()[:2], ["put sales 2 9 3 3", "result 131 -> 137"])
        with open(f"{self.folder}/sales.shop.codes.csv", encoding="utf-8") as file:
            self.assertEqual(file.read().split(), ["code,text", "1,North", "2,South", "3,West"])
        write(f"{self.folder}/sales.csv", "Price,shop,qty\n0.5,East,2\n0.95,West,3\n10,North,1\n")
        self.assertEqual(self.answered()[1], f"{self.folder}/sales.csv: line 3: column Price: '0.95' times 10 isn't a whole number")
        write(f"{self.folder}/sales.csv", "Price,shop,qty\n0.5,Hill,2\n0.9,East,3\n10,North,1\n")
        self.assertEqual(self.answered()[0], "put sales 1 5 4 2; put sales 2 9 5 3")


if __name__ == "__main__":
    unittest.main()
