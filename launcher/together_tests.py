"""Tests of launcher/together.py and launcher/proved_modules.py with a kit that proves nothing. launcher/tests.py runs them."""
import fcntl
import os
import shutil
import subprocess
import sys
import tempfile
import time
import unittest
from unittest import mock

sys.dont_write_bytecode = True
sys.path.insert(0, os.path.dirname(os.path.realpath(__file__)))
import together  # noqa: E402  (found by the path above)
from proved_modules import ProvedModules  # noqa: E402

SOURCE = """//! Numbers.
const MOST: u64 = 9;

/// One more.
pub fn more(number: u64) -> u64
    ensures { result ≡ number + 1 }
{
    number.wrapping_add(1)
}

/// One of two.
pub fn either(
    one: u64,
    other: u64,
) -> u64 {
    if one < other { one } else { other }
}

#[cycle(all)]
fn even(number: u64) -> bool {
    number == 0 || odd(number - 1)
}

impl Number {
    pub fn is_most(&self) -> bool {
        self.number == MOST
    }

    pub fn short(&self) -> u64 { self.number }
}

impl Most<u64> for Other {
    fn is_most(&self) -> bool {
        true
    }
}
"""
SAID = """note: src/lib.rt:5:1: it is not proved that what the function ensures holds when it returns (`returns`)
fn toy::more: no proof: expected answers in ./proofs/more/Answers.antt; `search` did not prove `returns`
./proofs/either/Answers.antt:8:5: error: `returns-then-one`: the two types differ
fn toy::either: not proved
fn toy::even: proved
logic=not-proved
"""
EDITS = {
    "less": ("number.wrapping_add(1)", "number.wrapping_sub(1)"),
    "twice": ("number.wrapping_add(1)", "number.wrapping_add(2)"),
    "larger": ("if one < other {", "if other < one {"),
    "most": ("const MOST: u64 = 9;", "const MOST: u64 = 8;"),
}


class Crate:
    """A crate of one file."""

    name = "toy"

    def __init__(self, folder):
        self.folder = folder
        os.mkdir(f"{folder}/src")
        with open(f"{folder}/src/lib.rt", "w", encoding="utf-8") as file:
            file.write(SOURCE)


class Kit:
    """What of rt is gone by: it notes what it is asked for."""

    REFUSED, SETTLED = "refused", ("refused", "alone")

    def __init__(self, edits, said, status=1):
        self.edits, self.said, self.status, self.has_modules = edits, said, status, False
        self.asked, self.over, self.SEEDS = [], [], []

    def give(self, _crate, to):
        """The modules that its proofs have checked."""
        if self.has_modules:
            os.mkdir(f"{to}/modules")
        return self.has_modules

    def linked(self, folder, to):
        shutil.copytree(folder, to)

    def edits_of(self, _crate):
        return self.edits, []

    def read_edit(self, edit, folder):
        old, new = EDITS[edit]
        with open(f"{folder}/src/lib.rt", encoding="utf-8") as file:
            text = file.read()
        return ({"src/lib.rt": text.replace(old, new)}, None) if text.count(old) == 1 else (None, "it stands nowhere")

    def checked(self, _crate, texts, _flags, kept):
        self.asked.append(("checked", texts))
        self.over.append((kept, os.listdir(kept)))
        return subprocess.CompletedProcess([], self.status, self.said)

    def seeded(self, _crate, _flags, _start=None):
        self.asked.append(("seeded",))
        return "seed"

    def must_fail(self, _crate, edit, _flags, _kept=None):
        self.asked.append(("tried", edit))
        return "alone", edit


class OlderKit:
    """What of an rt is gone by that has one call for all edits of a crate: it says of each whether it is refused, alone or not."""

    def __init__(self, kit):
        self.kit, self.edits_of, self.read_edit, self.checked = kit, kit.edits_of, kit.read_edit, kit.checked

    def must_fail(self, _crate, edit, _flags, kept=None):
        self.kit.asked.append(("tried", edit, bool(kept)))
        return edit != "most", edit

    def must_fail_all(self, _crate, edits, _flags):
        self.kit.asked.append(("in turn",))
        return [(True, edit) for edit in edits]


class Edits(unittest.TestCase):
    def setUp(self):
        room = tempfile.TemporaryDirectory()
        self.addCleanup(room.cleanup)
        self.crate = Crate(room.name)

    def begun(self, edits, said=SAID, status=1, has_modules=False):
        kit = Kit(edits, said, status)
        kit.has_modules = has_modules
        together.begin(kit, kit)
        return kit, kit.seeded(self.crate, [], None)

    def function(self, old, new):
        self.assertEqual(SOURCE.count(old), 1)
        return together.function_of(SOURCE, SOURCE.replace(old, new))

    def test_an_edit_is_of_the_function_in_whose_body_it_stands(self):
        self.assertEqual(self.function("number.wrapping_add(1)", "number"), "more")
        self.assertEqual(self.function("if one < other", "if other < one"), "either")
        self.assertEqual(self.function("self.number == MOST", "true"), "Number::is_most")
        self.assertEqual(self.function("        true\n", "        false\n"), "OtherMost::is_most")
        for old in ("u64 = 9", "result ≡ number + 1", "number == 0 ||", "{ self.number }", "    one: u64,"):
            self.assertEqual(self.function(old, "x"), None)
        self.assertEqual(self.function("        true\n", "\n        true\n"), None)
        once_more = "impl Number {\n    fn is_most() {\n    }\n}\n"
        self.assertEqual(together.function_of(SOURCE + once_more, SOURCE.replace("== MOST", "!= MOST") + once_more), None)
        self.assertEqual(together.function_of(SOURCE, SOURCE.replace("add(1)", "add(2)").replace("if one", "if other")), None)

    def test_a_method_is_called_by_where_its_type_stands(self):
        for path, name, symbol, is_it in (
            ("src/lib.rt", "more", "toy::more", True),
            ("src/up/more.rt", "more", "toy::up::more::more", True),
            ("src/up.rt", "more", "toy::more", False),
            ("src/up.rt", "Number::is_most", "toy::Number::is_most", True),
            ("src/up.rt", "Number::is_most", "toy::down::Number::is_most", True),
            ("src/up.rt", "Number::is_most", "other::Number::is_most", False),
            ("src/up.rt", "Number::is_most", "toy::OtherNumber::is_most", False),
        ):
            self.assertEqual(together.is_among("toy", path, name, {symbol, "toy::up::less"}), is_it)
        self.assertTrue(together.are_alike(("src/a.rt", "Number::is_most"), ("src/b.rt", "Number::is_most")))
        self.assertFalse(together.are_alike(("src/a.rt", "more"), ("src/b.rt", "more")))
        self.assertTrue(together.are_alike(("src/a.rt", "more"), ("src/a.rt", "more")))

    def has(self, asked, edit):
        old, new = EDITS[edit]
        return new in asked[1]["src/lib.rt"] and old not in asked[1]["src/lib.rt"]

    def test_edits_are_refused_by_checks_with_one_of_each_function(self):
        kit, room = self.begun(["less", "twice", "larger"])
        self.assertTrue(os.path.isdir(f"{room}/seed"))
        self.assertEqual([[self.has(it, edit) for edit in ("less", "twice", "larger")] for it in kit.asked], [[True, False, True], [False, True, False]])
        for edit in ("less", "twice", "larger"):
            self.assertEqual(kit.must_fail(self.crate, edit, [], "over")[0], "refused")
        self.assertEqual(kit.checked(self.crate, {}, [], f"{room}/seed").returncode, 0)
        self.assertEqual(len(kit.asked), 2)

    def test_each_check_is_over_what_the_proof_has_checked(self):
        for has_modules in (False, True):
            kit, room = self.begun(["less", "twice", "larger"], has_modules=has_modules)
            self.assertEqual([kept == f"{room}/seed" for kept, _ in kit.over], [not has_modules] * 2)
            self.assertEqual([there for _, there in kit.over], [["modules"] * has_modules] * 2)

    def test_the_only_edit_is_tried_over_what_the_proof_has_checked(self):
        kit = Kit(["most"], SAID)
        kit.has_modules = True
        together.begin(kit, kit)
        self.assertEqual(kit.must_fail(self.crate, "most", [])[0], "alone")
        self.assertEqual(kit.asked, [("tried", "most")])

    def test_what_is_not_refused_so_is_tried_alone(self):
        by_callee = "fn toy::either: not proved: it calls `toy::more`, which is not proved\n"
        elsewhere = "fn toy::other::either: no proof: expected answers\n"
        by_lemma = "./proofs/Lemmas.antt:8:5: error: `all`: the two types differ\nfn toy::either: not proved\n"
        for said in ("fn toy::either: proved\n", by_callee, elsewhere, by_lemma):
            kit, room = self.begun(["less", "larger", "most"], said + SAID.splitlines()[1])
            self.assertEqual([[self.has(it, edit) for edit in ("less", "larger", "most")] for it in kit.asked], [[True, True, False], [False, True, False]])
            self.assertEqual([kit.must_fail(self.crate, edit, [], "over")[0] for edit in ("less", "larger", "most")], ["refused", "alone", "alone"])
            os.makedirs(f"{room}/seed", exist_ok=True)
            kit.checked(self.crate, {}, [], f"{room}/seed")
            self.assertEqual([name for name, *_ in kit.asked], ["checked", "checked", "tried", "tried", "checked"])

    def test_all_are_tried_alone_where_no_check_refuses_one(self):
        for edits, status in ((["less", "larger"], -9), (["less", "larger"], 0), (["most"], 1)):
            kit, room = self.begun(edits, status=status)
            self.assertEqual((room, kit.asked[-1]), ("seed", ("seeded",)))
            self.assertEqual(kit.must_fail(self.crate, "less", [], "over")[0], "alone")

    def test_each_is_tried_alone_where_the_disk_is_full(self):
        kit = Kit(["less", "larger"], SAID)
        kit.give = lambda _crate, _to: os.mkdir("/proc/full")
        together.begin(kit, kit)
        self.assertEqual(kit.seeded(self.crate, [], None), "seed")
        self.assertEqual(kit.must_fail(self.crate, "less", [])[0], "alone")
        self.assertEqual(kit.asked, [("seeded",), ("tried", "less")])

    def test_edits_are_tried_over_the_proof_by_an_rt_with_one_call_for_them(self):
        for has_modules in (False, True):
            edits, kit = ["less", "larger", "most"], Kit(["less", "larger", "most"], SAID)
            kit.has_modules, older = has_modules, OlderKit(kit)
            together.begin(older, kit)
            found = older.must_fail_all(self.crate, edits, [])
            alone = [it for it in kit.asked if it[0] != "checked"]
            if has_modules:
                self.assertEqual([refused for refused, _ in found], [True, True, False])
                self.assertEqual(alone, [("tried", "most", True), ("tried", "most", False)])
                self.assertEqual([there for _, there in kit.over], [["modules"]])
            else:
                self.assertEqual((alone, len(found)), ([("in turn",)], 3))

    def test_the_check_that_edits_begin_with_waits_for_the_proof(self):
        tasks = {("toy", "proof"): (["low"], 9), ("toy", "seed"): (["low"], 0), ("toy", "edits", 0): ([("toy", "seed")], 9)}
        found = together.behind_proofs(tasks)
        self.assertEqual(found, {**tasks, ("toy", "seed"): (["low", ("toy", "proof")], 0)})


class Proofs(unittest.TestCase):
    """A proof of `toy`, and one of another crate, that save modules."""

    def setUp(self):
        room = tempfile.TemporaryDirectory()
        self.addCleanup(room.cleanup)
        self.top = os.path.realpath(room.name)
        os.mkdir(f"{self.top}/rooms")
        elsewhere = mock.patch("tempfile.tempdir", f"{self.top}/rooms")
        elsewhere.start()
        self.addCleanup(elsewhere.stop)
        os.makedirs(f"{self.top}/kit/logic_built")
        with open(f"{self.top}/kit/logic_built/format", "w", encoding="utf-8") as file:
            file.write("logic 1\nkernel antt-checked-8/0/src\n")

    def proof(self, crate, *words):
        """A check of that crate, and the folder of its modules, of which it has one."""
        os.makedirs(f"{self.top}/crates/{crate}", exist_ok=True)
        waits = [sys.executable, "-c", "import time; time.sleep(60)", "--crate-name", crate, *words]
        process = subprocess.Popen(waits, cwd=f"{self.top}/crates/{crate}")
        self.addCleanup(process.wait)
        self.addCleanup(process.kill)
        saved = f"{tempfile.gettempdir()}/rattle-logic-built-locked-{process.pid}-0"
        os.mkdir(saved)
        self.addCleanup(shutil.rmtree, saved)
        for name in (f"{crate}.oantt", "judged"):
            with open(f"{saved}/{name}", "w", encoding="utf-8") as file:
                file.write(crate)

    def stays(self, modules):
        """Waits until those modules have what the proof of `toy` has saved, and has them look no further."""
        end = time.time() + 20
        while not os.path.exists(f"{modules.room}/toy/toy.oantt") and time.time() < end:
            time.sleep(0.1)
        modules.over.set()
        modules.looking.join()

    def left_by(self, process, *crates):
        """The folder of a run of that number, with an old module of each of the crates."""
        room = f"{ProvedModules(self.top, f'{self.top}/kit', []).rooms}-{process}"
        for crate in crates:
            os.makedirs(f"{room}/{crate}")
            with open(f"{room}/{crate}/old.oantt", "w", encoding="utf-8") as file:
                file.write("old")
        return room

    def given(self, modules, *crates):
        """What is given of each of the crates, or none."""
        found = []
        for crate in crates:
            to = tempfile.mkdtemp()
            found.append(os.listdir(f"{to}/antt-checked-8_0_src") if modules.give(crate, to) else None)
        return found

    def test_modules_of_proofs_are_given_to_one_check(self):
        self.proof("toy")
        self.proof("other")
        self.proof("tested", "--test")
        with ProvedModules(self.top, f"{self.top}/kit", ["toy", "tested"]) as modules:
            self.stays(modules)
            self.assertEqual(self.given(modules, "toy", "toy", "tested", "other"), [["toy.oantt"], None, None, None])
        self.assertFalse(os.path.exists(modules.room))

    def test_modules_that_an_ended_run_has_left_are_given_until_the_crate_is_proved_anew(self):
        left = self.left_by(os.getppid(), "toy", "more", "other")
        self.proof("toy")
        with ProvedModules(self.top, f"{self.top}/kit", ["toy", "more"]) as modules:
            self.stays(modules)
            self.assertEqual(sorted(os.listdir(modules.room)), ["more", "toy"])
            self.assertEqual(self.given(modules, "toy", "more"), [["toy.oantt"], ["old.oantt"]])
        self.assertFalse(os.path.exists(left))

    def test_a_run_that_is_ended_while_it_tries_edits_leaves_their_modules_to_the_next(self):
        self.proof("toy")
        code = "import os, sys; from proved_modules import ProvedModules; m = ProvedModules(*sys.argv[1:3], ['toy']); m.__enter__(); to = sys.argv[3]\n"
        code += "while not os.path.exists(m.room + '/toy/toy.oantt'): pass\nm.give('toy', to)\nos._exit(9)"
        words = [sys.executable, "-c", code, self.top, f"{self.top}/kit", tempfile.mkdtemp()]
        subprocess.run(words, cwd=os.path.dirname(os.path.realpath(__file__)), env={**os.environ, "TMPDIR": tempfile.gettempdir()}, check=False)
        with ProvedModules(f"{self.top}/elsewhere", f"{self.top}/kit", ["toy"]) as modules:
            self.assertEqual(self.given(modules, "toy"), [["toy.oantt"]])

    def test_modules_of_a_run_at_work_elsewhere_are_given_and_stay_there(self):
        other = self.left_by(os.getppid(), "toy", "other")
        at_work = os.open(other, os.O_RDONLY)
        self.addCleanup(os.close, at_work)
        fcntl.flock(at_work, fcntl.LOCK_EX)
        with ProvedModules(self.top, f"{self.top}/kit", ["toy"]) as modules:
            self.assertEqual(os.listdir(modules.room), [])
            self.assertEqual(self.given(modules, "toy", "toy"), [["old.oantt"], None])
        self.assertEqual(os.listdir(f"{other}/toy"), ["old.oantt"])

    def test_none_are_kept_of_a_kit_that_does_not_say_where(self):
        with ProvedModules(self.top, f"{self.top}/other kit", ["toy"]) as modules:
            self.assertFalse(modules.give("toy", self.top))


if __name__ == "__main__":
    unittest.main()
