"""Whether the model of bench/fuzz answers the sessions of examples/ and tests/reruns as it should, and what is found in programs that don't."""
import re
import stat
import sys
import tempfile
import unittest
from pathlib import Path

sys.dont_write_bytecode = True
TOP = Path(__file__).resolve().parent.parent
sys.path[:0] = [str(TOP / "bench" / "fuzz"), str(TOP / "tests")]
import model  # noqa: E402  (found by the paths above)
import reports  # noqa: E402
import session_form  # noqa: E402
import trial  # noqa: E402


def lines_of(session, kind):
    """The lines of a session's parts of one kind."""
    return session_form.unrolled([part.rest for part in session.all_of(kind)])


class RandomSessions(unittest.TestCase):
    def test_the_model_answers_the_examples(self):
        for answers in sorted(TOP.glob("examples/*/answers")):
            folder = answers.parent
            texts = [(folder / name).read_text(encoding="utf-8") for name in (f"{folder.name}.cilk", "tables.toml", "script")]
            wanted = [line.rstrip() for line in answers.read_text(encoding="utf-8").splitlines()]
            self.assertEqual(model.played(*texts)[0], wanted, folder.name)

    def test_the_model_answers_sessions_of_reruns_and_counts_what_is_done(self):
        for path in sorted((TOP / "tests" / "reruns").glob("*.session")):
            for session in session_form.sessions_of(path, path.read_text(encoding="utf-8").split("\n")[:-1]):
                wanted = [line.rstrip() for line in lines_of(session, "answer")]
                if not any(re.match("refused E(8|9|19)", line) for line in wanted):
                    self.compare(session, wanted)

    def compare(self, session, wanted):
        kits = re.search(r"--kits (\d+)", " ".join(session.setting.words))
        texts = [text.decode() for text in (session.setting.program, session.setting.tables, session_form.raw(lines_of(session, ">")))]
        answers, counts = model.played(*texts, kits=int(kits[1]) if kits else 64)
        self.assertEqual(answers, wanted, session.title)
        wanted_counts = [" ".join(part.rest.split()[:3]) for part in session.all_of("counts")]
        if len(wanted_counts) == len(counts):
            self.assertEqual(wanted_counts, counts, session.title)

    def found(self, program):
        """The kind of what is found where a script of the shell is the program."""
        with tempfile.TemporaryDirectory() as folder:
            file = Path(folder, "cilkreport")
            file.write_text(f"#!/bin/sh\n{program}\n", encoding="ascii")
            file.chmod(file.stat().st_mode | stat.S_IXUSR)
            return trial.check(trial.Harness(file, None, Path(folder)), reports.session_of("reports 1"), "1").kind

    def test_what_is_found(self):
        self.assertEqual(self.found("kill -SEGV $$"), "signal")
        self.assertEqual(self.found("echo refused E9 C1 main 1 >&2; exit 1"), "refused")
        self.assertEqual(self.found("echo run 1"), "model")


if __name__ == "__main__":
    unittest.main()
