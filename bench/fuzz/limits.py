"""Programs and tables at both sides of each limit, and far behind it."""
import random
import re
from typing import Callable, Dict, NamedTuple, Optional, Tuple

from texts import form
from trial import ONE_WORKER, Find, Harness, Session, ending

MAIN = "proc main() { return 0; }"


class Limit(NamedTuple):
    """The greatest size, the least one, the text of a size, and how one beyond is refused; that of tables is a text of tables."""

    greatest: int
    least: int
    text: Callable[[int], str]
    refusal: str = "refused E8"


def main_of(statement: str) -> str:
    return f"proc main() {{ {statement} }}"


def nested(opening: str, inner: str, closing: str) -> Callable[[int], str]:
    return lambda size: main_of(opening * size + inner + closing * size)


def in_a_name(form_of: str) -> Callable[[int], str]:
    """A text with a name of that length."""
    return lambda size: form_of.replace("NAME", "a" * size)


def monoid(size: int) -> str:
    """The greater of two elements; a size beyond the limit by far is that of the first number alone."""
    shown = min(size, 40)
    entries = ", ".join(str(max(left, right)) for left in range(shown) for right in range(shown))
    return f"reducer r : table {size} unit 0 [{entries}]; {MAIN}"


def calls(size: int) -> str:
    """A loop that enters instances under one another, so many of them."""
    return f"proc f(n) {{ if n > 1 {{ call f(n - 1); }} }} {main_of(f'cilk_for i in 0 .. 2 : f({size});')}"


def long_loop(size: int) -> str:
    return f"proc f(i) {{ }} {main_of(f'cilk_for i in 0 - 5 .. {size} - 5 grain 64 : f(i);')}"


def table(columns: int = 1, row: int = 1) -> str:
    names = ", ".join(f'"c{number}"' for number in range(columns))
    return f"[t]\ncolumns = [{names}]\nrows = [[{row}{', 1' * columns}]]\n"


PROGRAMS: Dict[str, Limit] = {
    "reducers": Limit(16, 0, lambda size: "".join(f"reducer r{number} : add;\n" for number in range(size)) + MAIN),
    "procedures": Limit(256, 1, lambda size: "".join(f"proc f{number}() {{ }}\n" for number in range(size - 1)) + MAIN),
    "parameters": Limit(8, 0, lambda size: f"proc f({', '.join(f'a{number}' for number in range(size))}) {{ }} {MAIN}"),
    "blocks": Limit(31, 0, nested("if 1 { ", "", "} ")),
    "else blocks": Limit(31, 0, nested("if 0 { } else { ", "", "} ")),
    "parentheses": Limit(64, 0, lambda size: main_of(f"return {'(' * size}1{')' * size};")),
    "levels of a sum": Limit(64, 1, lambda size: main_of(f"return {' + '.join(['1'] * size)};")),
    "levels of minus": Limit(63, 0, lambda size: main_of(f"return {'- ' * size}1;")),
    "levels of products": Limit(63, 0, lambda size: main_of(f"return {'2 * (' * size}1{')' * size};")),
    "grain": Limit(65536, 1, lambda size: f"proc f(i) {{ }} {main_of(f'cilk_for i in 0 .. 3 grain {size} : f(i);')}"),
    "first": Limit(4096, 1, lambda size: f"reducer r : first {size}; {main_of('update r 1;')}"),
    "last": Limit(4096, 1, lambda size: f"reducer r : last {size}; {main_of('update r 1;')}"),
    "an initial value": Limit(4096, 1, lambda size: f"reducer r : add from {', '.join(['-1'] * size)}; {MAIN}"),
    "elements": Limit(16, 1, monoid),
    "a procedure's name": Limit(32, 1, in_a_name("proc NAME() { } " + MAIN)),
    "a variable's name": Limit(32, 1, in_a_name("proc main() { NAME = 1; return NAME; }")),
    "a number": Limit((1 << 63) - 1, 0, lambda size: main_of(f"return {size};")),
    "a text": Limit(1 << 20, len(MAIN), lambda size: MAIN + " " * (size - len(MAIN))),
    "a comment": Limit(1 << 20, len(MAIN) + 1, lambda size: MAIN + "#" * (size - len(MAIN))),
    "depth": Limit(255, 0, calls, "fault too deep"),
    "a range": Limit(1 << 20, 0, long_loop, "fault range too long"),
}
TABLES: Dict[str, Limit] = {
    "tables": Limit(64, 0, lambda size: "".join(f"[t{number}]\ncolumns = ['a']\nrows = []\n" for number in range(size)), "refused E3"),
    "columns": Limit(8, 1, lambda size: table(columns=size), "refused E3"),
    "a row's number": Limit((1 << 31) - 1, 0, lambda size: table(row=size), "refused E3"),
    "a table's name": Limit(32, 1, in_a_name("[NAME]\ncolumns = ['a']\nrows = []\n"), "refused E3"),
    "arrays in a row": Limit(0, 0, lambda size: f"[t]\ncolumns = ['a']\nrows = [[1, {'[' * size}1{']' * size}]]\n", "refused E[23]"),
    "tables in a row": Limit(0, 0, lambda size: f"[t]\ncolumns = ['a']\nrows = [[1, {'{a = ' * size}1{'}' * size}]]\n", "refused E[23]"),
    "dots in a key": Limit(0, 0, lambda size: f"t{'.a' * size} = {{ columns = ['a'], rows = [[1, 2]] }}\n", "refused E[23]"),
    "names of a header": Limit(0, 0, lambda size: f"[t{'.a' * size}]\ncolumns = ['a']\nrows = [[1, 2]]\n", "refused E[23]"),
}
ALL = {**PROGRAMS, **TABLES}


class Case(NamedTuple):
    """A limit and a size."""

    name: str
    size: int

    def is_within(self) -> bool:
        return ALL[self.name].least <= self.size <= ALL[self.name].greatest


def case_of(seed: str) -> Case:
    chance = random.Random(seed)
    name = chance.choice(list(ALL))
    greatest, least = ALL[name].greatest, ALL[name].least
    far = (2 * greatest, 10 * greatest) if greatest >= 65536 else (1000, 100_000)
    size = chance.choice((greatest - 1, greatest, greatest, greatest + 1, greatest + 1, least, *far))
    return Case(name, max(size, least))


def session_of(seed: str) -> Session:
    case = case_of(seed)
    text = ALL[case.name].text(case.size).encode()
    return Session(text, b"", b"run\n") if case.name in PROGRAMS else Session(MAIN.encode(), text, b"run\n")


def check(harness: Harness, session: Session, seed: str) -> Optional[Find]:
    """A find where what is within a limit is refused, or what is beyond it isn't."""
    case, words = case_of(seed), (*ONE_WORKER,)
    outcome = harness.run(session, words)
    return ending(outcome, words) or form(outcome, words) or verdict(case, " ".join((outcome.said.split("\n")[0], *outcome.answers)), words)


def verdict(case: Case, said: str, words: Tuple[str, ...]) -> Optional[Find]:
    wanted = "result" if case.is_within() else ALL[case.name].refusal
    return None if re.search(wanted, said) else Find("limit", words, f"{case.name}, {case.size}: {said[:200]}")
