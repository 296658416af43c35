"""Random programs of every form, with edits and runs."""
import random
from typing import Callable, Dict, Iterable, List, NamedTuple

from statements import Body, Known, Scope
from trial import Session
from world import Reducer, Rows, is_readable, reducers_of, some

BUDGET = 40_000


class Procedure(NamedTuple):
    """A procedure with its text, which may be defined anew by any that costs as much at most."""

    known: Known
    is_memo: bool
    text: str


def procedure_text(name: str, parameters: str, is_memo: bool, lines: List[str]) -> str:
    return "\n".join([f"{'memo ' if is_memo else ''}proc {name}({parameters}) {{", *lines, "}"])


def ended(body: Body, scope: Scope, share: float = 0.7) -> None:
    """Most procedures return something."""
    if some(body.chance, share):
        body.add(f"return {body.expression(scope)};")


class Maker:
    """Makes a session: its procedures in order, each of which enters those before it alone."""

    def __init__(self, seed: str, least_rows: int, most_rows: int):
        self.chance = random.Random(seed)
        self.faults = self.chance.choice((0, 0, 0.002, 0.02, 0.1))
        self.reducers: List[Reducer] = reducers_of(self.chance)
        self.rows = Rows(self.chance, least_rows, most_rows)
        self.procedures: Dict[str, Procedure] = {}
        self.again: Dict[str, Callable[[], None]] = {}
        self.given: Dict[str, Callable[[], str]] = {}

    def known_before(self, name: str) -> List[Known]:
        """The procedures that this one may enter: those made before it."""
        names = list(self.procedures)
        before = names[: names.index(name)] if name in names else names
        return [self.procedures[other].known for other in before if other not in self.given]

    def body(self, name: str, budget: int) -> Body:
        return Body(self.chance, self.reducers, self.known_before(name), budget, self.faults)

    def keep(self, name: str, arity: int, cost: int, is_memo: bool, text: str) -> None:
        self.procedures[name] = Procedure(Known(name, arity, cost), is_memo, text)

    # Procedures.

    def plain(self, name: str, budget: int) -> None:
        """One with any statements."""
        before = self.procedures.get(name)
        arity = before.known.arity if before else self.chance.randint(0, 3)
        parameters = [f"p{number}" for number in range(arity)]
        body, scope = self.body(name, budget), Scope(parameters)
        body.statements(self.chance.randint(1, 6), scope)
        ended(body, scope)
        is_memo = some(self.chance, 0.6)
        cost = max(body.cost, before.known.cost if before else 0)
        self.keep(name, arity, cost, is_memo, procedure_text(name, ", ".join(parameters), is_memo, body.lines))
        self.again[name] = lambda: self.plain(name, max(20, cost))

    def recursive(self, name: str, budget: int) -> None:
        """One that enters itself with one less, as deep as it may go."""
        body, scope = self.body(name, budget // 270), Scope(["n"])
        body.statements(self.chance.randint(1, 3), scope)
        how = self.chance.choice(("call", "spawn"))
        less = self.chance.choice(("n > 0", "n != 0", "n > 3"))
        body.lines += [f"  if {less} {{", f"  below = {how} {name}(n - 1);", "  }"]
        body.statements(1, scope)
        ended(body, scope)
        is_memo = some(self.chance, 0.6)
        self.keep(name, 1, 256 * (body.cost + 3), is_memo, procedure_text(name, "n", is_memo, body.lines))

    def halving(self, name: str) -> None:
        """One that goes over a range by its halves, which main enters with given numbers."""
        how, grain = self.chance.choice(("call", "spawn")), self.chance.choice((1, 4, 16))
        arguments = ", ".join(["r", "1", "low"][: self.procedures["f0"].known.arity])
        lines = [
            f"  if size <= {grain} {{",
            f"  cilk_for r in low .. low + size grain {grain} : f0({arguments});",
            "  } else {",
            f"  {how} {name}(low, size / 2);",
            f"  call {name}(low + size / 2, size / 2);",
            "  }",
        ]
        is_memo = some(self.chance, 0.8)
        self.keep(name, 2, 0, is_memo, procedure_text(name, "low, size", is_memo, lines))
        self.given[name] = lambda: f"{self.chance.choice((0, 1, 16))}, {1 << self.chance.randint(0, 7)}"

    def fibonacci(self, name: str) -> None:
        updates = [f"  update {reducer.name} n;" for reducer in self.reducers[:3] if reducer.kind in ("add", "list", "max")]
        lines = ["  if n < 2 {", *updates, "  return n;", "  }"]
        lines += [f"  a = spawn {name}(n - 1);", f"  b = call {name}(n - 2);", "  sync;", "  return a + b;"]
        is_memo = some(self.chance, 0.7)
        self.keep(name, 1, 0, is_memo, procedure_text(name, "n", is_memo, lines))
        self.given[name] = lambda: str(self.chance.randint(0, 9))

    # Main, and the whole.

    def given_entries(self, body: Body) -> None:
        """Main's entries of halvings and of Fibonacci's numbers."""
        for name, numbers in self.given.items():
            body.add(f"{self.chance.choice(('call', 'spawn'))} {name}({numbers()});")

    def main_ended(self, body: Body, scope: Scope) -> None:
        """The reads of main and what it returns."""
        readable = [reducer for reducer in self.reducers if is_readable(reducer)]
        if readable and some(self.chance, 0.7):
            body.add("sync;")
            scope.sync()
            for reducer in self.chance.sample(readable, min(2, len(readable))):
                name = body.fresh()
                body.add(f"{name} = read {reducer.name};")
                scope.atoms.append(name)
        ended(body, scope, 0.9)

    def main(self) -> None:
        body, scope = self.body("main", BUDGET), Scope([])
        body.statements(self.chance.randint(1, 4), scope)
        if self.rows.count() < 4000 and not self.is_distant():
            body.loop_over(scope, "0", "limit sales", 2 * self.rows.count() + 200)
        self.given_entries(body)
        body.statements(self.chance.randint(0, 3), scope)
        self.main_ended(body, scope)
        self.keep("main", 0, BUDGET, False, procedure_text("main", "", False, body.lines))
        self.again["main"] = self.main

    def is_distant(self) -> bool:
        return max(self.rows.sales, default=0) >= 4000

    def make(self) -> None:
        for number in range(self.chance.randint(1, 6)):
            budget = self.chance.choice((20, 200, 2000))
            if some(self.chance, 0.2):
                self.recursive(f"f{number}", budget)
            else:
                self.plain(f"f{number}", budget)
        if some(self.chance, 0.35):
            self.halving("halves")
        if some(self.chance, 0.35):
            self.fibonacci("fibonacci")
        self.main()

    # The script.

    def defined_anew(self) -> List[str]:
        """One or more procedures defined anew, or one as it is with other spaces."""
        chosen = self.chance.sample(list(self.again), self.chance.randint(1, min(2, len(self.again))))
        if some(self.chance, 0.25):
            return self.define(self.procedures[name].text.replace(" (", "\t  (").replace("; ", " ;\n") for name in chosen)
        for name in chosen:
            self.again[name]()
        return self.define(self.procedures[name].text for name in chosen)

    @staticmethod
    def define(texts: Iterable[str]) -> List[str]:
        return ["define", *"\n".join(texts).split("\n"), "end"]

    def script(self) -> List[str]:
        lines = ["run"]
        for _ in range(self.chance.randint(1, 6)):
            kind = self.chance.random()
            lines += self.defined_anew() if kind < 0.3 else [] if kind < 0.4 else self.rows.edits()
            lines.append("run")
        return lines

    def session(self) -> Session:
        self.make()
        reducers = [reducer.line() for reducer in self.reducers]
        program = "\n".join([*reducers, *(procedure.text for procedure in self.procedures.values())]) + "\n"
        tables = self.rows.text()
        script = "\n".join(self.script()) + "\n"
        return Session(program.encode(), tables.encode(), script.encode())


def session_of(seed: str) -> Session:
    return Maker(seed, 2, 200).session()
