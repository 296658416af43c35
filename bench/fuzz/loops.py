"""Sessions whose main part are flat loops over memo procedures, in which records answer stretches of iterations."""
import random
import re
from typing import List, Optional, Tuple

import model
from reports import Maker, ended, procedure_text
from statements import GRAINS, Body, Known, Scope
from trial import Session
from world import Reducer, size_of, some

LAST = 9223372036854775807
FIRST_STEPS = 100_000
FEW, MANY = (20, 400), (1030, 3000)
LONG = ("list", "hist")  # of which a record of many rows may hold too much
DEPTHS = (3, 20, 249, 250, 251, 251, 252, 252, 253, 254)
COUNTED = (*["{0}"] * 9, "{0} + 1", "2 * {0}", "{0} - 3", "-{0}", "{0} % 7", "{0} / 2", "{0} * {0}", "{0} * 4611686018427387904")


class LoopMaker(Maker):
    """Makes a session of loops."""

    def make(self) -> None:
        chance = self.chance
        if self.rows.count() > 1000 and some(chance, 0.7):
            self.faults = 0
        if some(chance, 0.6):
            self.reducers = [reducer for reducer in self.reducers if reducer.kind not in LONG] or [Reducer("red0", "add", "add", 0)]
        self.nested("shared", "k", is_row=False)
        self.nested("own", "r", is_row=True)
        for number in range(chance.randint(1, 2)):
            self.line(f"line{number}", chance.choice(("r", "r, k", "k, r")))
        if some(chance, 0.2):
            self.between("between")
        if some(chance, 0.3):
            self.around("around")
        if some(chance, 0.35):
            self.deep("deep")
        self.main()

    # What the loops are over.

    def row_scope(self, parameters: str) -> Scope:
        """The names of a procedure, the row's number first."""
        return Scope(sorted(parameters.split(", "), reverse=True))

    def nested(self, name: str, parameter: str, is_row: bool) -> None:
        """A memo procedure for those of the rows to enter: of a row, or of what many rows share."""
        body, scope = self.body(name, 12), Scope([parameter])
        self.cells(body, scope, parameter if is_row else f"{parameter} % 3", "sales" if is_row else "rates")
        ended(body, scope)
        is_memo = some(self.chance, 0.8)
        self.keep(name, 1, 15, is_memo, procedure_text(name, parameter, is_memo, body.lines))
        self.again[name] = lambda: self.nested(name, parameter, is_row)

    def cells(self, body: Body, scope: Scope, row: str, table: str) -> None:
        """Statements over the cells of a row, which is asked for first if a fault isn't wanted."""
        cells = [f"{table}[{row}].{column}" for column in ("qty", "price")] if table == "sales" else [f"{table}[{row}].rate"]
        count = self.chance.randint(1, 3)
        if some(self.chance, self.faults) or (self.rows.is_whole and row == "r" and some(self.chance, 0.25)):
            body.statements(count, scope.inner(*cells, *cells), 3)
            return
        body.add(f"if has {table}[{row}] {{")
        body.statements(count, scope.inner(*cells, *cells), 3)
        body.otherwise(scope, 3)

    def line(self, name: str, parameters: str) -> None:
        """The procedure of the iterations."""
        body, scope = self.body(name, 60), self.row_scope(parameters)
        if some(self.chance, 0.7):
            self.own_row(body, scope)
        parts = (self.own_row, self.neighbour, self.common_row, self.enters, self.enters, self.risk, self.anything)
        for part in self.chance.sample(parts, self.chance.randint(0, 4 if self.rows.count() < 1000 else 2)):
            part(body, scope)
        ended(body, scope)
        is_memo = some(self.chance, 0.93)
        self.keep(name, parameters.count(",") + 1, 70, is_memo, procedure_text(name, parameters, is_memo, body.lines))
        self.again[name] = lambda: self.line(name, parameters)

    def own_row(self, body: Body, scope: Scope) -> None:
        self.cells(body, scope, "r", "sales")

    def neighbour(self, body: Body, scope: Scope) -> None:
        self.cells(body, scope, self.chance.choice(("r + 1", "r - 1", "r / 10", "2 * r")), "sales")

    def common_row(self, body: Body, scope: Scope) -> None:
        """A row that all iterations read, or a limit or a sum that all ask for."""
        if some(self.chance, 0.2):
            scope.atoms.append(self.chance.choice(("limit sales", "limit sales", "sum sales.price", "sum rates.rate")))
        else:
            self.cells(body, scope, self.chance.choice(("0", "0", "5")), self.chance.choice(("rates", "sales")))

    def enters(self, body: Body, scope: Scope) -> None:
        callee, how = self.chance.choice(("shared", "own")), self.chance.choice(("call", "call", "spawn"))
        name = body.fresh()
        argument = self.chance.choice(("r", "r", "r % 3", "2", "r + 1"))
        body.add(f"{name} = {how} {callee}({argument});")
        (scope.atoms if how == "call" else scope.waiting).append(name)

    def risk(self, body: Body, scope: Scope) -> None:
        body.risk(scope, 3)

    def anything(self, body: Body, scope: Scope) -> None:
        body.statements(2, scope, 2)

    # Where the loops stand.

    def loop(self, body: Body, scope: Scope, callees: List[str], most: int) -> None:
        """A loop over one of these procedures, with a range of any kind."""
        callee = self.chance.choice(callees)
        low, high = self.bounds(most)
        name, grain = body.fresh(), self.chance.choice(GRAINS)
        words = f"grain {grain} " if grain > 1 else ""
        body.add(f"cilk_for {name} in {low} .. {high} {words}: {callee}({self.arguments_of(callee, name, scope)});")

    def bounds(self, most: int) -> Tuple[str, str]:
        chance = self.chance
        times, kind = size_of(chance, 1, max(2, most)), chance.random()
        if kind < 0.5:
            return chance.choice(("0", "1", "0", "1", "10", "-5")), "limit sales"
        if kind < 0.75:
            begin = chance.choice((0, 1, chance.randint(0, most)))
            return str(begin), str(begin + times)
        if kind < 0.82:
            return f"-{times}", chance.choice(("0", "2", "-3", "limit rates", "sum rates.rate"))
        if kind < 0.87:
            return f"{LAST} - {times % 200}", str(LAST)
        if kind < 0.94:
            return f"0 - {LAST} - 1", f"0 - {LAST} + {times % 200}"
        rare = (("5", "2"), ("3", "3"), ("limit sales", f"limit sales + {times}"), ("0", "1048577"))
        return chance.choice(rare) if some(chance, 0.5) else self.bounds(most)

    def arguments_of(self, callee: str, variable: str, scope: Scope) -> str:
        """The counted argument for the row, and a fixed one beside it."""
        counted = self.chance.choice(COUNTED).format(variable)
        fixed = self.chance.choice(("7", "7", "-1", "limit rates", "limit sales", "sum sales.shop", *scope.atoms))
        parameters = self.procedures[callee].text.split("(")[1].split(")")[0].split(", ")
        if len(parameters) > 1 and some(self.chance, 0.05):
            fixed = counted
        return ", ".join(fixed if name == "k" else counted for name in parameters)

    def callees(self) -> List[str]:
        """The procedures that a loop goes over."""
        lines = [name for name in self.procedures if name.startswith("line") or name == "between"]
        return lines * 4 + ["own", "shared"]

    def between(self, name: str) -> None:
        """One without a record of its own whose iterations enter one that has."""
        body, scope = self.body(name, 80), Scope(["r"])
        body.add(f"v = call line0({', '.join(['r'] * self.procedures['line0'].known.arity)});")
        scope.atoms.append("v")
        body.update(scope, 2)
        self.keep(name, 1, 80, False, procedure_text(name, "r", False, body.lines))
        self.again[name] = lambda: self.between(name)

    def around(self, name: str) -> None:
        """A procedure with loops of its own, which mostly has a record."""
        body, scope = self.body(name, 500), Scope(["n"])
        for _ in range(self.chance.randint(1, 2)):
            self.loop(body, scope, self.callees(), 60)
        ended(body, scope)
        is_memo = some(self.chance, 0.7)
        self.keep(name, 1, 500, is_memo, procedure_text(name, "n", is_memo, body.lines))
        self.again[name] = lambda: self.around(name)

    def deep(self, name: str) -> None:
        """A way down to a loop, which may end near the limit of the depth."""
        body, scope = self.body(name, 500), Scope(["n"])
        body.lines += ["  if n > 0 {", f"  call {name}(n - 1);", "  } else {"]
        self.loop(body, scope, self.callees(), 60)
        body.lines.append("  }")
        is_memo = some(self.chance, 0.4)
        self.keep(name, 1, 600, is_memo, procedure_text(name, "n", is_memo, body.lines))
        self.again[name] = lambda: self.deep(name)

    def main(self) -> None:
        body, scope = self.body("main", 2000), Scope([])
        if some(self.chance, 0.3):
            body.statements(1, scope)
        for _ in range(self.chance.randint(1, 3)):
            self.loop(body, scope, self.callees(), self.rows.count())
        entered = self.entered()
        if entered:
            body.add(entered)
        self.main_ended(body, scope)
        self.keep("main", 0, 0, False, procedure_text("main", "", False, body.lines))
        self.again["main"] = self.main

    def entered(self) -> Optional[str]:
        """An entry of what stands between main and a loop."""
        others = [name for name in ("around", "deep") if name in self.procedures]
        if not others:
            return None
        name = self.chance.choice(others)
        depth = self.chance.choice(DEPTHS) if name == "deep" else self.chance.randint(0, 3)
        return f"{self.chance.choice(('call', 'spawn'))} {name}({depth});"

    def defined_anew(self) -> List[str]:
        """As other sessions do, or main alone with another depth."""
        text = self.procedures["main"].text
        if " deep(" in text and some(self.chance, 0.5):
            text = re.sub(r" deep\(\d+\)", f" deep({self.chance.choice(DEPTHS)})", text)
            self.keep("main", 0, 0, False, text)
            return self.define([text])
        return super().defined_anew()

    def known_before(self, name: str) -> List[Known]:
        """Statements of any kind enter what is nested alone."""
        return [self.procedures[other].known for other in ("shared", "own") if other in self.procedures and name not in ("shared", "own")]


def made(seed: str) -> Session:
    chance = random.Random(seed)
    least, most = MANY if some(chance, 0.2) else FEW
    return LoopMaker(seed, least, most).session()


def begins_well(session: Session) -> bool:
    """Whether the first run ends with a result, and soon enough."""
    try:
        answers, _ = model.played(session.program.decode(), session.tables.decode(), "run", steps=FIRST_STEPS)
    except model.TooLong:
        return False
    return not answers[1].startswith("fault")


def session_of(seed: str) -> Session:
    """A session, mostly one of which not all runs are faults."""
    sessions = [made(seed)]
    while len(sessions) < 5 and not begins_well(sessions[-1]):
        sessions.append(made(f"{seed} {len(sessions)}"))
    return sessions[-1]
