"""Random statements: bodies of procedures that keep the rules of the checker and whose cost is bounded."""
import random
from typing import Iterable, List, NamedTuple

from world import COLUMNS, EDGES, Reducer, some

GRAINS = (1, 1, 1, 2, 3, 7, 16, 64, 65, 1000)
DEEPEST_BLOCK = 4


class Known(NamedTuple):
    """A procedure that may be entered, and at most how many statements it runs."""

    name: str
    arity: int
    cost: int


class Scope:
    """What may stand in an expression of a block, and the names that wait for a sync."""

    def __init__(self, atoms: Iterable[str], waiting: Iterable[str] = ()):
        self.atoms, self.waiting = list(atoms), list(waiting)

    def inner(self, *atoms: str) -> "Scope":
        return Scope((*self.atoms, *atoms), self.waiting)

    def sync(self) -> None:
        self.atoms += self.waiting
        self.waiting = []


class Body:
    """The lines of a procedure's body while it is made."""

    def __init__(self, chance: random.Random, reducers: List[Reducer], known: List[Known], budget: int, faults: float):
        self.chance, self.reducers, self.known, self.budget, self.faults = chance, reducers, known, budget, faults
        self.lines: List[str] = []
        self.cost = 0
        self.names = 0

    def fresh(self) -> str:
        self.names += 1
        return f"x{self.names}"

    def add(self, line: str) -> None:
        self.lines.append("  " + line)
        self.cost += 1

    # Expressions.

    def expression(self, scope: Scope, levels: int = 2) -> str:
        """An expression; one with an operator stands in parentheses."""
        chance = self.chance
        if levels == 0 or some(chance, 0.35):
            return self.atom(scope)
        if some(chance, 0.08):
            return f"-{self.atom(scope)}" if some(chance, 0.5) else f"(-{self.expression(scope, levels - 1)})"
        operator = chance.choice(("+", "+", "-", "*", "*", "/", "%", "==", "!=", "<", "<=", ">", ">="))
        right = self.divisor(scope) if operator in ("/", "%") else self.expression(scope, levels - 1)
        return f"({self.expression(scope, levels - 1)} {operator} {right})"

    def atom(self, scope: Scope) -> str:
        chance = self.chance
        if scope.atoms and some(chance, 0.65):
            return chance.choice(scope.atoms)
        if some(chance, 0.03):
            return chance.choice(("limit sales", "limit rates", "sum sales.qty", "sum sales.shop", "sum rates.rate"))
        if some(chance, 0.05):
            return f"has sales[{self.row(scope)}]"
        return str(chance.choice(EDGES) if some(chance, 0.06) else chance.randint(0, 9))

    def divisor(self, scope: Scope) -> str:
        if some(self.chance, self.faults):
            return self.expression(scope, 1)
        return self.chance.choice(("2", "3", "7", "10", "-1", "-4", "4611686018427387904"))

    def row(self, scope: Scope) -> str:
        chance = self.chance
        if scope.atoms and some(chance, 0.8):
            return chance.choice(scope.atoms[:2]) + chance.choice(("", "", "", " + 1", " - 1", " * 2", " / 2", " % 5"))
        return str(chance.randint(0, 30))

    # Statements.

    def statements(self, count: int, scope: Scope, level: int = 1) -> None:
        kinds = (self.bind, self.update, self.update, self.update, self.guarded, self.branch, self.enter, self.enter, self.sync, self.loop, self.risk)
        for _ in range(count):
            self.chance.choice(kinds)(scope, level)

    def bind(self, scope: Scope, _level: int) -> None:
        name = self.fresh()
        self.add(f"{name} = {self.expression(scope, 3)};")
        scope.atoms.append(name)

    def update(self, scope: Scope, _level: int) -> None:
        reducer = self.chance.choice(self.reducers)
        first = self.expression(scope)
        if reducer.elements and not some(self.chance, self.faults):
            first = f"({first} % {reducer.elements} + {reducer.elements}) % {reducer.elements}"
        if reducer.kind == "hist" and some(self.chance, 0.7):
            first += " % 10"
        second = f", {self.expression(scope)}" if reducer.kind in ("argmax", "affine", "hist") else ""
        self.add(f"update {reducer.name} {first}{second};")

    def guarded(self, scope: Scope, level: int) -> None:
        """Cells of a row that is asked for first."""
        if level >= DEEPEST_BLOCK:
            return
        table = self.chance.choice(("sales", "sales", "sales", "rates"))
        row = self.row(scope)
        cells = [f"{table}[{row}].{column}" for column in COLUMNS[table]]
        self.add(f"if has {table}[{row}] {{")
        self.block(scope.inner(*cells, *cells), level)
        self.otherwise(scope, level)

    def branch(self, scope: Scope, level: int) -> None:
        if level < DEEPEST_BLOCK:
            self.add(f"if {self.expression(scope)} {{")
            self.block(scope.inner(), level)
            self.otherwise(scope, level)

    def otherwise(self, scope: Scope, level: int) -> None:
        if some(self.chance, 0.4):
            self.lines.append("  } else {")
            self.block(scope.inner(), level)
        self.lines.append("  }")

    def block(self, scope: Scope, level: int) -> None:
        self.statements(self.chance.randint(1, 3), scope, level + 1)
        if some(self.chance, 0.06):
            self.add(f"return {self.expression(scope)};")

    def sync(self, scope: Scope, _level: int) -> None:
        if scope.waiting or some(self.chance, 0.1):
            self.add("sync;")
            scope.sync()

    def affordable(self, times: int) -> List[Known]:
        return [known for known in self.known if self.cost + times * (known.cost + 1) <= self.budget]

    def arguments(self, known: Known, scope: Scope, variable: str = "") -> str:
        """Arguments of an entry; one of them is made of the loop's variable."""
        found = [self.expression(scope, 1) for _ in range(known.arity)]
        if variable and found:
            forms = ("{0}", "{0}", "{0}", "{0} + 1", "2 * {0}", "{0} - 3", "-{0}", "{0} % 7", "{0} / 2")
            found[self.chance.randrange(len(found))] = self.chance.choice(forms).format(variable)
        return ", ".join(found)

    def enter(self, scope: Scope, _level: int) -> None:
        affordable = self.affordable(1)
        if affordable:
            known = self.chance.choice(affordable)
            how = self.chance.choice(("call", "spawn"))
            name = self.fresh() if some(self.chance, 0.6) else ""
            self.add(f"{name + ' = ' if name else ''}{how} {known.name}({self.arguments(known, scope)});")
            self.cost += known.cost
            if name:
                (scope.atoms if how == "call" else scope.waiting).append(name)

    def loop(self, scope: Scope, _level: int) -> None:
        times = self.chance.choice((0, 1, 2, 3, 5, 8, 20, 70))
        begin = self.chance.choice(("0", "1", "-3", "9223372036854775700", "0 - 9223372036854775807", *scope.atoms[:1]))
        self.loop_over(scope, begin, f"{begin} + {times}", times)

    def loop_over(self, scope: Scope, low: str, high: str, times: int) -> None:
        """A loop of at most so many iterations, where there is a procedure that it may call so often."""
        affordable = self.affordable(times)
        if affordable:
            known, name = self.chance.choice(affordable), self.fresh()
            grain = self.chance.choice(GRAINS)
            words = f"grain {grain} " if grain > 1 else ""
            self.add(f"cilk_for {name} in {low} .. {high} {words}: {known.name}({self.arguments(known, scope, name)});")
            self.cost += times * (known.cost + 1)

    def risk(self, scope: Scope, level: int) -> None:
        """A statement that may well end in a fault."""
        if some(self.chance, self.faults * 4):
            name = self.fresh()
            forms = (f"{name} = sales[{self.row(scope)}].qty;", f"{name} = 100 / {self.expression(scope, 1)};")
            self.add(self.chance.choice(forms))
            scope.atoms.append(name)
        elif some(self.chance, self.faults / 2) and self.known:
            known = self.known[0]
            self.add(f"cilk_for {self.fresh()} in 0 .. 1048577 : {known.name}({', '.join(['1'] * known.arity)});")
        else:
            self.update(scope, level)
