"""What generated sessions are made of beside their statements: reducers of every kind, tables, and edits of rows."""
import itertools
import random
from typing import Dict, List, NamedTuple

COLUMNS = {"sales": ("qty", "price", "shop"), "rates": ("rate",)}
EDGES = (9223372036854775807, 9223372036854775806, 4611686018427387904, 4294967296, 2147483648, 2147483647, 1048576, 65536)
NUMBERED = ("add", "mul", "min", "max", "and", "or", "xor")
ARITIES = {"argmax": 2, "affine": 2, "hist": 2}


def some(chance: random.Random, share: float) -> bool:
    return chance.random() < share


def size_of(chance: random.Random, least: int, most: int) -> int:
    """A size, the smaller ones more often."""
    return int(least * (most / least) ** (chance.random() ** 2))


# Reducers.


def cyclic(size: int) -> List[int]:
    return [(left + right) % size for left in range(size) for right in range(size)]


def first_of(size: int) -> List[int]:
    """The first element that isn't the unit: this one shows in which order elements are combined."""
    return [left or right for left in range(size) for right in range(size)]


def last_of(size: int) -> List[int]:
    return [right or left for left in range(size) for right in range(size)]


def permutations(size: int) -> List[int]:
    """The permutations of three things, one behind the other; the order shows here too."""
    all_of = list(itertools.permutations(range(3)))
    return [all_of.index(tuple(right[at] for at in left)) for left in all_of[:size] for right in all_of[:size]]


class Reducer(NamedTuple):
    name: str
    kind: str
    declared: str
    elements: int

    def line(self) -> str:
        return f"reducer {self.name} : {self.declared};"


def table_kind(chance: random.Random) -> tuple:
    operation = chance.choice((cyclic, first_of, last_of, permutations))
    size = 6 if operation is permutations else chance.randint(1, 5)
    return f"table {size} unit 0 {operation(size)}", size


def initial(chance: random.Random, kind: str, elements: int) -> str:
    """An initial value of that kind, with `from`, or none."""
    if some(chance, 0.6):
        return ""
    count = ARITIES.get(kind, 1) * chance.choice((1, 1, 1, 2, 3, 8))
    numbers = [chance.randrange(elements) if elements else chance.choice((*range(-9, 10), *EDGES)) for _ in range(count)]
    return " from " + ", ".join(map(str, numbers))


def reducer_of(chance: random.Random, name: str) -> Reducer:
    """A reducer of any kind, some of them with an initial value."""
    kind = chance.choice((*NUMBERED, "list", "list", "first", "last", "argmax", "argmax", "affine", "hist", "hist", "table", "table"))
    if kind == "table":
        declared, elements = table_kind(chance)
    else:
        declared, elements = f"{kind} {size_of(chance, 1, 40)}" if kind in ("first", "last") else kind, 0
    return Reducer(name, kind, declared + initial(chance, kind, elements), elements)


def reducers_of(chance: random.Random) -> List[Reducer]:
    return [reducer_of(chance, f"red{number}") for number in range(size_of(chance, 1, 10))]


def is_readable(reducer: Reducer) -> bool:
    return reducer.kind in NUMBERED or reducer.kind == "table"


# Tables, and the edits of their rows.


class Rows:
    """The rows of the tables as they are, those that were taken out of `sales`, and how they are edited."""

    def __init__(self, chance: random.Random, least: int, most: int):
        self.chance = chance
        self.is_whole = some(chance, 0.5)  # at first no row is missing
        numbers = range(size_of(chance, least, most))
        self.sales = {number: self.values() for number in numbers if self.is_whole or not some(chance, 0.03)}
        self.rates = {number: [chance.randint(-3, 9)] for number in range(chance.randint(1, 6))}
        if not self.is_whole and some(chance, 0.05):
            self.sales[chance.choice((2147483647, 5000000))] = self.values()
        self.gone: Dict[int, List[int]] = {}

    def values(self) -> List[int]:
        value = self.chance.choice(EDGES) if some(self.chance, 0.01) else self.chance.randint(-20, 99)
        return [value, self.chance.randint(0, 9), self.chance.randint(0, 3)]

    def text(self) -> str:
        return "\n".join(self.table_text(name, getattr(self, name)) for name in COLUMNS)

    @staticmethod
    def table_text(name: str, rows: Dict[int, List[int]]) -> str:
        columns = ", ".join(f'"{column}"' for column in COLUMNS[name])
        lines = "".join(f"  {[number, *values]},\n" for number, values in rows.items())
        return f"[{name}]\ncolumns = [{columns}]\nrows = [\n{lines}]\n"

    def count(self) -> int:
        return len(self.sales)

    def any(self) -> int:
        return self.chance.choice(list(self.sales) or [0])

    # Edits, each with its lines of script.

    def edits(self) -> List[str]:
        """The lines of a few edits."""
        whole = (self.out_and_back, self.back, self.many, self.there_and_back, self.appended)
        kinds = (self.one, self.one, self.again, self.new, self.out, self.rate, self.refused, *whole)
        return [line for _ in range(self.chance.randint(1, 3)) for line in self.chance.choice(kinds)()]

    def put(self, row: int, values: List[int]) -> List[str]:
        self.sales[row] = values
        return [f"put sales {row} " + " ".join(map(str, values))]

    def one(self) -> List[str]:
        """One column of a row becomes another."""
        row = self.any()
        values = list(self.sales.get(row, self.values()))
        column = self.chance.randrange(len(values))
        values[column] = self.values()[column]
        return self.put(row, values)

    def again(self) -> List[str]:
        row = self.any()
        return self.put(row, self.sales.get(row, [1, 2, 3]))

    def new(self) -> List[str]:
        return self.put(self.chance.choice((self.chance.randint(0, 3500), self.chance.randint(0, 2 * self.count() + 1))), self.values())

    def appended(self) -> List[str]:
        begin = max((row for row in self.sales if row < 4000), default=-1) + 1
        return [line for row in range(begin, begin + self.chance.randint(1, 70)) for line in self.put(row, self.values())]

    def out(self) -> List[str]:
        if not self.sales:
            return []
        row = self.chance.choice((self.any(), max(self.sales)))
        self.gone[row] = self.sales.pop(row)
        return [f"del sales {row}"]

    def out_and_back(self) -> List[str]:
        """Rows that are taken out and put back at once."""
        lines = [line for _ in range(self.chance.randint(1, 4)) for line in self.out()]
        return lines + self.back()

    def back(self) -> List[str]:
        """Rows that were taken out are put back, also behind a run."""
        rows = list(self.gone.items())
        self.gone = {}
        return [line for row, values in rows for line in self.put(row, values)]

    def many(self) -> List[str]:
        """From 1 to 50 % of the rows, in any order or in a stretch."""
        rows = list(self.sales)
        chosen = self.chance.sample(rows, min(len(rows), size_of(self.chance, 1, max(2, len(rows) // 2))))
        if some(self.chance, 0.5):
            begin = self.chance.randrange(len(rows) + 1)
            chosen = rows[begin : begin + len(chosen)]
        return [line for row in chosen for line in self.put(row, self.values())]

    def there_and_back(self) -> List[str]:
        """Edits with a run behind them, after which all is put back as it was."""
        before = dict(self.sales)
        lines = self.chance.choice((self.one, self.out, self.many, self.new))() + ["run"]
        undone = [f"del sales {row}" for row in self.sales if row not in before]
        undone += [line for row, values in before.items() if self.sales.get(row) != values for line in self.put(row, values)]
        self.sales = before
        self.gone = {}
        return lines + undone

    def rate(self) -> List[str]:
        row = self.chance.randrange(6)
        return [f"put rates {row} {self.chance.randint(-3, 9)}"] if some(self.chance, 0.9) else [f"del rates {row}", f"put rates {row} 5"]

    def refused(self) -> List[str]:
        puts = ("put shops 1 2", "put sales 1 2", "put sales -1 2 3 4", "put rates 1 2 3")
        return [self.chance.choice((*puts, "del sales 2147483648", "del rates 4000", "del shops 1")), "# which is refused"]
