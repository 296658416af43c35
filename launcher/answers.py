"""How answers are shown beside those before them."""
import re
from collections import Counter

# As many columns as a value may take that is shown whole, and as many of its parts are shown of a longer one.
WIDTH, FEW = 72, 6
COUNTS = re.compile(r"executed (\d+) reused (\d+) unrecorded (\d+) steals (\d+)")


def few(parts, between=" "):
    """Some of the parts, and how many there are beside them."""
    shown = between.join(parts[:FEW])
    return shown if len(parts) <= FEW else f"{shown} and {len(parts) - FEW:,} more"


def shown(value):
    """A value, or its beginning where it is long."""
    return value if len(value) <= WIDTH else few(value.split())


def joined(*clauses):
    """Those of the clauses that say something."""
    return "; ".join(clause for clause in clauses if clause)


def by_keys(old, new):
    """What is other in a histogram, by its keys."""
    before, now = (dict(part.split(":") for part in value.split()) for value in (old, new))
    added = [f"{key}:{now[key]}" for key in now if key not in before]
    left = [f"{key}:{before[key]}" for key in before if key not in now]
    changed = [f"{key}:{before[key]} -> {key}:{now[key]}" for key in now if before.get(key, now[key]) != now[key]]
    return joined(
        changed and few(changed, ", "),
        added and f"added {few(added)}",
        left and f"gone {few(left)}",
        f"{len(now):,} keys",
    )


def by_values(old, new):
    """What is other in a list: which values came, how often, and which left it."""
    before, now = old.split(), new.split()
    added, gone = (list((Counter(one) - Counter(other)).elements()) for one, other in ((now, before), (before, now)))
    return joined(
        added and f"added {few(added)}",
        gone and f"gone {few(gone)}",
        "" if added or gone else "the same values in another order",
        f"{len(now):,} values",
    )


def difference(kind, old, new):
    """A value of a reducer of that kind, or of none, with what it was before where that was another."""
    if old is None or old == new:
        return shown(new)
    if len(old) + len(new) <= WIDTH:
        return f"{old or 'empty'} -> {new or 'empty'}"
    if kind == "hist":
        return by_keys(old, new)
    return by_values(old, new)


def milliseconds(seconds):
    return f"{seconds * 1000:,.0f} ms"


def counts_shown(counts):
    """The counts of a run, in words."""
    found = COUNTS.match(counts)
    if not found:
        return ""
    executed, reused, unrecorded, steals = found.groups()
    unrecorded = "" if unrecorded == "0" else f", unrecorded {unrecorded}"
    return f"executed {executed}, reused {reused}{unrecorded}" + ("" if steals == "0" else f", steals {steals}")


class Shown:
    """What was answered last, so that the next answer can be shown beside it."""

    def __init__(self):
        self.last = {}

    def lines(self, answer, kinds):
        """The lines that show an answer, with each reducer's kind by its name. A fault leaves what was answered before it."""
        if answer.fault:
            return [answer.fault]
        # The result's line comes first, and a reducer may be called so too.
        values = {("" if at == 0 else kinds[name], name): value for at, (name, value) in enumerate(answer.lines)}
        lines = [f"{name} {difference(kind, self.last.get((kind, name)), value)}".rstrip() for (kind, name), value in values.items()]
        self.last = values
        return lines
