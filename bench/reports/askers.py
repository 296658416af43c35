"""Who is asked for the sum over all rows: the words of each, and their scripts.

Rows are light or heavy: a row's value is its quantity times its price, or what 24 steps of a generator of numbers make of
the quantity, times the price.
"""
import dataclasses
import os

STEPS = 24
# How many turns of a put and a run a session has: fewer for who does all rows at each run, and over many rows.
TURNS, FEW_TURNS, MANY_ROWS = 20, 4, 300_000
KITS = 256


@dataclasses.dataclass(frozen=True)
class Asker:
    title: str
    name: str  # of the files of its report or script
    words: tuple
    turns: int
    is_sqlite: bool = False


def tables_text(rows):
    body = "".join(f"[{row}, {row}, 7],\n" for row in range(1, rows + 1))
    return f'[sales]\ncolumns = ["qty", "price"]\nrows = [\n{body}]\n'


def put_of(rows, turn):
    """The row's number, quantity and price of a turn, which are numbered from 1."""
    return turn * 7919 % rows + 1, rows + turn, 7


def script_text(rows, turns):
    puts = (put_of(rows, turn) for turn in range(1, turns + 1))
    return "run\n" + "".join(f"put sales {row} {qty} {price}\nrun\n" for row, qty, price in puts)


# ---- the reports


def line_text(weight):
    """The procedure of a row."""
    if weight == "light":
        return "proc line(r) { if has sales[r] { update total sales[r].qty * sales[r].price; } }\n"
    steps = "".join(f"x{i} = (x{i - 1} * 1103 + 12345) % 65536; " for i in range(1, STEPS + 1))
    return f"proc line(r) {{ if has sales[r] {{ x0 = sales[r].qty; {steps}update total x{STEPS} * sales[r].price; }} }}\n"


def whole_report(weight):
    """All rows at each run."""
    loop = "cilk_for r in 1 .. limit sales grain 64 : line(r);"
    return f"reducer total : add;\n{line_text(weight)}proc main() {{ {loop} t = read total; return t; }}\n"


def halves_report(weight):
    """Ranges of rows by their halves, each with a record."""
    return f"""reducer total : add;
{line_text(weight)}memo proc range(low, size) {{
  if size <= 16 {{ cilk_for r in low .. low + size grain 16 : line(r); }}
  else {{ spawn range(low, size / 2); call range(low + size / 2, size / 2); }}
}}
proc up_to(low, size) {{
  if size <= 16 {{ cilk_for r in low .. limit sales grain 16 : line(r); }}
  else {{
    if low + size / 2 < limit sales {{ spawn range(low, size / 2); call up_to(low + size / 2, size / 2); }}
    else {{ call up_to(low, size / 2); }}
  }}
}}
proc main() {{ call up_to(0, 2147483648); t = read total; return t; }}
"""


# ---- sqlite3


def value_of(weight, row):
    """What a row comes to, in SQL."""
    if weight == "light":
        return f"{row}qty * {row}price"
    value = f"{row}qty"
    for _ in range(STEPS):
        value = f"(({value} * 1103 + 12345) % 65536)"
    return f"{value} * {row}price"


def query_texts(weight):
    """What is made first, and the question: a query of all rows."""
    return "", f"select sum({value_of(weight, '')}) from sales;"


def trigger_texts(weight):
    """The same, where triggers keep the total."""
    value, old, new = (value_of(weight, row) for row in ("", "old.", "new."))
    made = f"""create table totals (total integer);
insert into totals select sum({value}) from sales;
create trigger put_new after insert on sales begin update totals set total = total + ({new}); end;
create trigger put_again after update on sales begin update totals set total = total - ({old}) + ({new}); end;
"""
    return made, "select total from totals;"


def sqlite_script(rows, turns, texts):
    """Its script, in which `stats` is printed behind the load, and behind each run."""
    made, question = texts
    load = f"""create table sales (r integer primary key, qty integer, price integer);
with recursive n (r) as (select 1 union all select r + 1 from n where r < {rows}) insert into sales select r, r, 7 from n;
.timer on
.print stats
"""
    script = f"{load}{made}{question}\n.print stats\n"
    for turn in range(1, turns + 1):
        row, qty, price = put_of(rows, turn)
        put = f"insert into sales values ({row}, {qty}, {price})"
        script += f"{put} on conflict (r) do update set qty = excluded.qty, price = excluded.price;\n{question}\n.print stats\n"
    return script


# ---- all of them


def askers_of(program, by_hand, rows, weight, room):
    """All askers, in the order of the table; the first is the one that the others are compared with."""
    tables = f"{room}/tables"
    turns_of_some = FEW_TURNS if rows > MANY_ROWS else TURNS

    def reports(title, name, turns):
        for workers in (1, 2, 4):
            words = (program, f"{room}/{name}", tables, "--workers", str(workers), "--kits", str(KITS), "--stats")
            yield Asker(f"{title}, {workers} worker{'s' if workers > 1 else ''}", f"{name}.{workers}", words, turns)

    def hand(title, how, turns):
        return Asker(f"Rust, {title}", how, (by_hand, how, weight, tables), turns)

    def rayon():
        """main.rt.txt, where run.sh has built it. It starts its threads anew at each run, and none over fewer than 2,048 rows."""
        program = f"{room}/rayon"
        if os.path.exists(program):
            title = "rayon (the kit's port), up to two threads a processor"
            yield Asker(title, "rayon", (program, weight, tables), FEW_TURNS)

    def sqlite(title, name, turns):
        return Asker(f"sqlite3, {title}", name, ("sqlite3", "-batch", ":memory:"), turns, is_sqlite=True)

    return [
        *reports("cilkreport, halves with records", "halves", turns_of_some),
        *reports("cilkreport, all rows", "whole", FEW_TURNS),
        hand("a loop over all rows", "loop", FEW_TURNS),
        hand("the same by 2 threads", "threads=2", FEW_TURNS),
        hand("the same by 4 threads", "threads=4", FEW_TURNS),
        *rayon(),
        hand("a HashMap of the rows' values", "memo", FEW_TURNS),
        hand("a tree of sums", "tree", turns_of_some),
        sqlite("a query of all rows", "query", FEW_TURNS),
        sqlite("triggers that keep the total", "triggers", turns_of_some),
    ]
