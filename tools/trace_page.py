"""A page for the browser: the picture of a run, and the facts of each strand under the pointer.

The facts stand in a table, a row a strand, so that they are there without scripts too; a script shows the row of the bar that is
pointed at, or that has the focus, beside it. `PAGE#strand-3` opens with those of strand 3. The page needs no other file.
"""
from html import escape

LAID = {
    "end": "it came to its end",
    "stall": "it stalled at a sync, to wait for the strands in front of it",
    "fault": "it came to a fault",
    "finish": "it came to the end of the run",
    "held": "it was still held where the trace ends",
}
HEADS = ("strand", "held by", "began", "stolen from it", "laid down", "then", "begins behind")
STYLE = """
body { font: 14px/1.45 sans-serif; color: #2b2f36; margin: 0 14px 40px; }
h1 { font-size: 18px; margin: 14px 0 2px; }
p { margin: 0 0 8px; }
.picture { overflow-x: auto; border: 1px solid #d9dce1; }
.strand { cursor: pointer; outline: none; }
.strand.near { stroke: #2f7d4f; stroke-width: 2; }
.strand.shown { stroke: #2b2f36; stroke-width: 2.5; }
.picture text, .picture path { pointer-events: none; }
.picture g > path { pointer-events: auto; }
#facts { position: fixed; max-width: 430px; padding: 8px 12px; background: #fff; border: 1px solid #2b2f36; border-radius: 4px;
  box-shadow: 0 2px 8px #0004; pointer-events: none; }
#facts dl { display: grid; grid-template-columns: auto 1fr; gap: 2px 12px; margin: 0; }
#facts dt { color: #676e79; white-space: nowrap; }
#facts dd { margin: 0; overflow-wrap: anywhere; }
table { border-collapse: collapse; margin-top: 14px; }
th, td { text-align: left; vertical-align: top; padding: 3px 12px 3px 0; border-bottom: 1px solid #e6e8eb; overflow-wrap: anywhere; }
tbody th { font-family: monospace; font-weight: normal; white-space: nowrap; }
tr.shown { background: #fbf3b8; }
"""
SCRIPT = """
const box = document.getElementById("facts");
const bars = Array.from(document.querySelectorAll(".strand"));
const rows = Array.from(document.querySelectorAll("tbody tr"));
const heads = Array.from(document.querySelectorAll("thead th")).map(head => head.textContent);
let kept = null;

function hide() {
  box.hidden = true;
  bars.concat(rows).forEach(element => element.classList.remove("shown", "near"));
}

// Under the pointer, over it where there is no room under it, and always inside the window.
function place(x, y) {
  const right = innerWidth - box.offsetWidth - 8, low = innerHeight - box.offsetHeight - 8;
  const over = y - box.offsetHeight - 18, top = y + 18 > low ? (over > 4 ? over : low) : y + 18;
  box.style.left = Math.max(4, Math.min(x + 14, right)) + "px";
  box.style.top = Math.max(4, top) + "px";
}

function mark(number) {
  hide();
  bars[number].classList.add("shown");
  rows[number].classList.add("shown");
  rows[number].dataset.near.split(" ").filter(Boolean).forEach(other => bars[other].classList.add("near"));
}

function show(number, x, y) {
  mark(number);
  const row = rows[number], list = document.createElement("dl");
  Array.from(row.cells).forEach((cell, at) => {
    if (cell.textContent === "") return;
    const name = document.createElement("dt"), fact = document.createElement("dd");
    name.textContent = heads[at];
    fact.innerHTML = cell.innerHTML;
    list.append(name, fact);
  });
  box.replaceChildren(list);
  box.hidden = false;
  place(x, y);
}

function showAtBar(number) {
  const edges = bars[number].getBoundingClientRect();
  show(number, edges.left, edges.bottom - 12);
}

function back() {
  if (kept === null) hide(); else showAtBar(kept);
}

function keep(number) {
  kept = number;
  back();
}

function keepByAddress() {
  // No element has that id, so that the browser leaves it to this where the page is scrolled to.
  const number = bars.findIndex(bar => "#strand-" + bar.dataset.strand === location.hash);
  if (number === -1) return;
  bars[number].scrollIntoView({block: "center", inline: "center"});
  keep(number);
}

bars.forEach((bar, number) => {
  bar.addEventListener("pointermove", event => show(number, event.clientX, event.clientY));
  bar.addEventListener("pointerleave", back);
  bar.addEventListener("focus", () => showAtBar(number));
  bar.addEventListener("blur", back);
  bar.addEventListener("click", () => keep(kept === number ? null : number));
});
rows.forEach((row, number) => {
  row.addEventListener("pointerenter", () => mark(number));
  row.addEventListener("pointerleave", back);
});
addEventListener("keydown", event => { if (event.key === "Escape") keep(null); });
addEventListener("hashchange", keepByAddress);
keepByAddress();
"""


def bar(number, title):
    """What a strand's bar has on a page beside what it has in a picture."""
    return f'class="strand" data-strand="{number}" tabindex="0" role="img" aria-label="{escape(title)}" aria-describedby="facts-{number}"'


def step(now):
    return f"at step {now}"


def began(strand):
    """How a strand came about."""
    if not strand.parts:
        return "with the run: it is its first strand"
    if len(strand.parts) == 1:
        victim = strand.parts[0]
        return f"{step(strand.begun)}: worker {strand.worker} stole it from {victim.short()}, which worker {victim.worker} held"
    left, right = strand.parts
    held = f"laid down by worker {left.worker}" + ("" if left.worker == right.worker else f" and worker {right.worker}")
    return f"{step(strand.begun)}: worker {strand.worker} folded {left.short()} and {right.short()} into it, {held}"


def then(strand):
    """What became of a strand that was laid down."""
    if strand.whole is None:
        return "" if strand.state == "finish" else "nothing more in this trace"
    whole = strand.whole
    other = whole.parts[whole.parts[0] is strand]
    return f"{step(whole.begun)}: worker {whole.worker} folded it with {other.short()}"


def facts(strand, end):
    """A strand's facts, in the order of their heads."""
    behind = "nothing: it is that of main" if strand.place == "root" else f"the spawn of the instance {strand.place}"
    thefts = [f"{step(thief.begun)}: worker {thief.worker} stole {thief.short()}" for thief in strand.thieves]
    laid = LAID[strand.state] if strand.laid is None else f"{step(strand.laid)}: {LAID[strand.state]}"
    held = f"worker {strand.worker}, from {f'step {strand.begun}' if strand.begun else 'the beginning'} to step {end}"
    return strand.short(), held, began(strand), "; ".join(thefts), laid, then(strand), behind


def related(strand):
    """The strands that a strand came from, those that were stolen from it, and what it was folded into."""
    return [*strand.parts, *strand.thieves, *([strand.whole] if strand.whole else [])]


def row(number, numbers, strand, end):
    """A strand's row of the table."""
    first, *others = map(escape, facts(strand, end))
    near = " ".join(str(numbers[id(other)]) for other in related(strand))
    cells = "".join(f"<td>{fact}</td>" for fact in others)
    return f'<tr id="facts-{number}" data-near="{near}"><th scope="row">{first}</th>{cells}</tr>'


def page(title, note, picture, bars):
    """The page: a picture whose bars are numbered in this order, and their strands' facts."""
    numbers = {id(strand): number for number, (strand, _) in enumerate(bars)}
    rows = "\n".join(row(number, numbers, strand, end) for number, (strand, end) in enumerate(bars))
    heads = "".join(f'<th scope="col">{head}</th>' for head in HEADS)
    use = "Point at a bar, or go on by the tab key, to see where its strand began and what became of it. A click keeps that; Escape ends it."
    return f"""<!DOCTYPE html>
<html lang="en" xmlns="http://www.w3.org/1999/xhtml">
<head>
<meta charset="utf-8"/>
<title>{escape(title)}</title>
<style>{STYLE}</style>
</head>
<body>
<h1>{escape(title)}</h1>
<p>{escape(note)}</p>
<p>{use}</p>
<div class="picture">
{picture}
</div>
<div id="facts" hidden="hidden"></div>
<table>
<thead><tr>{heads}</tr></thead>
<tbody>
{rows}
</tbody>
</table>
<script>{SCRIPT}</script>
</body>
</html>"""
