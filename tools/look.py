#!/usr/bin/env python3
"""Looks at a page of tools/trace_picture in a headless Chromium: points at each bar, and compares what is shown with the page's table,
and tries the other ways to these facts: the focus, a click, the page's address, the table's rows.

usage: tools/look.py TRACE [STRAND PICTURE.png]     with a picture of the page while the pointer is on that strand, as 3

It isn't part of the gate, since it needs Chromium (`apt-get install chromium`). The last line is `N bars show their facts, M don't`.
"""
import html
import json
import os
import re
import shutil
import subprocess
import sys
import tempfile

TOOL = os.path.join(os.path.dirname(os.path.realpath(__file__)), "trace_picture")
SIZE = "1400,900"
# Points at a bar, as a pointer would do that is seen there: what is on top at its middle gets the event.
SCRIPT = """
function pointAt(bar) {
  bar.scrollIntoView({block: "center", inline: "center"});
  const edges = bar.getBoundingClientRect();
  const x = (edges.left + edges.right) / 2, y = (edges.top + edges.bottom) / 2;
  const top = document.elementFromPoint(x, y);
  if (top) top.dispatchEvent(new PointerEvent("pointermove", {clientX: x, clientY: y, bubbles: true}));
}
function seen(bar, number) {
  pointAt(bar);
  const edges = box.getBoundingClientRect();
  const shown = Array.from(box.querySelectorAll("dd")).map(fact => fact.textContent);
  const expected = Array.from(rows[number].cells).map(cell => cell.textContent).filter(Boolean);
  const isInside = Math.min(edges.left, edges.top) >= 0 && Math.max(edges.right - innerWidth, edges.bottom - innerHeight) <= 0;
  const found = {hidden: box.hidden, isInside: isInside, shown: shown, expected: expected};
  bar.dispatchEvent(new PointerEvent("pointerleave"));
  found.isGone = box.hidden;
  return found;
}
// The other ways to a strand's facts: each with the bar that is marked then, and whether the box is there.
function ways() {
  const last = bars.length - 1;
  const now = () => [bars.findIndex(bar => bar.classList.contains("shown")), box.hidden];
  const press = () => dispatchEvent(new KeyboardEvent("keydown", {key: "Escape"}));
  const of = (name, act, bar, hidden) => { act(); return {way: name, found: now(), expected: [bar, hidden]}; };
  return [
    of("the page's address", () => {}, last, false),
    of("Escape", press, -1, true),
    of("the focus", () => bars[0].focus(), 0, false),
    of("no focus any more", () => bars[0].blur(), -1, true),
    of("a click", () => bars[last].dispatchEvent(new MouseEvent("click")), last, false),
    of("the pointer after a click", () => pointAt(bars[0]), 0, false),
    of("the pointer gone from there", () => bars[0].dispatchEvent(new PointerEvent("pointerleave")), last, false),
    of("a second click", () => bars[last].dispatchEvent(new MouseEvent("click")), -1, true),
    of("a row of the table", () => rows[0].dispatchEvent(new PointerEvent("pointerenter")), 0, true),
    of("no row any more", () => rows[0].dispatchEvent(new PointerEvent("pointerleave")), -1, true),
  ];
}
const otherWays = ways();
const looked = document.createElement("pre");
looked.id = "looked";
looked.hidden = true;
looked.textContent = JSON.stringify({ways: otherWays, bars: bars.map(seen)});
document.body.append(looked);
if (bars[STRAND]) pointAt(bars[STRAND]);
"""


def browser():
    found = next(filter(None, map(shutil.which, ("chromium", "chromium-browser", "google-chrome"))), None)
    return found or sys.exit("there is no Chromium on the path: apt-get install chromium")


def opened(room, last, *words):
    """What Chromium writes for the page of that folder, at the last strand."""
    command = [browser(), "--headless", "--no-sandbox", "--disable-gpu", f"--user-data-dir={room}/profile", f"--window-size={SIZE}"]
    ran = subprocess.run([*command, *words, f"file://{room}/page.html#strand-{last}"], capture_output=True, text=True, timeout=120, check=True)
    return ran.stdout


def is_right(found):
    return not found["hidden"] and found["isInside"] and found["isGone"] and found["shown"] == found["expected"]


def main():
    if len(sys.argv) not in (2, 4):
        print(__doc__, file=sys.stderr)
        return 2
    page = subprocess.run([sys.executable, TOOL, "--html", sys.argv[1]], capture_output=True, text=True, check=True).stdout
    strand = int(sys.argv[2]) if len(sys.argv) == 4 else -1
    with tempfile.TemporaryDirectory() as room:
        with open(f"{room}/page.html", "w", encoding="utf-8") as file:
            file.write(page.replace("</body>", f"<script>{SCRIPT.replace('STRAND', str(strand))}</script></body>"))
        last = page.count('class="strand"') - 1
        looked = re.search(r'<pre id="looked"[^>]*>(.*?)</pre>', opened(room, last, "--dump-dom"), re.DOTALL)
        found = json.loads(html.unescape(looked[1]))
        if strand >= 0:
            opened(room, last, f"--screenshot={os.path.abspath(sys.argv[3])}")
    wrong = [bar for bar in found["bars"] if not is_right(bar)]
    others = [way for way in found["ways"] if way["found"] != way["expected"]]
    print(*others, *wrong, sep="\n", end="\n" * bool(others or wrong))
    print(f"{len(found['bars']) - len(wrong)} bars show their facts, {len(wrong)} don't")
    return int(bool(others or wrong) or last + 1 != len(found["bars"]))


if __name__ == "__main__":
    sys.exit(main())
