"""Tests of the house: how wide clauses are, how many parameters a function takes, how many ways lead down from crate to crate, that
docs/CHANGING.md names files that are there, and that docs/GUARANTEES.md says how many the headline reaches."""
import glob
import os
import re
import unittest

TOP = os.path.dirname(os.path.dirname(os.path.realpath(__file__)))
WIDEST, MOST = 160, 7
# Libraries that lead down to others along more ways than this, all together, are too dear to sum for one build of the kit. Crates of
# tests don't count: as programs they'd be summed by none, but the build in use sums each once, and takes most of a minute more for each.
WAYS = 690_000
OPEN, CLOSE = "([{<", ")]}>"


def sources(pattern):
    """Each source file of the crates that fits, by its path below them, with its text."""
    for path in sorted(glob.glob(f"{TOP}/crates/*/{pattern}", recursive=True)):
        with open(path, encoding="utf-8") as file:
            yield os.path.relpath(path, f"{TOP}/crates"), file.read()


def closing(text, begin):
    """Behind the bracket that closes the one in front of that place."""
    depth, place = 1, begin
    while depth:
        if text[place] in OPEN:
            depth += 1
        elif text[place] in CLOSE and text[place - 1] not in "-=":
            depth -= 1
        place += 1
    return place


def parameters(text, begin):
    """How many parameters stand in the parentheses that begin there."""
    inside, depth, parts = text[begin : closing(text, begin) - 1], 0, [""]
    for place, letter in enumerate(inside):
        if letter in OPEN:
            depth += 1
        elif letter in CLOSE and inside[place - 1] not in "-=":
            depth -= 1
        if letter == "," and depth == 0:
            parts.append("")
        else:
            parts[-1] += letter
    return sum(bool(part.strip()) for part in parts)


def functions(text):
    """Each function that is defined there: its name, and how many parameters it takes."""
    for found in re.finditer(r"\bfn (\w+)([<(])", text):
        begin = found.end()
        if found[2] == "<":
            begin = closing(text, begin) + 1
        yield found[1], parameters(text, begin)


def reached(first):
    """The files of `specs` to which `use` lines lead from that one, by their paths below the crates, itself among them."""
    found, left = set(), [first]
    while left:
        path = left.pop()
        if path in found or not os.path.isfile(f"{TOP}/crates/{path}"):
            continue
        found.add(path)
        with open(f"{TOP}/crates/{path}", encoding="utf-8") as file:
            used = re.findall(r"^use Rattle\.(\w+)\.specs\.(\w+(?:\.\w+)*)", file.read(), re.MULTILINE)
        left += [f"{crate}/specs/{module.replace('.', '/')}.antt" for crate, module in used]
    return found


def ways():
    """How many ways lead down from each crate, itself counted as one, along the lines of crates.txt."""
    with open(f"{TOP}/crates.txt", encoding="utf-8") as file:
        below = {name: names.split() for name, names in re.findall(r"^(\w+):(.*)$", file.read(), re.MULTILINE)}
    found = {}

    def count(crate):
        if crate not in found:
            found[crate] = 1 + sum(count(name) for name in below[crate] if name in below)
        return found[crate]

    return {crate: count(crate) for crate in below}


class House(unittest.TestCase):
    def test_few_ways_lead_down(self):
        libraries = [crate for crate in ways() if os.path.isfile(f"{TOP}/crates/{crate}/src/lib.rt") and not crate.endswith("_tests")]
        self.assertLess(sum(ways()[crate] for crate in libraries), WAYS)

    def test_clauses_and_definitions_are_narrow(self):
        for pattern in ("src/**/*.rt", "specs/**/*.antt"):
            for path, text in sources(pattern):
                wide = [line for line in text.splitlines() if len(line) > WIDEST and not line.lstrip().startswith('"')]
                self.assertEqual(wide, [], path)

    def test_functions_take_few_parameters(self):
        for path, text in sources("src/**/*.rt"):
            for name, count in functions(text):
                self.assertLessEqual(count, MOST, f"{path}: {name}")

    def test_changing_names_files_that_are_there(self):
        with open(f"{TOP}/docs/CHANGING.md", encoding="utf-8") as file:
            page = file.read()
        for crate, name in re.findall(r"\b([a-z_]+)/((?:src|specs|proofs)/[\w/]+\.(?:rt|antt))", page):
            self.assertTrue(os.path.isfile(f"{TOP}/crates/{crate}/{name}"), f"{crate}/{name}")
        for line in page.splitlines():
            cells = line.split("|")
            for before, cell in zip(cells, cells[1:]):
                crates = [name for name in re.findall(r"`(\w+)`", before) if os.path.isdir(f"{TOP}/crates/{name}")]
                if crates and re.match(r" *(src|specs|proofs)/", cell):
                    self.look_for(crates, cell)

    def test_the_headline_reaches_as_many_files_as_is_said(self):
        with open(f"{TOP}/docs/GUARANTEES.md", encoding="utf-8") as file:
            said = re.search(r"Headline\.antt reaches (\d+) files", file.read())
        self.assertEqual(len(reached("cli/specs/Headline.antt")), int(said[1]))

    def look_for(self, crates, cell):
        """Each file of the cell is one of these crates; a folder's name stands once, before its first file."""
        folder = ""
        for named, name in re.findall(r"(?:\b(src|specs|proofs)/)?\b([\w/]+\.(?:rt|antt))", cell):
            folder = named or folder
            there = [crate for crate in crates if os.path.isfile(f"{TOP}/crates/{crate}/{folder}/{name}")]
            self.assertTrue(there, f"{crates}: {folder}/{name}")


if __name__ == "__main__":
    unittest.main()
