#!/usr/bin/env python3
"""Lists what nothing uses: functions that no other function, test or program calls, definitions of specs/ that no clause, answer or other
definition in use names, and lemmas that no answer and no lemma in use names.

usage: bench/gate/unused.py [CRATE ..]   of these crates, else of all

It goes by names. A function is listed where no function in use, of its own crate or of one above, has its name in front of a bracket; a method
of a trait never is, nor a law, whose body is empty. A definition or a lemma is in use where one in use, or a file of code or of answers, names
it and has its name from its file. So what isn't listed may be unused too, where two have one name; and what is listed is to be looked at: a
public call may be asked for though nobody calls it, and samples show what definitions mean.
"""
import collections
import glob
import os
import re
import sys

TOP = os.path.dirname(os.path.dirname(os.path.dirname(os.path.realpath(__file__))))
ANSWERS = ("Answers.antt", "Invariants.antt", "Proof.antt")
# In code: the head of a function, a block of a trait, what is called, a clause of a contract, and a lemma by its path.
FUNCTION = re.compile(r"( *)(?:pub(?:\([^)]*\))? )?(?:const )?(?:unsafe )?fn (\w+)")
OF_TRAIT = re.compile(r"impl\b.* for |(?:pub(?:\([^)]*\))? )?trait ")
CALL = re.compile(r"(?<!\w)(?:(?<=&)\w+|(?<=::)\w+|\w+(?=\()|\w+(?=::<))(?!\w)")
CLAUSE = re.compile(r"\b(?:requires|ensures)\*?(?: \S+)? \{")
BY_PATH = re.compile(r"\b(\w+)::(proofs|specs)::([^\s(){}\[\],;]+)")
# In definitions and proofs: a word, the head of a declaration, a line that has others below it, a field or a constructor, and where names come from.
WORD = re.compile(r"[^\s(){}\[\],;.«»:`\"]+")
DECLARED = re.compile(r" *(?:(?:abbrev|unfoldable|opaque) )*(?:(data|record) )?(?:pub )?(?:(data|record) )?([^\s:(){}]+)(?: [^:]*)? :(?: |$)")
BLOCK = re.compile(r" *(?:abbrev )?(?:module .*|mutual)$")
BESIDE = re.compile(r" *(?:pub |ghost )*(?:use|mod|open|syntax|infix\w*) ")
MEMBER = re.compile(r" +(?:pub )?([^\s:(){}]+) : ")
USE = re.compile(r"^ *(?:pub |ghost )*use ([\w.«»]+?)(?:\.\{([^}]*)\})?(?: as (\S+?))?;?$", re.MULTILINE)


def read(path):
    """A file's text without its comments."""
    with open(path, encoding="utf-8") as file:
        return re.sub(r"(?m)^( *)--.*$" if path.endswith(".antt") else r"(?m)^( *)//.*$", r"\1", file.read())


def files_of(part, ending):
    """The files of that ending in that part of all crates."""
    return sorted(glob.glob(f"{TOP}/crates/*/{part}/**/*{ending}", recursive=True))


def crate_of(path):
    """The crate that a file is of."""
    return path[len(TOP) :].split("/")[2]


def libraries():
    """For each crate of crates.txt all that stand below it."""
    direct, below = {}, {}
    with open(f"{TOP}/crates.txt", encoding="utf-8") as file:
        for line in file:
            name, _, named = line.partition("#")[0].partition(":")
            if name.strip():
                direct[name.split()[0]] = named.split()

    def walk(name):
        if name not in below:
            below[name] = {other for one in direct.get(name, ()) for other in {one} | walk(one)}
        return below[name]

    for name in direct:
        walk(name)
    return below


# ---- functions


class Function:
    """A function of a crate, with its text from its name on; `is_root` if it is in use whoever calls it."""

    def __init__(self, path, line, head, text, is_root):
        self.crate, self.name, self.line = crate_of(path), head[2], f"{os.path.relpath(path, TOP)}:{line}"
        self.calls = {name for name in CALL.findall(without_clauses(text))}
        self.is_root = is_root or head[2] == "main" or text.rstrip().endswith("{}") or text.rstrip().endswith("{\n" + head[1] + "}")


def without_clauses(text):
    """The text of a function without its contract."""
    parts, at = [], 0
    while clause := CLAUSE.search(text, at):
        parts.append(text[at : clause.start()])
        at, open_now = clause.end(), 1
        while open_now and at < len(text):
            open_now += {"{": 1, "}": -1}.get(text[at], 0)
            at += 1
    return "".join(parts) + text[at:]


def end_of(lines, at, indent):
    """The last line of the function whose head begins at that one."""
    opens = False
    for end in range(at, len(lines)):
        if lines[end] in (indent + "}", indent + "{}") or not opens and lines[end].endswith((" {}", ";")):
            return end
        opens = opens or lines[end] == indent + "{" or lines[end].endswith(" {")
    return at


def functions_of(path):
    """The functions of a file of code, and what is called beside them."""
    lines, found, left, of_trait, is_test, at = read(path).split("\n"), [], [], False, False, 0
    while at < len(lines):
        head = FUNCTION.match(lines[at])
        if not head:
            of_trait = lines[at] != "}" and (of_trait or bool(OF_TRAIT.match(lines[at])))
            is_test = is_test or lines[at].strip() == "#[test]"
            left.append(lines[at])
            at += 1
            continue
        end = end_of(lines, at, head[1])
        text = lines[at][head.end() :] + "\n" + "\n".join(lines[at + 1 : end + 1])
        found.append(Function(path, at + 1, head, text, of_trait or is_test))
        is_test, at = False, end + 1
    return found, set(CALL.findall(re.sub(r"(?m)^.*\buse .*;$", "", "\n".join(left))))


def unused_functions(below):
    """The functions that none in use calls."""
    functions, todo, used = [], [], set()
    for path in files_of("src", ".rt"):
        found, calls = functions_of(path)
        functions += found
        todo.append((crate_of(path), calls))
    named = collections.defaultdict(list)
    for function in functions:
        named[function.name].append(function)
    for function in functions:
        if function.is_root:
            used.add(function)
            todo.append((function.crate, function.calls))
    while todo:
        crate, calls = todo.pop()
        for function in (it for name in calls for it in named[name]):
            if function not in used and function.crate in below[crate] | {crate}:
                used.add(function)
                todo.append((function.crate, function.calls))
    return [function for function in functions if function not in used]


# ---- definitions and lemmas


class Item:
    """What a file declares under one name, or under those of its fields or constructors too."""

    def __init__(self, module, name, line, has_members):
        self.module, self.name, self.line, self.has_members, self.lines = module, name, line, has_members, []


class Module:
    """A file of definitions or lemmas: its items, by all their names too, and what of it is none."""

    def __init__(self, path):
        crate, folder, rest = re.search(r"crates/(\w+)/(specs|proofs)/(.*)\.antt$", path).groups()
        self.path, self.name = path, ".".join(["Rattle", crate, folder, *([] if rest == "Lib" else rest.split("/"))])
        self.items, self.named, self.beside = [], collections.defaultdict(list), []
        text = read(path)
        self.origins = Origins(text)
        self.take(text.split("\n"))

    def take(self, lines):
        """Notes what the lines declare."""
        depths, item, opens, waits = [0], None, False, False
        for number, line in enumerate(lines, 1):
            indent = len(line) - len(line.lstrip(" "))
            if not line.strip():
                continue
            if waits and not opens:
                depths.append(indent)
                waits = False
            while depths[-1] > indent and not opens:
                depths.pop()
            if opens or indent == depths[-1] and BLOCK.match(line):
                opens = not line.endswith((" where", "mutual"))
                item, waits = None, not opens
            elif indent == depths[-1]:
                item = self.declared(number, line, item)
            self.add(item, line)

    def declared(self, number, line, before):
        """The item that a line of declarations belongs to, which may be a new one."""
        head, word = DECLARED.match(line), WORD.search(line)
        if BESIDE.match(line):
            return None
        if head:
            item = Item(self, head[3], number, bool(head[1] or head[2]))
            self.items.append(item)
            self.named[head[3]].append(item)
            return item
        return self.named[word[0]][-1] if word and word[0] in self.named else before

    def add(self, item, line):
        """Puts a line to an item, or beside all."""
        (item.lines if item else self.beside).append(line)
        member = MEMBER.match(line)
        if item and item.has_members and member:
            self.named[member[1]].append(item)


class Origins:
    """Where the names of a file come from: for each of them modules and the names there, for that of a module its whole name."""

    def __init__(self, text):
        self.given, self.modules = collections.defaultdict(set), collections.defaultdict(set)
        for path, names, alias in USE.findall(text):
            path = path.replace("«", "").replace("»", "")
            for name in filter(None, (name.strip() for name in names.split(","))):
                there, _, here = name.partition(" as ")
                self.given[here or there].add((path, there))
            if not names:
                self.modules[alias or path.rpartition(".")[2]].add(path)


def named_in(text, origins, own, modules):
    """The items that a text names: of its own module, or of those that its names come from."""
    text = USE.sub("", text)
    for word in set(WORD.findall(text)):
        yield from own.named.get(word, ()) if own else ()
        for there, name in origins.given.get(word, ()):
            yield from modules[there].named.get(name, ()) if there in modules else ()
    for path, name in set(re.findall(r"([\w.]+)\.([^\s(){}\[\],;.]+)", text)):
        for there in origins.modules.get(path, set()) | {path}:
            yield from modules[there].named.get(name, ()) if there in modules else ()


def named_by_path(text, crate, modules):
    """The items that an attribute of code names by their paths."""
    for of, folder, place in BY_PATH.findall(text):
        there, _, name = f"Rattle.{crate if of == 'crate' else of}.{folder}.{place.replace('::', '.')}".rpartition(".")
        yield from modules[there].named.get(name, ()) if there in modules else ()


def unused_items():
    """The definitions and lemmas that nothing in use names."""
    antt = files_of("specs", ".antt") + files_of("proofs", ".antt")
    modules = {module.name: module for module in (Module(path) for path in antt if os.path.basename(path) not in ANSWERS)}
    todo, used = [], set()

    def mark(items):
        for item in items:
            if item not in used:
                used.add(item)
                todo.append(item)

    for path in files_of("src", ".rt") + [path for path in antt if os.path.basename(path) in ANSWERS]:
        text = read(path)
        mark(named_in(text, Origins(text), None, modules))
        mark(named_by_path(text, crate_of(path), modules))
    for module in modules.values():
        mark(named_in("\n".join(module.beside), module.origins, module, modules))
    while todo:
        item = todo.pop()
        mark(named_in("\n".join(item.lines), item.module.origins, item.module, modules))
    return [item for module in modules.values() for item in module.items if item not in used and "◌" not in item.name]


def main():
    below = libraries()
    chosen = set(sys.argv[1:]) or set(below)
    for function in unused_functions(below):
        if function.crate in chosen:
            print(f"function {function.name}: {function.line}")
    for item in unused_items():
        path = os.path.relpath(item.module.path, TOP)
        if path.split("/")[1] in chosen:
            print(f"{'definition' if '/specs/' in path else 'lemma'} {item.name}: {path}:{item.line}, {len(item.lines)} lines")


if __name__ == "__main__":
    main()
