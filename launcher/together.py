"""Tries the must-fail edits of a crate together.

`rt ci` tries each edit by a check of its own, over what a check of the crate from nothing has left, and most of what such a check takes is
reading libraries. Of one build of the kit (13b) it does all that in one call for each crate. Here the check from nothing has edits in it already, each in the body of another function. A function is proved of its
own body, and of the contracts of those that it calls, which no edit in a body changes: what is refused of it there is refused of it alone.
Each edit that isn't, or that stands elsewhere than in a body, is tried by itself, as `rt ci` does it.
"""
import contextlib
import os
import re
import shutil
import subprocess
import tempfile

# What of rt this goes by; and what of one that has one call for all edits of a crate.
NAMES = ("seeded", "must_fail", "checked", "edits_of", "read_edit", "linked", "SEEDS", "REFUSED", "SETTLED")
IN_ONE_CALL = ("must_fail_all", "must_fail", "checked", "edits_of", "read_edit")
OWNER = re.compile(r"impl(?:<.*?>)? (?:(\w+)(?:<.*?>)? for )?(\w+)")
HEAD = re.compile(r"( *)(?:pub(?:\([^)]*\))? )?(?:const )?(?:unsafe )?fn (\w+)")
# What is said of a function that isn't proved for its own sake: it lacks answers, or some are refused, which an error in its files says.
FELL = re.compile(r"fn (\S+): (no proof|not proved)(?!.*(?:it calls|it passes|a call of))")
REFUSED_ANSWER = re.compile(r"(?:\./)?proofs/(\S+)/\w+\.antt:\d+:\d+: error")


def bodies(text):
    """The functions of a file that is laid out as `rt fmt` does: each one's name, behind that of its type and its trait, and the lines around
    its body. None of a cycle of calls, whose functions have one proof."""
    lines, found, owner = text.split("\n"), [], ""
    for first, line in enumerate(lines):
        head, of = HEAD.match(line), OWNER.match(line)
        owner = f"{of[2]}{of[1] or ''}::" if of else owner
        if head and not in_cycle(lines, first):
            end = head[1] + "}"
            opens = next((at for at, it in enumerate(lines[first:], first) if it == head[1] + "{" or ends_head(it, head[1])), len(lines))
            if end in lines[opens:] and not any(HEAD.match(it) for it in lines[first + 1 : opens + 1]):
                found.append((owner * bool(head[1]) + head[2], opens, lines.index(end, opens)))
    return found


def ends_head(line, indent):
    """Whether a function's body begins at the end of that line, which is the first or the last of its head."""
    return line.endswith("{") and bool(HEAD.match(line) or line.startswith(indent + ")"))


def in_cycle(lines, first):
    """Whether the function of that line is in a cycle of calls, which an attribute in front of it says."""
    at = first - 1
    while at >= 0 and lines[at].strip().startswith("#["):
        if "cycle(" in lines[at]:
            return True
        at -= 1
    return False


def function_of(was, now):
    """The one function in whose body two texts of a file differ, where no other function of the file is called so."""
    if was.count("\n") != now.count("\n"):
        return None
    changed = [at for at, (one, other) in enumerate(zip(was.split("\n"), now.split("\n"))) if one != other]
    functions = bodies(was)
    found = {name for name, opens, closes in functions if any(opens < at < closes for at in changed)}
    inside = all(any(opens < at < closes for _, opens, closes in functions) for at in changed)
    alone = len(found) == 1 and [name for name, *_ in functions].count(min(found)) == 1
    return min(found) if inside and alone else None


def fallen(said):
    """The functions of which a check's lines say that they are not proved for their own sake."""
    lines = said.split("\n")
    refused = {at[1] for at in map(REFUSED_ANSWER.match, lines) if at}
    found = [fell for fell in map(FELL.match, lines) if fell]
    return {fell[1] for fell in found if fell[2] == "no proof" or "/".join(fell[1].split("::")[1:]) in refused}


class Together:
    """How the edits of a crate are tried by that rt: what it does itself, what the crates' proofs have checked, which edits were refused among
    others, and what is left of checks over which no edit is to be tried."""

    def __init__(self, rt, modules):
        self.rt, self.must_fail, self.checked = rt, rt.must_fail, rt.checked
        self.seeded, self.in_turn = getattr(rt, "seeded", None), getattr(rt, "must_fail_all", None)
        self.linked = getattr(rt, "linked", linked)
        self.modules, self.refused, self.done = modules, set(), set()

    def begin_with(self, crate, flags, start=None):
        """What checks of the crate leave with edits in it, in place of one of the crate as it stands."""
        room = tempfile.mkdtemp(prefix=f"rt-edits-{os.getpid()}-")
        self.rt.SEEDS.append(room)
        # (a disk may be full: then each edit is tried alone)
        with contextlib.suppress(OSError, shutil.Error):
            if self.begins(crate, flags, f"{room}/seed"):
                return room
        shutil.rmtree(room, ignore_errors=True)
        return self.seeded(crate, flags, start)

    def begins(self, crate, flags, seed):
        """Whether checks of the crate refuse edits that are in it together; what is left of them is put into a new folder."""
        edits = self.rt.edits_of(crate)[0]
        os.mkdir(seed)
        given = self.modules.give(crate.name, seed)
        found = self.refused_together(crate, edits, flags, seed, given)
        self.refused |= found
        if found == set(edits):
            self.done.add(seed)
        return bool(found)

    def refused_together(self, crate, edits, flags, seed, is_whole):
        """Which of the edits are refused by checks that each have one edit of each function in them, as long as each refuses some: a caller's
        may have to wait for those of the functions that it calls. A check is over what the seed has, if that is all of the crate, and else
        over what the ones before have left there."""
        left, found = [*edits], set()
        while True:
            texts, functions = self.with_edits(crate, left)
            fell = self.fallen_in(crate, texts, flags, seed, is_whole) if functions else set()
            now = {edit for edit, function in functions.items() if is_among(crate.name, *function, fell)}
            if not now:
                return found
            found |= now
            left = [edit for edit in left if edit not in now]

    def fallen_in(self, crate, texts, flags, seed, is_whole):
        """The functions that a check of the crate with these texts refuses for their own sake."""
        with tempfile.TemporaryDirectory(prefix=f"rt-edits-{os.getpid()}-") as room:
            if is_whole:
                self.linked(seed, f"{room}/seed")
            ran = self.checked(crate, texts, flags, f"{room}/seed" if is_whole else seed)
        return fallen(ran.stdout) if ran.returncode == 1 else set()

    def with_edits(self, crate, edits):
        """The crate's texts with edits in them, as far as each stands in another function, and which function that is."""
        texts, functions = {}, {}
        with tempfile.TemporaryDirectory(prefix=f"rt-edit-{os.getpid()}-") as copy:
            shutil.copytree(f"{crate.folder}/src", f"{copy}/src")
            for edit in edits:
                alone, among = (self.rt.read_edit(edit, folder)[0] for folder in (crate.folder, copy))
                function = function_in(crate.folder, alone) if alone and among else None
                if function and not any(are_alike(function, other) for other in functions.values()):
                    functions[edit] = function
                    texts.update(among)
                    for path, text in among.items():
                        with open(f"{copy}/{path}", "w", encoding="utf-8") as file:
                            file.write(text)
        return texts, functions

    def tried(self, crate, edit, flags, kept=None):
        """What a try of the edit comes to: by a check that had others in it, or by one of its own, over what the crate's proof has checked
        where it is the only one."""
        if edit in self.refused:
            return self.rt.REFUSED, words_of(crate, edit)
        if kept:
            return self.must_fail(crate, edit, flags, kept)
        with contextlib.suppress(OSError, shutil.Error), tempfile.TemporaryDirectory(prefix=f"rt-edits-{os.getpid()}-") as room:
            if self.modules.give(crate.name, room):
                found = self.must_fail(crate, edit, flags, room)
                if found[0] in self.rt.SETTLED:
                    return found
        return self.must_fail(crate, edit, flags)

    def tried_all(self, crate, edits, flags):
        """What tries of all edits of a crate come to, by an rt that has one call for them. That begins with a check of the crate from nothing;
        here they are over what the crate's proof has checked, where that is there."""
        with contextlib.suppress(OSError, shutil.Error), tempfile.TemporaryDirectory(prefix=f"rt-edits-{os.getpid()}-") as room:
            seed = f"{room}/seed"
            os.mkdir(seed)
            if self.modules.give(crate.name, seed):
                refused = self.refused_together(crate, edits, flags, seed, True)
                return [(True, words_of(crate, edit)) if edit in refused else self.tried_over(seed, crate, edit, flags) for edit in edits]
        return self.in_turn(crate, edits, flags)

    def tried_over(self, seed, crate, edit, flags):
        """What a try of the edit comes to over what the seed has; one that isn't refused so is tried again from nothing."""
        with tempfile.TemporaryDirectory(prefix=f"rt-edits-{os.getpid()}-") as room:
            self.linked(seed, f"{room}/seed")
            found = self.must_fail(crate, edit, flags, f"{room}/seed")
        return found if found[0] else self.must_fail(crate, edit, flags)

    def check(self, crate, texts, flags, kept):
        """A check of the crate; none over what no edit was tried over alone, since the crate as it stands is proved by then."""
        if not texts and kept in self.done:
            return subprocess.CompletedProcess([], 0, "")
        return self.checked(crate, texts, flags, kept)


def linked(folder, to):
    """Makes a folder like another one, whose files are the same by a further name each."""
    shutil.copytree(folder, to, copy_function=os.link)


def words_of(crate, edit):
    """What is said of an edit that a check with others refused."""
    return f"must-fail {crate.name}/{os.path.basename(edit)}: refused, as it must be, by a check with other edits"


def function_in(folder, texts):
    """The file and the function in whose body an edit's texts differ from those of the crate, where it is one."""
    (path, now), *others = texts.items()
    if others or not path.startswith("src/"):
        return None
    with open(f"{folder}/{path}", encoding="utf-8") as file:
        name = function_of(file.read(), now)
    return (path, name) if name else None


def is_among(crate, path, name, symbols):
    """Whether that function of a file is one of those that a check calls so. A method is called by where its type stands, maybe in another file;
    of functions with edits no other one is called like it."""
    if "::" in name:
        return any(symbol.startswith(f"{crate}::") and symbol.endswith(f"::{name}") for symbol in symbols)
    inner = path[: -len(".rt")].split("/")[1:]
    return "::".join([crate, *(inner if inner != ["lib"] else []), name]) in symbols


def are_alike(one, other):
    """Whether two functions of files may be called alike by a check."""
    return one[1] == other[1] and (one[0] == other[0] or "::" in one[1])


def behind_proofs(tasks):
    """The tasks, where the check that a crate's edits begin with waits for the crate's own proof."""
    ready = {name: name[0] for name in tasks if name[1] == "seed" and (name[0], "proof") in tasks}
    return {name: ([*before, (ready[name], "proof")] if name in ready else before, *rest) for name, (before, *rest) in tasks.items()}


def begin(rt, modules):
    """Has that rt try edits together, if it has what this goes by."""
    if all(hasattr(rt, name) for name in NAMES):
        it = Together(rt, modules)
        rt.seeded, rt.must_fail, rt.checked = it.begin_with, it.tried, it.check
    elif all(hasattr(rt, name) for name in IN_ONE_CALL):
        rt.must_fail_all = Together(rt, modules).tried_all
