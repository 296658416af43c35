#!/usr/bin/env python3
"""Prints which functions of a crate took the prover longest in a check, and which of the modules that it makes of them: by when each was
saved, so that the check must have begun with no out/ folder and one job, as `HEARTSPLUM_JOBS=1 tools/check.py CRATE [--test]` and each of
the gate's checks does. What a module waited for counts as its own: the first that needs a library has the time of loading it. A check that
is watched is told in seconds of its processor, so that it may wait for others; of a check with several jobs they mean little.

usage: bench/gate/modules.py CRATE [HOW MANY]              of the crate's last check here, by the clock
       bench/gate/modules.py --watch FOLDER                notes of each check that begins on this machine, until it is stopped, at which
                                                           second of its processor its modules are saved, in FOLDER/CRATE.json or
                                                           CRATE.tests.json
       bench/gate/modules.py FOLDER/CRATE.json [HOW MANY]  of a check that was watched
       bench/gate/modules.py --megabytes CRATE [HOW MANY]  how large the modules are that its last check here has left, or else those that
                                                           tools/check.py keeps: some 0.7 s each, whatever else the machine does
"""
import glob
import json
import os
import re
import sys
import time

TOP = os.path.dirname(os.path.dirname(os.path.dirname(os.path.realpath(__file__))))
TEMPORARY = os.environ.get("TMPDIR", "/tmp")
KEPT_IN = os.environ.get("HEARTSPLUM_LIBRARIES", os.path.expanduser("~/.cache/heartsplum"))


def saved(crate):
    """The modules that the crate's last check saved, in that order, each with when it was."""
    found = []
    for folder, _, names in os.walk(f"{TOP}/crates/{crate}/out/incremental"):
        for name in names:
            if name.endswith(".oantt"):
                found.append((os.stat(f"{folder}/{name}").st_mtime, name.removesuffix(".oantt").removesuffix(".decls")))
    return sorted(found)


def watched(file):
    """The same of a check that was watched."""
    with open(file, encoding="utf-8") as it:
        return sorted((when, name.removesuffix(".oantt").removesuffix(".decls")) for name, when in json.load(it).items())


def check_of(process):
    """What a process checks, as a file's name: a crate's proof or tests; None for an edit, and where it is no check."""
    with open(f"/proc/{process}/cmdline", encoding="utf-8", errors="replace") as it:
        words = it.read().split("\0")
    if "--crate-name" not in words or "/rt-edit-" in os.readlink(f"/proc/{process}/cwd"):
        return None
    return words[words.index("--crate-name") + 1] + ".tests" * ("--test" in words)


def processor(process):
    """How many seconds a process and the children that it has waited for have taken of the processors."""
    with open(f"/proc/{process}/stat", encoding="utf-8", errors="replace") as it:
        fields = it.read().rsplit(")", 1)[1].split()
    return sum(int(ticks) for ticks in fields[11:15]) / os.sysconf("SC_CLK_TCK")


class Watched:
    """A check that is at work: the modules that it has saved, each with the second of its processor at which it was, and when it was looked
    at last, by the clock and by the processor."""

    def __init__(self, process):
        self.process, self.modules, self.noted, self.at = process, {}, 0, (time.time(), processor(process))

    def look(self, folder):
        clock, seconds = self.at
        self.at = time.time(), processor(self.process)
        share = (self.at[1] - seconds) / max(self.at[0] - clock, 0.01)
        for entry in os.scandir(folder):
            if entry.name not in self.modules and ".tmp." not in entry.name:
                since = min(max(entry.stat().st_mtime - clock, 0.0), self.at[0] - clock)
                self.modules[entry.name] = round(seconds + share * since, 3)


def look(found):
    """Adds what the checks that are at work have saved by now."""
    for folder in os.listdir(TEMPORARY):
        its = re.fullmatch(r"rattle-logic-built-locked-(\d+)-\d+", folder)
        try:
            check = check_of(its[1]) if its else None
            if check:
                if check not in found or found[check].process != its[1]:
                    found[check] = Watched(its[1])
                found[check].look(f"{TEMPORARY}/{folder}")
        except OSError:
            continue


def watch(folder):
    os.makedirs(folder, exist_ok=True)
    found = {}
    while True:
        look(found)
        for check, watched_one in found.items():
            if watched_one.noted < len(watched_one.modules):
                with open(f"{folder}/{check}.json", "w", encoding="utf-8") as it:
                    json.dump(watched_one.modules, it)
                watched_one.noted = len(watched_one.modules)
        time.sleep(1)


def function_of(module, crate):
    """The function that a module is of; the glue that drops values is one."""
    inside = re.sub(rf"^Rattle-{crate}-(proofs|specs)\.(contracts\.)?", "", module)
    if "Destruct" in inside:
        return "values that are dropped"
    parts = inside.split(".")
    return ".".join(parts[:-1]) or inside


def sizes(crate):
    """The modules that are left of the crate's last check here, or else those that are kept, each with its megabytes."""
    for folder in [*glob.glob(f"{TOP}/crates/{crate}/out/incremental/antt-checked-*"), f"{KEPT_IN}/{crate}/modules"]:
        if os.path.isdir(folder):
            found = [(entry.stat().st_size / 1e6, entry.name.removesuffix(".oantt")) for entry in os.scandir(folder)]
            return [it for it in found if re.match(rf"Rattle-{crate}-(proofs|specs)\.", it[1])]
    return []


def show(crate, took, most, unit):
    """Prints what the functions take most of, and the modules."""
    functions = {}
    for amount, module in took:
        name = function_of(module, crate)
        functions[name] = functions.get(name, 0.0) + amount
    print(f"{len(took)} modules with {sum(amount for amount, _ in took):.0f} {unit}\n")
    for name, amount in sorted(functions.items(), key=lambda it: -it[1])[:most]:
        print(f"{amount:7.1f} {name}")
    print()
    for amount, module in sorted(took, reverse=True)[:most]:
        print(f"{amount:7.1f} {module}")


def main(words):
    if not words:
        sys.exit(__doc__)
    if words[0] == "--watch":
        return watch(words[1])
    by_size = words[0] == "--megabytes"
    of, *rest = words[by_size:]
    most = int(rest[0]) if rest else 20
    crate = os.path.basename(of).split(".")[0]
    if by_size:
        show(crate, sizes(crate), most, "MB")
        return 0
    modules = watched(of) if of.endswith(".json") else saved(crate)
    if len(modules) < 2:
        sys.exit(f"{of} has no modules" if of.endswith(".json") else f"no check of {crate} has left its modules in crates/{crate}/out/incremental")
    show(crate, [(end - begun, module) for (begun, _), (end, module) in zip(modules, modules[1:])], most, "s")
    return 0


if __name__ == "__main__":
    sys.exit(main(sys.argv[1:]))
