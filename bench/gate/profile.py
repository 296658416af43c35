"""Runs `.ci/run` and samples the processor time of the prover's processes, each of which names its crate."""
import os
import re
import subprocess
import sys
import time

TOP = os.path.dirname(os.path.dirname(os.path.dirname(os.path.realpath(__file__))))
KINDS = ("proof", "tests", "edits")
TICKS = os.sysconf("SC_CLK_TCK")


def text_of(path):
    with open(path, encoding="utf-8", errors="replace") as file:
        return file.read()


def part_of(process):
    """The crate that the process proves, and whether it is its proof, its tests or an edit; None for other processes."""
    found = re.search(r"--crate-name\0(\w+)", text_of(f"/proc/{process}/cmdline"))
    if not found:
        return None
    if "/rt-edit-" in os.readlink(f"/proc/{process}/cwd"):
        return found[1], "edits"
    return found[1], "tests" if "--test" in text_of(f"/proc/{process}/cmdline").split("\0") else "proof"


class Samples:
    """Of each process that was seen, its part and its processor time when it was last seen; of each part, when it was at work."""

    def __init__(self):
        self.begun, self.processes, self.spans = time.monotonic(), {}, {}

    def take(self):
        now = time.monotonic() - self.begun
        for process in filter(str.isdigit, os.listdir("/proc")):
            try:
                stat = text_of(f"/proc/{process}/stat")
                name, _, rest = stat.partition("(")[2].rpartition(")")
                if not name.startswith(("rattle", "antt")):
                    continue
                fields = rest.split()
                key = process, fields[19]
                if key not in self.processes:
                    self.processes[key] = [part_of(process), 0.0]
                self.processes[key][1] = (int(fields[11]) + int(fields[12])) / TICKS
                part = self.processes[key][0]
                self.spans[part] = self.spans.get(part, (now, now))[0], now
            except OSError:
                continue

    def totals(self):
        found = {}
        for part, seconds in self.processes.values():
            if part:
                found[part] = found.get(part, 0.0) + seconds
        return found


def table(samples):
    """The rows of a table in Markdown, the dearest crate first, and a line with the sums."""
    totals = samples.totals()
    of = lambda crate: [totals.get((crate, kind), 0.0) for kind in KINDS]
    crates = sorted({crate for crate, _ in totals}, key=lambda crate: -sum(of(crate)))
    yield "| Crate | Proof | Tests | Edits | All |"
    yield "|---|---|---|---|---|"
    for crate in crates:
        yield f"| `{crate}` | {' | '.join(f'{it:.0f}' for it in [*of(crate), sum(of(crate))])} |"
    sums = [sum(of(crate)[at] for crate in crates) for at in range(len(KINDS))]
    yield f"| all | {' | '.join(f'{it:.0f}' for it in [*sums, sum(sums)])} |"


def main():
    samples = Samples()
    # (the gate's output goes where this one's errors go, so that the table can be kept by itself)
    gate = subprocess.Popen([f"{TOP}/.ci/run"], cwd=TOP, stdin=subprocess.DEVNULL, stdout=sys.stderr)
    while gate.poll() is None:
        samples.take()
        time.sleep(0.25)
    print("Seconds of processor time, sampled four times a second.\n")
    print("\n".join(table(samples)))
    print("\nWhen each part was at work, in seconds from the beginning:\n")
    for (crate, kind), (first, last) in sorted((it for it in samples.spans.items() if it[0]), key=lambda it: it[1]):
        print(f"- {crate}, {kind}: {first:.0f} to {last:.0f}")
    return gate.returncode


if __name__ == "__main__":
    sys.exit(main())
