#!/usr/bin/env python3
"""Measures the gate from nothing: what each crate takes of it, and for what.

usage: bench/gate.py [--kept] [NAME..]

Runs `rt ci --anew`, of the whole repository or of the crates named and those below them, looks four times a second at its
processes, and prints a line a crate: the processor seconds of its proof, of the building of its tests and programs, and of
the edits that have to be refused, and the seconds by the clock in which its proof ran. With `--kept` it runs `rt ci`: what
has passed on this machine is not proved again, so that a crate that was changed is measured alone. The last lines are the
longest chain of proofs, each of which waits for the one before, and the whole in processor time and by the clock. A process
that lives less than a look is counted in the whole alone. Where no proof was seen there is no chain. The exit status is that
of the gate, and 2 where there is no rt.
"""
import os
import resource
import shutil
import subprocess
import sys
import time
from collections import defaultdict
from pathlib import Path

TOP = Path(__file__).resolve().parent.parent
TICKS = os.sysconf("SC_CLK_TCK")
KINDS = ("proof", "tests", "programs", "edits")


def read(path):
    try:
        return Path(path).read_bytes()
    except OSError:
        return b""


def processes():
    """Of each process its parent and its processor seconds."""
    found = {}
    for name in os.listdir("/proc"):
        if name.isdigit():
            fields = read(f"/proc/{name}/stat").rpartition(b")")[2].split()
            if len(fields) > 13:
                found[int(name)] = int(fields[1]), (int(fields[11]) + int(fields[12])) / TICKS
    return found


def work_of(pid):
    """The crate that a process of the compiler works for, and the kind of its work; None for another process."""
    words = read(f"/proc/{pid}/cmdline").decode(errors="replace").split("\0")
    if "--crate-name" not in words:
        return None
    crate = words[words.index("--crate-name") + 1]
    if "rt-edit" in os.path.realpath(f"/proc/{pid}/cwd"):
        return crate, "edits"
    if "--test" in words:
        return crate, "tests"
    wanted = words[words.index("-o") + 1] if "-o" in words else ""
    return crate, "proof" if words[1] == "check" or wanted.endswith(".rlib") else "programs"


class Watch:
    """What was seen of the processes below one."""

    def __init__(self, root):
        self.root, self.works, self.seconds = root, {}, {}
        self.spans = defaultdict(lambda: [float("inf"), 0.0])

    def work(self, pid, found):
        """The work of a process of the gate, its own or that of the one which started it."""
        work = None
        while pid in found and pid != self.root:
            if pid not in self.works and (seen := work_of(pid)) is not None:
                self.works[pid] = seen
            work = work or self.works.get(pid)
            pid = found[pid][0]
        return work if pid == self.root else None

    def look(self):
        found, now = processes(), time.monotonic()
        self.works = {pid: work for pid, work in self.works.items() if pid in found}
        for pid, (_, seconds) in found.items():
            work = self.work(pid, found)
            if work is not None:
                self.seconds[pid, work] = seconds
                span = self.spans[work]
                span[0], span[1] = min(span[0], now), max(span[1], now)

    def table(self):
        """Of each crate the processor seconds by kind."""
        rows = defaultdict(lambda: dict.fromkeys(KINDS, 0.0))
        for (_, (crate, kind)), seconds in self.seconds.items():
            rows[crate][kind] += seconds
        return rows

    def clock(self, crate):
        first, last = self.spans.get((crate, "proof"), (0.0, 0.0))
        return last - first


def below():
    """Of each crate of the repository those right below it."""
    found = {}
    for line in (TOP / "crates.txt").read_text().splitlines():
        name, colon, rest = line.partition("#")[0].partition(":")
        if colon:
            found[name.strip()] = rest.split()
    return {name: [dep for dep in deps if dep in found] for name, deps in found.items()}


def longest_chain(crates, clock):
    """The seconds of the longest chain of proofs, and its crates from the lowest, of those whose proofs were seen."""
    chains = {}
    for name, deps in crates.items():
        seconds, names = max((chains[dep] for dep in deps if dep in chains), default=(0.0, []))
        chains[name] = seconds + clock(name), names + [name] * (clock(name) > 0)
    return max(chains.values(), default=(0.0, []))


def main():
    if not shutil.which("rt"):
        print("gate.py: rt is not on the path: it is the gate that is measured", file=sys.stderr)
        return 2
    names = sys.argv[1:]
    words = names[1:] if names[:1] == ["--kept"] else ["--anew", *names]
    began = time.monotonic()
    with subprocess.Popen(["rt", "ci", *words], cwd=TOP) as gate:
        watch = Watch(gate.pid)
        while gate.poll() is None:
            watch.look()
            time.sleep(0.25)
    spent, clock = resource.getrusage(resource.RUSAGE_CHILDREN), time.monotonic() - began
    rows = watch.table()
    if rows:
        print("| Crate | " + " | ".join(KINDS) + " | all | proof by the clock |")
    for crate in sorted(rows, key=lambda name: -sum(rows[name].values())):
        cells = [*rows[crate].values(), sum(rows[crate].values()), watch.clock(crate)]
        print(f"| {crate} | " + " | ".join(f"{seconds:.0f}" for seconds in cells) + " |")
    seconds, names = longest_chain(below(), watch.clock)
    if names:
        print(f"longest chain of proofs: {seconds:.0f} s by the clock: {', '.join(names)}")
    print(f"the whole: {spent.ru_utime + spent.ru_stime:.0f} processor seconds, {clock:.0f} by the clock, "
          f"on {os.cpu_count()} processors")
    return gate.returncode


if __name__ == "__main__":
    sys.exit(main())
