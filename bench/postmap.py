#!/usr/bin/env python3
"""Measures the built program's postmap beside Postfix's postmap and the tool cdb of tinycdb, on the same tables in one run.

usage: bench/postmap.py [--program PATH] [--small]      (crates/postgate/out/postgate; --small is a tenth of each size)

It wants Debian's packages postfix, postfix-cdb, postfix-pcre, tinycdb and valgrind; nothing of Postfix is started. For each row
it prints the peer's figure, ours, their ratio and the greatest that this may be, or for a row without a peer our figure and its
limit. A figure of processor time is the least of a few tries. It looks whether both print the same lines and build the same
bytes. It ends with 1 where a limit is passed, the answers differ or a run is refused, and with 2 where a tool is not there.
"""
import argparse
import os
import random
import shutil
import subprocess
import sys
import tempfile
import time
from collections import namedtuple
from pathlib import Path

PROGRAM = Path(__file__).resolve().parent.parent / "crates/postgate/out/postgate"
TOOLS = ("postmap", "cdb", "valgrind")
SIZES = (100_000, 1_000_000)      # lines of a table, entries of a cdb
KEYS, NETS, PATTERNS = 100_000, 1_000, 500
TRIES, LONG = 3, 2.0              # a run that takes longer in seconds is tried once
COUNTED = (10_000, 20_000)        # lines of the tables whose growth is counted in instructions
MOST_GROWTH = 2.3
MOST_INSTRUCTIONS = 2_000_000     # of one key
MOST_BYTES_A_LINE = 150           # of memory beyond the text
# a file that is older than its cdb file; Postfix warns of others
OLD = (1_000_000_000, 1_000_000_000)
MAIN_CF = """compatibility_level = 3.6
queue_directory = {0}
data_directory = {0}
maillog_file = {0}/log
maillog_file_prefixes = {0}
"""

Run = namedtuple("Run", "cpu resident output")


class Failed(Exception):
    """A run that did not end with 0."""


def stop(said):
    print(f"postmap.py: {said}", file=sys.stderr)
    sys.exit(2)


def resident_peak(pid):
    """The greatest resident memory of the program so far, in bytes; that of the process before it became the program is left out."""
    try:
        for line in Path(f"/proc/{pid}/status").read_text().splitlines():
            if line.startswith("VmHWM:"):
                return int(line.split()[1]) * 1024
    except OSError:
        pass
    return 0


def run_once(folder, words, keys):
    resident = 0
    with open(folder / "output", "wb") as output, open(folder / keys if keys else os.devnull, "rb") as source:
        process = subprocess.Popen(words, cwd=folder, stdin=source, stdout=output)
        while True:
            done, status, usage = os.wait4(process.pid, os.WNOHANG)
            if done:
                break
            resident = max(resident, resident_peak(process.pid))
            time.sleep(0.002)
    if os.waitstatus_to_exitcode(status) != 0:
        raise Failed(f"{' '.join(words)}: status {os.waitstatus_to_exitcode(status)}")
    return Run(usage.ru_utime + usage.ru_stime, resident, (folder / "output").read_bytes())


def run(folder, words, keys=None):
    """The least processor time, the greatest resident memory and the output of a command."""
    best = run_once(folder, words, keys)
    for _ in range(TRIES - 1 if best.cpu < LONG else 0):
        again = run_once(folder, words, keys)
        best = Run(min(best.cpu, again.cpu), max(best.resident, again.resident), again.output)
    return best


def instructions(folder, words):
    """How many instructions a command executes."""
    counts = folder / "counts"
    done = subprocess.run(["valgrind", "--tool=callgrind", f"--callgrind-out-file={counts}", *words], cwd=folder,
                          stdin=subprocess.DEVNULL, capture_output=True, check=False)
    if done.returncode != 0:
        raise Failed(f"{' '.join(words)}: status {done.returncode}")
    summaries = [line for line in counts.read_text(errors="replace").splitlines() if line.startswith("summary: ")]
    if len(summaries) != 1:
        stop("callgrind says no number of instructions")
    return int(summaries[0].split()[1])


class Bench:
    def __init__(self, folder, program, small):
        self.folder, self.small, self.fits = folder, 10 if small else 1, True
        self.ours = [str(program), "postmap"]
        conf = folder / "conf"
        conf.mkdir()
        (conf / "main.cf").write_text(MAIN_CF.format(folder))
        (conf / "master.cf").write_text("")
        self.postfix = ["postmap", "-c", str(conf)]
        print(f"load {os.getloadavg()[0]:.1f}, {os.cpu_count()} processors")
        self.row("what", "peer", "peer", "ours", "ratio", "limit")

    def row(self, what, peer, theirs, ours, ratio, limit):
        print(f"{what:58} {peer:10} {theirs:>12} {ours:>12} {ratio:>6} {limit:>10}", flush=True)

    def said(self, fits, limit):
        self.fits = self.fits and fits
        return f"{limit}" if fits else f"{limit} PASSED"

    def beside(self, what, peer, theirs, ours, most=None):
        """A row with a peer: seconds, and the greatest that the ratio may be, if there is one."""
        ratio = ours / max(theirs, 1e-9)
        limit = "" if most is None else self.said(ratio <= most, f"{most:.2f}")
        self.row(what, peer, f"{theirs:.3f} s", f"{ours:.3f} s", f"{ratio:.2f}", limit)

    def alone(self, what, unit, value, most):
        self.row(what, "", "", f"{value:,.0f}" if value >= 10 else f"{value:.2f}", "", self.said(value <= most, f"{most:,}") + f" {unit}")

    def attempt(self, measure, *given):
        """Takes a measurement; says so where a run of it fails."""
        try:
            measure(*given)
        except Failed as failed:
            self.fits = False
            print(f"FAILED: {failed}", flush=True)

    def same(self, what, is_same):
        if not is_same:
            self.fits = False
            print(f"{what}: THE ANSWERS DIFFER")

    def file(self, name, text):
        path = self.folder / name
        path.write_text(text)
        os.utime(path, OLD)
        return path

    def pairs(self, name, count):
        """A text of so many pairs; its keys."""
        keys = [f"user{n}@dom{n % 977}.example.com" for n in range(count)]
        return self.file(name, "".join(f"{key} value{n}\n" for n, key in enumerate(keys))), keys

    def asked(self, what, words, keys, most):
        theirs, ours = run(self.folder, self.postfix + words, keys), run(self.folder, self.ours + words, keys)
        self.same(what, theirs.output == ours.output)
        self.beside(what, "postmap", theirs.cpu, ours.cpu, most)
        return theirs, ours

    # a text table is read for one key
    def text_tables(self):
        self.pairs("one", 1)
        bare = run(self.folder, self.ours + ["-q", "user0@dom0.example.com", "texthash:one"]).resident
        for lines in SIZES:
            lines //= self.small
            path, keys = self.pairs("table", lines)
            theirs, ours = self.asked(f"texthash of {lines} lines, one key", ["-q", keys[-1], "texthash:table"], None, 0.25)
            size = path.stat().st_size
            self.alone("  memory beyond the text", "B/line", (ours.resident - bare - size) / lines, MOST_BYTES_A_LINE)
            self.row("  memory", "postmap", f"{theirs.resident >> 10} KiB", f"{ours.resident >> 10} KiB",
                     f"{ours.resident / max(theirs.resident, 1):.2f}", "")
            self.row("  processor time a line", "postmap", f"{theirs.cpu / lines * 1e6:.2f} us", f"{ours.cpu / lines * 1e6:.2f} us", "", "")

    def growth(self, what, words, prepare):
        """Instructions of a run on a table of twice the lines, by those of one of the lines; an empty one is taken off both."""
        counts = []
        for lines in (1, *COUNTED):
            prepare(lines)
            counts.append(instructions(self.folder, self.ours + words))
        ratio = (counts[2] - counts[0]) / max(counts[1] - counts[0], 1)
        self.alone(f"{what}, {COUNTED[1]} lines by {COUNTED[0]}", "times", ratio, MOST_GROWTH)

    # the lines of the input are asked
    def inputs(self):
        source, count = random.Random(7), SIZES[0] // self.small
        path, keys = self.pairs("table", count)
        shutil.copy(path, self.folder / "built")
        subprocess.run(self.postfix + ["cdb:built"], cwd=self.folder, check=True)
        asked = [source.choice(keys) if source.random() < .8 else f"none{n}@x.test" for n in range(KEYS // self.small)]
        self.file("keys", "".join(key + "\n" for key in asked))
        self.file("nets", "".join(f"10.0.{n >> 8}.{n & 255} r{n}\n" for n in range(NETS)))
        numbers = [source.randrange(NETS * 5 // 4) for _ in asked]
        self.file("addresses", "".join(f"10.0.{n >> 8}.{n & 255}\n" for n in numbers))
        self.file("patterns", "".join(f"/^user{n}[0-9]*@dom[0-9]+\\.example\\.com$/ hit $$ {n}\n" if n % 2 else
                                      f"/\\.zone{n}\\.(test|invalid)$/ zone $1\n" for n in range(PATTERNS)))
        self.file("hosts", "".join(f"user{source.randrange(1000)}@dom3.example.com\n" if source.random() < .5 else
                                   f"x@a.zone{source.randrange(1000)}.test\n" for _ in asked))
        for what, table, lines, most in ((f"texthash of {count} lines", "texthash:table", "keys", 1 / 3),
                                         (f"cidr of {NETS} rules", "cidr:nets", "addresses", 1),
                                         (f"cdb of {count} entries", "cdb:built", "keys", 1),
                                         (f"pcre of {PATTERNS} rules", "pcre:patterns", "hosts", 1 / 3)):
            self.attempt(self.asked, f"-q - {len(asked)} keys, {what}", ["-q", "-", table], lines, most)

    # what one key costs, most of which is the start of the program
    def one_key(self):
        self.pairs("one", 1)
        for name in "one", "built":
            if name == "one":
                subprocess.run(self.postfix + ["cdb:one"], cwd=self.folder, check=True)
            for kind in "texthash", "cdb":
                if (name, kind) != ("built", "texthash"):
                    self.attempt(self.key, kind, name, 1 if name == "one" else SIZES[0] // self.small)

    def key(self, kind, name, entries):
        words = ["-q", "user0@dom0.example.com", f"{kind}:{name}"]
        theirs, ours = instructions(self.folder, self.postfix + words), instructions(self.folder, self.ours + words)
        self.row(f"-q of one key, {kind} of {entries}, instructions", "postmap", f"{theirs:,}", f"{ours:,}",
                 f"{ours / theirs:.2f}", self.said(ours <= MOST_INSTRUCTIONS, f"{MOST_INSTRUCTIONS:,}"))

    # all pairs are listed
    def lists(self):
        count = SIZES[0] // self.small
        theirs = run(self.folder, self.postfix + ["-s", "texthash:table"])
        ours = run(self.folder, self.ours + ["-s", "texthash:table"])
        self.same("-s texthash", sorted(theirs.output.split(b"\n")) == sorted(ours.output.split(b"\n")))
        self.beside(f"-s, texthash of {count} lines", "postmap", theirs.cpu, ours.cpu, 1)
        theirs, ours = run(self.folder, ["cdb", "-d", "-m", "built.cdb"]), run(self.folder, self.ours + ["-s", "cdb:built"])
        self.same("-s cdb", theirs.output.replace(b" ", b"\t") == ours.output)
        self.beside(f"-s, cdb of {count} entries", "cdb -d -m", theirs.cpu, ours.cpu)

    # a cdb is built
    def builds(self):
        for entries in SIZES:
            entries //= self.small
            self.pairs("table", entries)
            built = self.folder / "table.cdb"
            tool = run(self.folder, ["cdb", "-c", "-m", "tool.cdb", "table"])
            theirs = run(self.folder, self.postfix + ["cdb:table"])
            their_bytes = built.read_bytes()
            built.unlink()
            ours = run(self.folder, self.ours + ["cdb:table"])
            what = f"cdb of {entries} entries"
            self.same(f"{what}, by postmap", built.read_bytes() == their_bytes)
            self.same(f"{what}, by cdb -c", built.read_bytes() == (self.folder / "tool.cdb").read_bytes())
            self.beside(f"building a {what}", "cdb -c -m", tool.cpu, ours.cpu, 1.5)
            self.beside(f"building a {what}", "postmap", theirs.cpu, ours.cpu)
            self.row("  memory", "cdb -c -m", f"{tool.resident >> 10} KiB", f"{ours.resident >> 10} KiB",
                     f"{ours.resident / max(tool.resident, 1):.2f}", "")


def main():
    parser = argparse.ArgumentParser(description=__doc__.splitlines()[0])
    parser.add_argument("--program", type=Path, default=PROGRAM)
    parser.add_argument("--small", action="store_true")
    asked = parser.parse_args()
    for tool in TOOLS:
        if shutil.which(tool) is None:
            stop(f"no {tool}: install postfix, postfix-cdb, postfix-pcre, tinycdb and valgrind")
    if not os.access(asked.program, os.X_OK):
        stop(f"no program {asked.program}: scripts/build.py builds it")
    with tempfile.TemporaryDirectory() as name:
        os.chmod(name, 0o755)
        bench = Bench(Path(name), asked.program.resolve(), asked.small)
        for measure in bench.text_tables, bench.inputs, bench.one_key, bench.lists:
            bench.attempt(measure)
        for what, words in (("texthash, one key", ["-q", "user0@dom0.example.com", "texthash:table"]), ("building a cdb", ["cdb:table"])):
            bench.attempt(bench.growth, what, words, lambda lines: bench.pairs("table", lines))
        bench.attempt(bench.builds)
    return 0 if bench.fits else 1


if __name__ == "__main__":
    sys.exit(main())
