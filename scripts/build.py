#!/usr/bin/env python3
"""Proves and builds the program crates/postgate/out/postgate, and runs it on the stored example.

usage: scripts/build.py [--jobs N]

Crates are proved side by side, each after those that it stands on, as many at a time as there are processors or as
--jobs says. A line tells when a crate begins and ends, with the time since the start. Crates of tests are not needed
and not proved. What an earlier run proved and has not changed costs a few seconds a crate. Where a crate fails, no further
one begins, and the script ends once those that have begun are done. It ends with 1 where a crate failed or the example
did other than what is stored, and says what; with 2 where there is no rt.
"""
import argparse
import os
import shutil
import subprocess
import sys
import tempfile
import time
from concurrent.futures import FIRST_COMPLETED, ThreadPoolExecutor, wait
from itertools import zip_longest
from pathlib import Path

TOP = Path(__file__).resolve().parent.parent
CRATES = TOP / "crates"
PROGRAM = "postgate"
CHECK = ("rt", "check")
LINK = ("rt", "run", "--", "postconf", "-n", "-c", "data")    # proves, links, and prints the main.cf of the example
SHOWN = 4000
START = time.monotonic()


def say(text):
    seconds = int(time.monotonic() - START)
    print(f"[{seconds // 60:3}:{seconds % 60:02}] {text}", flush=True)


def complain(text):
    print(f"build.py: {text}", file=sys.stderr, flush=True)


def needed():
    """The crates of the repository that the program stands on, itself included, each with those right below it."""
    below = {}
    for line in (TOP / "crates.txt").read_text().splitlines():
        line = line.split("#")[0].strip()
        if line:
            name, _, rest = line.partition(":")
            below[name.split()[0]] = rest.split()
    wanted, found = [PROGRAM], {}
    while wanted:
        name = wanted.pop()
        if name not in found:
            found[name] = [dep for dep in below[name] if dep in below]
            wanted += found[name]
    return found


def prove(name):
    """Proves a crate; the program is also linked. Answers what was printed where that failed."""
    try:
        done = subprocess.run(LINK if name == PROGRAM else CHECK, cwd=CRATES / name, stdin=subprocess.DEVNULL,
                              stdout=subprocess.PIPE, stderr=subprocess.STDOUT, text=True, errors="replace")
    except OSError as error:
        return f"{error}\n"
    return None if done.returncode == 0 else f"{done.stdout}{' '.join(done.args)} ended with {done.returncode}\n"


def prove_all(crates, jobs):
    """Proves the crates until one fails, and answers which did."""
    left, running, done, failed = dict(crates), {}, set(), []
    with ThreadPoolExecutor(jobs) as pool:
        while running or left and not failed:
            ready = [] if failed else [name for name in left if all(dep in done for dep in left[name])]
            for name in ready[:jobs - len(running)]:
                running[pool.submit(prove, name)] = (name, time.monotonic())
                del left[name]
                say(f"{name}: proving")
            for future in wait(running, return_when=FIRST_COMPLETED).done:
                name, began = running.pop(future)
                seconds, printed = time.monotonic() - began, future.result()
                if printed is None:
                    done.add(name)
                    say(f"{name}: proved in {seconds:.0f} s, {len(done)} of {len(crates)} crates")
                else:
                    failed.append(name)
                    print(printed[-SHOWN:], end="", file=sys.stderr, flush=True)
                    names = ", ".join(sorted(other for other, _ in running.values()))
                    say(f"{name}: failed after {seconds:.0f} s, no further crate begins; still running: {names or 'none'}")
    return failed


def differences(done, wanted):
    """What a run of the example did other than what is stored."""
    if done.returncode != 0:
        yield f"the example ended with {done.returncode}, wanted 0"
    pairs = zip_longest(wanted.splitlines(keepends=True), done.stdout.splitlines(keepends=True), fillvalue=b"")
    for number, (stored, came) in enumerate(pairs, 1):
        if stored != came:
            yield f"reply {number} of the example: wanted {repr(stored)[1:]}, came {repr(came)[1:]}"


def run_example():
    """Runs the program on the stored example, in a copy of its data; answers whether it did what is stored."""
    crate = CRATES / PROGRAM
    with tempfile.TemporaryDirectory() as room:
        folder = shutil.copytree(crate / "data", Path(room) / "data")
        words = [str(crate / "out" / PROGRAM), *(crate / "args").read_text().splitlines()]
        with open(crate / "stdin", "rb") as session:
            done = subprocess.run(words, cwd=folder, stdin=session, capture_output=True)
    replies, log = (text.decode(errors="replace").replace("\r\n", "\n") for text in (done.stdout, done.stderr))
    print("replies:", replies, "log:", log, sep="\n", end="", flush=True)
    found = list(differences(done, (crate / "stdout").read_bytes()))
    for line in found:
        complain(line)
    return not found


def main():
    parser = argparse.ArgumentParser(description=__doc__.splitlines()[0])
    parser.add_argument("--jobs", type=int, default=os.cpu_count() or 1)
    jobs = max(1, parser.parse_args().jobs)
    if not shutil.which("rt"):
        complain("rt is not on the path: it proves and builds the crates")
        return 2
    program = CRATES / PROGRAM / "out" / PROGRAM
    program.unlink(missing_ok=True)
    failed = prove_all(needed(), jobs)
    if failed:
        complain(f"not proved: {', '.join(failed)}")
        return 1
    say(f"built {program.relative_to(TOP)}")
    return 0 if run_example() else 1


if __name__ == "__main__":
    sys.exit(main())
