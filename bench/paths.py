#!/usr/bin/env python3
"""Measures how much processor time it takes to read a path and to print its address.

usage: bench/paths.py [TURNS]      (1000000 where it is left out)

It runs the program of addr_tests, as `rt run` in that crate's folder leaves it built, with the number of turns in the variable
TURNS, once for each spelling and once for an empty input, and prints the difference for each turn.
"""
import os
import subprocess
import sys
from pathlib import Path

CRATE = Path(__file__).resolve().parent.parent / "crates/addr_tests"
PROGRAM = CRATE / "out/addr_tests"
SPELLINGS = [
    "<>",
    "<john.smith@example.com> SIZE=1000",
    "john.smith@example.com",
    "<\"john smith\"@[IPv6:2001:db8::1]>",
    "<@one.test,@two.test:john.smith@example.com>",
    "<john.smith@example.com",
]


def seconds(text, turns):
    process = subprocess.Popen(
        [PROGRAM], stdin=subprocess.PIPE, stdout=subprocess.DEVNULL, env={**os.environ, "TURNS": str(turns)})
    process.stdin.write(text.encode())
    process.stdin.close()
    _, status, usage = os.wait4(process.pid, 0)
    if os.waitstatus_to_exitcode(status) != 0:
        sys.exit("paths.py: the program failed")
    return usage.ru_utime + usage.ru_stime


def main():
    turns = int(sys.argv[1]) if len(sys.argv) > 1 else 1000000
    if not PROGRAM.exists():
        sys.exit(f"paths.py: {PROGRAM} is not built; run 'rt run' in {CRATE}")
    empty = seconds("", turns)
    for spelling in SPELLINGS:
        taken = seconds(spelling + "\n", turns) - empty
        print(f"{taken / turns * 1e6:.2f} us  {spelling}")


if __name__ == "__main__":
    main()
