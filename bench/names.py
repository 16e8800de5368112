#!/usr/bin/env python3
"""Measures how much processor time the class of a recipient takes where mydestination has one name and where it has many.

usage: bench/names.py [TURNS]      (200000 where it is left out)

It runs the program of class_tests, as `rt run` in that crate's folder leaves it built, over a file of one row, with so many turns
and with one, and prints the difference for each turn. A domain is asked that is the last name, and one that is none of them.
"""
import os
import subprocess
import sys
import tempfile
from pathlib import Path

CRATE = Path(__file__).resolve().parent.parent / "crates/class_tests"
PROGRAM = CRATE / "out/class_tests"
NAMES = [1, 10000]


def seconds(names, turns, domain, said):
    with tempfile.TemporaryDirectory() as folder:
        Path(folder, "rows").write_text(f"many {names} {turns}¦{domain}¦{said}\n")
        process = subprocess.Popen([PROGRAM], cwd=folder, stdout=subprocess.DEVNULL)
        _, status, usage = os.wait4(process.pid, 0)
    if os.waitstatus_to_exitcode(status) != 0:
        sys.exit("names.py: the program failed")
    return usage.ru_utime + usage.ru_stime


def main():
    turns = int(sys.argv[1]) if len(sys.argv) > 1 else 200000
    if not PROGRAM.exists():
        sys.exit(f"names.py: {PROGRAM} is not built; run 'rt run' in {CRATE}")
    for names in NAMES:
        for domain, said in ((f"n{names - 1}.test", "local"), ("other.test", "default")):
            taken = seconds(names, turns, domain, said) - seconds(names, 1, domain, said)
            print(f"{taken / turns * 1e6:.2f} us  {domain}, one of {names} names" if said == "local"
                  else f"{taken / turns * 1e6:.2f} us  {domain}, none of {names} names")


if __name__ == "__main__":
    main()
