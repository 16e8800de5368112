#!/usr/bin/env python3
"""Measures how a main.cf of many settings, each with ten names, is read and each of its values expanded.

usage: bench/expansion.py [SETTINGS ..]      (1000, 2000, 5000 and 10000 where they are left out)

It runs the program row_tests, as `rt run` in that crate's folder leaves it built, on one row, and prints for each
number the seconds and the greatest resident memory, which is at least that of this script, from which the program is started.
"""
import os
import subprocess
import sys
import tempfile
import time
from pathlib import Path

CRATE = Path(__file__).resolve().parent.parent / "crates/row_tests"
PROGRAM = CRATE / "out/row_tests"
# the bytes of the value of one setting: ten values of two letters, with blanks between them
LENGTH = 29


def measure(settings):
    row = f"many {settings}¦¦{LENGTH * settings}\n".encode()
    with tempfile.TemporaryDirectory() as folder:
        for library in (CRATE / "data").iterdir():
            (Path(folder) / library.name).write_bytes(row if library.name == "params" else b"")
        start = time.monotonic()
        process = subprocess.Popen([PROGRAM], cwd=folder, stdout=subprocess.PIPE)
        said = process.stdout.read()
        _, status, usage = os.wait4(process.pid, 0)
        seconds = time.monotonic() - start
    if os.waitstatus_to_exitcode(status) != 0 or b"params: 1 rows\n" not in said:
        sys.exit(f"expansion.py: at {settings} settings: {said.decode()}")
    print(f"{settings} settings: {seconds:.3f} s, {usage.ru_maxrss / 1024:.1f} MiB")


def main():
    if not PROGRAM.exists():
        sys.exit(f"expansion.py: {PROGRAM} is not built; run 'rt run' in {CRATE}")
    for settings in [int(word) for word in sys.argv[1:]] or [1000, 2000, 5000, 10000]:
        measure(settings)


if __name__ == "__main__":
    main()
