#!/usr/bin/env python3
"""Makes each allocation of the built program fail in turn, and looks at how the run ends.

usage: bench/allocations.py

It wants a C compiler, for nth_allocation.c beside it. For each of a few runs it counts the calls of malloc, calloc and
realloc, and then fails the first, the second, and so on. A run has to end with the status that it has where none fails, and
then with the same output, log and main.cf, or with 9, and then with a beginning of the same output and log, and with main.cf
as it was or as it is where none fails. Inside the real files want of memory is a fault of theirs, so a run may also end with 8
and its line, and then with main.cf as it was. Nothing may be left beside main.cf. It prints how many runs ended in which way,
and fails where one ended in another.
"""
import os
import shutil
import subprocess
import sys
import tempfile
from concurrent.futures import ThreadPoolExecutor
from pathlib import Path

HERE = Path(__file__).resolve().parent
PROGRAM = HERE.parent / "crates/postgate/out/postgate"
MAIN_CF = """myhostname = mx.example.com
mydestination = example.com
mynetworks = 10.0.0.0/8
smtpd_relay_restrictions = permit_mynetworks, reject_unauth_destination
"""
SESSION = "HELO c.test\r\nMAIL FROM:<a@b.test>\r\nRCPT TO:<joe@other.test>\r\nQUIT\r\n"
WORDS = ["smtpd", "-p", "192.0.2.9", "-m", "mail"]
# name, words, main.cf, status, and main.cf afterwards where it is edited
RUNS = [
    ("a session", WORDS, MAIN_CF, 0, None),
    ("a parameter that is not built", WORDS, MAIN_CF + "relay_domains = example.net\n", 3, None),
    ("an unknown restriction", WORDS, MAIN_CF + "smtpd_relay_restrictions = permit\n", 3, None),
    ("no main.cf", WORDS, None, 3, None),
    ("words of another form", ["smtpd"], MAIN_CF, 2, None),
    ("postconf -n", ["postconf", "-n"], MAIN_CF, 0, None),
    ("postconf of a name that is not known", ["postconf", "nosuch"], MAIN_CF, 1, None),
    ("an edit", ["postconf", "-e", "a=2"], MAIN_CF + "a = 1\n", 0, MAIN_CF + "a = 2\n"),
]


class Ended:
    """How a run ended: its status, its output and log, main.cf, what stood beside it, and how many calls there were."""

    def __init__(self, shim, words, conf, fail_at):
        with tempfile.TemporaryDirectory() as room, tempfile.TemporaryDirectory() as name:
            folder = Path(name)
            if conf is not None:
                (folder / "main.cf").write_text(conf)
            count = Path(room) / "count"
            env = {"LD_PRELOAD": str(shim), "FAIL_AT": str(fail_at), "COUNT_TO": str(count)}
            done = subprocess.run(
                [PROGRAM, *words], cwd=folder, env=env, input=SESSION.encode(), capture_output=True, check=False)
            left = sorted(entry.name for entry in folder.iterdir())
            self.status, self.out, self.log = done.returncode, done.stdout, done.stderr
            self.conf = (folder / "main.cf").read_text() if "main.cf" in left else None
            self.beside = [entry for entry in left if entry != "main.cf"]
            self.calls = int(count.read_text()) if count.exists() else None

    def said(self):
        return self.status, self.out, self.log, self.conf, self.beside

    def is_front_of(self, whole, conf):
        """Whether memory was wanting, and it ended on the way to the other."""
        return (self.status == 9 and whole.out.startswith(self.out) and whole.log.startswith(self.log)
                and self.conf in (conf, whole.conf) and not self.beside)

    def is_fault_of_the_files(self, conf):
        """Whether main.cf could not be read, or not be replaced, and is as it was."""
        lines = [f"postgate: main.cf: {call} failed\n".encode() for call in ("read", "replace")]
        return self.said() in [(8, b"", line, conf, []) for line in lines]


def main():
    compiler = next((c for c in ("cc", "gcc", "clang") if shutil.which(c)), None)
    if compiler is None or not PROGRAM.exists():
        sys.exit("allocations.py: a C compiler and the built program are wanted")
    bad = 0
    with tempfile.TemporaryDirectory() as folder, ThreadPoolExecutor(os.cpu_count()) as pool:
        shim = Path(folder) / "nth_allocation.so"
        subprocess.run([compiler, "-shared", "-fPIC", "-o", shim, HERE / "nth_allocation.c"], check=True)
        for name, words, conf, status, after in RUNS:
            whole = Ended(shim, words, conf, 0)
            if whole.status != status or whole.calls is None or whole.beside or whole.conf != (after or conf):
                sys.exit(f"allocations.py: {name}: {whole.said()} and {whole.calls} calls where none fails")
            calls = range(1, whole.calls + 1)
            same = memory = files = 0
            for call, now in zip(calls, pool.map(lambda call: Ended(shim, words, conf, call), calls)):
                if now.said() == whole.said():
                    same += 1
                elif now.is_front_of(whole, conf):
                    memory += 1
                elif now.is_fault_of_the_files(conf):
                    files += 1
                else:
                    bad += 1
                    print(f"{name}: call {call}: {now.said()}")
            print(f"{name}, status {status}: {whole.calls} calls; {memory} runs ended with 9, {files} with 8, "
                  f"{same} as if none had failed")
    return 1 if bad else 0


if __name__ == "__main__":
    os.environ["LC_ALL"] = "C"
    sys.exit(main())
