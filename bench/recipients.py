#!/usr/bin/env python3
"""Measures the built program on sessions of recipients: accepted ones, and ones that the relay list denies.

usage: bench/recipients.py [RECIPIENTS]      (1,000,000 where it is left out; a tenth of them is measured too)

It prints, for accepted and for denied recipients and for each of the two numbers of them, 50 a transaction, each begun by
HELO: recipients a second, seconds a megabyte of input, and the greatest resident memory. Then it counts the calls of malloc,
calloc and realloc in sessions of one transaction, and prints how many there are a recipient more; for that it wants a C
compiler. It fails where the program does not decide and log each recipient, or takes more than three allocations for one.
"""
import os
import shutil
import subprocess
import sys
import tempfile
import time
from pathlib import Path

HERE = Path(__file__).resolve().parent
PROGRAM = HERE.parent / "crates/postgate/out/postgate"
MAIN_CF = """myhostname = mx.example.com
mydestination = example.com
mynetworks = 10.0.0.0/8
smtpd_relay_restrictions = permit_mynetworks, reject_unauth_destination
"""
# what is decided of the recipients, the client, and what their replies and their log lines have
KINDS = [
    ("accepted", "10.1.2.3", b"250 2.1.5 Ok\r\n", b" accept\n"),
    ("denied", "192.0.2.9", b": Relay access denied\r\n", b"] reject_unauth_destination -\n"),
]
A_TRANSACTION = 50
COUNTED = 10_000    # recipients of the shorter session in which allocations are counted
MOST_ALLOCATIONS = 3


def write_session(path, recipients, a_transaction):
    with open(path, "w", newline="") as session:
        for number in range(recipients):
            if number % a_transaction == 0:
                session.write("HELO client.test\r\nMAIL FROM:<sender@client.test>\r\n")
            session.write(f"RCPT TO:<user{number}@other.test>\r\n")
        session.write("QUIT\r\n")


def resident_peak(pid):
    """The greatest resident memory of the program so far, in KiB; that of the process before it became the program is left out."""
    try:
        for line in Path(f"/proc/{pid}/status").read_text().splitlines():
            if line.startswith("VmHWM:"):
                return int(line.split()[1])
    except OSError:
        pass
    return 0


class Run:
    """A session that the program was given: its seconds, its processor time, and its greatest resident memory in KiB."""

    def __init__(self, folder, kind, recipients, env=None):
        _, client, reply, line = kind
        out, log = folder / "out", folder / "log"
        with open(folder / "session") as source, open(out, "w") as replies, open(log, "w") as decisions:
            start = time.monotonic()
            process = subprocess.Popen([PROGRAM, "smtpd", "-p", client, "-m", "mail"], cwd=folder, env=env,
                                       stdin=source, stdout=replies, stderr=decisions)
            self.resident = 0
            while True:
                done, status, self.usage = os.wait4(process.pid, os.WNOHANG)
                if done:
                    break
                self.resident = max(self.resident, resident_peak(process.pid))
                time.sleep(0.001)
            self.seconds = time.monotonic() - start
        code = os.waitstatus_to_exitcode(status)
        replied, logged = out.read_bytes().count(reply), log.read_bytes().count(line)
        if (code, replied, logged) != (0, recipients, recipients):
            sys.exit(f"status {code}, {replied} {kind[0]} and {logged} logged of {recipients}")


def measure(folder, kind, recipients):
    write_session(folder / "session", recipients, A_TRANSACTION)
    megabytes = (folder / "session").stat().st_size / 1_000_000
    run = Run(folder, kind, recipients)
    print(f"{recipients} {kind[0]}, {megabytes:.1f} MB: {recipients / run.seconds:,.0f} a second, "
          f"{run.seconds / megabytes:.3f} s a MB, {run.resident / 1024:.1f} MiB resident at most, "
          f"user {run.usage.ru_utime:.2f} s, system {run.usage.ru_stime:.2f} s")


def count_allocations(folder, shim, kind):
    """Prints how many allocations a recipient more takes, and answers whether that is few enough."""
    calls = []
    for recipients in (COUNTED, 2 * COUNTED):
        write_session(folder / "session", recipients, recipients)
        env = {"LD_PRELOAD": str(shim), "FAIL_AT": "0", "COUNT_TO": str(folder / "count")}
        Run(folder, kind, recipients, env)
        calls.append(int((folder / "count").read_text()))
    each = (calls[1] - calls[0]) / COUNTED
    print(f"{kind[0]}: {each:.3f} allocations a recipient, {calls[0]} in all for {COUNTED} recipients")
    return each <= MOST_ALLOCATIONS


def main():
    recipients = int(sys.argv[1]) if len(sys.argv) > 1 else 1_000_000
    if not PROGRAM.exists():
        sys.exit(f"{PROGRAM} is not built: run scripts/build.py first")
    compiler = next((c for c in ("cc", "gcc", "clang") if shutil.which(c)), None)
    if compiler is None:
        sys.exit("recipients.py: a C compiler is wanted")
    few = True
    with tempfile.TemporaryDirectory() as name:
        folder = Path(name)
        (folder / "main.cf").write_text(MAIN_CF)
        for kind in KINDS:
            for count in (recipients // 10, recipients):
                measure(folder, kind, count)
        shim = folder / "nth_allocation.so"
        subprocess.run([compiler, "-shared", "-fPIC", "-o", shim, HERE / "nth_allocation.c"], check=True)
        for kind in KINDS:
            few = count_allocations(folder, shim, kind) and few
    return 0 if few else 1


if __name__ == "__main__":
    sys.exit(main())
