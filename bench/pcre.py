#!/usr/bin/env python3
"""Measures tables of patterns by the program of pcre_tests: processor time a key, time to open a table, and the greatest memory.

usage: bench/pcre.py [TIMES]      (each of 1,000 keys is asked so often, 100 times where it is left out)

It runs the program of pcre_tests, as `rt run` in that crate's folder leaves it built, on tables of 20, 100 and 500 rules of two
kinds, host names and headers, with keys of which none matches, the last rule matches, and every second one matches a rule
somewhere. The time of a run that asks no key is that of opening and is taken off. With valgrind it counts the instructions of a
tenth of the keys too, which another program beside does not change. It prints the load of the machine first.
"""
import os
import random
import re
import shutil
import subprocess
import sys
import tempfile
from pathlib import Path

CRATE = Path(__file__).resolve().parent.parent / "crates/pcre_tests"
PROGRAM = str(CRATE / "out/pcre_tests")
KEYS = 1000
HEADERS = (
    r"/^Subject:.*(viagra{n}|cialis{n})\b/ REJECT no $1",
    r"/^Received: from .*dynamic{n}\b/ REJECT dynamic",
    r"/^X-Mailer: .*Mailer{n} v([0-9]+)/ REJECT mailer $1",
    r"/^From:.*@spam{n}\.(com|net)/ REJECT from $1",
    r"/^Content-(Type|Disposition):.*name\s*=\s*.?(.*\.(exe{n}|pif{n}))\b/ REJECT $2",
)
HEADER_KEYS = (
    "Subject: buy cheap viagra{n} today",
    "Received: from host.dynamic{n} by mx.example.net with ESMTP id 4321 for <joe@example.net>; Tue, 1 Jan 2030",
    "X-Mailer: Super Mailer{n} v42 of nobody",
    "From: Joe Doe <joe.doe@spam{n}.com>",
    "Content-Type: application/octet-stream; name=\"setup.exe{n}\"",
)


def rules(kind, count):
    if kind == "hosts":
        return [rf"/^(.*)@host{n}\.example\.(com|net)$/ REJECT no mail from $1" for n in range(count)]
    return [HEADERS[n % 5].format(n=n) for n in range(count)]


def key(kind, n):
    return f"some.user@host{n}.example.net" if kind == "hosts" else HEADER_KEYS[n % 5].format(n=n)


def keys(kind, count, which):
    draw = random.Random(1)
    none = [key(kind, 1000 + 5 * draw.randrange(1000) + n % 5) for n in range(KEYS)]
    if which == "none":
        return none
    if which == "last":
        return [key(kind, count - 1)] * KEYS
    return [key(kind, draw.randrange(count)) if n % 2 else none[n] for n in range(KEYS)]


def row(kind, count, which, times):
    return f"keys¦{times}␤{'~'.join(keys(kind, count, which))}␤{'␤'.join(rules(kind, count))}¦\n"


def run(text, words=()):
    """The processor time, the greatest memory in MB and what is written to the error output."""
    with tempfile.TemporaryFile() as given, tempfile.TemporaryFile() as errors:
        given.write(text.encode())
        given.seek(0)
        process = subprocess.Popen([*words, PROGRAM], stdin=given, stdout=subprocess.DEVNULL, stderr=errors)
        _, status, usage = os.wait4(process.pid, 0)
        if status:
            sys.exit(f"pcre.py: the program ended with {status}")
        errors.seek(0)
        return usage.ru_utime + usage.ru_stime, usage.ru_maxrss / 1024, errors.read().decode(errors="replace")


def instructions(text):
    _, _, errors = run(text, ("valgrind", "--tool=callgrind", "--callgrind-out-file=/dev/null"))
    return int(re.search(r"Collected : (\d+)", errors).group(1))


def main():
    times = int(sys.argv[1]) if len(sys.argv) > 1 else 100
    print("load", *os.getloadavg())
    print(f"{'table':8} {'rules':>5} {'keys':>5} {'µs a key':>9} {'kinstr a key':>13} {'opening ms':>11} {'MB':>6}")
    for kind in ("hosts", "headers"):
        for count in (20, 100, 500):
            for which in ("none", "last", "half"):
                opened, _, _ = run(row(kind, count, which, 0))
                whole, memory, _ = run(row(kind, count, which, times))
                each = (whole - opened) / (times * KEYS) * 1e6
                counted = "-"
                if shutil.which("valgrind"):
                    few = max(times // 10, 1)
                    most = instructions(row(kind, count, which, few + 1)) - instructions(row(kind, count, which, 1))
                    counted = f"{most / (few * KEYS) / 1000:.1f}"
                print(f"{kind:8} {count:5} {which:>5} {each:9.2f} {counted:>13} {opened * 1000:11.0f} {memory:6.0f}", flush=True)


main()
