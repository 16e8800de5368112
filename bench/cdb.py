#!/usr/bin/env python3
"""Holds the files of pf_cdb beside those of the tool cdb of tinycdb (Debian's package tinycdb), and measures both.

usage: bench/cdb.py [ENTRIES]      (1,000,000 where it is left out; a tenth of them is measured too)

It runs the program of cdb_tests, as `rt run` in that crate's folder leaves it built. For random pairs, some with a key that
came before, and for the entries of the measurement it looks whether both tools write the same bytes, whether each reads
the other's file, and what is said of keys that are there and of others. With a C compiler it makes each allocation of a few
small runs fail in turn: a run has to end as if none had failed, or with another status and no output. Then it prints processor
times and the greatest resident memory, ours by theirs, and how much of ours an entry takes beyond the text and the file. It
ends with 1 where a file, an answer or a run differs.
"""
import os
import random
import shutil
import subprocess
import sys
import tempfile
import time
from pathlib import Path

HERE = Path(__file__).resolve().parent
CRATE = HERE.parent / "crates/cdb_tests"
PROGRAM = str(CRATE / "out/cdb_tests")
ROUNDS = 40
PAIRS = 300
# cdb passes over lines that begin with a number sign.
BYTES = bytes(byte for byte in range(256) if byte not in b"\n\r\t\v\f \0#")


class Differs(Exception):
    """Something that the tools do not agree on."""


def resident_peak(pid):
    """The greatest resident memory of the program so far, in bytes; that of the process before it became the program is left out."""
    try:
        for line in Path(f"/proc/{pid}/status").read_text().splitlines():
            if line.startswith("VmHWM:"):
                return int(line.split()[1]) * 1024
    except OSError:
        pass
    return 0


def run(words, out=os.devnull):
    """The processor time and the greatest resident memory, in bytes, of a command whose output goes to a file."""
    resident = 0
    with open(out, "wb") as output:
        process = subprocess.Popen(words, stdin=subprocess.DEVNULL, stdout=output)
        while True:
            done, status, usage = os.wait4(process.pid, os.WNOHANG)
            if done:
                break
            resident = max(resident, resident_peak(process.pid))
            time.sleep(0.001)
    if os.waitstatus_to_exitcode(status) != 0:
        sys.exit(f"cdb.py: {' '.join(words)} failed")
    return usage.ru_utime + usage.ru_stime, resident


def want(holds, said):
    if not holds:
        raise Differs(said)


def written(folder, pairs):
    """Writes the text of some pairs and both files for it, and looks whether they are equal; their names."""
    text, ours, theirs = folder / "text", folder / "ours.cdb", folder / "theirs.cdb"
    text.write_bytes(b"".join(key + b" " + value + b"\n" for key, value in pairs))
    ours_run = run([PROGRAM, "build", str(text)], ours)
    theirs_run = run(["cdb", "-c", "-m", str(theirs), str(text)])
    want(ours.read_bytes() == theirs.read_bytes(), f"the files of {len(pairs)} pairs differ")
    return text, ours, theirs, ours_run, theirs_run


def first_pairs(pairs):
    """Of each key the first pair, in order."""
    first = {}
    for key, value in pairs:
        first.setdefault(key, value)
    return list(first.items())


def lines(words, folder):
    out = folder / "out"
    taken = run(words, out)
    return out.read_bytes(), taken


def random_pairs(source):
    def word(least, most):
        return bytes(source.choice(BYTES) for _ in range(source.randint(least, most)))
    pairs = [(word(1, 9), word(1, 20)) for _ in range(source.randint(0, PAIRS))]
    return pairs + [(source.choice(pairs)[0], word(1, 5)) for _ in range(len(pairs) // 10)]


def compare(folder, pairs, absent):
    text, ours, theirs, *_ = written(folder, pairs)
    kept = first_pairs(pairs)
    listed = b"".join(key + b" " + value + b"\n" for key, value in kept)
    want(lines([PROGRAM, "check", str(theirs)], folder)[0] == b"", "their file is refused")
    want(lines([PROGRAM, "list", str(theirs)], folder)[0] == listed, "their file is listed otherwise")
    want(lines(["cdb", "-d", "-m", str(ours)], folder)[0] == text.read_bytes(), "our file is dumped otherwise")
    keys = folder / "keys"
    keys.write_bytes(b"".join(key + b"\n" for key, _ in kept) + b"".join(key + b"\n" for key in absent))
    values = b"".join(value + b"\n" for _, value in kept)
    want(lines([PROGRAM, "ask", str(theirs), str(keys)], folder)[0] == values, "keys of their file have other values")
    for key, _ in random.sample(kept, min(3, len(kept))):
        every = b"".join(other for name, other in pairs if name == key)
        want(lines(["cdb", "-q", "--", str(ours), os.fsdecode(key)], folder)[0] == every, "a key of our file has another value")
    for key in absent[:3]:
        done = subprocess.run(["cdb", "-q", "--", str(ours), os.fsdecode(key)], stdout=subprocess.DEVNULL, check=False)
        want(done.returncode == 100, "a key that our file has not is found")


def ended(words, shim, fail_at, count):
    """The status and the output of a run in which one allocation fails; and how many allocations there were."""
    env = {"LD_PRELOAD": str(shim), "FAIL_AT": str(fail_at), "COUNT_TO": str(count)}
    done = subprocess.run([PROGRAM, *words], env=env, stdin=subprocess.DEVNULL, capture_output=True, check=False)
    return (done.returncode, done.stdout), int(count.read_text()) if count.exists() else 0


def want_memory(folder, compiler):
    shim, count, text, file = folder / "shim.so", folder / "count", folder / "few", folder / "few.cdb"
    subprocess.run([compiler, "-shared", "-fPIC", "-o", shim, HERE / "nth_allocation.c"], check=True)
    text.write_bytes(b"".join(b"key%d value%d\n" % (n, n) for n in range(20)))
    run([PROGRAM, "build", str(text)], file)
    for words in (["build", str(text)], ["check", str(file)], ["list", str(file)], ["ask", str(file), str(text)]):
        whole, calls = ended(words, shim, 0, count)
        want(whole[0] == 0 and calls > 0, f"{words[0]} fails where no allocation does")
        same = 0
        for call in range(1, calls + 1):
            now, _ = ended(words, shim, call, count)
            same += now == whole
            want(now == whole or now[0] != 0 and now[1] == b"", f"{words[0]}: allocation {call}: {now}")
        print(f"{words[0]}: {calls} allocations, each made to fail; {same} runs ended as if none had failed")


def measure(folder, count):
    pairs = [(b"user%d@dom%d.example.com" % (n, n % 1000), b"value%d" % n) for n in range(count)]
    text, ours, theirs, (our_time, our_peak), (their_time, their_peak) = written(folder, pairs)
    size = ours.stat().st_size
    beyond = (our_peak - text.stat().st_size - size) / count
    print(f"{count} entries, {size} bytes: ours {our_time:.3f} s, cdb -c {their_time:.3f} s, {our_time / their_time:.2f} times; "
          f"resident {our_peak / 2**20:.1f} and {their_peak / 2**20:.1f} MiB; beyond the text and the file {beyond:.0f} bytes an entry")
    keys, none = folder / "keys", folder / "none"
    keys.write_bytes(b"".join(key + b"\n" for key, _ in pairs))
    none.write_bytes(b"")
    told, (checked, _) = lines([PROGRAM, "check", str(theirs)], folder)
    want(told == b"", "their file is refused")
    empty = lines([PROGRAM, "ask", str(theirs), str(none)], folder)[1][0]
    said, (asked, _) = lines([PROGRAM, "ask", str(theirs), str(keys)], folder)
    want(said == b"".join(value + b"\n" for _, value in pairs), "a key has another value")
    print(f"  check, with the file read: {checked:.3f} s; a key asked: {(asked - empty) / count * 1e6:.3f} us")


def main():
    count = int(sys.argv[1]) if len(sys.argv) > 1 else 1000000
    if not os.path.exists(PROGRAM):
        sys.exit(f"cdb.py: {PROGRAM} is not built; run 'rt run' in {CRATE}")
    source = random.Random(1)
    with tempfile.TemporaryDirectory() as name:
        folder = Path(name)
        try:
            for _ in range(ROUNDS):
                pairs = random_pairs(source)
                there = {key for key, _ in pairs}
                compare(folder, pairs, [key for key, _ in random_pairs(source) if key not in there])
            print(f"{ROUNDS} files of random pairs: the same bytes, and each is read by the other")
            compiler = next((c for c in ("cc", "gcc", "clang") if shutil.which(c)), None)
            if compiler:
                want_memory(folder, compiler)
            for size in (count // 10, count):
                measure(folder, size)
        except Differs as differs:
            sys.exit(f"cdb.py: {differs}")


if __name__ == "__main__":
    main()
