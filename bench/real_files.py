#!/usr/bin/env python3
"""Shows on the built program what holds of the files that it reads and replaces, and of the file that it appends to.

usage: bench/real_files.py [--program PATH]      (crates/postgate/out/postgate where it is left out)

It prints one line for each property, which begins with 'holds' or 'fails', and ends with 1 where one fails. What wants
root, which is a device, files of other users and a mount point, is skipped elsewhere, and says so. It takes about a minute.
"""
import argparse
import fcntl
import itertools
import os
import pty
import random
import re
import shutil
import signal
import socket
import stat
import subprocess
import sys
import tempfile
import threading
import time
from concurrent.futures import ThreadPoolExecutor
from contextlib import contextmanager
from pathlib import Path

BUILT = Path(__file__).resolve().parent.parent / "crates/postgate/out/postgate"
READS = 1000
ROUNDS = 300
CRASHES = 200
SESSIONS = 4
RECIPIENTS = 2000
A_PIECE = 80
SETTINGS = 480
LONGEST = 20.0
NOBODY = 65534
# 30 KB of text: longer than what one read takes, so that a mixture of two texts could come out.
FILLER = "x" * 50
SESSION_CF = """myhostname = mx.example.com
mydestination = example.com
mynetworks = 10.0.0.0/8
smtpd_relay_restrictions = permit_mynetworks, reject_unauth_destination
"""
SESSION = ["smtpd", "-p", "192.0.2.9", "-m", "mail"]
SESSION_TEXT = "MAIL FROM:<a@b.test>\r\nRCPT TO:<joe@example.com>\r\n"
GREETING = "220 mx.example.com ESMTP Postfix\r\n"


class Shown(Exception):
    """A property that does not hold, and where."""


def want(holds, said):
    if not holds:
        raise Shown(said)


class Program:
    def __init__(self, path):
        self.path = str(path)

    def start(self, folder, *words, **how):
        return subprocess.Popen([self.path, *words], cwd=folder, **how)

    def run(self, folder, *words, text="", before=(), **how):
        """The status, the output and the log; a program that does not end in time has failed. The words of `before` start it."""
        try:
            done = subprocess.run([*before, self.path, *words], cwd=folder, input=text.encode(), capture_output=True,
                                  timeout=LONGEST, check=False, **how)
        except subprocess.TimeoutExpired as late:
            raise Shown(f"{' '.join(words)} hangs") from late
        return done.returncode, done.stdout.decode(), done.stderr.decode()

    def edit(self, folder, *settings, **how):
        return self.run(folder, "postconf", "-e", *settings, **how)[0]


def shell(commands="", redirections=""):
    return ["sh", "-c", f'{commands} exec "$0" "$@" {redirections}']


@contextmanager
def folder_with(text=None):
    with tempfile.TemporaryDirectory() as name:
        folder = Path(name)
        folder.chmod(0o777)
        if text is not None:
            (folder / "main.cf").write_text(text)
        yield folder


def names_in(folder):
    return sorted(entry.name for entry in folder.iterdir())


# Texts in which each line names its generation at both ends, and has a length of its own, so that each mixture of two shows.

def value(generation):
    return f"g{generation} {FILLER[generation % 7:]} g{generation}"


def words_of(generation):
    return [f"n{number:03}={value(generation)}" for number in range(SETTINGS)]


def text_of(generation):
    return "".join(f"n{number:03} = {value(generation)}\n" for number in range(SETTINGS))


def generation_of(text):
    found = re.match(r"n000 = g(\d+) ", text)
    want(found is not None, f"a text that begins with {text[:40]!r}")
    return int(found[1])


def reads_under_edits(program):
    """1,000 reads while the file is edited and replaced by rename"""
    over = threading.Event()
    edits, renames, statuses = [], [], set()

    def change(folder):
        for generation in itertools.count(2):
            if over.is_set():
                return
            if generation % 2:
                statuses.add(program.edit(folder, *words_of(generation)))
                edits.append(generation)
            else:
                (folder / "other").write_text(text_of(generation))
                os.rename(folder / "other", folder / "main.cf")
                renames.append(generation)

    def read(folder):
        status, out, log = program.run(folder, "postconf", "-n")
        want(status == 0, f"a read has status {status}: {log}")
        seen = generation_of(out)
        want(out == text_of(seen), f"a mixture: generation {seen} at its beginning")
        return seen

    with folder_with(text_of(1)) as folder:
        changes = threading.Thread(target=change, args=(folder,))
        changes.start()
        try:
            with ThreadPoolExecutor(2) as pool:
                seen = set(pool.map(lambda _: read(folder), range(READS)))
        finally:
            over.set()
            changes.join()
        want(statuses == {0}, f"edits with the statuses {statuses}")
        want(names_in(folder) == ["main.cf"], f"left beside: {names_in(folder)}")
    return (f"{READS} reads of {len(text_of(1))} bytes saw {len(seen)} whole texts and no mixture, under {len(edits)} edits "
            f"and {len(renames)} renames")


def two_edits_at_once(program):
    """300 rounds of two edits at once"""
    both = one = none = 0
    with folder_with() as folder:
        for number in range(ROUNDS):
            base = SESSION_CF + "a = 0\nb = 0\n"
            (folder / "main.cf").write_text(base)
            started = [program.start(folder, "postconf", "-e", f"{name}={number + 1}", stderr=subprocess.DEVNULL)
                       for name in "ab"]
            statuses = [process.wait(LONGEST) for process in started]
            want(set(statuses) <= {0, 8}, f"round {number}: the statuses {statuses}")
            a, b = (number + 1 if status == 0 else 0 for status in statuses)
            text = (folder / "main.cf").read_text()
            want(text == SESSION_CF + f"a = {a}\nb = {b}\n", f"round {number}: the statuses {statuses}, and the file is {text!r}")
            want(names_in(folder) == ["main.cf"], f"round {number}: left beside: {names_in(folder)}")
            both, one, none = both + (statuses == [0, 0]), one + (sorted(statuses) == [0, 8]), none + (statuses == [8, 8])
    return f"{ROUNDS} rounds lost no edit of status 0 and left nothing beside: {both} times both came through, {one} times one, {none} times none"


def crashes(program):
    """200 edits killed at a random moment"""
    old = new = left = whole = 0
    with folder_with(text_of(0)) as folder:
        begun = time.monotonic()
        want(program.edit(folder, *words_of(1)) == 0, "an edit is refused")
        longest = 1.3 * (time.monotonic() - begun)
        for number in range(CRASHES):
            before = (folder / "main.cf").read_text()
            process = program.start(folder, "postconf", "-e", *words_of(number + 2))
            time.sleep(random.uniform(0, longest))
            process.send_signal(signal.SIGKILL)
            whole += process.wait(LONGEST) == 0
            text = (folder / "main.cf").read_text()
            want(text in (before, text_of(number + 2)), f"crash {number}: main.cf has {len(text)} bytes, neither the old text nor the new one")
            old, new = old + (text == before), new + (text != before)
            left += names_in(folder) != ["main.cf"]
            if number % 4 == 3:
                want(program.edit(folder, "n000=" + value(0), "n000b=1") == 0, f"after crash {number} an edit is refused")
                want(names_in(folder) == ["main.cf"], f"after crash {number} and an edit: left beside: {names_in(folder)}")
                (folder / "main.cf").write_text(text)
    return (f"{CRASHES} edits killed at a random moment left {old} times the old text and {new} times the new one ({whole} were over), "
            f"{left} times a file beside, which the next edit removed")


def make_socket(path):
    server = socket.socket(socket.AF_UNIX)
    here = os.open(".", os.O_RDONLY)
    os.chdir(path.parent)
    server.bind(path.name)
    os.fchdir(here)
    os.close(here)
    server.close()


def limited(program):
    """an edit that a limit on the size of files ends"""
    with folder_with(text_of(0)) as folder:
        (folder / "main.cf").chmod(0o600)
        status = program.edit(folder, "b=2", before=shell("umask 0; ulimit -c 0; ulimit -f 1;"))
        want(status == -signal.SIGXFSZ, f"the status {status}")
        want((folder / "main.cf").read_text() == text_of(0), "main.cf is changed")
        want(names_in(folder) == ["main.cf", "main.cf.tmp"], f"it left {names_in(folder)}")
        mode = stat.S_IMODE(os.stat(folder / "main.cf.tmp").st_mode)
        want(mode == 0o600, f"main.cf.tmp has the permissions {mode:o}")
        want(program.edit(folder, "b=2") == 0, "the next edit is refused")
        want(names_in(folder) == ["main.cf"], f"left beside: {names_in(folder)}")
    return ("an edit that `ulimit -f` ends leaves main.cf as it was, and main.cf.tmp, which only the owner can read where that is so "
            "of main.cf, and which the next edit removes")


KINDS = [
    ("a FIFO", os.mkfifo),
    ("a socket", make_socket),
    ("a folder", Path.mkdir),
    ("a device", lambda path: os.mknod(path, stat.S_IFCHR | 0o666, os.makedev(1, 5))),
]


def no_plain_file(program):
    """names that are no plain files"""
    kinds = KINDS if os.geteuid() == 0 else KINDS[:-1]
    shown = []
    for (kind, make), linked in itertools.product(kinds, (False, True)):
        with folder_with() as folder:
            make(folder / ("other" if linked else "main.cf"))
            if linked:
                (folder / "main.cf").symlink_to("other")
            refuse_all(program, folder, f"a link to {kind}" if linked else kind)
        shown += [kind]
    for target in ("/dev/zero", "/dev/null", "/proc/version", "nothing"):
        with folder_with() as folder:
            (folder / "main.cf").symlink_to(target)
            refuse_all(program, folder, f"a link to {target}")
    return (f"{', '.join(dict.fromkeys(shown))}, a link to each, and links to /dev/zero, /dev/null, /proc/version and nothing give "
            "status 8, at once, to reads and edits, and stay")


def refuse_all(program, folder, kind):
    entries = [(entry, os.lstat(entry)) for entry in sorted(folder.iterdir())]
    for words in (["postconf", "-n"], ["postconf", "-e", "a=1"], SESSION):
        status, out, log = program.run(folder, *words)
        want((status, out, log) == (8, "", "postgate: main.cf: read failed\n"), f"{kind}, {words[0]}: {(status, out, log)}")
    now = [(entry, os.lstat(entry)) for entry in sorted(folder.iterdir())]
    want([(entry, was.st_ino, was.st_mode) for entry, was in entries] == [(entry, was.st_ino, was.st_mode) for entry, was in now],
         f"{kind}: it did not stay as it was")


def links(program):
    """an edit through links"""
    with folder_with() as folder:
        (folder / "below").mkdir()
        (folder / "below/target").write_text("a = 1\n")
        (folder / "below/link").symlink_to("target")
        (folder / "main.cf").symlink_to("below/link")
        want(program.edit(folder, "a=2") == 0, "an edit is refused")
        want(os.readlink(folder / "main.cf") == "below/link" and os.readlink(folder / "below/link") == "target", "a link is lost")
        want((folder / "below/target").read_text() == "a = 2\n", "the target is not edited")
        want((names_in(folder), names_in(folder / "below")) == (["below", "main.cf"], ["link", "target"]), "something is left beside")
    return "an edit through two links replaces the file that they lead to, and the links stay"


def read_alone(program):
    """files that are read and not replaced"""
    shown = ["a link to a path that is not UTF-8", "a link to a name that leaves no room for .tmp"]
    for target in (b"caf\xe9/target", b"t" * 252):
        with folder_with() as folder:
            path = os.path.join(os.fsencode(folder), target)
            os.makedirs(os.path.dirname(path), exist_ok=True)
            Path(os.fsdecode(path)).write_text("a = 1\n")
            os.symlink(target, os.path.join(os.fsencode(folder), b"main.cf"))
            want_read_alone(program, folder, f"a link to {target[:12]!r}")
    if subprocess.run(["unshare", "-m", "true"], capture_output=True, check=False).returncode == 0:
        with folder_with("") as folder:
            (folder / "other").write_text("a = 1\n")
            want_read_alone(program, folder, "a mount point", before=["unshare", "-m", *shell("mount --bind other main.cf;")])
        shown.append("a mount point")
    else:
        shown.append("(a mount point: skipped, which wants root)")
    return f"read and not replaced, with status 8 and nothing changed: {', '.join(shown)}"


def want_read_alone(program, folder, kind, **how):
    def texts():
        return sorted((path, path.read_text()) for path in folder.rglob("*") if path.is_file())

    before = texts()
    got = program.run(folder, "postconf", "-n", **how)
    want(got == (0, "a = 1\n", ""), f"{kind}: a read gives {got}")
    got = program.run(folder, "postconf", "-e", "a=2", **how)
    want(got == (8, "", "postgate: main.cf: replace failed\n"), f"{kind}: an edit gives {got}")
    want(texts() == before, f"{kind}: the edit leaves {texts()}")


def taken_beside(program):
    """the name beside the file"""
    with folder_with("a = 1\n") as folder:
        beside = folder / "main.cf.tmp"
        beside.write_text("half of a te")
        want(program.edit(folder, "a=2") == 0, "what a broken run left stops an edit")
        want(names_in(folder) == ["main.cf"], f"left beside: {names_in(folder)}")
        with open(beside, "w") as other:
            fcntl.flock(other, fcntl.LOCK_EX)
            want(program.edit(folder, "a=3") == 8, "an edit goes past a lock")
            want(names_in(folder) == ["main.cf", "main.cf.tmp"], "the file of another edit is removed")
        beside.unlink()
        for kind, make in KINDS[:3] + [("a link", lambda path: path.symlink_to("main.cf")), ("a link to nothing", lambda path: path.symlink_to("no"))]:
            make(beside)
            want(program.edit(folder, "a=3") == 8, f"{kind} beside: the edit goes on")
            want(names_in(folder) == ["main.cf", "main.cf.tmp"], f"{kind} beside: it is removed")
            beside.rmdir() if kind == "a folder" else beside.unlink()
        want((folder / "main.cf").read_text() == "a = 2\n", "an edit that was refused changed the file")
    return "what a broken run left as main.cf.tmp is removed; a lock on it, and anything else of that name, refuses the edit"


def owners(program):
    """owner, group and permissions"""
    if os.geteuid() != 0:
        with folder_with("a = 1\n") as folder:
            (folder / "main.cf").chmod(0o604)
            want(program.edit(folder, "a=2") == 0, "an edit is refused")
            want(stat.S_IMODE(os.stat(folder / "main.cf").st_mode) == 0o604, "the permissions are lost")
        return "an edit keeps the permissions (owner and group: skipped, which want root)"
    for owner, group, mode in ((0, 0, 0o644), (NOBODY, 0, 0o640), (12, 34, 0o600), (0, 12, 0o622), (NOBODY, NOBODY, 0o2664)):
        with folder_with("a = 1\n") as folder:
            os.chown(folder / "main.cf", owner, group)
            (folder / "main.cf").chmod(mode)
            want(program.edit(folder, "a=2") == 0, f"{owner}:{group} {mode:o}: an edit by root is refused")
            now = os.stat(folder / "main.cf")
            want((now.st_uid, now.st_gid, stat.S_IMODE(now.st_mode)) == (owner, group, mode),
                 f"{owner}:{group} {mode:o}: {now.st_uid}:{now.st_gid} {stat.S_IMODE(now.st_mode):o} after an edit by root")
    for owner, group in ((0, 0), (0, NOBODY), (NOBODY, 0)):
        with folder_with("a = 1\n") as folder:
            os.chown(folder / "main.cf", owner, group)
            was = os.stat(folder / "main.cf")
            status = program.edit(folder, "a=2", user=NOBODY, group=NOBODY, extra_groups=[])
            want(status == 8, f"{owner}:{group}: an edit by another has status {status}")
            want((folder / "main.cf").read_text() == "a = 1\n" and os.stat(folder / "main.cf").st_ino == was.st_ino, "it changed the file")
            want(names_in(folder) == ["main.cf"], f"left beside: {names_in(folder)}")
    return "an edit by root keeps owner, group and permissions; an edit by one who can't give them is refused, and nothing is changed"


def shared_log(program):
    """four sessions with one log"""
    kept = "an earlier session\n"
    with folder_with(SESSION_CF) as folder:
        (folder / "log").write_text(kept)
        with ThreadPoolExecutor(SESSIONS) as pool:
            statuses = list(pool.map(lambda session: log_session(program, folder, session), range(SESSIONS)))
        want(statuses == [0] * SESSIONS, f"sessions with the statuses {statuses}")
        text = (folder / "log").read_text()
        want(text.startswith(kept), "what the log held is lost")
        lines = text[len(kept):].splitlines()
        for session in range(SESSIONS):
            mine = [line for line in lines if f"@s{session}.test>" in line]
            want(mine == [log_line(session, number) for number in range(RECIPIENTS)], f"the lines of session {session} are torn or lost")
        want(len(lines) == SESSIONS * RECIPIENTS, "the log has other lines")
        turns = sum(one.split("@")[1] != other.split("@")[1] for one, other in zip(lines, lines[1:]))
        want(not (folder / "mail").exists(), "the record was made")
    return f"{SESSIONS} sessions wrote {len(lines)} whole lines to one log, which kept its text; the session changed {turns} times from line to line"


def log_session(program, folder, session):
    """Runs a session whose input comes in small pieces, by a packet pipe, so that each is a write to the log."""
    text = "MAIL FROM:<a@b.test>\r\n" + "".join(f"RCPT TO:<user{number}@s{session}.test>\r\n" for number in range(RECIPIENTS))
    source, pipe = os.pipe2(os.O_DIRECT | os.O_CLOEXEC)
    process = program.start(folder, *SESSION, "-l", "log", stdin=source, stdout=subprocess.DEVNULL)
    os.close(source)
    try:
        for at in range(0, len(text), A_PIECE):
            os.write(pipe, text[at:at + A_PIECE].encode())
    finally:
        os.close(pipe)
    return process.wait(LONGEST)


def log_line(session, number):
    return f"{number + 2} RCPT <user{number}@s{session}.test> deny smtpd_relay_restrictions[2] reject_unauth_destination -"


def other_logs(program):
    """logs that are no plain files"""
    text = SESSION_TEXT
    line = "2 RCPT <joe@example.com> accept\n"
    words = [*SESSION, "-l"]
    with folder_with(SESSION_CF) as folder:
        want(program.run(folder, *words, "/dev/null", text=text)[0] == 0, "/dev/null")
        want(program.run(folder, *words, "/dev/stderr", text=text)[::2] == (0, line), "a pipe by /dev/stderr")
        want(program.run(folder, *words, "/dev/full", text=text)[0] == 7, "/dev/full")
        os.mkfifo(folder / "fifo")
        reader = os.open(folder / "fifo", os.O_RDONLY | os.O_NONBLOCK)
        want(program.run(folder, *words, "fifo", text=text)[0] == 0 and os.read(reader, 1000).decode() == line, "a FIFO")
        os.close(reader)
        ours, theirs = pty.openpty()
        want(program.run(folder, *words, os.ttyname(theirs), text=text)[0] == 0, "a terminal")
        want(os.read(ours, 1000).decode().replace("\r\n", "\n") == line, "a terminal gets another line")
        (folder / "log").write_text("kept\n")
        (folder / "link").symlink_to("log")
        want(program.run(folder, *words, "link", text=text)[0] == 0 and (folder / "log").read_text() == "kept\n" + line, "a link")
        want(program.run(folder, *words, ".", text=text)[0] == 7, "a folder")
    return "a log by the name of /dev/null, a pipe, a FIFO, a terminal or a link is written to as it is; /dev/full and a folder give status 7"


def want_run(program, folder, redirections, words, wanted):
    got = program.run(folder, *words, text=SESSION_TEXT, before=shell(redirections=redirections))
    want(got == wanted, f"{' '.join(words)} {redirections}: {got}")


def closed_input(program):
    """standard input that is closed"""
    with folder_with(SESSION_CF) as folder:
        want_run(program, folder, "<&-", [*SESSION, "-l", "log"], (4, GREETING, ""))
        want_run(program, folder, "<&-", SESSION, (4, GREETING, ""))
        want_run(program, folder, "<&-", ["postconf", "-n", "mynetworks"], (0, "mynetworks = 10.0.0.0/8\n", ""))
        want(names_in(folder) == ["main.cf"], f"it left {names_in(folder)}")
    return "with standard input closed a session has the greeting alone and status 4, and no line in its log; postconf is as ever"


def closed_output(program):
    """standard output that is closed"""
    with folder_with(SESSION_CF) as folder:
        for redirections in (">&-", "<&- >&-"):
            want_run(program, folder, redirections, [*SESSION, "-l", "log"], (5, "", ""))
            want_run(program, folder, redirections, ["postconf", "-n"], (5, "", ""))
        want((folder / "main.cf").read_text() == SESSION_CF and names_in(folder) == ["main.cf"], f"it left {names_in(folder)}")
        want_run(program, folder, "<&- >&-", ["postconf", "-e", "a=1"], (0, "", ""))
        want((folder / "main.cf").read_text() == SESSION_CF + "a = 1\n", "the edit is not there")
    return "with standard output closed a session and postconf have status 5, and no file has their lines; an edit is as ever"


def closed_log(program):
    """standard error that is closed"""
    with folder_with(SESSION_CF) as folder:
        want_run(program, folder, "2>&-", SESSION, (7, GREETING, ""))
        for redirections in ("2>&-", "<&- 2>&-", "<&- >&- 2>&-"):
            want_run(program, folder, redirections, ["postconf", "nosuch"], (7, "", ""))
            want_run(program, folder, redirections, ["nosuch"], (7, "", ""))
            (folder / "main.cf.tmp").mkdir()
            want_run(program, folder, redirections, ["postconf", "-e", "a=1"], (7, "", ""))
            (folder / "main.cf.tmp").rmdir()
        want((folder / "main.cf").read_text() == SESSION_CF and names_in(folder) == ["main.cf"], f"it left {names_in(folder)}")
        want_run(program, folder, "<&- >&- 2>&-", ["postconf", "-e", "a=1"], (0, "", ""))
        want((folder / "main.cf").read_text() == SESSION_CF + "a = 1\n", "the edit is not there")
    return "with standard error closed a log line, a warning, the usage line and a fault have status 7, and no file has their lines"


PROPERTIES = [reads_under_edits, two_edits_at_once, crashes, limited, no_plain_file, links, read_alone, taken_beside, owners, shared_log,
              other_logs, closed_input, closed_output, closed_log]


def main():
    asked = argparse.ArgumentParser(description="Shows what holds of the real files of the built program.")
    asked.add_argument("--program", type=Path, default=BUILT)
    path = asked.parse_args().program.resolve()
    if not os.access(path, os.X_OK):
        sys.exit(f"real_files.py: {path} is not built")
    failed = 0
    with folder_with() as folder:
        # A copy that other users can run too.
        program = Program(shutil.copy(path, folder / "postgate"))
        for holds in PROPERTIES:
            try:
                print(f"holds: {holds(program)}", flush=True)
            except (Shown, OSError, subprocess.TimeoutExpired) as fault:
                failed = 1
                print(f"fails: {holds.__doc__}: {fault}", flush=True)
    return failed


if __name__ == "__main__":
    os.environ["LC_ALL"] = "C"
    sys.exit(main())
