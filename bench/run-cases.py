#!/usr/bin/env python3
"""Runs case files on the built program, with real files, pipes and devices. docs/CASES.md is the reference of their format.
usage: bench/run-cases.py [--program PATH] [FILE..]    (crates/postgate/out/postgate and all of crates/cases/data)

Each run has a folder of its own. Reads of N bytes are packets of a pipe. A read fails from a folder as standard input, a
write to a full device, a call of the files where what is read is a folder or no file may grow. What only memory can do is skipped
and counted. It prints a line a file, behind it a line for each difference, and last the counts. It ends with 1 where a run
differs or can not be made, and with 2 where the program or a case file can not be had, or memory is wanting.
"""
import argparse
import errno
import fcntl
import os
import re
import subprocess
import sys
import tempfile
import threading
from collections import Counter
from concurrent.futures import ThreadPoolExecutor
from contextlib import suppress
from itertools import chain, takewhile
from pathlib import Path
from types import SimpleNamespace

ROOT = Path(__file__).resolve().parent.parent
CASES = ROOT / "crates/cases/data"
SIZES = (0, 1, 7)                      # the reads of a case that names none; 0 sets no limit
GREATEST = 4_294_967_296
PIPE_SIZE, SECONDS, SHOWN = 1 << 20, 120, 2000
NOT_TAKEN = "a word or a name that the system can not take"
NOT_TAKEN_ERRORS = (errno.E2BIG, errno.EEXIST, errno.EINVAL, errno.EISDIR, errno.ENAMETOOLONG, errno.ENOTDIR)
READ_FAILS, OUTPUT_FAILS = "the Nth read fails", "the Nth write of the output fails"
RECORD_FAILS, LOG_FAILS = "the Nth write of the record fails", "the Nth write of the log fails"
FILES_FAIL = "the Nth call of the files fails"
STATUS_OF = {READ_FAILS: 4, OUTPUT_FAILS: 5, RECORD_FAILS: 6, LOG_FAILS: 7, FILES_FAIL: 8}
LOOKS, REPLACE_CALL = (1, 2), 3        # a file that one read takes is asked for its size and its text, and then one is replaced
ORDINAL = "([0-9]*(?:(?<!1)1st|(?<!1)2nd|(?<!1)3rd|1[123]th|[04-9]th))"
STATEMENTS = {text: re.compile(text.replace("Nth", ORDINAL).replace("N", "([0-9]+)").encode()) for text in (
    "status N", "reads of N bytes", *STATUS_OF, "only the first N replies", "only the first N log lines",
    "N bytes are left unread", "the client ends its lines with LF", "each call fails in turn", "there are N reads",
    *(f"there are N {calls}" for calls in ("writes of the output", "writes of the record", "writes of the log",
                                           "calls of the files")), "in memory only")}
COMMAND = re.compile(rb"\$ postgate(?:[ \t](.*))?", re.S)
REFUSED = b"refused: "
TITLES = (b"session", b"input", b"output", b"log", b"record")
AFTERWARDS = b" afterwards"
ESCAPE = re.compile(rb"\\(?:(?P<letter>[nrts\\])|x(?P<hex>[0-9A-Fa-f]{2})|\{(?P<byte>[^}]) x (?P<times>[0-9]+)\}"
                    rb"|(?P<cut>c\Z)|)", re.S)
LETTERS = {b"n": b"\n", b"r": b"\r", b"t": b"\t", b"s": b" ", b"\\": b"\\"}


class Refused(Exception):
    """The words with which the reader refuses a case."""


class Skipped(Exception):
    """Why a case is not run on real objects."""


def between(line, front, end):
    """What stands between two marks; blanks, tabs and a CR behind the second do not count."""
    inner = line.removeprefix(front).rstrip(b" \t\r")
    return inner.removesuffix(end).strip(b" \t") if line.startswith(front) and inner.endswith(end) else None


def is_silent(line):
    return not line.strip(b" \t") or line.startswith(b"#")


def decoded(text, refusal):
    """The text, which is refused where it is no UTF-8."""
    if text != text.decode(errors="ignore").encode():
        raise Refused(refusal)
    return text


def number_of(digits):
    """The number that digits write; of one that is far too great the front."""
    return int(digits.lstrip(b"0")[:len(str(GREATEST)) + 1] or b"0")


def read_escape(match):
    if match["hex"]:
        return bytes.fromhex(match["hex"].decode())
    if match["byte"] and number_of(match["times"]) <= GREATEST:
        return match["byte"] * number_of(match["times"])
    if match["letter"] or match["cut"]:
        return LETTERS.get(match["letter"], b"")
    raise Refused("bad escape")


def ended(line, has_escapes, end):
    """A line of a section with its end, unless it says that none follows."""
    if not has_escapes:
        return line + end
    return ESCAPE.sub(read_escape, line) + (b"" if any(match["cut"] for match in ESCAPE.finditer(line)) else end)


def words_of(line):
    """The words of a command line behind its prompt."""
    words = []
    for word in re.findall(rb"(?:[^ \t']|'[^']*(?:'|\Z))+", line):
        if word.count(b"'") % 2:
            raise Refused("open quote")
        words.append(decoded(word.replace(b"'", b""), "no such statement"))
    return words


class Plan:
    """What a case, or one row of it, runs and wants: words, statements with their numbers, and texts by their titles."""

    def __init__(self, has_line_feeds):
        self.words = None
        self.client_end = b"\n" if has_line_feeds else b"\r\n"
        self.numbers, self.texts, self.layers = {}, {}, {}

    def say(self, line, layer):
        """Takes a statement, and gives its kind."""
        if line.startswith(REFUSED):
            return REFUSED
        if command := COMMAND.fullmatch(line):
            self.words = words_of(command[1] or b"")
            return COMMAND
        for statement, pattern in STATEMENTS.items():
            match = pattern.fullmatch(line)
            number = number_of(match[1].rstrip(b"stndrh")) if match and pattern.groups else 0
            if match and number <= GREATEST:
                if self.layers.get(statement) != layer:
                    self.layers[statement], self.numbers[statement] = layer, []
                self.numbers[statement].append(number)
                return statement
        raise Refused("no such statement")

    def number(self, statement):
        return self.numbers.get(statement, [0])[-1]

    def begin(self, title, layer):
        if self.layers.get(title) == layer:
            raise Refused("two sections of one title")
        self.layers[title], self.texts[title] = layer, b""

    def give_way(self, title, layer):
        if self.layers.get(title) != layer:
            self.layers[title], self.texts[title] = None, b""

    def files(self):
        """The names of the files and their texts, before the run and afterwards."""
        files = {title: text for title, text in self.texts.items() if title not in TITLES}
        before = {title: text for title, text in files.items() if not title.endswith(AFTERWARDS)}
        after = {title.removesuffix(AFTERWARDS): text for title, text in files.items() if title not in before}
        return before, {**before, **after}


class Section:
    """A section as it is read, line by line."""

    def __init__(self, plan, layer, title):
        self.plan, self.layer = plan, layer
        self.title = title.removesuffix(b", with escapes")
        self.has_escapes = self.title != title
        self.empty_lines, self.spoken = 0, set()
        name = decoded(self.title, "no such section").removesuffix(AFTERWARDS)
        if self.title not in TITLES and not re.search(rb"[./]", name):
            raise Refused("no such section")
        plan.begin(self.title, layer)
        if self.title == b"session":
            plan.give_way(b"input", layer)
            plan.give_way(b"output", layer)

    def take_spoken(self, line):
        if not re.match(rb"[CS]:(?: |\Z)", line):
            raise Refused("no line of a session")
        title, end = (b"input", self.plan.client_end) if line[:1] == b"C" else (b"output", b"\r\n")
        if title not in self.spoken:
            self.spoken.add(title)
            self.plan.begin(title, self.layer)
        self.plan.texts[title] += ended(line[3:], self.has_escapes, end)

    def take(self, line):
        if not line:
            self.empty_lines += 1
        elif self.title == b"session":
            self.take_spoken(line)
        else:
            self.plan.texts[self.title] += b"\n" * self.empty_lines + ended(line, self.has_escapes, b"\n")
            self.empty_lines = 0


def read_plan(parts):
    """What a case, or one row of it, says, from what its file shares and its own text."""
    plan = Plan(any(b"the client ends its lines with LF" in part.split(b"\n") for part in parts))
    for layer, part in enumerate(parts):
        section, said = None, set()
        for line in part.split(b"\n"):
            if (title := between(line, b"-- ", b" --")) is not None:
                section = Section(plan, layer, title)
            elif section:
                section.take(line)
            elif not is_silent(line):
                if (kind := plan.say(line, layer)) in said:
                    raise Refused("two statements of one kind")
                said.update({kind} - STATUS_OF.keys())
    if plan.words is None:
        raise Refused("no command")
    return plan


def wanted_refusal(*parts):
    """The words with which the reader has to refuse, from the statements of the first part that has them."""
    statements = (takewhile(lambda line: between(line, b"-- ", b" --") is None, part.split(b"\n")) for part in parts)
    return next((line.removeprefix(REFUSED) for line in chain(*statements) if line.startswith(REFUSED)), b"")


def filled(text, cells):
    """A text with the cells of a row in their places; a line that holds nothing but empty cells goes away."""
    names = [re.escape(name) for name in cells if name and b"}" not in name]
    if not names:
        return text
    place, lines = re.compile(rb"\{(" + b"|".join(names) + rb")\}"), []
    for line in text.split(b"\n"):
        line, times = place.subn(lambda match: cells[match[1]], line)
        lines += [line] if line or not times else []
    return b"\n".join(lines)


def rows_of(case):
    """The place of each row, its cells, and why it is refused, if it is; a case without rows is one without cells."""
    columns, *lines = [[cell.strip(b" \t") for cell in line.split(b"|")] for line in sum(case.tables, [])] or [[]]
    if not case.name or len(case.tables) > 1 or not lines:
        refusal = "two sections of one title" if len(case.tables) > 1 else "no rows" if case.tables else ""
        return [("", {}, refusal if case.name else "case without a name")]
    has_twins, rows = len({*columns}) < len(columns), []
    for number, cells in enumerate(lines, 1):
        refusal = "two columns of one name" if has_twins else "" if len(cells) == len(columns) else "another number of cells"
        rows.append((f"row {number}: ", {} if refusal else dict(zip(columns, cells)), refusal))
    return rows


def read_file(path):
    """What the cases of a file share, and its cases."""
    shared, cases = [], []
    lines = shared
    for line in path.read_bytes().split(b"\n"):
        name, title = between(line, b"== ", b" =="), between(line, b"-- ", b" --")
        if name is not None:
            cases.append(SimpleNamespace(name=name, own=[], tables=[]))
            lines = cases[-1].own
        elif title == b"rows" and cases:
            lines = []
            cases[-1].tables.append(lines)
        elif title is None and cases and lines is not cases[-1].own:
            lines += [] if is_silent(line) else [line]
        else:
            lines = cases[-1].own if cases else shared
            lines.append(line)
    return b"\n".join(shared), cases


def option(words, letter):
    """The value of an option of smtpd."""
    for word, after in zip(words[1:], words[2:] + [b""]):
        if word[:2] == b"-" + letter:
            return word[2:].removeprefix(b"=") if len(word) > 2 else after
    return None


def replaces(words):
    """Whether the words replace a file: by an edit, or by building a table."""
    return b"-e" in words or words[:1] == [b"postmap"] and not any(re.match(rb"-f?[qs]", word) for word in words)


def sink_names(plan):
    """The files of the record and of the log, where the words name them."""
    if plan.words[:1] != [b"smtpd"] or plan.number("status N") == 2:
        return None, None
    return option(plan.words, b"m"), option(plan.words, b"l")


def faults(plan):
    """The objects whose calls fail, each by a device; skips a plan which means another thing with real files than in memory."""
    found, names = {}, [*plan.files()[1], *(name for name in sink_names(plan) if name is not None)]
    if "in memory only" in plan.numbers:
        raise Skipped("in memory only")
    if any(name.startswith(b"/") or b".." in name.split(b"/") for name in names):
        raise Skipped("a file outside of the case's folder")
    if len({os.path.normpath(name) for name in names}) < len(names):
        raise Skipped("a file with two names, or a sink that is another file of the case")
    if any(b"\0" in text for text in plan.words + names):
        raise Skipped(NOT_TAKEN)
    for statement in STATUS_OF:
        numbers = [number for number in plan.numbers.get(statement, []) if number]    # 0 is no call
        calls = [*LOOKS, *[REPLACE_CALL] * replaces(plan.words)] if statement == FILES_FAIL else [1]
        if numbers and numbers not in [[call] for call in calls]:
            raise Skipped(f"only memory can let a call fail behind others: {statement}")
        found.update({statement: number for number in numbers})
    return found


def write_new(room, name, text):
    path = os.path.join(os.fsencode(room), name)
    os.makedirs(os.path.dirname(path), exist_ok=True)
    with open(path, "xb") as file:
        file.write(text)
    return Path(os.fsdecode(path))


def place_files(room, plan, failing):
    for name, text in plan.files()[0].items():
        path = write_new(room, name, text)
        if failing.get(FILES_FAIL) in LOOKS and (path.name == "main.cf" or plan.words[:1] == [b"postmap"]):
            path.unlink()
            path.mkdir()
    for name, title, statement in zip(sink_names(plan), (b"record", b"log"), (RECORD_FAILS, LOG_FAILS)):
        if name is not None and (plan.texts.get(title) or statement in failing):
            path = write_new(room, name, b"")
            path.unlink()
            if statement in failing:
                path.symlink_to("/dev/full")


def open_input(plan, most, failing, room):
    """The end of standard input that the program reads, and whether it is a pipe, which a thread feeds."""
    if READ_FAILS in failing:
        return os.open(room, os.O_RDONLY), False
    source, end = os.pipe2(os.O_CLOEXEC | (os.O_DIRECT if most else 0))
    fcntl.fcntl(end, fcntl.F_SETPIPE_SZ, PIPE_SIZE)
    text, size = plan.texts.get(b"input", b""), most or PIPE_SIZE

    def feed():
        with suppress(BrokenPipeError), open(end, "wb", buffering=0) as pipe:
            for at in range(0, len(text), size):
                pipe.write(text[at:at + size])
    feeder = threading.Thread(target=feed, daemon=True)
    feeder.start()
    if not most:
        feeder.join(1)                 # so that the first read finds all of it
    return source, True


def run(program, plan, most, failing):
    """What the words of a plan leave in a folder of their own, in reads of at most so many bytes, while these calls fail."""
    record, log = (name and os.path.normpath(name) for name in sink_names(plan))
    command = [os.fsencode(program), *plan.words]
    if failing.get(FILES_FAIL) == REPLACE_CALL:
        command = ["sh", "-c", 'ulimit -f 0; trap "" XFSZ; exec "$@"', "sh", *command]
    with tempfile.TemporaryDirectory(prefix="case-") as folder, open("/dev/full", "wb") as full:
        room = Path(folder)
        place_files(room, plan, failing)
        source, is_pipe = open_input(plan, most, failing, room)
        output, errors = (full if statement in failing else subprocess.PIPE for statement in (OUTPUT_FAILS, LOG_FAILS))
        try:
            done = subprocess.run(command, cwd=room, stdin=source, stdout=output, stderr=errors, timeout=SECONDS)
            unread = sum(map(len, iter(lambda: os.read(source, PIPE_SIZE), b""))) if is_pipe else 0
        finally:
            os.close(source)
        files = {os.fsencode(path.relative_to(room)): path.read_bytes()
                 for path in room.rglob("*") if path.is_file() and not path.is_symlink()}
    output, errors = done.stdout or b"", done.stderr or b""
    return SimpleNamespace(
        status=done.returncode, output=output, record=files.pop(record, b""), files=files, unread=unread,
        can_tell_unread=is_pipe and most < 2,    # a read of less than a packet loses the rest of it
        log=errors if log is None else files.pop(log, b""), stray=b"" if log is None else errors)


def compared(plan, left, failing):
    """What differs: a name, what was wanted and what came."""
    files = {} if failing.get(FILES_FAIL) in LOOKS else {os.path.normpath(name): text for name, text in plan.files()[1].items()}
    pairs = [("status", plan.number("status N"), left.status)]
    for title, statement in ("output", "only the first N replies"), ("log", "only the first N log lines"), ("record", ""):
        text, most = plan.texts.get(title.encode(), b""), plan.number(statement) if statement in plan.numbers else None
        pairs.append((title, b"".join(re.findall(rb"[^\n]*\n|[^\n]+", text)[:most]), getattr(left, title)))
    pairs.append(("standard error beside the log", b"", left.stray))
    if "N bytes are left unread" in plan.numbers and left.can_tell_unread:
        pairs.append(("bytes unread", plan.number("N bytes are left unread"), left.unread))
    pairs += [(f"file {os.fsdecode(name)}", files.get(name), left.files.get(name)) for name in sorted({*files, *left.files})]
    return [pair for pair in pairs if pair[1] != pair[2]]


def turn_compared(whole, left, statement):
    """What differs where the first call of an object fails: the run is cut off or, where it makes no such call, whole."""
    if left.status == whole.status or left.status != STATUS_OF[statement]:
        pairs = [(what, getattr(whole, what), getattr(left, what)) for what in ("status", "output", "log", "record")]
        return [pair for pair in pairs if pair[1] != pair[2]]
    is_front = whole.output.startswith(left.output) and whole.record.startswith(left.record)
    is_told = re.fullmatch(rb"[^\n]*: (?:read|replace) failed\n", left.log) if statement == FILES_FAIL else (
        whole.log.startswith(left.log))
    return [] if is_front and is_told else [("texts", b"prefixes", left.log)]


def difference(what, wanted, came):
    """The line of a difference. Texts that are alike for long are shown from the first byte that differs."""
    pair = wanted, came
    same = len(os.path.commonprefix(pair)) if all(isinstance(text, bytes) for text in pair) else 0
    front, start = (b"..", same) if same >= SHOWN else (b"", 0)
    wanted, came = (repr(front + text[start:start + SHOWN])[1:] if isinstance(text, bytes) else text for text in pair)
    return f"{what}: wanted {wanted}, came {came}"


def judge_runs(program, plan):
    """The differences of each run of a plan."""
    failing, most = faults(plan), plan.number("reads of N bytes")
    for size in [most] if "reads of N bytes" in plan.numbers else SIZES:
        place, pairs = f"in reads of {size}: " * (size > 0), compared(plan, run(program, plan, size, failing), failing)
        yield [place + difference(*pair) for pair in pairs]
    if "each call fails in turn" in plan.numbers:
        whole = run(program, plan, most, {})
        for statement in STATUS_OF:
            pairs = turn_compared(whole, run(program, plan, most, {statement: 1}), statement)
            yield [f"where {statement.replace('Nth', '1st')}: {difference(*pair)}" for pair in pairs]


def judge_row(program, shared, own, cells, refusal):
    """The differences of a case, or of one row of it, how many runs it took, and why it was skipped, if it was."""
    parts, lines, runs, skipped = (filled(shared, cells), filled(own, cells)), [], 0, ""
    try:
        if refusal:
            raise Refused(refusal)
        for found in judge_runs(program, read_plan(parts)):
            lines, runs = lines + found, runs + 1
    except Refused as words:
        refusal = str(words)
    except Skipped as reason:
        skipped = str(reason)
    except (OSError, ValueError, subprocess.TimeoutExpired) as error:
        skipped = NOT_TAKEN if getattr(error, "errno", None) in NOT_TAKEN_ERRORS else ""
        lines += [] if skipped else [f"could not be run: {str(error)[:SHOWN]}"]
    wanted = wanted_refusal(*reversed(parts))
    return lines + [difference("refusal", wanted, refusal.encode())] * (wanted != refusal.encode()), runs, skipped


def judge_cases(file, shared, cases, program, pool, counts, skipped):
    """Runs the cases of a file and prints what differs."""
    answers, lines, rows = [], [], 0
    if not cases or len({case.name for case in cases}) < len(cases):
        lines.append(f"{file}: cases: wanted of different names, came none, or two of one name")
    for case in cases:
        for row, *rest in rows_of(case):
            place, rows = f"{file}: {case.name.decode(errors='replace')}: {row}", rows + bool(row)
            answers.append((place, pool.submit(judge_row, program, shared, b"\n".join(case.own), *rest)))
    for place, answer in answers:
        found, runs, reason = answer.result()
        lines += [place + line for line in found]
        counts["runs"] += runs
        skipped.update([reason] if reason else [])
    counts.update(cases=len(cases), rows=rows, differences=len(lines))
    print("\n".join([f"{file}: {len(cases)} cases, {rows} rows", *lines]), flush=True)


def complain(text):
    print(f"run-cases.py: {text}", file=sys.stderr)
    return 2


def main():
    parser = argparse.ArgumentParser(description=__doc__.splitlines()[0])
    parser.add_argument("--program", type=Path, default=ROOT / "crates/postgate/out/postgate")
    parser.add_argument("files", nargs="*", type=Path, metavar="FILE")
    asked = parser.parse_args()
    files = asked.files or sorted(CASES.glob("*.case"))
    sys.stdout.reconfigure(errors="backslashreplace")
    if not (asked.program.is_file() and os.access(asked.program, os.X_OK)):
        return complain(f"no program {asked.program}: scripts/build.py builds it")
    counts, skipped, status = Counter(), Counter(), 0 if files else complain(f"no case file in {CASES}")
    with ThreadPoolExecutor(2 * (os.cpu_count() or 1)) as pool:
        for path in files:
            try:
                file = read_file(path)
            except (OSError, MemoryError) as error:
                status = complain(f"{path}: {getattr(error, 'strerror', 'not enough memory')}")
                continue
            try:
                judge_cases(path.name, *file, asked.program.resolve(), pool, counts, skipped)
            except (MemoryError, RuntimeError) as error:    # the second where no thread can be started
                pool.shutdown(cancel_futures=True)
                return complain(f"{path}: {str(error) or 'not enough memory'}")
    for reason, times in sorted(skipped.items()):
        print(f"skipped {times}: {reason}")
    print(f"{counts['cases']} cases, {counts['rows']} rows, {counts['runs']} runs, {counts['differences']} differ")
    return status or min(counts["differences"], 1)


if __name__ == "__main__":
    sys.exit(main())
