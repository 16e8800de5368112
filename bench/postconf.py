#!/usr/bin/env python3
"""Measures the built program's postconf: what it prints of a main.cf of 30 settings, and how that and its edit grow with longer ones.

usage: bench/postconf.py

It counts instructions with callgrind; where valgrind is not there it says so and takes processor time in their place, the
least of a few rounds, where costs are compared. It prints a table, and fails where `postconf -n` or `postconf` takes more than
5,000,000 instructions for 30 settings, where either costs more than 2.3 times as much for twice the names, where an edit of a
main.cf of twice the lines does, where the program does not print each setting, and where an edit leaves anything but the
expected text.
"""
import resource
import shutil
import subprocess
import sys
import tempfile
from pathlib import Path

PROGRAM = Path(__file__).resolve().parent.parent / "crates/postgate/out/postgate"
MOST_INSTRUCTIONS = 5_000_000
MOST_GROWTH = 2.3
LENGTHS = (10_000, 20_000, 40_000)
NAMES = (2_000, 4_000, 8_000)
TIMED_ROUNDS = 20
MAIN_CF = """myhostname = mx.example.com
mydomain = example.com
myorigin = $mydomain
mydestination = $myhostname, localhost.$mydomain, localhost, $mydomain
mynetworks = 127.0.0.0/8 10.0.0.0/8 192.168.0.0/16
inet_interfaces = all
mail_name = Postgate
smtpd_banner = $myhostname ESMTP $mail_name
alias_maps = hash:/etc/aliases
local_recipient_maps = $alias_maps
recipient_delimiter = +
relay_domains = example.net, example.org
message_size_limit = 20480000
header_size_limit = 204800
line_length_limit = 4096
smtpd_helo_required = yes
smtpd_recipient_limit = 500
smtpd_hard_error_limit = 10
smtpd_relay_restrictions = permit_mynetworks, reject_unauth_destination
smtpd_recipient_restrictions = reject_non_fqdn_recipient, reject_unknown_recipient_domain
smtpd_sender_restrictions = reject_non_fqdn_sender
smtpd_helo_restrictions = permit_mynetworks, reject_invalid_helo_hostname
virtual_alias_domains = lists.$mydomain
virtual_alias_maps = hash:/etc/postfix/virtual
canonical_maps = hash:/etc/postfix/canonical
masquerade_domains = $mydomain
masquerade_exceptions = root
append_dot_mydomain = no
unknown_local_recipient_reject_code = 550
smtpd_policy_service_try_limit = 2
"""
LINES_OF_A_LONG_ONE = (
    "# note {}", "first_{} = $myhostname, {{$mydomain}}", "  and more of {}", "second_{}=text", "", "third_{} = text\r",
    "repeated = {}", "smtpd_recipient_limit = {}", "fourth_{} =", "\t# within it, {}", "\tmore")
EDIT = "myhostname=edited.example.com"


def long_main_cf(lines, host):
    """A main.cf of so many lines, the one in the middle for myhostname; no line feed ends it."""
    texts = [LINES_OF_A_LONG_ONE[i % len(LINES_OF_A_LONG_ONE)].format(i) for i in range(lines)]
    texts[lines // 2:lines // 2 + 2] = ["myhostname = " + host, "# the host"]
    return "\n".join(texts).encode()


def run(folder, command):
    done = subprocess.run(command, cwd=folder, capture_output=True, check=False)
    if done.returncode != 0:
        sys.exit(f"postconf.py: status {done.returncode}: {done.stderr.decode(errors='replace')}")
    return done.stdout


def instructions(folder, words):
    """How many instructions the program executes, and what it prints."""
    with tempfile.TemporaryDirectory() as room:
        counts = Path(room) / "counts"
        out = run(folder, ["valgrind", "--tool=callgrind", f"--callgrind-out-file={counts}", PROGRAM, *words])
        summaries = [line for line in counts.read_text(errors="replace").splitlines() if line.startswith("summary: ")]
    if len(summaries) != 1:
        sys.exit("postconf.py: callgrind says no number of instructions")
    return int(summaries[0].split()[1]), out


def printed(folder, counting, words, alone):
    """Whether the program prints the settings, alone or among others, within the instructions that it may take."""
    name = " ".join(words)
    count = None
    if counting:
        count, out = instructions(folder, words)
    else:
        out = run(folder, [PROGRAM, *words])
    lines, settings = out.decode().splitlines(), sorted(MAIN_CF.splitlines())
    if lines != settings and (alone or not set(settings) < set(lines)):
        sys.exit(f"postconf.py: {name} printed other lines than those of main.cf")
    said = f"{name}: {len(lines)} lines"
    if not counting:
        print(said)
        return True
    fits = count <= MOST_INSTRUCTIONS
    print(f"{said}, {count:,} instructions, of at most {MOST_INSTRUCTIONS:,}" + ("" if fits else ", TOO MANY"))
    return fits


def cost_of(folder, counting, words):
    """What a run costs, instructions or seconds of processor time, and what it prints."""
    if counting:
        return instructions(folder, words)
    before = resource.getrusage(resource.RUSAGE_CHILDREN)
    out = run(folder, [PROGRAM, *words])
    after = resource.getrusage(resource.RUSAGE_CHILDREN)
    return after.ru_utime + after.ru_stime - before.ru_utime - before.ru_stime, out


def printed_cost(folder, counting, words, names):
    """What it costs to print a main.cf that sets so many names, in an order that is not theirs."""
    lines = [f"name_{i * 7919 % names} = $myhostname, {{text}} {i}" for i in range(names)]
    (folder / "main.cf").write_text("\n".join(lines) + "\n")
    cost, out = cost_of(folder, counting, words)
    printed = out.decode().splitlines()
    if words[-1] == "-nx":
        lines = [line.replace("$myhostname", "localhost.localdomain") for line in lines]
    if not set(lines) <= set(printed) or printed != sorted(printed, key=lambda line: line.split(" =")[0].encode()):
        sys.exit(f"postconf.py: {' '.join(words)} printed other lines than those of {names} names in order")
    return cost


def edited_cost(folder, counting, lines):
    """What one edit of a main.cf of so many lines costs."""
    conf = folder / "main.cf"
    conf.write_bytes(long_main_cf(lines, "mx.example.com"))
    cost = cost_of(folder, counting, ["postconf", "-e", EDIT])[0]
    if conf.read_bytes() != long_main_cf(lines, "edited.example.com"):
        sys.exit(f"postconf.py: the edit of {lines} lines left another text than the expected one")
    if [left.name for left in folder.iterdir()] != ["main.cf"]:
        sys.exit(f"postconf.py: the edit of {lines} lines left a file beside main.cf")
    return cost


def grown(name, counting, sizes, unit, cost_at):
    """Whether a cost grows in step with the sizes, each of which is twice the one before."""
    rounds = [[cost_at(size) for size in sizes] for _ in range(1 if counting else TIMED_ROUNDS)]
    costs = [min(of_one_size) for of_one_size in zip(*rounds)]
    fits = True
    for place, (size, cost) in enumerate(zip(sizes, costs)):
        said = f"{cost:,} instructions" if counting else f"{cost:.4f} s"
        if place > 0:
            growth = cost / costs[place - 1]
            said += f", {growth:.2f} times that of half the {unit}, of at most {MOST_GROWTH}"
            if growth > MOST_GROWTH:
                fits = False
                said += ", TOO MUCH"
        print(f"{name}, {size} {unit}: {said}")
    return fits


def main():
    if not PROGRAM.exists():
        sys.exit(f"{PROGRAM} is not built: run scripts/build.py first")
    counting = shutil.which("valgrind") is not None
    if not counting:
        print("valgrind is not there: instructions are not counted, and seconds stand in their place")
    with tempfile.TemporaryDirectory() as name:
        folder = Path(name)
        (folder / "main.cf").write_text(MAIN_CF)
        fits = [printed(folder, counting, ["postconf", "-n"], True),
                printed(folder, counting, ["postconf"], False),
                *[grown(" ".join(words), counting, NAMES, "names", lambda names, words=words: printed_cost(folder, counting, words, names))
                  for words in (["postconf", "-n"], ["postconf"], ["postconf", "-nx"])],
                grown("postconf -e", counting, LENGTHS, "lines", lambda lines: edited_cost(folder, counting, lines))]
    return 0 if all(fits) else 1


if __name__ == "__main__":
    sys.exit(main())
