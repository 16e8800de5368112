#!/usr/bin/env python3
"""Prints rows of tables of patterns for the program of pcre_tests, with what the module re of Python says of them.

usage: bench/pcre_rows.py [ROWS [SEED]]      (40 rows of the seed 1 where they are left out)

Each row is a table of random rules, negated ones and conditions among them, with more rules than one sieve stands for, and keys
that are asked twice. The patterns are of the part in which re and the crate regex agree: the first match from the left, and of
alternatives the first. The values are worked out rule by rule, with nothing kept.
"""
import random
import re
import sys

LETTERS = "abcd"
KEYS = 24
RULES = (20, 80)


def atom(draw, depth):
    kind = draw.randrange(10)
    if kind < 5 or depth == 0:
        return "".join(draw.choice(LETTERS) for _ in range(draw.randint(1, 2)))
    if kind < 6:
        return "[" + draw.choice(["ab", "^a", "c-d", "a-c", "é", "^é"]) + "]"
    if kind < 7:
        return draw.choice([".", "é", r"\.", r"\d", r"\w"])
    parts = "|".join(text(draw, depth - 1) for _ in range(draw.randint(1, 3)))
    return "(" + ("?:" if draw.randrange(3) == 0 else "") + parts + ")"


def text(draw, depth):
    out = ""
    for _ in range(draw.randint(1, 3)):
        part = atom(draw, depth)
        if draw.randrange(4) == 0:
            if len(part) > 1 and part[0] not in "[(\\":
                part = part[0]
            out += part + draw.choice(["+", "?", "{2}", "+?", "{1,3}"])
        else:
            out += part
    return out


def pattern(draw):
    """A pattern with two or more letters of its own, so that some keys go far down a table."""
    own = draw.choice(LETTERS) + draw.choice(LETTERS)
    return draw.choice(["", "^"]) + draw.choice([own + text(draw, 2), text(draw, 2) + own]) + draw.choice(["", "$"])


def key(draw):
    return "".join(draw.choice(LETTERS * 3 + "ABCDéÉ.1 ") for _ in range(draw.randint(1, 12))).strip() or "a"


def compiled(found):
    return re.compile(found, re.IGNORECASE | re.DOTALL)


def rule(draw, number):
    found = pattern(draw)
    negated = draw.randrange(24) == 0
    result = f"v{number}"
    if not negated:
        for group in range(1, compiled(found).groups + 1):
            result += draw.choice([f"-${group}", f"-${{{group}}}x", f"-$({group})", "$$"])
    return ("rule", negated, found, result)


def table(draw):
    lines, depth = [], 0
    for number in range(draw.randint(*RULES)):
        kind = draw.randrange(30)
        if kind == 0:
            lines.append(("if", draw.randrange(2) == 0, pattern(draw), ""))
            depth += 1
        elif kind == 1 and depth:
            lines.append(("endif", False, "", ""))
            depth -= 1
        lines.append(rule(draw, number))
    return lines + [("endif", False, "", "")] * depth


def line(kind, negated, found, result):
    if kind == "endif":
        return "endif"
    shown = ("!" if negated else "") + f"/{found}/"
    return f"if {shown}" if kind == "if" else f"{shown} {result}"


def expanded(result, match):
    def part(name):
        if name.group(0) == "$$":
            return "$"
        return match.group(int(name.group(1) or name.group(2) or name.group(3))) or ""

    return re.sub(r"\$\$|\$(\d+)|\$\{(\d+)\}|\$\((\d+)\)", part, result)


def value(lines, asked):
    open_conditions = []
    for kind, negated, found, result in lines:
        if kind == "endif":
            open_conditions.pop()
            continue
        match = compiled(found).search(asked)
        if kind == "if":
            open_conditions.append((match is None) == negated)
        elif all(open_conditions) and (match is None) == negated:
            return result.replace("$$", "$") if negated else expanded(result, match)
    return "nothing"


def main():
    draw = random.Random(int(sys.argv[2]) if len(sys.argv) > 2 else 1)
    for _ in range(int(sys.argv[1]) if len(sys.argv) > 1 else 40):
        lines = table(draw)
        keys = [key(draw) for _ in range(KEYS)]
        shown = "␤".join(line(*entry) for entry in lines)
        values = "~".join(value(lines, asked) for asked in keys)
        print(f"keys¦2␤{'~'.join(keys)}␤{shown}¦{values}")


main()
