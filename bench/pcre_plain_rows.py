#!/usr/bin/env python3
"""Prints rows of tables of patterns for the program of pcre_tests, which asks each table and each of its rules alone.

usage: bench/pcre_plain_rows.py [ROWS [SEED]]      (40 rows of the seed 1 where they are left out)

Each row is a table of random rules, negated ones and conditions among them, and keys that are asked twice. The patterns use what
the crate regex has: flags, lazy and counted repetitions, anchors and edges of words, classes, groups with names and with flags
of their own. Most keys are made of a pattern of the table, and some of them changed at a place. No value is in a row, since the
program works it out.
"""
import random
import sys

LETTERS = "abcd"
OTHERS = "ABCDéÉß01 .-_"
KEYS = 24
RULES = (2, 75)
CLASSES = (
    ("[ab]", "ab"), ("[^a]", "bcd1é"), ("[a-c]", "abc"), ("[[:alpha:]]", "abD"), (r"[^é\d]", "ab."), (r"\d", "01"), (r"\D", "ab"),
    (r"\w", "aé1_"), (r"\W", " .-"), (r"\s", " ↵"), (r"\S", "a.1"), (".", "a1é ↵"), (r"\pL", "aé"), (r"\x61", "a"),
    (r"\x{e9}", "éÉ"), (r"[\x41-\x43é]", "ABé"), (r"\p{Greek}", "αΩ"), (r"[\w.-]", "a.-"), (r"[^\W\d]", "ab_"), (r"\n", "↵"),
)
EDGES = ("^", "$", r"\b", r"\B", r"\A", r"\z")
GROUPS = ("(", "(", "(", "(?:", "(?P<n%d>", "(?i:", "(?-i:", "(?s:", "(?-s:", "(?U:", "(?m:")
COUNTS = (("?", 0, 1), ("*", 0, 3), ("+", 1, 3), ("{2}", 2, 2), ("{1,3}", 1, 3), ("{2,}", 2, 4))


class Pattern:
    """The text of a pattern, and a text that it is made for."""

    def __init__(self, draw, free):
        self.draw, self.free, self.groups, self.names = draw, free, 0, 0

    def letter(self):
        c = self.draw.choice(LETTERS * 4 + OTHERS)
        return ("\\" + c if c in ". -" else c), c

    def group(self, depth):
        opening = self.draw.choice(GROUPS)
        self.groups += opening in ("(", "(?P<n%d>")
        if "%d" in opening:
            self.names += 1
            opening %= self.names
        parts = [self.several(depth - 1) for _ in range(self.draw.randint(1, 3))]
        if self.draw.randrange(12) == 0:
            parts.append(("", ""))
        return opening + "|".join(text for text, _ in parts) + ")", self.draw.choice(parts)[1]

    def one(self, depth):
        kind = self.draw.randrange(12)
        if kind < 6 or depth == 0:
            return self.letter()
        if kind < 9:
            text, matched = self.draw.choice(CLASSES)
            return text, self.draw.choice(matched)
        return self.group(depth)

    def repeated(self, depth):
        if self.draw.randrange(14) == 0:
            return self.draw.choice(EDGES), ""
        text, matched = self.one(depth)
        if self.draw.randrange(4) == 0:
            count, least, most = self.draw.choice(COUNTS)
            return text + count + self.draw.choice(["", "", "?"]), matched * self.draw.randint(least, most)
        return text, matched

    def several(self, depth):
        parts = [self.repeated(depth) for _ in range(self.draw.randint(1, 4))]
        blank = " " if self.free and self.draw.randrange(2) == 0 else ""
        return blank.join(text for text, _ in parts), "".join(matched for _, matched in parts)

    def whole(self):
        text, matched = self.several(2)
        own = "".join(self.draw.choice(LETTERS) for _ in range(self.draw.choice([0, 2, 2, 3])))
        if self.draw.randrange(2):
            return self.draw.choice(["", "^"]) + own + text, own + matched
        return text + own + self.draw.choice(["", "$"]), matched + own


def pattern(draw):
    """A pattern between slashes with flags, its number of groups, and a text that it is made for."""
    flags = "".join(draw.choice("imsxUE") for _ in range(draw.choice([0, 0, 0, 1, 1, 2, 4])))
    made = Pattern(draw, flags.count("x") % 2 == 1)
    text, matched = made.whole()
    return f"/{text}/{flags}", made.groups, matched


def rule(draw, number):
    shown, groups, matched = pattern(draw)
    result = f"v{number}"
    if draw.randrange(20) == 0:
        return f"!{shown} {result}$$", None
    for group in range(1, groups + 1):
        result += draw.choice([f"-${{{group}}}", f"-${{{group}}}x", "$$"])
    return f"{shown} {result}", matched


def table(draw):
    lines, depth, matched = [], 0, []
    for number in range(draw.randint(*RULES)):
        kind = draw.randrange(24)
        if kind < 2 and depth < 4:
            shown, _, made = pattern(draw)
            negated = draw.randrange(2)
            lines.append(f"if {'!' if negated else ''}{shown}")
            matched.append(made)
            depth += 1
        elif kind < 6 and depth:
            lines.append("endif")
            depth -= 1
        line, made = rule(draw, number)
        lines.append(line)
        matched.append(made)
    return lines + ["endif"] * depth, [made for made in matched if made is not None]


def changed(draw, text):
    place = draw.randint(0, len(text))
    more = draw.choice(LETTERS * 2 + OTHERS + "↵¿")
    return text[:place] + draw.choice(["", more, more + text[place : place + 1]]) + text[place + 1 :]


def key(draw, matched):
    if not matched or draw.randrange(8) == 0:
        return "".join(draw.choice(LETTERS * 3 + OTHERS + "↵¿") for _ in range(draw.randint(0, 12)))
    text = draw.choice(matched)
    if draw.randrange(3) == 0:
        text += draw.choice(matched)
    return changed(draw, text) if draw.randrange(3) == 0 else text


def main():
    draw = random.Random(int(sys.argv[2]) if len(sys.argv) > 2 else 1)
    for _ in range(int(sys.argv[1]) if len(sys.argv) > 1 else 40):
        lines, matched = table(draw)
        keys = [key(draw, matched) for _ in range(KEYS)]
        print(f"plain¦2␤{'~'.join(keys)}␤{'␤'.join(lines)}¦alike")


main()
