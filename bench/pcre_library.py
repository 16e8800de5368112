#!/usr/bin/env python3
"""Prints the rows of pcre_tests whose values are others by the library PCRE, old and new, where they are on the system.

usage: bench/pcre_library.py [FILE]      (crates/pcre_tests/stdin where it is left out)

It reads the rows of the kinds `find` and `octets` whose answer is a value, asks libpcre and libpcre2 by the rules of
pcre_table(5), and prints each row that they answer otherwise with what they say. docs/PROFILE.md has why: there is nothing else
among them.
"""
import ctypes
import re
import sys
from pathlib import Path

ROWS = Path(__file__).resolve().parent.parent / "crates/pcre_tests/stdin"
REFUSED = "postgate: "
SPACE = b" \t"
GROUP = rb"\$\$|\$(\d+)|\$\{(\d+)\}|\$\((\d+)\)"


class Refused(Exception):
    pass


class Old:
    """The library PCRE 8."""

    name = "PCRE"
    flags = {"i": 0x1, "m": 0x2, "s": 0x4, "x": 0x8, "E": 0x20, "U": 0x200}

    def __init__(self):
        self.library = ctypes.CDLL("libpcre.so.3")
        self.library.pcre_compile.restype = ctypes.c_void_p

    def match(self, pattern, options, key):
        error, place, spans = ctypes.c_char_p(), ctypes.c_int(), (ctypes.c_int * 300)()
        code = self.library.pcre_compile(pattern, options, ctypes.byref(error), ctypes.byref(place), None)
        if not code:
            raise Refused(f"refused: {error.value.decode()}")
        count = self.library.pcre_exec(ctypes.c_void_p(code), None, key, len(key), 0, 0, spans, 300)
        return None if count < 0 else [key[max(spans[2 * i], 0) : max(spans[2 * i + 1], 0)] for i in range(count)]


class New:
    """The library PCRE2."""

    name = "PCRE2"
    flags = {"i": 0x8, "m": 0x400, "s": 0x20, "x": 0x80, "E": 0x10, "U": 0x40000}

    def __init__(self):
        self.library = ctypes.CDLL("libpcre2-8.so.0")
        self.library.pcre2_compile_8.restype = ctypes.c_void_p
        self.library.pcre2_match_data_create_from_pattern_8.restype = ctypes.c_void_p
        self.library.pcre2_get_ovector_pointer_8.restype = ctypes.POINTER(ctypes.c_ssize_t)

    def match(self, pattern, options, key):
        error, place, length = ctypes.c_int(), ctypes.c_size_t(), ctypes.c_size_t
        code = self.library.pcre2_compile_8(pattern, length(len(pattern)), options, ctypes.byref(error), ctypes.byref(place), None)
        if not code:
            raise Refused(f"refused: {error.value}")
        code = ctypes.c_void_p(code)
        data = ctypes.c_void_p(self.library.pcre2_match_data_create_from_pattern_8(code, None))
        count = self.library.pcre2_match_8(code, key, length(len(key)), length(0), 0, data, None)
        spans = self.library.pcre2_get_ovector_pointer_8(data)
        return None if count < 0 else [key[max(spans[2 * i], 0) : max(spans[2 * i + 1], 0)] for i in range(count)]


def logical(text):
    lines = []
    for line in text.split(b"\n"):
        if line.strip() and not line.strip().startswith(b"#"):
            if line[:1] in (b" ", b"\t") and lines:
                lines[-1] += line
            else:
                lines.append(line)
    return lines


def parted(line):
    """Whether it is negated, the pattern, its flags and the result."""
    negated = line.startswith(b"!")
    line = line[negated:]
    place = 1
    while line[place : place + 1] != line[:1]:
        place += 2 if line[place : place + 1] == b"\\" else 1
    flags, _, result = line[place + 1 :].replace(b"\t", b" ").partition(b" ")
    return negated, line[1:place], flags.decode(), result.strip(SPACE)


def expanded(result, groups):
    def part(name):
        if name.group(0) == b"$$":
            return b"$"
        number = int(name.group(1) or name.group(2) or name.group(3))
        return groups[number] if number < len(groups) else b""

    return re.sub(GROUP, part, result)


def value(library, text, key):
    pending = []
    for line in logical(text):
        if line.strip().lower() == b"endif":
            pending.pop()
            continue
        condition = re.match(rb"(?i)if[ \t]+(.*)", line, re.DOTALL)
        negated, pattern, flags, result = parted(condition.group(1).strip() if condition else line)
        options = library.flags["i"] | library.flags["s"]
        for flag in flags:
            options ^= library.flags[flag]
        groups = library.match(pattern, options, key)
        holds = (groups is None) == negated
        if condition:
            pending.append(holds)
        elif holds and all(pending):
            return result.replace(b"$$", b"$") if negated else expanded(result, groups)
    return b"nothing"


def said(library, text, key):
    try:
        return value(library, text, key)
    except Refused as refused:
        return str(refused).encode()


def main():
    libraries = [Old(), New()]
    for row in Path(sys.argv[1] if len(sys.argv) > 1 else ROWS).read_text(encoding="utf-8").split("\n"):
        kind, _, rest = row.partition("¦")
        text, _, answer = rest.rpartition("¦")
        if kind in ("find", "octets") and not answer.startswith(REFUSED):
            key, _, table = text.partition("␤")
            key = bytes(map(int, key.split())) if kind == "octets" else key.encode()
            for library in libraries:
                found = said(library, table.replace("␤", "\n").encode(), key)
                if found != answer.replace("␤", "\n").encode():
                    print(f"{row}   {library.name}: {found.decode(errors='backslashreplace')}")


main()
