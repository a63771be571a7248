#!/usr/bin/env python3
"""Writes crates/bench/stdin and stdout, and examples/first.records, from the stored cases of tests/runs/cases.

Run once: the gate reads what is stored. Nothing here knows the rules. Records and lines are those of the cases, one case after the
other, since each begins with an EE: document 01's, its example first, then the readings', as far as the limit allows. A mark in small
letters ends the run; its offset is counted here. The cases' format: tests/runs/src/cases.rs.
"""
import os
import re

ROOT = os.path.join(os.path.dirname(os.path.abspath(__file__)), "..", "..")
LIMIT = 65536
RANDOM = bytes(range(0xA0, 0xC0))
BAD = b"wk"


def row(text):
    """`11*32 3C F4` as bytes."""
    pairs = (word.partition("*") for word in text.split())
    return b"".join(bytes.fromhex(byte) * int(times or 1) for byte, _, times in pairs)


def image(text):
    """Changes to 664 zeros: `17=01 OTP=C3*64`."""
    made = bytearray(664)
    for change in text.split():
        place, value = change.split("=")
        start = {"OTP": 88, "data": 152}.get(place) or int(place)
        value = row(value.replace(",", " "))
        made[start : start + len(value)] = value
    return bytes(made)


def record(text):
    mark, _, rest = text.partition(" ")
    if mark == "EE":
        return b"EE" + image(rest)
    if mark == "BK":
        block = row(rest)
        return b"BK" + bytes([len(block)]) + block + RANDOM
    assert mark in ("WK", "ID", "SL"), text
    return mark.encode()


def cases(file):
    """The records and the lines of each case of a file."""
    text = open(os.path.join(ROOT, "tests/runs/cases", file), encoding="utf8").read()
    for case in re.split(r"^case .*\n", text, flags=re.M)[1:]:
        records, lines = b"", b""
        for line in case.split("\n"):
            if line and not line.startswith("#"):
                times, line = re.fullmatch(r"(?:(\d+) \* )?(.*)", line).groups()
                sent, shown = line.split("|")
                records += record(sent.strip()) * int(times or 1)
                lines += (shown.strip().encode() + b"\n") * int(times or 1)
        yield records, lines


def write(path, content):
    with open(os.path.join(ROOT, path), "wb") as file:
        file.write(content)


def main():
    stream, shown = b"", b""
    for file in ("document01.txt", "readings.txt"):
        for records, lines in cases(file):
            if not stream:
                write("examples/first.records", records)
            if len(stream + records + BAD) <= LIMIT:
                stream, shown = stream + records, shown + lines
    write("crates/bench/stdin", stream + BAD)
    write("crates/bench/stdout", shown + b"bad %d\n" % len(stream))


main()
