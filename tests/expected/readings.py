#!/usr/bin/env python3
"""Writes tests/runs/cases/readings.txt from the worked examples of readings.md, whose path is the argument.

Run once: the gate reads what is stored. Nothing here knows the rules; it only rewrites the examples as records and lines.
"""
import re
import sys

# The names that readings.md gives to blocks.
NAMED = {
    "N3": "27 16 03 00 00 11*32 3C F4",
    "N0": "1B 16 00 00 00 22*20 0D 33",
    "Q": "07 08 07 00 00 86 60",
    "CM": "54 28 05 00*34 0B 28 D3 1E C3 53 5B C2 D0 A2 FE 64 79 56 E9 7B C5 9D 08 81 15 B5 D2 30 85 E3 30 55 E1 14 3E 2E 00*13 1A DF",
}
EVENT = r"(`[^`]*`|\(no bytes\)|\b(?:N3|N0|Q|CM|ID|WK|SL)\b) -> `([^`]*)`"
WORDS = {"WK": "wake", "ID": "idle", "SL": "sleep"}


def image(text):
    """`Z[17=01, OTP=C3*64]` as `EE 17=01 OTP=C3*64`."""
    changes = re.fullmatch(r"Z(?:\[(.*)\])?", text).group(1) or ""
    parts = [part.strip().replace(" ", ",") for part in changes.split(",") if part.strip()]
    return " ".join(["EE"] + parts)


def case(line, name):
    """The lines of one example, or None where the line holds none."""
    found = re.search(r"`(Z(?:\[[^`]*\])?)`: (.*)", line)
    if not found:
        return None
    taken = re.split(r"\.? Not taken:| With Wish", found.group(2))[0]
    events = re.findall(EVENT, taken)
    if len(events) != taken.count(" -> "):
        sys.exit("not understood: " + line)
    lines = ["case " + name, image(found.group(1)) + " | image"]
    if "(no WK)" not in line[: found.start()]:
        lines.append("WK | wake 04113343")
    for sent, answer in events:
        if sent in WORDS:
            lines.append("%s | %s %s" % (sent, WORDS[sent], answer))
        else:
            block = "" if sent == "(no bytes)" else NAMED.get(sent, sent.strip("`"))
            lines.append(("BK " + block).strip() + " | block " + answer)
    return lines


def main():
    print("# The worked examples of readings.md, written by tests/expected/readings.py. The format: tests/runs/src/cases.rs.")
    entry, wishes = None, False
    for line in open(sys.argv[1], encoding="utf8"):
        wishes = wishes or line.startswith("## 10")
        named = re.match(r"- \*\*(R\d+)\. (.*?)\*\*|\*\*(Wish \d+), (.*?)\*\*", line)
        if named:
            entry = " ".join(part for part in named.groups() if part).rstrip(".").replace("`", "")
        # Of the wishes' examples those that show document 01.
        if line.lstrip().startswith("- ") and (not wishes or "by document 01:" in line):
            name = entry + ", by document 01" if wishes else entry
            lines = case(line, name) if line.startswith("  - ") or wishes else None
            if lines:
                print("\n" + "\n".join(lines))


main()
