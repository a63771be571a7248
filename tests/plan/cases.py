"""Reads the files of cases: those beside this one, and the stored cases of tests/runs (their format: tests/runs/src/cases.rs)."""
import re

RANDOM = bytes(range(0xA0, 0xC0))


def bytes_of(text):
    """`07 30 00*3`, or with commas, as bytes."""
    row = b""
    for part in re.split("[ ,]+", text.strip()):
        digits, _, times = part.partition("*")
        row += bytes.fromhex(digits) * int(times or 1)
    return row


def blocks(text):
    """Of each line its statement, and the block behind `|` or None where there is none."""
    pairs = []
    for line in text.split("\n"):
        statement, bar, block = ("", "", "") if line.startswith("#") else line.partition("|")
        pairs.append((statement.strip(), bytes_of(block) if bar else None))
    return pairs


def cases_of(text):
    """The parts that start with `case NAME`: name and lines."""
    for part in re.split(r"(?m)^case ", text)[1:]:
        name, *lines = part.rstrip("\n").split("\n")
        yield name, lines


def faults(text):
    """Name, script and expected messages of each case."""
    for name, lines in cases_of(text):
        messages = [line[2:] for line in lines if line.startswith("> ")]
        yield name, "\n".join(line for line in lines if not line.startswith("> ")), messages


def explained(text):
    """Name and parts (script, lines, explained, complaints, faults) of each case."""
    for name, lines in cases_of(text):
        parts, current = {}, None
        for line in lines:
            if line.startswith("-- "):
                current = line[3:]
                parts[current] = ""
            elif line:
                parts[current] += line + "\n"
        yield name, parts


def stored(folder):
    """Name, records and lines of each stored case that is a run of whole records."""
    for file in ("document01.txt", "readings.txt", "fitted.txt", "bench.txt"):
        with open(f"{folder}/{file}", encoding="utf8") as text:
            for name, lines in cases_of(text.read()):
                lines = [line for line in lines if line and not line.startswith("#")]
                if any(re.match(r"(\d+ \* )?raw\b", line) for line in lines):
                    continue
                records, printed = b"", []
                for line in lines:
                    times, record, shown = re.fullmatch(r"(?:(\d+) \* )?(.*?) *\| (.*)", line).groups()
                    records += record_of(record) * int(times or 1)
                    printed += [shown] * int(times or 1)
                yield f"{file}: {name}", records, printed


def record_of(text):
    mark, _, rest = text.partition(" ")
    if mark == "BK":
        block = bytes_of(rest)
        return b"BK" + bytes([len(block)]) + block + RANDOM
    if mark != "EE":
        return mark.encode()
    image = bytearray(664)
    for change in rest.split():
        at, _, row = change.partition("=")
        start = {"OTP": 88, "data": 152}[at] if at in ("OTP", "data") else int(at)
        image[start : start + len(bytes_of(row))] = bytes_of(row)
    return b"EE" + bytes(image)
