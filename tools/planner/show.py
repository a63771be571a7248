"""A file of records as a script: the statements that give the same bytes again."""
from itertools import groupby

from planner import wire
from planner.script import LONGEST_INPUT, MARKS, Event, Script
from planner.words import Fault, Words
from planner.zones import BLANK, IMAGE_LENGTH, SLOT_CONFIG, place_of

KINDS = {mark: kind for kind, mark in MARKS.items()}


class NoRecords(Exception):
    """The bytes are not a run of records."""


def shown(records):
    """The script's lines."""
    if len(records) > LONGEST_INPUT:
        raise NoRecords(f"{len(records)} bytes: up to {LONGEST_INPUT} expected")
    script, lines, offset = Script("."), [], 0
    while offset < len(records):
        event = event_at(records, offset)
        if script.token is None and event.kind != "image":
            raise NoRecords(f"the record at {offset} stands before the first EE: an image expected first")
        for line in statements(event, script):
            lines.append(line)
            script.add(len(lines), line.split())
        offset += len(event.record())
    return lines


def event_at(records, offset):
    kind = KINDS.get(records[offset : offset + 2])
    begin, length, random = offset + 2, 0, 0
    if kind == "image":
        length = IMAGE_LENGTH
    elif kind == "block":
        begin, random = offset + 3, 32
        length = int.from_bytes(records[offset + 2 : begin], "little")
    event = Event(0, "", kind, records[begin : begin + length], records[begin + length : begin + length + random])
    if kind is None or len(event.content) != length or len(event.random) != random or begin > len(records):
        raise NoRecords(f"no whole record at {offset}: EE and 664 bytes, WK, ID, SL, or BK, length, block and 32 bytes expected")
    return event


def statements(event, script):
    if event.kind == "image":
        return image(event.content)
    if event.kind != "block":
        return [event.kind]
    random = [] if event.random == script.random else [f"random bytes {packed(event.random)}"]
    return random + [block(event.content, script)]


def image(content):
    """The known image that differs less, and the changes that make this one of it."""
    bases = {"zeros": bytes(IMAGE_LENGTH), "blank": BLANK}
    name = min(bases, key=lambda base: sum(a != b for a, b in zip(bases[base], content)))
    lines = [f"image {name}"]
    for start, length, words in PARTS:
        part, was = content[start : start + length], bases[name][start : start + length]
        if part != was:
            lines.append(f"set {words} {packed(part) if length >= 32 else wire.hexadecimal(part)}")
    return lines


# Of the image: first byte, length, and the words that set these bytes. The configuration goes by words, SlotConfig by slots.
PARTS = [(at, 4, f"config {at}") for at in range(0, SLOT_CONFIG, 4)]
PARTS += [(SLOT_CONFIG + 2 * slot, 2, f"slotconfig {slot}") for slot in range(16)]
PARTS += [(at, 4, f"config {at}") for at in range(SLOT_CONFIG + 32, 88, 4)]
PARTS += [(88, 64, "otp")] + [(152 + 32 * slot, 32, f"slot {slot}") for slot in range(16)]


def block(content, script):
    """The statement of a command if it gives these bytes, else the fields, else the bytes."""
    fields = wire.fields_of(content)
    if not fields:
        return f"block {runs(content) or 'empty'}"
    if fields.opcode in wire.NAMES and sent(command(fields), script) == content:
        return command(fields)
    return f"command {fields.opcode:02X} {fields.param1:02X} {fields.param2:04X} {runs(fields.data)}".rstrip()


def sent(statement, script):
    """The block of a statement, or None where the statement is wrong."""
    name, *words = statement.split()
    try:
        return script.block(name, Words(words, script.folder))
    except Fault:
        return None


def command(fields):
    """What a command's statement would be if these fields had its shape."""
    opcode, param1, param2, data = fields
    name = wire.NAMES[opcode].lower()
    if opcode == wire.NONCE:
        return f"{name} {param1:X} {packed(data)}"
    if opcode == wire.MAC:
        return f"{name} {param1:02X} slot {param2}" + (f" challenge {packed(data)}" if data else "")
    if opcode == wire.CHECKMAC:
        parts = f"challenge {packed(data[:32])} response {packed(data[32:64])} other {packed(data[64:])}"
        return f"{name} {param1:02X} slot {param2} {parts}"
    if opcode == wire.GENDIG:
        where = f"data slot {param2}" if param1 == 2 else f"{'otp' if param1 else 'config'} block {param2}"
        return f"{name} {where}" + (f" header {packed(data)}" if data else "")
    if opcode == wire.DERIVEKEY:
        return f"{name} {param1:X} slot {param2}" + (f" mac {packed(data)}" if data else "")
    if opcode == wire.READ:
        return f"{name} {place(fields)} {32 if param1 & 0x80 else 4}"
    if opcode == wire.WRITE:
        value = f"clear {packed(data)}" if len(data) < 64 else f"encrypted {packed(data[:32])} mac {packed(data[32:])}"
        return f"{name} {place(fields)} {value}"
    if opcode == wire.LOCK:
        return f"{name} {'values' if param1 & 1 else 'config'} " + ("nosum" if param1 & 0x80 else f"sum {param2:04X}")
    if opcode == wire.UPDATEEXTRA:
        return f"{name} {'selector' if param1 else 'user'} {param2:02X}"
    return f"{name} {param1:X}" if opcode == wire.RANDOM else name


def place(fields):
    """The place in words; any, where there is no such place."""
    zone, start, length = place_of(fields.param1, fields.param2) or (0, 0, 0)
    if zone == 2:
        return f"data slot {start // 32}" + (f" word {start % 32 // 4}" if length == 4 else "")
    return f"{('config', 'otp')[zone]} " + (f"word {start // 4}" if length == 4 else f"block {start // 32}")


def packed(row):
    """The bytes of a field: `11..` where they are alike."""
    return f"{row[0]:02X}.." if len(set(row)) == 1 else runs(row)


def runs(row):
    """The bytes in hexadecimal, four or more alike as `00*4`."""
    parts = []
    for byte, alike in groupby(row):
        times = len(list(alike))
        if times >= 4:
            parts.append(f" {byte:02X}*{times} ")
        else:
            parts.append(f"{byte:02X}" * times)
    return "".join(parts).replace("  ", " ").strip()
