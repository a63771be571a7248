"""What the answer to a block means, by document 01."""
from itertools import groupby

from planner import wire
from planner.wire import hexadecimal
from planner.zones import LOCK_CONFIG, place_of

UNLOCKED_RANDOM = bytes.fromhex("FFFF0000") * 8
ZONES = ("configuration", "OTP", "data")
EMPTIED = "TempKey is empty now"

# What 00 says, of the commands that answer it.
DONE = {
    wire.NONCE: "accepted; TempKey is the input",
    wire.CHECKMAC: "compared equal",
    wire.GENDIG: "accepted; TempKey is the new digest",
    wire.DERIVEKEY: "accepted; the slot holds its new key",
    wire.WRITE: "written",
    wire.LOCK: "locked",
    wire.UPDATEEXTRA: "stored",
}

# What each command asks for beyond its shape, some by the two low bits of Param1. What is not listed asks for nothing.
CONDITIONS = {
    wire.MAC: [
        "both zones locked",
        "TempKey, if used: Valid, CheckFlag 0, SourceFlag as bit 2 of the mode",
        "slot, if drawn: CheckOnly 0, a use left",
    ],
    wire.CHECKMAC: [
        "both zones locked",
        "TempKey, if used: Valid, SourceFlag as bit 2 of the mode",
        "slot, if drawn: a use left",
    ],
    wire.GENDIG: ["configuration locked", "TempKey Valid", "for data: a use left, Param2 under 8000"],
    wire.DERIVEKEY: [
        "both zones locked",
        "SlotConfig bit 13",
        "TempKey Valid, GenData 0, CheckFlag 0, SourceFlag as bit 2 of the mode",
        "a MAC exactly with SlotConfig bit 15, and the right one",
        "slots drawn: CheckOnly 0; the parent, if drawn: a use left",
    ],
    (wire.READ, 1): ["both zones locked", "OTPmode AA or 55, or 00 and one of the words 2-15"],
    (wire.READ, 2): [
        "both zones locked",
        "IsSecret and EncryptRead: both clear, or both set and 32 bytes",
        "if set: TempKey Valid, GenData 1, CheckFlag 0, SlotID as ReadKey, SourceFlag as CheckMacConfig",
    ],
    (wire.WRITE, 0): ["configuration unlocked", "in clear", "bytes 16 to 83"],
    (wire.WRITE, 1): [
        "configuration locked",
        "values unlocked: 32 bytes; values locked: OTPmode 55, in clear",
        "encrypted: TempKey Valid, GenData 1, CheckFlag 0, and the right MAC",
    ],
    (wire.WRITE, 2): [
        "configuration locked",
        "values unlocked: 32 bytes; values locked: clear or encrypted as WriteConfig says",
        "encrypted: TempKey Valid, GenData 1, CheckFlag 0, and the right MAC",
        "encrypted, values locked: SlotID as WriteKey, SourceFlag as CheckMacConfig",
    ],
    wire.LOCK: ["the zone unlocked", "for values: configuration locked", "the right sum"],
    (wire.UPDATEEXTRA, 1): ["Selector or SelectorMode zero"],
}

# Of each configuration byte.
BYTE_NAMES = ["SN0-3"] * 4 + ["RevNum"] * 4 + ["SN4-7"] * 4 + ["SN8"] + ["unnamed"] * 4
BYTE_NAMES += ["CheckMacConfig", "OTPmode", "SelectorMode"]
BYTE_NAMES += [f"SlotConfig {slot}" for slot in range(16) for _ in range(2)]
BYTE_NAMES += [f"{name} {slot}" for slot in range(8) for name in ("UseFlag", "UpdateCount")]
BYTE_NAMES += ["LastKeyUse"] * 16 + ["UserExtra", "Selector", "LockValue", "LockConfig"]


class Misfit(Exception):
    """The line cannot be the answer to this event of the script."""


def unframed(answer):
    """The bytes between an answer's count and its check value."""
    if len(answer) not in (4, 7, 35):
        raise Misfit(f"the answer has {len(answer)} bytes: 4, 7 or 35 expected")
    if answer[0] != len(answer):
        raise Misfit(f"the count byte is {answer[0]:02X}: {len(answer):02X} expected, as the answer has {len(answer)} bytes")
    right = wire.with_check_value(answer[:-2])
    if answer != right:
        raise Misfit(f"the check value is {hexadecimal(answer[-2:])}: {hexadecimal(right[-2:])} expected")
    return answer[1:-2]


def meaning(block, random, result, token):
    """Lines of text on what the result of an awake token's answer to a block says."""
    damage = wire.damage(block)
    if damage or result == b"\xFF":
        if not damage:
            raise Misfit("FF, and the block is whole: another answer expected")
        if result != b"\xFF":
            raise Misfit(f"{hexadecimal(result)}, and the block is damaged ({damage}): FF expected")
        return [f"FF: the block is damaged ({damage}); nothing changed"]
    fields = wire.fields_of(block)
    name = wire.NAMES.get(fields.opcode, f"opcode {fields.opcode:02X}")
    said = status(fields, result[0]) if len(result) == 1 else content(fields, random, result, token)
    if said is None:
        raise Misfit(f"{name} does not answer `{hexadecimal(result)}`")
    return [f"{name} answers {said[0]}", *said[1:]]


def status(fields, code):
    """What a status says, or None where the command never answers it."""
    if code == 0x03:
        if fields.opcode in wire.NAMES:
            return [f"03: refused, a field or the data's length is outside the command's shape; {EMPTIED}"]
        return [f"03: refused, an unknown opcode; {EMPTIED}"]
    if code == 0x0F:
        asked = CONDITIONS.get(fields.opcode) or CONDITIONS.get((fields.opcode, fields.param1 & 3))
        return asked and [f"0F: refused, a stated condition is not met; {EMPTIED}", *(f"- {condition}" for condition in asked)]
    if code == 0x01 and fields.opcode == wire.CHECKMAC:
        return ["01: compared unequal"]
    if code == 0x00 and fields.opcode in DONE and (fields.opcode != wire.NONCE or fields.param1 == 3):
        return [f"00: {DONE[fields.opcode]}"]
    return None


def content(fields, random, result, token):
    """What 4 or 32 bytes are, or None where the command never answers so many."""
    shown = hexadecimal(result)
    if fields.opcode == wire.DEVREV and len(result) == 4:
        return [f"RevNum {shown}"]
    if fields.opcode == wire.MAC and len(result) == 32:
        return [f"the digest {shown}"]
    if fields.opcode == wire.RANDOM and len(result) == 32:
        return [random_bytes(random, result, token)]
    if fields.opcode == wire.NONCE and fields.param1 < 2 and len(result) == 32:
        return [random_bytes(random, result, token), "TempKey is their digest with the input"]
    place = place_of(fields.param1, fields.param2) if fields.opcode == wire.READ else None
    if place and place[2] == len(result):
        return bytes_read(place, result, token)
    return None


def random_bytes(random, result, token):
    """With configuration unlocked the fixed bytes, else those that went with the block."""
    locked = token.locked(LOCK_CONFIG)
    expected = random if locked else UNLOCKED_RANDOM
    if result != expected:
        raise Misfit(f"the random bytes are {hexadecimal(result)}: {hexadecimal(expected)} expected")
    return f"the random bytes {hexadecimal(result)}, " + ("as supplied" if locked else "those of an unlocked configuration")


def bytes_read(place, result, token):
    zone, start, length = place
    shown = hexadecimal(result)
    if zone == 2:
        slot, word = start // 32, start % 32 // 4
        sealed = token.slot_config(slot) & 0xC0 == 0xC0
        where = f"slot {slot}" if length == 32 else f"slot {slot} word {word}"
        return [f"{where}: {shown}" + (", encrypted (XOR TempKey)" if sealed else "")]
    unit = f"block {start // 32}" if length == 32 else f"word {start // 4}"
    said = [f"{ZONES[zone]} {unit}, bytes {start} to {start + length - 1}: {shown}"]
    if zone == 0 and length == 4:
        said.append(", ".join(named_bytes(start, result)))
    return said


def named_bytes(start, row):
    """The bytes of a configuration word under their names; neighbours of one name together."""
    pairs = zip(BYTE_NAMES[start : start + len(row)], row)
    named = groupby(pairs, key=lambda pair: pair[0])
    return [f"{name} {hexadecimal(bytes(byte for _, byte in alike))}" for name, alike in named]
