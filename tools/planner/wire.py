"""Blocks and answers as document 01 gives them: the check value, the frames, the opcodes' names."""
from typing import NamedTuple

READ, MAC, WRITE, GENDIG, NONCE, LOCK = 0x02, 0x08, 0x12, 0x15, 0x16, 0x17
RANDOM, DERIVEKEY, UPDATEEXTRA, CHECKMAC, DEVREV = 0x1B, 0x1C, 0x20, 0x28, 0x30

NAMES = {
    READ: "Read",
    MAC: "MAC",
    WRITE: "Write",
    GENDIG: "GenDig",
    NONCE: "Nonce",
    LOCK: "Lock",
    RANDOM: "Random",
    DERIVEKEY: "DeriveKey",
    UPDATEEXTRA: "UpdateExtra",
    CHECKMAC: "CheckMac",
    DEVREV: "DevRev",
}


class Fields(NamedTuple):
    """What a whole block says."""

    opcode: int
    param1: int
    param2: int
    data: bytes = b""


def check_value(message):
    """16 bits, polynomial 8005, start 0, each byte's lowest bit first."""
    register = 0
    for byte in message:
        for bit in range(8):
            differs = byte >> bit & 1 != register >> 15
            register = register << 1 & 0xFFFF ^ (0x8005 if differs else 0)
    return register


def with_check_value(message):
    return message + check_value(message).to_bytes(2, "little")


def block_of(fields):
    """The fields with their count and check value. The count is a byte, so the data may be up to 248 bytes."""
    head = bytes([len(fields.data) + 7, fields.opcode, fields.param1]) + fields.param2.to_bytes(2, "little")
    return with_check_value(head + fields.data)


def damage(block):
    """Why the token answers FF, or None where the block is whole."""
    if not 7 <= len(block) <= 84:
        return f"it has {len(block)} bytes, not 7 to 84"
    if block[0] != len(block):
        return f"its count is {block[0]}, its length {len(block)}"
    if with_check_value(block[:-2]) != block:
        return "its check value is wrong"
    return None


def fields_of(block):
    """What a block says, or None where it is damaged."""
    if damage(block):
        return None
    return Fields(block[1], block[2], int.from_bytes(block[3:5], "little"), block[5:-2])


def hexadecimal(row):
    return row.hex().upper()
