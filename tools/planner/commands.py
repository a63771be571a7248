"""The statements for the eleven commands: each takes its words from the line and gives the block's fields."""
from typing import NamedTuple

from planner import wire
from planner.wire import Fields
from planner.words import Fault
from planner.zones import LOCK_VALUE

ZONES = ("config", "otp", "data")
LAST_WORD = {"config": 21, "otp": 15}


class Place(NamedTuple):
    zone: int
    word: int
    length: int

    def param1(self):
        return self.zone | (0x80 if self.length == 32 else 0)


def modes(mask):
    return [mode for mode in range(256) if not mode & ~mask]


def slot_number(words):
    words.choose("slot")
    return words.number("slot", 15)


def drawn_slot(words, mode):
    """`slot N`; it may be left out where bit 1 puts TempKey in the slot's place."""
    return slot_number(words) if not mode & 2 or words.next_is("slot") else 0


def place(words):
    """A word of 4 bytes, or a block or slot of 32. A slot's word is counted from the slot's first."""
    name = words.choose(*ZONES)
    zone = ZONES.index(name)
    if name == "data":
        first = 8 * slot_number(words)
        if not words.next_is("word"):
            return Place(zone, first, 32)
        words.choose("word")
        return Place(zone, first + words.number("word", 7), 4)
    if words.choose("word", "block") == "block":
        return Place(zone, 8 * words.number(f"{name} block", 1), 32)
    return Place(zone, words.number(f"{name} word", LAST_WORD[name]), 4)


def nonce(words, token):
    mode = words.mode((0, 1, 3), "0, 1 or 3")
    return Fields(wire.NONCE, mode, 0, words.bytes("the nonce's input", 32 if mode == 3 else 20))


def random(words, token):
    if words.more() and len(words.left[0]) > 2:
        raise Fault("`random` sends the command: mode 0 or 1 expected (`random bytes ..` sets the bytes that go with each block)")
    return Fields(wire.RANDOM, words.mode((0, 1), "0 or 1"), 0)


def mac(words, token):
    mode = words.mode(modes(0x77), "bits 0, 1, 2, 4, 5 and 6")
    slot = drawn_slot(words, mode)
    if mode & 1:
        if words.next_is("challenge"):
            raise Fault(f"mac {mode:02X} has bit 0 set, which takes TempKey for the challenge: none expected")
        return Fields(wire.MAC, mode, slot)
    words.choose("challenge")
    return Fields(wire.MAC, mode, slot, words.bytes("the challenge", 32))


def checkmac(words, token):
    mode = words.mode(modes(0x27), "bits 0, 1, 2 and 5")
    slot = drawn_slot(words, mode)
    words.choose("challenge")
    data = words.bytes("the challenge", 32, until=("response",))
    words.choose("response")
    data += words.bytes("the response", 32, until=("other",))
    words.choose("other")
    return Fields(wire.CHECKMAC, mode, slot, data + words.bytes("the other data", 13))


def optional(words, mark, name, length):
    """The data behind its mark, or none where the line ends."""
    if not words.more():
        return b""
    words.choose(mark)
    return words.bytes(name, length)


def gendig(words, token):
    zone = ZONES.index(words.choose(*ZONES))
    if zone < 2:
        words.choose("block")
        return Fields(wire.GENDIG, zone, words.number(f"{ZONES[zone]} block", 1))
    return Fields(wire.GENDIG, zone, slot_number(words), optional(words, "header", "the header", 4))


def derivekey(words, token):
    mode = words.mode((0, 4), "0 or 4")
    return Fields(wire.DERIVEKEY, mode, slot_number(words), optional(words, "mac", "the MAC", 32))


def read(words, token):
    where = place(words)
    length = words.choose("4", "32")
    if int(length) != where.length:
        raise Fault(f"{length} bytes: a word is 4 bytes, a block or a slot 32, so {where.length} expected")
    return Fields(wire.READ, where.param1(), where.word)


def write(words, token):
    where = place(words)
    if words.choose("clear", "encrypted") == "clear":
        return Fields(wire.WRITE, where.param1(), where.word, words.bytes("the value", where.length))
    if where.zone == 0 or where.length == 4:
        raise Fault("encrypted: only an otp block or a data slot of 32 bytes can be written so")
    data = words.bytes("the value", 32, until=("mac",))
    words.choose("mac")
    data += words.bytes("the MAC", 32)
    # document 01: bit 6 decides while values are unlocked, and must be clear afterwards
    encrypted = 0 if token.locked(LOCK_VALUE) else 0x40
    return Fields(wire.WRITE, where.param1() | encrypted, where.word, data)


def lock(words, token):
    zone = words.choose("config", "values")
    mode = 1 if zone == "values" else 0
    if words.choose("sum", "nosum") == "nosum":
        return Fields(wire.LOCK, mode | 0x80, 0)
    given = words.more()
    return Fields(wire.LOCK, mode, words.hexadecimal("a check value", 4) if given else token.summary(zone))


def updateextra(words, token):
    mode = ("user", "selector").index(words.choose("user", "selector"))
    return Fields(wire.UPDATEEXTRA, mode, words.bytes("the value", 1)[0])


def devrev(words, token):
    return Fields(wire.DEVREV, 0, 0)


COMMANDS = {
    command.__name__: command
    for command in (nonce, random, mac, checkmac, gendig, derivekey, read, write, lock, updateextra, devrev)
}
