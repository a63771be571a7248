"""The script's copy of a token: its power, and its zones as the image and the script's blocks leave them while they are unlocked.

The copy gives the check value of `lock .. sum`, bit 6 of an encrypted write and the reason for `none`. It is no engine: it has no
TempKey and makes no digest. While a zone is unlocked only Write, UpdateExtra and Lock change it; once it is locked, no sum is asked for.
"""
from planner import wire
from planner.words import Fault

IMAGE_LENGTH = 664
UNLOCKED = 0x55
SELECTOR_MODE, SLOT_CONFIG, USER_EXTRA, SELECTOR, LOCK_VALUE, LOCK_CONFIG = 19, 20, 84, 85, 86, 87
WORDS = [22, 16, 128]  # of configuration, OTP and data

# Sheet A's table 2-4 with both zones unlocked and nothing written in them. The bytes that the table leaves open are those of
# tests/runs/cases/fitted.txt: SN2-3 4A 5B, RevNum 00 02 00 09, SN4-7 6C 7D 8E 9F, byte 14 00.
BLANK = bytes.fromhex(
    "01234A5B 00020009 6C7D8E9F EE550000 C8005500"
    "8F8080A1 82E0A360 9440A085 86408707 0F0089F2 8A7A0B8B 0C4CDD4D C242AF8F"
    "FF00FF00 FF00FF00 FF00FF00 FF00FF00"
    "FFFFFFFF FFFFFFFF FFFFFFFF FFFFFFFF"
    "00005555"
) + b"\xFF" * (64 + 512)


class Token:
    def __init__(self, image):
        self.configuration = bytearray(image[:88])
        self.otp = bytearray(image[88:152])
        self.data = bytearray(image[152:])
        self.power = "asleep"
        self.unknown = {}  # (zone, first byte) of 32 bytes written encrypted, and the script's line that did it

    def locked(self, lock_byte):
        return self.configuration[lock_byte] != UNLOCKED

    def slot_config(self, slot):
        at = SLOT_CONFIG + 2 * slot
        return int.from_bytes(self.configuration[at : at + 2], "little")

    def run(self, event):
        """What an event does to power and zones."""
        if event.kind == "wake":
            self.power = "awake"
        elif event.kind == "sleep":
            self.power = "asleep"
        elif event.kind == "idle" and self.power == "awake":
            self.power = "idle"
        elif event.kind == "block" and self.power == "awake":
            fields = wire.fields_of(event.content)
            if fields and fields.opcode in CHANGES:
                CHANGES[fields.opcode](self, fields, event.line)

    def summary(self, zone):
        """The check value that Lock asks for: of the configuration, or of data and then OTP."""
        if zone == "config":
            return wire.check_value(self.configuration)
        if self.unknown:
            line = min(self.unknown.values())
            raise Fault(f"line {line} wrote encrypted, so the sum is not known here: give it, `lock values sum HHHH`, or use `nosum`")
        return wire.check_value(self.data + self.otp)

    def write(self, fields, line):
        place = place_of(fields.param1, fields.param2)
        if place is None or fields.param1 & 0x3C:
            return
        zone, start, length = place
        in_clear = len(fields.data) == length and not fields.param1 & 0x40
        if zone == 0:
            if in_clear and not self.locked(LOCK_CONFIG) and 16 <= start and start + length <= 84:
                self.configuration[start : start + length] = fields.data
        elif self.locked(LOCK_CONFIG) and not self.locked(LOCK_VALUE) and length == 32:
            if in_clear:
                [self.otp, self.data][zone - 1][start : start + 32] = fields.data
                self.unknown.pop((zone, start), None)
            elif len(fields.data) == 64 and fields.param1 & 0x40:
                self.unknown[zone, start] = line

    def lock(self, fields, line):
        zone, lock_byte = ("values", LOCK_VALUE) if fields.param1 & 1 else ("config", LOCK_CONFIG)
        if fields.param1 & 0x7E or fields.data or self.locked(lock_byte):
            return
        if zone == "values" and not self.locked(LOCK_CONFIG):
            return
        if fields.param1 & 0x80:
            right = fields.param2 == 0
        elif zone == "values" and self.unknown:
            right = True  # the sum was given, and is believed
        else:
            right = fields.param2 == self.summary(zone)
        if right:
            self.configuration[lock_byte] = 0

    def update_extra(self, fields, line):
        if fields.param1 > 1 or fields.param2 > 0xFF or fields.data:
            return
        if fields.param1 == 0:
            self.configuration[USER_EXTRA] = fields.param2
        elif not (self.configuration[SELECTOR] and self.configuration[SELECTOR_MODE]):
            self.configuration[SELECTOR] = fields.param2


CHANGES = {wire.WRITE: Token.write, wire.LOCK: Token.lock, wire.UPDATEEXTRA: Token.update_extra}


def place_of(param1, param2):
    """Zone, first byte and length that Read and Write go to, or None where there is no such place."""
    zone = param1 & 3
    if zone == 3 or param2 >= WORDS[zone]:
        return None
    if not param1 & 0x80:
        return zone, 4 * param2, 4
    if zone == 0 and param2 >= 16:
        return None
    return zone, 4 * (param2 & ~7), 32
