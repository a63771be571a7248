#!/usr/bin/env python3
"""Writes tests/runs/cases/fitted.txt: sheet A's default configuration (its table 2-4) fitted out from blank to both zones locked and then used.

Run once: the gate reads what is stored. Digests are Python's hashlib (OpenSSL). This is no engine: each step says itself what the
token must answer, and `slots` and `temp_key` are what the host who wrote the keys knows.
"""
from hashlib import sha256

RANDOM = bytes(range(0xA0, 0xC0))

# Table 2-4, word by word; the bytes that it leaves open (xx) are chosen here.
FIXED = bytes.fromhex("01234A5B 00020009 6C7D8E9F EE550000")
WRITTEN = bytes.fromhex(
    "C8005500"  # I2C_Address, CheckMacConfig 00, OTPmode 55, SelectorMode 00
    "8F8080A1 82E0A360 9440A085 86408707 0F0089F2 8A7A0B8B 0C4CDD4D C242AF8F"  # SlotConfig 0 to 15
    "FF00FF00 FF00FF00 FF00FF00 FF00FF00"  # UseFlag and UpdateCount 0 to 7
    "FFFFFFFF FFFFFFFF FFFFFFFF FFFFFFFF"  # LastKeyUse
)
SN = FIXED[0:4] + FIXED[8:13]
TAIL = bytes([SN[8], SN[0], SN[1]])
lines = []


# its own, and not tools/planner's, which the helper's tests hold to what is stored here
def check(message):
    register = 0
    for byte in message:
        for bit in range(8):
            differs = byte >> bit & 1 != register >> 15
            register = register << 1 & 0xFFFF ^ (0x8005 if differs else 0)
    return register.to_bytes(2, "little")


def note(words):
    lines.append("# " + words)


def send(opcode, param1, param2, data, answer, times=1):
    """One block and the bytes that answer it; a number stands for a status, None for no answer."""
    block = bytes([len(data) + 7, opcode, param1]) + param2.to_bytes(2, "little") + data
    answer = bytes([answer]) if isinstance(answer, int) else answer
    shown = "none"
    if answer is not None:
        framed = bytes([len(answer) + 3]) + answer
        shown = (framed + check(framed)).hex().upper()
    record = "BK " + (block + check(block)).hex(" ").upper()
    lines.append(("%d * " % times if times > 1 else "") + record + " | block " + shown)


def xor(a, b):
    return bytes(x ^ y for x, y in zip(a, b))


def long_digest(first, header, last):
    """The 96 bytes of GenDig, DeriveKey and an encrypted Write's MAC."""
    return sha256(first + bytes(header) + TAIL + bytes(25) + last).digest()


def nonce():
    """Nonce 0: gives the TempKey."""
    data = bytes(range(0x30, 0x44))
    send(0x16, 0, 0, data, RANDOM)
    return sha256(RANDOM + data + bytes([0x16, 0, 0])).digest()


def gen_dig(key, temp_key):
    send(0x15, 2, key, b"", 0x00)
    return long_digest(slots[key], [0x15, 2, key, 0], temp_key)


def mac(param1, key, first, second, status=None):
    """MAC; OTP and serial number are included by bits 4, 5 and 6."""
    message = first + second + bytes([0x08, param1, key, 0])
    message += otp[0:8] if param1 & 0x30 else bytes(8)
    message += otp[8:11] if param1 & 0x10 else bytes(3)
    message += SN[8:9] + (SN[4:8] if param1 & 0x40 else bytes(4)) + SN[0:2] + (SN[2:4] if param1 & 0x40 else bytes(2))
    send(0x08, param1, key, b"" if param1 & 1 else second, sha256(message).digest() if status is None else status)


def challenge(number):
    return bytes((number * 37 + i * 11) % 256 for i in range(32))


def mac_of_slot(key, number):
    mac(0x00, key, slots[key], challenge(number))


def check_mac(param1, key, first, second, right, status):
    other = bytes(range(0x61, 0x6E))
    message = first + second + other[0:4] + bytes(8) + other[4:7] + SN[8:9] + other[7:11] + SN[0:2] + other[11:13]
    response = sha256(message).digest()
    send(0x28, param1, key, challenge(9) + (response if right else xor(response, bytes(31) + b"\x01")) + other, status)


def encrypted_write(param1, word, plain, temp_key, right=True):
    made = long_digest(temp_key, [0x12, param1, word, 0], plain)
    send(0x12, param1, word, xor(plain, temp_key) + (made if right else xor(made, b"\x80" + bytes(31))), 0x00 if right else 0x0F)


def read_use_flags(slot, answer):
    send(0x02, 0x00, 0x0D + slot // 2, b"", answer)


# ===== From blank =====

configuration = bytearray(FIXED + bytes(68) + bytes.fromhex("00005555"))
slots = [bytes((0x10 * slot + i) % 256 for i in range(32)) for slot in range(16)]
otp = b"chart bench 7, remote desk no. 4" + b"\xF0" * 32

lines.append("# Written by tests/expected/fitted.py. The format: tests/runs/src/cases.rs.")
note("The default configuration allows every step below as it stands: no SlotConfig was changed.")
lines.append("")
lines.append("case sheet A's default configuration, fitted out from blank and used")
lines.append("EE 0=%s 86=55,55 OTP=FF*64 data=FF*512 | image" % FIXED.hex(",").upper())
lines.append("WK | wake 04113343")
note("RevNum; the random of an unlocked configuration; nothing but the configuration opens yet")
send(0x30, 0, 0, b"", FIXED[4:8])
send(0x1B, 0, 0, b"", bytes.fromhex("FFFF0000") * 8)
send(0x02, 0x00, 3, b"", FIXED[12:16])
mac(0x00, 0, bytes(32), challenge(0), 0x0F)
send(0x02, 0x82, 0, b"", 0x0F)
send(0x12, 0x82, 0, slots[0], 0x0F)
send(0x12, 0x00, 3, FIXED[12:16], 0x0F)
send(0x12, 0x00, 21, bytes(4), 0x0F)
note("the configuration: words 4 to 7, words 8 to 15 at once, words 16 to 20")
for word in [4, 5, 6, 7]:
    send(0x12, 0x00, word, WRITTEN[4 * word - 16 : 4 * word - 12], 0x00)
send(0x12, 0x80, 8, WRITTEN[16:48], 0x00)
for word in range(16, 21):
    send(0x12, 0x00, word, WRITTEN[4 * word - 16 : 4 * word - 12], 0x00)
configuration[16:84] = WRITTEN
for block in [0, 8]:
    send(0x02, 0x80, block, b"", bytes(configuration[4 * block : 4 * block + 32]))
for word in range(16, 22):
    send(0x02, 0x00, word, b"", bytes(configuration[4 * word : 4 * word + 4]))
note("lock: a wrong sum, values before configuration, the right sum, once more")
summary = int.from_bytes(check(configuration), "little")
send(0x17, 0x00, summary ^ 1, b"", 0x0F)
send(0x17, 0x81, 0, b"", 0x0F)
send(0x17, 0x00, summary, b"", 0x00)
send(0x17, 0x00, summary, b"", 0x0F)
send(0x12, 0x00, 4, WRITTEN[0:4], 0x0F)
send(0x1B, 0, 0, b"", RANDOM)

# ===== The keys =====

note("the keys in clear, but slot 14's, which goes in encrypted by slot 2's; OTP")
for slot in range(16):
    if slot != 14:
        send(0x12, 0x82, 8 * slot, slots[slot], 0x00)
encrypted_write(0xC2, 8 * 14, slots[14], gen_dig(2, nonce()))
send(0x12, 0x81, 0, otp[0:32], 0x00)
send(0x12, 0x81, 8, otp[32:64], 0x00)
note("nothing is read yet; lock: a wrong sum, the right one")
send(0x02, 0x82, 8 * 8, b"", 0x0F)
send(0x02, 0x81, 0, b"", 0x0F)
summary = int.from_bytes(check(b"".join(slots) + otp), "little")
send(0x17, 0x01, summary ^ 0x8000, b"", 0x0F)
send(0x17, 0x01, summary, b"", 0x00)
send(0x17, 0x01, summary, b"", 0x0F)
send(0x02, 0x00, 21, b"", bytes(4))
lines.append("SL | sleep none")

# ===== The desk =====

lines.append("WK | wake 04113343")
note("Nonce and MAC of slot 0: OTP 0-10 and the whole serial number included; TempKey is gone afterwards")
mac(0x51, 0, slots[0], nonce())
mac(0x51, 0, b"", b"", 0x0F)
mac_of_slot(0, 1)
note("CheckMac of slot 0 copies slot 1: MAC of TempKey twice shows it; an unequal one copies nothing")
check_mac(0x01, 0, slots[0], nonce(), True, 0x00)
mac(0x07, 0, slots[1], slots[1])
check_mac(0x01, 0, slots[0], nonce(), False, 0x01)
mac(0x07, 0, b"", b"", 0x0F)
note("slot 14, read encrypted by key 2; without GenDig, and by another key: refused")
temp_key = gen_dig(2, nonce())
send(0x02, 0x82, 8 * 14, b"", xor(slots[14], temp_key))
nonce()
send(0x02, 0x82, 8 * 14, b"", 0x0F)
gen_dig(6, nonce())
send(0x02, 0x82, 8 * 14, b"", 0x0F)
note("slot 14, written encrypted by key 2: a wrong MAC, the right one, and read again")
renewed = bytes(reversed(slots[14]))
encrypted_write(0x82, 8 * 14, renewed, gen_dig(2, nonce()), right=False)
encrypted_write(0x82, 8 * 14, renewed, gen_dig(2, nonce()))
slots[14] = renewed
temp_key = gen_dig(2, nonce())
send(0x02, 0x82, 8 * 14, b"", xor(slots[14], temp_key))
note("slot 6, written encrypted by key 0 and never read: its MAC shows it; in clear: refused")
temp_key = gen_dig(0, nonce())
encrypted_write(0x82, 8 * 6, challenge(60), temp_key)
slots[6] = challenge(60)
mac_of_slot(6, 2)
send(0x12, 0x82, 8 * 6, slots[6], 0x0F)
send(0x02, 0x82, 8 * 6, b"", 0x0F)

# ===== DeriveKey =====

for target, parent, creates, with_mac in [(1, 1, False, True), (3, 0, False, False), (9, 2, True, True), (10, 10, True, False)]:
    note("DeriveKey of slot %d: %s, %s MAC" % (target, "created from slot %d" % parent if creates else "rolled", "with a" if with_mac else "no"))
    header = [0x1C, 0x00, target, 0x00]
    made = sha256(slots[parent] + bytes(header) + TAIL).digest()
    if with_mac:
        nonce()
        send(0x1C, 0, target, xor(made, b"\x01" + bytes(31)), 0x0F)
    nonce()
    send(0x1C, 0, target, b"" if with_mac else made, 0x0F)
    temp_key = nonce()
    send(0x1C, 0, target, made if with_mac else b"", 0x00)
    slots[target] = long_digest(slots[parent if creates else target], header, temp_key)
    mac_of_slot(target, 3)
note("one renewal each; slot 3 is limited, and one MAC is spent since; a renewal gives its uses back")
read_use_flags(0, bytes([0xFF, 0, 0xFF, 1]))
read_use_flags(2, bytes([0xFF, 0, 0x7F, 1]))
temp_key = nonce()
send(0x1C, 0, 3, b"", 0x00)
slots[3] = long_digest(slots[3], [0x1C, 0, 3, 0], temp_key)
read_use_flags(2, bytes([0xFF, 0, 0xFF, 2]))
nonce()
send(0x1C, 0, 0, b"", 0x0F)

# ===== Limited keys =====

note("slot 5 has eight uses")
for use in range(8):
    mac_of_slot(5, 50 + use)
    read_use_flags(4, bytes([0xFF, 0, 0x7F >> use, 0]))
mac(0x00, 5, b"", challenge(58), 0x0F)
read_use_flags(4, bytes([0xFF, 0, 0x00, 0]))
note("slot 15 has 128")
temp_key = nonce()
send(0x15, 2, 15, b"", 0x00, times=127)
send(0x02, 0x00, 0x14, b"", bytes([0, 0, 0, 1]))
mac_of_slot(15, 15)
send(0x02, 0x00, 0x14, b"", bytes(4))
mac(0x00, 15, b"", challenge(15), 0x0F)
nonce()
send(0x15, 2, 15, b"", 0x0F)

# ===== The other slots =====

note("slot 4 is CheckOnly: no MAC; CheckMac, also by way of GenDig with four bytes, which copies slot 5 though it has no use left")
mac(0x00, 4, b"", challenge(4), 0x0F)
check_mac(0x00, 4, slots[4], challenge(9), True, 0x00)
header = [0x08, 0x00, 0x04, 0x00]
temp_key = nonce()
send(0x15, 2, 4, bytes(header), 0x00)
temp_key = long_digest(slots[4], header, temp_key)
check_mac(0x01, 4, slots[4], temp_key, True, 0x00)
mac(0x07, 0, slots[5], slots[5])
note("slot 7 is written in clear and secret; slot 8 is open; slot 11 is read and never written; slot 12 is written by its own key")
send(0x12, 0x82, 8 * 7, challenge(7), 0x00)
slots[7] = challenge(7)
send(0x12, 0x02, 8 * 7, bytes(4), 0x0F)
mac_of_slot(7, 7)
send(0x12, 0x02, 8 * 8 + 3, b"deed", 0x00)
slots[8] = slots[8][:12] + b"deed" + slots[8][16:]
send(0x02, 0x82, 8 * 8, b"", slots[8])
send(0x02, 0x02, 8 * 8 + 3, b"", b"deed")
send(0x12, 0x82, 8 * 11, bytes(32), 0x0F)
send(0x02, 0x82, 8 * 11, b"", slots[11])
encrypted_write(0x82, 8 * 12, challenge(12), gen_dig(12, nonce()))
slots[12] = challenge(12)
send(0x02, 0x82, 8 * 12, b"", slots[12])
note("slot 13 is read by its own key, which is CheckOnly: never")
nonce()
send(0x15, 2, 13, bytes(4), 0x00)
send(0x02, 0x82, 8 * 13, b"", 0x0F)
note("OTP is consumed; UserExtra and Selector")
send(0x12, 0x01, 8, bytes.fromhex("AA0FFF00"), 0x00)
otp = otp[:32] + bytes.fromhex("A000F000") + otp[36:]
send(0x02, 0x81, 8, b"", otp[32:64])
send(0x20, 0, 0x44, b"", 0x00)
send(0x20, 1, 0x07, b"", 0x00)
send(0x02, 0x00, 21, b"", bytes([0x44, 0x07, 0, 0]))
note("a stale challenge: sleep ends it, idle does not")
temp_key = nonce()
lines.append("ID | idle none")
lines.append("WK | wake 04113343")
mac(0x01, 0, slots[0], temp_key)
nonce()
lines.append("SL | sleep none")
send(0x08, 0x01, 0, b"", None)
lines.append("WK | wake 04113343")
mac(0x01, 0, b"", b"", 0x0F)

print("\n".join(lines))
