#!/usr/bin/env python3
"""Writes crates/vectors/stdout: what the program `vectors` must print, by Python's hashlib (OpenSSL), no code of ours."""
from hashlib import sha256

print(sha256(b"").hexdigest())
print(sha256(b"abc").hexdigest())
print(sha256(b"abcdbcdecdefdefgefghfghighijhijkijkljklmklmnlmnomnopnopq").hexdigest())
print(sha256(b"abcdefghbcdefghicdefghijdefghijkefghijklfghijklmghijklmnhijklmnoijklmnopjklmnopqklmnopqrlmnopqrsmnopqrstnopqrstu").hexdigest())
print(sha256(b"a" * 1000000).hexdigest())
for first in range(0, 201, 16):
    row = b""
    for n in range(first, first + 16):
        row += sha256(bytes((i * 7 + n * 13) % 256 for i in range(n))).digest() if n <= 200 else bytes(32)
    print(sha256(row).hexdigest())
