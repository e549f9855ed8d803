#!/usr/bin/python3
"""Makes test lines for XTEA with another library.

Usage: /usr/bin/python3 tools/xtea_lines.py

Writes data/xtea.in, lines of KEY SPACE PLAINTEXT (32 and 16 capital
hexadecimal digits), and data/xtea.out, the ciphertext of each line (16).

Run with Debian 12's package python3-botan 2.19.3+dfsg-1+deb12u1
(Botan 2.19.3) under Debian's own Python 3.11.2.
"""
import hashlib
import sys
from pathlib import Path

import botan2

VERSION = (2, 19, 3)
DATA = Path(__file__).resolve().parent.parent / "data"
COUNTING = bytes(range(16))


def encrypt(key, block):
    cipher = botan2.BlockCipher("XTEA")
    cipher.set_key(key)
    return bytes(cipher.encrypt(block))


def single(length, place, value):
    """Zero bytes but for one."""
    return bytes(value if i == place else 0 for i in range(length))


def cases():
    """Pairs of key and plaintext."""
    yield COUNTING, b"ABCDEFGH"  # the published vector
    # zeros and ones only
    for key in (bytes(16), b"\xff" * 16):
        for block in (bytes(8), b"\xff" * 8):
            yield key, block
    # each byte of the key alone: its lowest bit, then its highest
    for value in (0x01, 0x80):
        for place in range(16):
            yield single(16, place, value), bytes(8)
    # each bit of the plaintext alone, the first bit first
    for bit in range(64):
        yield COUNTING, (1 << (63 - bit)).to_bytes(8, "big")
    # bytes above 7F only, each value at least once
    for start in range(0, 128, 24):
        line = bytes(0x80 + (start + i) % 128 for i in range(24))
        yield line[:16], line[16:]
    # pseudo-random, from a hash so that every Python makes the same
    for i in range(100):
        line = hashlib.sha256(b"XTEA line %d" % i).digest()
        yield line[:16], line[16:24]


def digits(data):
    return data.hex().upper()


def main():
    found = (botan2.version_major(), botan2.version_minor(), botan2.version_patch())
    print(botan2.version_string())
    if found != VERSION:
        sys.exit("this is not the version that made the lines")
    # The published vector has words with the first byte the highest. A
    # library that takes words the other way round would give another block.
    if digits(encrypt(COUNTING, b"ABCDEFGH")) != "497DF3D072612CB5":
        sys.exit("the library does not give the published vector")

    pairs = list(cases())
    if len(set(pairs)) != len(pairs):
        sys.exit("a line occurs twice")
    lines = [f"{digits(key)} {digits(block)}\n" for key, block in pairs]
    results = [digits(encrypt(key, block)) + "\n" for key, block in pairs]
    (DATA / "xtea.in").write_text("".join(lines))
    (DATA / "xtea.out").write_text("".join(results))
    print(f"data/xtea.in, data/xtea.out: {len(pairs)} lines each")


if __name__ == "__main__":
    main()
