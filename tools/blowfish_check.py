#!/usr/bin/python3
"""Checks the published Blowfish vectors with another library, and makes others.

Usage: /usr/bin/python3 tools/blowfish_check.py

Checks each line of data/blowfish.tsv and the published vectors of longer
keys, then writes data/singles.tsv, vectors for the tests.

Run with Debian 12's package python3-botan 2.19.3+dfsg-1+deb12u1
(Botan 2.19.3) under Debian's own Python 3.11.2.
"""
import sys
from pathlib import Path

import botan2

VERSION = (2, 19, 3)
DATA = Path(__file__).resolve().parent.parent / "data"

HEADER = """\
# Single vectors: cipher, key, plaintext, ciphertext, tab separated.
# The first two are published; Botan 2.19.3 gives the same. It made the others.
# EDE: encrypt under the first key, decrypt under the second, encrypt under the
# third, each key with its cipher in the same place.
"""


def cipher(name, key):
    made = botan2.BlockCipher(name)
    made.set_key(bytes.fromhex(key))
    return made


def encrypt(name, key, block):
    return bytes(cipher(name, key).encrypt(bytes.fromhex(block))).hex().upper()


def decrypt(name, key, block):
    return bytes(cipher(name, key).decrypt(bytes.fromhex(block))).hex().upper()


def check(name, key, block, right):
    found = encrypt(name, key, block)
    # the way back too, since EDE relies on it
    if found != right or decrypt(name, key, right) != block:
        sys.exit(f"{name} {key} {block}: {right} is published, found {found}")


def digits(data):
    return data.hex().upper()


def main():
    found = (botan2.version_major(), botan2.version_minor(), botan2.version_patch())
    print(botan2.version_string())
    if found != VERSION:
        sys.exit("this is not the version that made the vectors")

    text = (DATA / "blowfish.tsv").read_text()
    vectors = [line.split("\t") for line in text.splitlines() if line[0] != "#"]
    if len(vectors) != 34:
        sys.exit(f"data/blowfish.tsv: {len(vectors)} vectors, not 34")
    for key, block, right in vectors:
        check("Blowfish", key, block, right)
    print("data/blowfish.tsv: 34 vectors, all right")

    published = [
        (digits(b"abcdefghijklmnopqrstuvwxyz"), digits(b"BLOWFISH"), "324ED0FEF413A203"),
        (digits(b"Who is John Galt?"), "FEDCBA9876543210", "CC91732B8022F684"),
    ]
    for key, block, right in published:
        check("Blowfish", key, block, right)
    print("published vectors of longer keys: 2, both right")
    # so that XTEA takes words with the first byte the highest here as well
    counting = digits(bytes(range(16)))
    check("XTEA", counting, digits(b"ABCDEFGH"), "497DF3D072612CB5")

    rows = [("Blowfish", *vector) for vector in published]
    for name, key, block in (
        ("Blowfish", "80FF7FFE", "00" * 8),  # the shortest key
        ("Blowfish", digits(bytes((0xF0 + i) % 256 for i in range(56))), "00" * 8),  # the longest
        ("XTEA", digits(bytes(range(0xF0, 0x100))), "8000000000000001"),
    ):
        rows.append((name, key, block, encrypt(name, key, block)))

    first, third, block = "0123456789ABCDEF", "FEDCBA9876543210", "0123456789ABCDEF"
    inner = decrypt("XTEA", counting, encrypt("Blowfish", first, block))
    rows.append(("EDE:Blowfish,XTEA,Blowfish", f"{first},{counting},{third}", block,
                 encrypt("Blowfish", third, inner)))

    table = "".join("\t".join(row) + "\n" for row in rows)
    (DATA / "singles.tsv").write_text(HEADER + table)
    print(table + f"data/singles.tsv: {len(rows)} vectors")


if __name__ == "__main__":
    main()
