#!/usr/bin/env python3
"""Composes the input and the expected output of the program `vectors`.

Usage: tools/vector_lines.py

Writes crates/vectors/stdin and crates/vectors/stdout. The good lines and
their ciphertexts come from data/blowfish.tsv, data/xtea.in and data/xtea.out,
which other implementations vouch for; the malformed lines are made here, and
the program answers each with a hyphen. Needs Python 3 and no other package.
"""
import re
import sys
from itertools import cycle
from pathlib import Path

ROOT = Path(__file__).resolve().parent.parent
GOOD = re.compile(rb"([0-9A-F]{16}|[0-9A-F]{32}) [0-9A-F]{16}")

TEXT = b"0123456789ABCDEF"
KEY8, KEY16 = b"FEDCBA9876543210", b"000102030405060708090A0B0C0D0E0F"
SHORT, LONG = KEY8 + b" " + TEXT, KEY16 + b" " + TEXT
MANY = b"7" * 10000


def with_byte(byte):
    """The byte as first, middle and last digit of each word of a good line."""
    for key in (KEY8, KEY16):
        n = len(key)
        line = key + b" " + TEXT
        for place in (0, n // 2, n - 1, n + 1, n + 8, n + 16):
            yield line[:place] + bytes([byte]) + line[place + 1:]


def with_lengths(pairs):
    """Lines of digits only, with so many in the key and in the plaintext."""
    for key, text in pairs:
        yield b"A" * key + b" " + b"5" * text


# Groups of malformed lines; a good line follows each group.
MALFORMED = [
    [b""],  # empty line
    [b" ", b"  ", b" " * 33, b" " * 49],  # only a space, or only spaces
    [KEY8, KEY16],  # key only
    [KEY8 + b" ", KEY16 + b" "],  # key and space only: plaintext of no digits
    [b" " + TEXT],  # key of no digits
    [KEY8 + TEXT, KEY16 + TEXT],  # no space
    [KEY8 + b"0" + TEXT, KEY16 + b"0" + TEXT],  # digit in place of the space
    [KEY8 + b"  " + TEXT, KEY16 + b"  " + TEXT],  # two spaces
    [b" " + SHORT, b" " + LONG],  # leading space
    [SHORT + b" ", LONG + b" "],  # trailing space
    [KEY8 + b"\t" + TEXT, KEY16 + b"\t" + TEXT],  # tab in place of the space
    [SHORT + b"\r", LONG + b"\r", b"\r"],  # carriage return at the end
    [KEY8 + b"\r" + TEXT, SHORT + b"\r" + SHORT],  # carriage return within
    [SHORT + b" " + TEXT, LONG + b" " + TEXT, LONG + b" 0"],  # a third word
    with_lengths([(16, 15), (16, 17), (32, 15), (32, 17)]),  # plaintext off by a digit
    with_lengths([(15, 16), (17, 16), (31, 16), (33, 16)]),  # key off by a digit
    # one digit on the wrong side of the space, so that the whole length is right
    with_lengths([(15, 17), (17, 15), (31, 17), (33, 15)]),
    # keys of other lengths, some of which Blowfish itself would take
    with_lengths([(1, 16), (8, 16), (24, 16), (48, 16), (64, 16), (112, 16)]),
    with_lengths([(32, 32), (16, 32)]),  # plaintext of 32 digits
    # lengths that are right only modulo 256
    with_lengths([(16 + 256, 16), (32 + 256, 16), (16, 16 + 256), (32, 16 + 256)]),
    [MANY, MANY + SHORT, KEY16 + MANY + b" " + TEXT, LONG + MANY],  # 10,000 digits
    [b"-"],  # a hyphen, as the program writes
    [b"0x" + KEY8 + b" 0x" + TEXT],  # prefix 0x
    [SHORT.lower(), LONG.lower()],  # lower-case throughout
    with_byte(ord("a")), with_byte(ord("f")),  # one lower-case digit
    with_byte(ord("G")), with_byte(ord("g")), with_byte(ord("Z")),  # letter beyond F
    with_byte(ord("/")), with_byte(ord(":")),  # just below 0, just above 9
    with_byte(ord("@")), with_byte(ord("`")),  # just below A, just below a
    with_byte(ord(" ")), with_byte(ord("\r")),  # space or carriage return for a digit
    with_byte(0x00),  # NUL in place of a digit
    [b"\0", KEY8 + b"\0" + TEXT, SHORT + b"\0", LONG + b"\0"],  # NUL elsewhere
    with_byte(0x80), with_byte(0xFF),  # lowest and highest byte above 7F
    # bytes above 7F that are 0, 9, A, F but for the highest bit
    with_byte(0xB0), with_byte(0xB9), with_byte(0xC1), with_byte(0xC6),
    # the same of a space
    [KEY8 + b"\xa0" + TEXT, KEY16 + b"\xa0" + TEXT],
]


def main():
    table = (ROOT / "data/blowfish.tsv").read_bytes().splitlines()
    rows = [row.split(b"\t") for row in table if not row.startswith(b"#")]
    blowfish = [(key + b" " + text, right) for key, text, right in rows]
    lines = (ROOT / "data/xtea.in").read_bytes().splitlines()
    results = (ROOT / "data/xtea.out").read_bytes().splitlines()
    if len(lines) != len(results):
        sys.exit("data/xtea.in and data/xtea.out differ in length")
    xtea = list(zip(lines, results))

    answers = blowfish + xtea
    # a Blowfish line and an XTEA line by turns
    good = cycle(pair for both in zip(blowfish, xtea) for pair in both)
    for group in MALFORMED:
        answers += [(line, b"-") for line in group] + [next(good)]
    for line, right in answers:
        if b"\n" in line or (right == b"-") == bool(GOOD.fullmatch(line)):
            sys.exit(f"not of the form it is meant to be: {line!r}")

    # the last bytes are no line, for want of a line feed, and get no answer
    stdin = b"".join(line + b"\n" for line, _ in answers) + SHORT
    stdout = b"".join(right + b"\n" for _, right in answers)
    folder = ROOT / "crates/vectors"
    folder.mkdir(parents=True, exist_ok=True)
    (folder / "stdin").write_bytes(stdin)
    (folder / "stdout").write_bytes(stdout)
    bad = sum(right == b"-" for _, right in answers)
    print(f"crates/vectors/stdin: {len(answers)} lines, {bad} malformed; {len(stdin)} bytes")


if __name__ == "__main__":
    main()
