#!/usr/bin/env python3
"""Checks that Blowfish's constants are the digits of pi.

Usage: tools/pi_words.py [ROOT]     (ROOT: the repository, by default this one)

Computes the first 1,042 words of 32 bits of the fraction of pi and compares
them, in order, with the words written in the program and in its
specification. Exits 0 if all agree; else names the first word that differs
in each file and exits 1. Needs Python 3 and no other package.
"""
import re
import sys
from pathlib import Path

FILES = ("crates/blowfish/src/pi.rt", "crates/blowfish/specs/Pi.antt")
COUNT = 18 + 4 * 256
GUARD = 64  # bits computed beyond the last word


def arctan_inverse(n, one):
    """arctan(1/n) in units of 1/one, each term rounded down."""
    power = one // n
    total, k, sign = power, 1, 1
    while power:
        power //= n * n
        k += 2
        sign = -sign
        total += sign * (power // k)
    return total


def pi_words():
    """The words, as they are to be written: 0xHHHHHHHH."""
    bits = 32 * COUNT
    one = 1 << (bits + GUARD)
    # Machin: pi/4 = 4 arctan(1/5) - arctan(1/239)
    pi = 4 * (4 * arctan_inverse(5, one) - arctan_inverse(239, one))
    # Some ten thousand terms, each off by less than 2 units and taken at most
    # 16 times, make an error below 2^32. The guard bits must be farther than
    # that from a carry, or the last word would not be certain.
    tail = pi % (1 << GUARD)
    if not 1 << 32 < tail < (1 << GUARD) - (1 << 32):
        sys.exit("too few guard bits")
    fraction = (pi >> GUARD) % (1 << bits)
    digits = f"{fraction:0{bits // 4}X}"
    return ["0x" + digits[i:i + 8] for i in range(0, len(digits), 8)]


def newlines(match):
    return "\n" * match.group().count("\n")


def words_of(text):
    """Every number in the text with its line, but for comments and types."""
    text = re.sub(r"(//|--).*", "", text)
    # from a colon to the equals sign is a type, whose lengths are no words;
    # its line feeds are kept so that the lines are numbered as in the file
    text = re.sub(r":[^=]*=", newlines, text)
    for number, line in enumerate(text.split("\n"), 1):
        for word in re.findall(r"\b[0-9]\w*", line):
            yield number, word


def fault(path, expected):
    """What is wrong with the file, or None."""
    found = list(words_of(path.read_text(encoding="utf-8")))
    for i, ((line, word), right) in enumerate(zip(found, expected), 1):
        if word != right:
            return f"word {i} of {COUNT} (line {line}) is {word}, pi has {right}"
    if len(found) < COUNT:
        return f"word {len(found) + 1} of {COUNT} is missing, pi has {expected[len(found)]}"
    if len(found) > COUNT:
        line, word = found[COUNT]
        return f"{word} (line {line}) follows the last of {COUNT} words"
    return None


def main():
    here = Path(__file__).resolve().parent.parent
    root = Path(sys.argv[1]) if len(sys.argv) > 1 else here
    expected = pi_words()
    status = 0
    for name in FILES:
        try:
            wrong = fault(root / name, expected)
        except OSError as error:
            wrong = error.strerror
        print(f"{name}: {wrong or f'{COUNT} words, all digits of pi'}")
        status |= wrong is not None
    sys.exit(int(status))


if __name__ == "__main__":
    main()
