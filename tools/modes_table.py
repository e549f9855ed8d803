#!/usr/bin/python3
"""Makes test vectors of modes and tags with two other libraries.

Usage: /usr/bin/python3 tools/modes_table.py

Writes data/modes.script, a script for the program `exercise`, and
data/modes.answers, what the program is to print for it. Botan gives the
answers here; tools/modes_peer.cpp, which this compiles, answers the same
script with Crypto++. Nothing is written, and the exit status is 1, unless the
two agree on every answer.

Botan has CBC, CFB, OFB and CMAC for single ciphers, but no ECB and no triple.
So every value is composed from its block ciphers, by the definitions below,
and wherever Botan has the mode or the tag itself, that must give the same.
The next block, which Botan does not show, is only composed.

Run with Debian 12's packages python3-botan 2.19.3+dfsg-1+deb12u1 (Botan
2.19.3), libcrypto++-dev 8.7.0+git220824-1 (Crypto++ 8.7.0) and g++ 12.2.0,
under Debian's own Python 3.11.2.
"""
import hashlib
import subprocess
import sys
import tempfile
from pathlib import Path

import botan2

BOTAN, CRYPTOPP = (2, 19, 3), "870"
TOOLS = Path(__file__).resolve().parent
DATA = TOOLS.parent / "data"

MODES = ("ECB", "CBC", "CFB", "OFB")
CHAINING = MODES[1:]
BLOCK = 8
# name, kind and length of key; the names in LONG get the long texts too
SINGLES = (("four", "blowfish", 4), ("sixteen", "blowfish", 16),
           ("most", "blowfish", 56), ("tea", "xtea", 16))
LONG = ("sixteen", "tea")
TRIPLE = ("sixteen", "tea", "most")
TEXTS, LONG_TEXTS = (0, 8, 16, 64), (4096, 65536)
TAGGED, LONG_TAGGED = (0, 1, 7, 8, 9, 15, 16, 17), (4096, 65536)
PIECES = 24, 40

# kind, key, block and what is published for them
PUBLISHED = (
    ("blowfish", "0000000000000000", "0000000000000000", "4EF997456198DD78"),
    ("xtea", "000102030405060708090A0B0C0D0E0F", "4142434445464748", "497DF3D072612CB5"),
)


def digits(data):
    return data.hex().upper() or "-"


def drawn(label, length):
    """Pseudo-random bytes, from a hash so that every Python makes the same."""
    return hashlib.shake_256(b"modes and tags: " + label.encode()).digest(length)


def xor(a, b):
    return bytes(x ^ y for x, y in zip(a, b))


class Single:
    """A block cipher of Botan, with its modes and tag."""

    def __init__(self, kind, key):
        self.name = {"blowfish": "Blowfish", "xtea": "XTEA"}[kind]
        self.key = key
        self.raw = botan2.BlockCipher(self.name)
        self.raw.set_key(key)

    def forward(self, block):
        return self.raw.encrypt(block).raw

    def back(self, block):
        return self.raw.decrypt(block).raw

    def own_mode(self, mode, enciphers, start, text):
        """Botan's own result, or None where it has none."""
        # its CBC refuses to decipher no bytes
        if mode == "ECB" or mode == "CBC" and not enciphers and not text:
            return None
        # CFB without a number has segments of a whole block
        name = f"{self.name}/{mode}" + ("/NoPadding" if mode == "CBC" else "")
        cipher = botan2.SymmetricCipher(name, enciphers)
        cipher.set_key(self.key)
        cipher.start(start)
        return cipher.finish(text)

    def own_tag(self, text):
        mac = botan2.MsgAuthCode(f"CMAC({self.name})")
        mac.set_key(self.key)
        mac.update(text)
        return mac.final()


class Triple:
    """Enciphers under the first, deciphers under the second, enciphers under the third."""

    def __init__(self, a, b, c):
        self.a, self.b, self.c = a, b, c

    def forward(self, block):
        return self.c.forward(self.b.back(self.a.forward(block)))

    def back(self, block):
        return self.a.back(self.b.forward(self.c.back(block)))

    def own_mode(self, *_):
        return None

    def own_tag(self, _):
        return None


def blocks(text):
    return [text[i:i + BLOCK] for i in range(0, len(text), BLOCK)]


def composed_mode(cipher, mode, enciphers, start, text):
    """The next block and the text that results, by definition."""
    state, out = start, []
    for block in blocks(text):
        if mode == "ECB":
            made = cipher.forward(block) if enciphers else cipher.back(block)
        elif mode == "CBC" and enciphers:
            made = cipher.forward(xor(block, state))
        elif mode == "CBC":
            made = xor(cipher.back(block), state)
        else:
            pad = cipher.forward(state)
            made = xor(block, pad)
        if mode == "OFB":
            state = pad
        elif mode != "ECB":
            state = made if enciphers else block
        out.append(made)
    return state, b"".join(out)


def doubled(block):
    """The block times x in the field of 2^64 elements."""
    value = int.from_bytes(block, "big") << 1
    if value >> 64:
        value ^= 1 << 64 | 0x1B
    return value.to_bytes(BLOCK, "big")


def composed_tag(cipher, text):
    """CMAC, by definition."""
    mask = doubled(cipher.forward(bytes(BLOCK)))
    *firsts, last = blocks(text) or [b""]
    if len(last) < BLOCK:
        mask = doubled(mask)
        last = (last + b"\x80").ljust(BLOCK, b"\0")
    state = bytes(BLOCK)
    for block in firsts + [xor(last, mask)]:
        state = cipher.forward(xor(state, block))
    return state


class Table:
    """The script with its answers, as they are made."""

    def __init__(self):
        self.script, self.answers, self.account = [], [], []
        self.ciphers = {}
        self.values = 0

    def comment(self, text):
        self.script.append("# " + text)

    def call(self, line, *values):
        self.script.append(line)
        self.answers.append(" ".join([f"{len(self.script)}: accepted", *map(digits, values)]))
        self.values += len(values)

    def single(self, name, kind, key):
        self.ciphers[name] = Single(kind, key)
        self.account.append(f"cipher {name} {kind}")
        self.call(f"cipher {name} {kind}")
        self.call(f"load {name} {digits(key)}")

    def triple(self, name, parts):
        self.ciphers[name] = Triple(*(self.ciphers[part] for part in parts))
        self.account.append(f"cipher {name} triple")
        self.call(f"cipher {name} triple {' '.join(parts)}")

    def apply(self, verb, name, mode, start, text):
        cipher = self.ciphers[name]
        enciphers = verb == "encipher"
        following, out = composed_mode(cipher, mode, enciphers, start, text)
        line = f"{verb} {name} {mode} {digits(start)} {digits(text)}"
        if cipher.own_mode(mode, enciphers, start, text) not in (None, out):
            sys.exit(f"Botan's own {mode} differs from the definition: {line[:99]}")
        self.call(line, following, out)
        return following, out

    def mode(self, name, mode, length, back):
        """Enciphers a text, then deciphers the result if it is to go back."""
        start = drawn(f"start {name} {mode} {length}", BLOCK)
        text = drawn(f"text {name} {mode} {length}", length)
        following, out = self.apply("encipher", name, mode, start, text)
        if back and self.apply("decipher", name, mode, start, out) != (following, text):
            sys.exit(f"{name} {mode}: {length} bytes do not come back")

    def pieces(self, name, mode):
        """Enciphers a text as a whole, then in two pieces."""
        start = drawn(f"start {name} {mode} pieces", BLOCK)
        text = drawn(f"text {name} {mode} pieces", sum(PIECES))
        whole = self.apply("encipher", name, mode, start, text)
        following, first = self.apply("encipher", name, mode, start, text[:PIECES[0]])
        following, second = self.apply("encipher", name, mode, following, text[PIECES[0]:])
        if (following, first + second) != whole:
            sys.exit(f"{name} {mode}: the pieces do not make the whole")

    def tag(self, name, length):
        text = drawn(f"tagged {name} {length}", length)
        cipher = self.ciphers[name]
        tag = composed_tag(cipher, text)
        if cipher.own_tag(text) not in (None, tag):
            sys.exit(f"Botan's own CMAC differs from the definition: {name}, {length} bytes")
        self.call(f"tag {name} {digits(text)}", tag)


def published():
    table = Table()
    for kind, key, block, right in PUBLISHED:
        table.single(kind, kind, bytes.fromhex(key))
        _, found = table.apply("encipher", kind, "ECB", bytes(BLOCK), bytes.fromhex(block))
        if digits(found) != right:
            sys.exit(f"{kind}: {right} is published, Botan gives {digits(found)}")
    return table


def filled():
    table = Table()
    table.comment("single ciphers: Blowfish with keys of 4, 16 and 56 bytes, XTEA")
    for name, kind, length in SINGLES:
        key = drawn(f"key {name}", length)
        if max(key) < 0x80:
            sys.exit(f"{name}: no byte of the key is above 7F")
        table.single(name, kind, key)
    table.comment("each mode, there and back")
    for name, _, _ in SINGLES:
        for mode in MODES:
            for length in TEXTS:
                table.mode(name, mode, length, back=True)
    table.comment("tags: no block, parts of a block and whole blocks")
    for name, _, _ in SINGLES:
        for length in TAGGED:
            table.tag(name, length)
    table.comment("a text as a whole, then in two pieces, the second from the first's next block")
    for name in LONG:
        for mode in CHAINING:
            table.pieces(name, mode)
    table.comment("a triple")
    table.triple("ede", TRIPLE)
    for mode in MODES:
        table.mode("ede", mode, 64, back=True)
    table.tag("ede", 17)
    table.comment("long texts")
    for name in LONG:
        for length in LONG_TEXTS:
            for mode in MODES:
                table.mode(name, mode, length, back=False)
        for length in LONG_TAGGED:
            table.tag(name, length)
    return table


def compare(program, table):
    """Stops unless Crypto++ answers the script as Botan does."""
    done = subprocess.run([program], input="\n".join(table.script) + "\n",
                          stdout=subprocess.PIPE, text=True)
    if done.returncode:
        sys.exit(f"modes_peer stopped with {done.returncode}")
    version, *answers = done.stdout.splitlines()
    if version != CRYPTOPP:
        sys.exit(f"Crypto++ {version} is not the version that made the vectors")
    if len(answers) != len(table.answers):
        sys.exit(f"{len(table.answers)} answers of Botan, {len(answers)} of Crypto++")
    for ours, other in zip(table.answers, answers):
        if ours != other:
            sys.exit(f"Botan {ours[:99]}\nCrypto++ {other[:99]}\nthe libraries differ")


def main():
    found = (botan2.version_major(), botan2.version_minor(), botan2.version_patch())
    if found != BOTAN:
        sys.exit(f"{botan2.version_string()} is not the version that made the vectors")
    table = filled()
    with tempfile.TemporaryDirectory() as folder:
        program = Path(folder) / "modes_peer"
        made = subprocess.run(["g++", "-std=c++17", "-O1", "-Wall", "-o", program,
                               TOOLS / "modes_peer.cpp", "-lcryptopp"])
        if made.returncode:
            sys.exit("modes_peer.cpp does not compile")
        compare(program, published())
        compare(program, table)

    calls = len(table.answers)
    end = [f"account: {calls} calls, {calls} accepted, 0 refused; 0 lines unreadable"]
    files = {"modes.script": table.script, "modes.answers": table.answers + end + table.account}
    sizes = []
    for name, lines in files.items():
        text = "".join(line + "\n" for line in lines)
        (DATA / name).write_text(text)
        sizes.append(f"data/{name} {len(text)} bytes")
    print(f"{', '.join(sizes)}: {calls} calls, {table.values} values,"
          " Botan 2.19.3 and Crypto++ 8.7.0 agree")


if __name__ == "__main__":
    main()
