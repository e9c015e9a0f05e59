#!/usr/bin/env python3
"""Writes the vectors of crates/check_aes: its stdin, and as its stdout what OpenSSL answers to each line.

Needs the package `cryptography`. Run it from any folder; it gives the same bytes each time.
"""

import hashlib
from pathlib import Path

from cryptography.hazmat.primitives.ciphers import Cipher, algorithms, modes

CRATE = Path(__file__).resolve().parent.parent / "crates" / "check_aes"
ZEROS = bytes(16)

# The examples of FIPS 197: key, plain block, enciphered block.
EXAMPLES = [
    (
        "2B7E151628AED2A6ABF7158809CF4F3C",
        "3243F6A8885A308D313198A2E0370734",
        "3925841D02DC09FBDC118597196A0B32",
    ),
    (
        "000102030405060708090A0B0C0D0E0F",
        "00112233445566778899AABBCCDDEEFF",
        "69C4E0D86A7B0430D8CDB78070B4C55A",
    ),
]

UNFIT = [
    b"",
    b"0001 00 00",
    b"0001 " + b"0" * 32 + b" " + b"0" * 31,
    b"0001 " + b"0" * 32 + b" " + b"0" * 33,
    b"0001 " + b"0" * 31 + b"f " + b"0" * 32,
    b"0001 " + b"0" * 32 + b" " + b"a" * 32,
    b"0001\t" + b"0" * 32 + b" " + b"0" * 32,
    b"0001 " + b"0" * 32 + b"\t" + b"0" * 32,
    b"000G " + b"0" * 32 + b" " + b"0" * 32,
    b"0001 " + b"0" * 31 + b"\xff " + b"0" * 32,
]


def hexadecimal(data):
    return data.hex().upper()


def pseudo_random(label, number):
    return hashlib.sha256(f"{label} {number}".encode()).digest()[:16]


def leading_ones(count):
    return ((1 << 128) - (1 << (128 - count))).to_bytes(16, "big")


def through(context, count, block):
    for _ in range(count):
        block = context.update(block)
    return block


def answer(count, key, block):
    """The row of a vector: the block enciphered and deciphered so many times over."""
    aes = Cipher(algorithms.AES(key), modes.ECB())
    enciphered = through(aes.encryptor(), count, block)
    deciphered = through(aes.decryptor(), count, block)
    return f"{hexadecimal(enciphered)}\t{hexadecimal(deciphered)}"


def examples():
    """Each example forward, and from its enciphered block back."""
    for key, plain, enciphered in EXAMPLES:
        key_bytes = bytes.fromhex(key)
        assert answer(1, key_bytes, bytes.fromhex(plain)).startswith(enciphered)
        assert answer(1, key_bytes, bytes.fromhex(enciphered)).endswith(plain)
        yield 1, key_bytes, bytes.fromhex(plain)
        yield 1, key_bytes, bytes.fromhex(enciphered)


def vectors():
    yield from examples()
    for n in range(1, 129):
        yield 1, leading_ones(n), ZEROS
    for n in range(1, 129):
        yield 1, ZEROS, leading_ones(n)
    for n in range(256):
        yield 1, pseudo_random("key", n), pseudo_random("block", n)
    chains = [0, 2, 3, 0x64] + 4 * [10_000]
    for n, count in enumerate(chains):
        yield count, pseudo_random("chain key", n), pseudo_random("chain block", n)


def main():
    lines = list(UNFIT)
    rows = ["unfit"] * len(UNFIT)
    for count, key, block in vectors():
        lines.append(f"{count:04X} {hexadecimal(key)} {hexadecimal(block)}".encode())
        rows.append(answer(count, key, block))
    # the last line has no line feed
    (CRATE / "stdin").write_bytes(b"\n".join(lines))
    (CRATE / "stdout").write_bytes("".join(f"{row}\n" for row in rows).encode())


if __name__ == "__main__":
    main()
