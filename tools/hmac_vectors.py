#!/usr/bin/env python3
"""Prints outside values for the tests of hmac_sha, leaf_function and pmmac_tags, made by Python's own hmac module.

RFC 4231 gives the codes of its test cases; the rest has no source but an implementation of its own.
"""
import hashlib
import hmac
import struct

MASTER = bytes(range(32))


def code(key, text):
    return hmac.new(key, text, hashlib.sha256).digest()


def counting(length):
    """Bytes that count up from 0 and begin anew after 250."""
    return bytes(place % 251 for place in range(length))


def real(address, group, own):
    return b"\x00" + struct.pack(">IQH", address, group, own)


def dummy(number):
    return b"\x01" + struct.pack(">Q", number)


def leaf(key, point, levels):
    return int.from_bytes(code(key, point)[:4], "big") % 2**levels


def tag(key, address, group, own, line):
    return code(key, struct.pack(">IQH", address, group, own) + line)[:16]


def main():
    print("codes of counting messages under the key 00 01 .. 1f")
    for length in (0, 55, 56, 63, 64, 65, 1000):
        print(length, code(MASTER, counting(length)).hex())

    print("leaves under that master key, with 3 and 20 levels")
    leaf_key = code(MASTER, b"ascend leaf")
    points = [
        ("real 0 0 0", real(0, 0, 0)),
        ("real 5 7 9", real(5, 7, 9)),
        ("real 2^32-1 2^64-1 2^16-1", real(2**32 - 1, 2**64 - 1, 2**16 - 1)),
        ("real 0x01020304 0x05060708090a0b0c 0x0d0e", real(0x01020304, 0x05060708090A0B0C, 0x0D0E)),
        ("dummy 0", dummy(0)),
        ("dummy 1", dummy(1)),
        ("dummy 2^64-1", dummy(2**64 - 1)),
    ]
    for name, point in points:
        print(name, leaf(leaf_key, point, 3), leaf(leaf_key, point, 20))

    print("tags under that master key")
    tag_key = code(MASTER, b"ascend tag")
    messages = [
        ("0 0 0 zeros", (0, 0, 0, bytes(64))),
        ("5 7 9 counting", (5, 7, 9, counting(64))),
        ("5 7 10 counting", (5, 7, 10, counting(64))),
        ("2^32-1 2^64-1 2^16-1 ff", (2**32 - 1, 2**64 - 1, 2**16 - 1, b"\xff" * 64)),
        ("0x01020304 0x05060708090a0b0c 0x0d0e counting",
         (0x01020304, 0x05060708090A0B0C, 0x0D0E, counting(64))),
    ]
    for name, message in messages:
        print(name, tag(tag_key, *message).hex())


if __name__ == "__main__":
    main()
