#!/usr/bin/env python3
"""Prints outside values for the tests of bucket_codec: the key stream is that of the openssl program (ChaCha20, with
the block's count and the stream's number as 64 bits each, low byte first), the codes are those of Python's hmac module,
and which slots are in the form is judged by this script's own reading of the text.
"""
import hashlib
import hmac
import struct
import subprocess

MASTER = bytes(range(32))
TOTAL, LEVELS = 66, 5


def code(key, text):
    return hmac.new(key, text, hashlib.sha256).digest()


def pad(seed):
    key = code(MASTER, b"ascend pad")
    start = bytes(8) + struct.pack("<Q", seed)
    command = ["openssl", "enc", "-chacha20", "-K", key.hex(), "-iv", start.hex()]
    return subprocess.run(command, input=bytes(368), capture_output=True, check=True).stdout


def xor(x, y):
    return bytes(a ^ b for a, b in zip(x, y, strict=True))


def entry(address, leaf, line, tag):
    return b"\x01\x00\x00\x00" + struct.pack(">II", address, leaf) + line + tag


def seal(seed, slots):
    return struct.pack(">Q", seed) + xor(pad(seed), b"".join(slots))


def outcome(bucket):
    """The number of the first slot that isn't in the form, or 4."""
    seed = struct.unpack(">Q", bucket[:8])[0]
    if seed == 0:
        return 4
    body = xor(pad(seed), bucket[8:])
    for slot in range(4):
        text = body[92 * slot : 92 * slot + 92]
        flag, address, leaf = struct.unpack(">III", text[:12])
        if text != bytes(92) and not (flag == 0x01000000 and address < TOTAL and leaf < 2**LEVELS):
            return slot
    return 4


def runs(bucket, mask):
    """The outcomes with one byte changed, as runs of places that have the same."""
    found = []
    for place in range(376):
        changed = bytearray(bucket)
        changed[place] ^= mask
        seen = outcome(bytes(changed))
        if found and found[-1][1] == seen:
            found[-1][0] = place + 1
        else:
            found.append([place + 1, seen])
    return found


def show(name, bucket):
    print(name, bucket[8:24].hex(), bucket[-16:].hex(), code(bytes(32), bucket).hex())


def main():
    counting = bytes(range(64))
    full = entry(5, 9, counting, bytes(range(200, 216)))
    last = entry(65, 31, bytes([0xEE] * 64), bytes([0x77] * 16))
    empty = bytes(92)
    print("a bucket's bytes 8 to 23, its last 16, and the code of the whole under the zero key")
    show("empty, seed 1:", seal(1, [empty] * 4))
    show("one entry, seed 1:", seal(1, [full, empty, empty, empty]))
    show("two entries, seed 1:", seal(1, [full, empty, last, empty]))
    show("two entries, greatest seed:", seal(2**64 - 1, [full, empty, last, empty]))
    for mask in (0x01, 0x80):
        print("outcomes with a byte xor", mask, "up to each place:", runs(seal(1, [full, empty, last, empty]), mask))


if __name__ == "__main__":
    main()
