#!/usr/bin/env python3
"""Hashes in parts against hashlib, headers against their bits and CDIs against document 01's rule. The program `test_calls` makes
each call; hashes in one call are in c_blake2s.py.

    vectors.py              makes all calls
    vectors.py --store      writes the stored input and output of `test_calls`: a call of each kind, or two
    vectors.py --check      exits non-zero unless these are so stored
"""
import hashlib
import struct
import sys
from pathlib import Path

import calls

STORED = Path(__file__).parent.parent / "crates" / "test_calls"
LONGEST = 4294967295
KEYS = [0, 1, 31, 32]
LENGTHS = [0, 1, 63, 64, 65, 127, 128, 129, 255, 256]
STEPS = [1, 7, 63, 64, 65]


def refusal(size=32, begun=None, key=0, total=0, in_range=True):
    """The number of a refused call, the lowest where several apply; 0 if it is accepted.

    size is the output's length and begun the one that begin was told, if it was called before.
    """
    numbers = []
    if not in_range:
        numbers.append(1)
    if size == 0 or size > 32 or (begun is not None and size != begun):
        numbers.append(8)
    if key > 32:
        numbers.append(9)
    if total > LONGEST:
        numbers.append(10)
    return min(numbers, default=0)


def counting(n, first=0):
    return bytes(i % 256 for i in range(first, first + n))


class Hash:
    """A hash in parts, beside hashlib's."""

    def __init__(self, made, what, key=b"", size=32, message=None):
        number = refusal(size=size, key=len(key))
        self.made, self.what = made, what
        self.hash = None if number else hashlib.blake2s(digest_size=size, key=key)
        self.total, self.keyed, self.size = message or 0, bool(key) and not number, 0 if number else size
        made.hash_begin(f"{what}, begin", key, size, message, number, self.context())

    def context(self):
        return [("message, keyed and size", struct.pack("<IBQ", self.total, self.keyed, self.size))]

    def update(self, part):
        number = refusal(total=self.total + len(part), in_range=self.hash is not None)
        if not number:
            self.hash.update(part)
            self.total += len(part)
        self.made.hash_update(f"{self.what}, part of {len(part)}", part, number, self.context())
        return self

    def finish(self, size=32):
        number = refusal(size=size, begun=self.size, in_range=self.hash is not None)
        self.made.hash_finish(f"{self.what}, finish with {size}", size, number, b"" if number else self.hash.digest())


def in_parts(made):
    for k in KEYS:
        for n in LENGTHS:
            for step in STEPS:
                h = Hash(made, f"key {k}, message {n}, step {step}", counting(k))
                for at in range(0, n, step):
                    h.update(counting(min(step, n - at), at))
                h.finish()
    for size in range(1, 33):
        Hash(made, f"size {size}", counting(size), size).update(b"abc").update(b"").update(bytes(200)).finish(size)


def limits(made):
    for size in [0, 33, 255]:
        Hash(made, f"size {size}", b"", size).update(b"abc").finish(min(size, 32))
    for k in [33, 64]:
        Hash(made, f"key {k}", counting(k)).update(b"abc").finish()
    for size in [0, 31, 33, 255]:
        Hash(made, "another size at the end").update(b"abc").finish(size)
    # A context five bytes before the longest message, made by hand in place of a hash of 4 GiB.
    Hash(made, "longest message", message=LONGEST - 5).update(b"abcdef").update(b"abcde").update(b"").update(b"a")


def headers(made):
    lengths = {"00": 1, "01": 4, "10": 32, "11": 128}
    for b in range(256):
        bits = format(b, "08b")  # bit 7 first
        fields = [int(bits[1:3], 2), int(bits[3:5], 2), lengths[bits[6:8]]]
        made.read_header(b, *([255] if bits[0] == "1" or bits[5] == "1" else fields))
        made.read_reply_header(b, *([255] if bits[0] == "1" else [*fields, int(bits[5])]))
    codes = {n: code for code, n in lengths.items()}
    for i in [0, 1, 2, 3, 4, 255]:
        for ep in [0, 1, 2, 3, 4, 255]:
            for n in [0, 1, 2, 3, 4, 5, 31, 32, 33, 127, 128, 129, 2**32 + 1, 2**64 - 1]:
                for status in [0, 1]:
                    refused = i > 3 or ep > 3 or n not in codes
                    made.write_header(i, ep, n, status, 255 if refused else int(f"0{i:02b}{ep:02b}{status}{codes[n]}", 2))


def identifier(made, chained, used):
    """UDS, domain, measurement, then USS if used; bit 0 of the domain says that it is used, bit 1 that the mask has RESET_SEED."""
    uds, measured_id, digest, uss = parts = [counting(32, first) for first in [0x00, 0x20, 0x40, 0x60]]
    string = uds + bytes([used + 2 * chained]) + (measured_id if chained else digest) + (uss if used else b"")
    made.derive(f"CDI, chained {chained}, secret {used}", chained, used, parts, hashlib.blake2s(string).digest())


def identifiers(made):
    for chained in [False, True]:
        for used in [False, True]:
            identifier(made, chained, used)


# ---- what the gate's run of the program has on standard input: RFC 7693's example in parts, headers each way, and a CDI


def example():
    made = calls.Calls()
    Hash(made, "abc").update(b"ab").update(b"c").finish()
    made.read_header(0x73, 3, 2, 128)
    made.write_header(3, 2, 128, 0, 0x73)
    made.read_reply_header(0x35, 1, 2, 4, 1)
    made.write_header(1, 2, 4, 1, 0x35)
    identifier(made, True, True)
    return {"stdin": made.input(), "stdout": made.output()}


def check():
    wrong = [name for name, want in example().items() if (STORED / name).read_bytes() != want]
    for name in wrong:
        print(f"vectors: {STORED / name} is not what the independent program says", file=sys.stderr)
    return 1 if wrong else 0


def store():
    for name, want in example().items():
        (STORED / name).write_bytes(want)
    return 0


def main():
    made = calls.Calls()
    for part in [in_parts, limits, headers, identifiers]:
        part(made)
    if what := made.play():
        print(f"vectors: {what}")
        return 1
    print(f"vectors: {len(made.data)} calls")
    return 0


if __name__ == "__main__":
    wanted = {(): main, ("--store",): store, ("--check",): check}.get(tuple(sys.argv[1:]))
    if wanted is None:
        sys.exit(__doc__)
    sys.exit(wanted())
