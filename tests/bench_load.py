#!/usr/bin/env python3
"""The expected standard output of the program `bench_load` on its stored standard input: the same load, played to the head of head.py.

    bench_load.py                 prints it
    bench_load.py --check FILE    exits non-zero, and says what differs, unless FILE holds it
"""
import sys
from pathlib import Path

import stored
from head import EMPTY_SLOTS, ZEROS, begin, number

STDIN = Path(__file__).parent.parent / "crates" / "bench_load" / "stdin"
RAM = 131072
RECORD = b"\x04" + bytes(255)
UDI = b"\xd0" * 8
SECRET = [0x13121110] * 8


def frames(size):
    """The load, with a user secret, and its blocks; the last is filled up with the pattern."""
    yield b"\x13\x03" + size.to_bytes(4, "little") + b"\1" + b"\x5a" * 122
    for start in range(0, size, 127):
        yield b"\x13\x05" + bytes((7 * i + i // 256) % 256 for i in range(start, start + 127))


def play(size):
    """The answer to acting on the last frame of one load."""
    room, ram, words = bytearray(129), bytearray(RAM), list(SECRET)
    answer, head = begin(RECORD, UDI, EMPTY_SLOTS, ZEROS, ram, words)
    for byte in b"".join(frames(size)):
        answer = head.hear(byte, room, ram, words)
    return answer


def lines(size, times):
    yield f"size {size}"
    yield f"received {times * sum(map(len, frames(size)))}"
    yield f"cdi {play(size).cdi.hex()}"


if __name__ == "__main__":
    data = STDIN.read_bytes()
    sys.exit(stored.main(__doc__, lines(number(data[:4]), number(data[4:]))))
