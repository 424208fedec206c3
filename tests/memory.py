#!/usr/bin/env python3
"""The firmware's memcpy, memmove, memset and memcmp (firmware/memory.c) against python's slices: many lengths and places in a small
array, also such as overlap, and every byte of it. Built for this machine, under names that are not the C library's; and once more
with another memcpy in place of the weak one, which memmove must do without."""
import ctypes
import itertools
import random
import subprocess
import sys
from pathlib import Path

TOP = Path(__file__).resolve().parent.parent
LIBRARY = TOP / "target" / "tests" / "libmemory.so"
FOREIGN = TOP / "target" / "tests" / "libmemory_foreign.so"
NAMES = ["memcpy", "memmove", "memset", "memcmp"]
SIZE = 48
PLACES = range(13)
LENGTHS = [*range(14), 16, 17, 31, 32, 33]

# C lets a memcpy copy in any order, since what it is given does not overlap.
BACKWARD = b"""
#include <stddef.h>
void *memcpy(void *to, const void *from, size_t n)
{
    while (n-- != 0)
        ((volatile char *)to)[n] = ((const volatile char *)from)[n];
    return to;
}
"""


def build(library, *more, source=b""):
    """More sources: "-" is the one that is given here."""
    library.parent.mkdir(parents=True, exist_ok=True)
    renamed = [f"-D{name}=firmware_{name}" for name in NAMES]
    options = ["-O2", "-Wall", "-Wextra", "-Werror", "-fno-builtin", "-shared", "-fPIC", "-I", "firmware/include"]
    options += ["-fsanitize=alignment", "-fsanitize-undefined-trap-on-error"]  # a word that is not aligned to one ends the test
    command = ["gcc", *options, *renamed, "-x", "c", "firmware/memory.c", *more, "-o", library]
    subprocess.run(command, cwd=TOP, check=True, input=source)


class Functions:
    def __init__(self, path):
        library = ctypes.CDLL(str(path))
        self.c = {name: library[f"firmware_{name}"] for name in NAMES}
        for name, function in self.c.items():
            second = ctypes.c_int if name == "memset" else ctypes.c_void_p
            function.argtypes = [ctypes.c_void_p, second, ctypes.c_size_t]
            function.restype = ctypes.c_int if name == "memcmp" else ctypes.c_void_p
        self.data = bytearray(SIZE)
        self.held = (ctypes.c_char * SIZE).from_buffer(self.data)
        self.base = ctypes.addressof(self.held)

    def write(self, name, before, to, second, n, written):
        """Calls one that writes, and compares all of the array."""
        self.data[:] = before
        wanted = before[:to] + written + before[to + n :]
        given = self.c[name](self.base + to, second, n)
        if given != self.base + to or self.data != wanted:
            sys.exit(f"memory: {name} to {to}, {n} bytes: got {self.data.hex()}, expected {wanted.hex()}")

    def compare(self, before, a, b, n):
        self.data[:] = before
        p, q = before[a : a + n], before[b : b + n]
        given = self.c["memcmp"](self.base + a, self.base + b, n)
        if (given > 0) - (given < 0) != (p > q) - (p < q) or self.data != before:
            sys.exit(f"memory: memcmp of {p.hex()} and {q.hex()} gives {given}")

    def overlap(self):
        """Shows that the memcpy in the library is the one that copies from the end: bytes that overlap are not what they were."""
        self.data[:] = bytes(range(SIZE))
        self.c["memcpy"](self.base, self.base + 1, 3)
        if self.data[:3] != b"\3\3\3":
            sys.exit(f"memory: the weak memcpy went before the other one: {self.data[:3].hex()}")


def with_foreign_memcpy():
    """The memmove of a firmware that has its own memcpy."""
    build(FOREIGN, "-", source=BACKWARD)
    f, rng = Functions(FOREIGN), random.Random(2)
    f.overlap()
    for to, place, n in itertools.product(PLACES, PLACES, LENGTHS):
        before = rng.randbytes(SIZE)
        f.write("memmove", before, to, f.base + place, n, before[place : place + n])
    return len(PLACES) ** 2 * len(LENGTHS)


def main():
    build(LIBRARY)
    f, rng, calls = Functions(LIBRARY), random.Random(1), 0
    for to, place, n in itertools.product(PLACES, PLACES, LENGTHS):
        before = rng.randbytes(SIZE)
        f.write("memmove", before, to, f.base + place, n, before[place : place + n])
        if to + n <= place or place + n <= to:
            f.write("memcpy", before, to, f.base + place, n, before[place : place + n])
        byte = rng.randrange(512)  # of which memset takes the lowest eight bits
        f.write("memset", before, to, byte, n, bytes([byte % 256]) * n)
        alike = bytes(rng.choice(b"\0\1\xff") if rng.random() < 0.02 else 7 for _ in range(SIZE))
        f.compare(alike, to, place, n)
        calls += 4
    print(f"memory: {calls} calls, and {with_foreign_memcpy()} with another memcpy")
    return 0


if __name__ == "__main__":
    sys.exit(main())
