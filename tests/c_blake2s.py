#!/usr/bin/env python3
"""The exported C function against hashlib: builds the static library, links it to tests/c_blake2s.c, runs
that on valid and refused input, and compares every answer and every byte of the output room.
Prints how many cases of each answer there were, and fails if an answer never came up."""
import collections
import hashlib
import os
import random
import struct
import subprocess
import sys

TOP = os.path.dirname(os.path.dirname(os.path.abspath(__file__)))
PROGRAM = os.path.join(TOP, "target", "tests", "c_blake2s")
LONGEST = 4294967295  # a longer message is refused
SHORT = 1 << 20  # a message over this is made by the C program: zeros
ANSWERS = [0, 8, 9, 10]

# RFC 7693, appendix B and appendix E; and of the known answers that BLAKE2 is published with, those of the empty message, by the key's length.
ABC = "508c5e8c327c14e2e1a72ba34eeb452f37458b209ed63a294d999b4c86675982"
SELFTEST = "6a411f08ce25adcdfb02aba641451cec53c598b24f4fc787fbdc88797f4c1dfe"
KAT = {
    0: "69217a3079908094e11121d042354a7c1f55b6482ca1a51e1b250dfd1ed0eef9",
    32: "48a8997da407876b3d79c0d92325ad3b89cbb754d86ab71aee047ad345fd2c49",
}


def build():
    subprocess.run(["scripts/archive", "blake2s"], cwd=TOP, check=True)
    os.makedirs(os.path.dirname(PROGRAM), exist_ok=True)
    subprocess.run(
        ["gcc", "-O2", "-Wall", "-Wextra", "-Werror", "-I", "include", "tests/c_blake2s.c"]
        + ["target/staticlib/libblake2s.a", "-o", PROGRAM],
        cwd=TOP,
        check=True,
    )


def selftest_seq(n, seed):
    a, b, out = 0xDEAD4BAD * seed % 2**32, 1, bytearray()
    for _ in range(n):
        a, b = b, (a + b) % 2**32
        out.append(b >> 24)
    return bytes(out)


def published():
    """Key, message, size and hash."""
    yield b"", b"abc", 32, ABC
    for k, digest in KAT.items():
        yield bytes(range(k)), b"", 32, digest


def selftest(run):
    """RFC 7693, appendix E: the hash of the hashes, all of them by the program."""
    inputs = []
    for size in [16, 20, 28, 32]:
        for n in [0, 3, 64, 65, 255, 1024]:
            inputs += [(b"", selftest_seq(n, n), size), (selftest_seq(size, size), selftest_seq(n, n), size)]
    hashes = [bytes.fromhex(line.split()[1])[:size] for line, (_, _, size) in zip(run([(k, m, len(m), s) for k, m, s in inputs]), inputs)]
    return run([(b"", b"".join(hashes), sum(map(len, hashes)), 32)])[0] == f"0 {SELFTEST}aaaaaaaa"


def cases():
    rng = random.Random(7693)
    for k in [0, 32, 33]:
        yield bytes(range(k)), b"abc", 3, 32
    edges = [0, 1, 63, 64, 65, 127, 128, 129, 255, 256, 4096, 131072]
    for k in [0, 1, 31, 32, 33, 64]:
        for n in edges:
            yield rng.randbytes(k), rng.randbytes(n), n, 32
    for size in range(0, 40):
        yield b"", b"abc", 3, size
        yield rng.randbytes(rng.choice([0, 32, 33])), b"abc", 3, size
    for _ in range(500):
        n = rng.randrange(0, 700)
        yield rng.randbytes(rng.randrange(0, 36)), rng.randbytes(n), n, rng.randrange(0, 36)
    # The longest message, with a key, so that the counter passes 2^32; one byte more; and both
    # that and a bad size, of which the lower number counts.
    yield bytes(range(32)), None, LONGEST, 32
    yield b"", None, LONGEST + 1, 32
    yield b"", None, LONGEST + 1, 33


def answer(key, length, size):
    if size == 0 or size > 32:
        return 8
    if len(key) > 32:
        return 9
    if length > LONGEST:
        return 10
    return 0


def digest(key, msg, length, size):
    h = hashlib.blake2s(digest_size=size, key=key)
    if msg is not None:
        h.update(msg)
        return h.digest()
    chunk = bytes(1 << 20)
    for _ in range(length // len(chunk)):
        h.update(chunk)
    h.update(chunk[: length % len(chunk)])
    return h.digest()


def run(every):
    """A line for each case."""
    data = b"".join(struct.pack("=QQQ", len(k), n, s) + k + (m or b"") for k, m, n, s in every)
    done = subprocess.run([PROGRAM], input=data, stdout=subprocess.PIPE, check=True)
    lines = done.stdout.decode().splitlines()
    assert len(lines) == len(every), (len(lines), len(every))
    return lines


def main():
    build()
    known = list(published())
    for (key, msg, _, wanted), line in zip(known, run([(k, m, len(m), s) for k, m, s, _ in known])):
        if line != f"0 {wanted}aaaaaaaa":
            print(f"published: key {len(key)} message {msg}: got {line}, expected {wanted}")
            return 1
    if not selftest(run):
        print("the self-test of RFC 7693, appendix E, fails")
        return 1
    every = list(cases())
    lines = run(every)
    seen = collections.Counter()
    for (key, msg, length, size), line in zip(every, lines):
        number = answer(key, length, size)
        room = digest(key, msg, length, size) if number == 0 else b"\xaa" * size
        want = f"{number} {(room + bytes([0xAA]) * 4).hex()}"
        if line != want:
            print(f"key {len(key)} message {length} output {size}: got {line}, expected {want}")
            return 1
        seen[number] += 1
    print("c_blake2s:", ", ".join(f"{seen[a]} answered {a}" for a in ANSWERS))
    return 0 if all(seen[a] for a in ANSWERS) else 1


if __name__ == "__main__":
    sys.exit(main())
