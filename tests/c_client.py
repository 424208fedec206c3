#!/usr/bin/env python3
"""The exported client against server.py, and the whole way against the head: builds the static library, links it to tests/c_client.c, with
the hash's library beside it, and compares every answer and every byte that a call was lent to write. Then its frames are played to
`headlog`, and its reader takes the replies. Prints how often each answer came up, and fails if one never did.

    c_client.py [--headlog PATH]
"""
import argparse
import itertools
import os
import random
import struct
import subprocess
import sys
from collections import Counter
from pathlib import Path

import driven
import server
from head import PRINTER_RAM, TYPE_CLIENT, TYPE_CLIENT_VER, blake2s
from programs import path_of
from random_sessions import play

TOP = Path(__file__).parent.parent
PROGRAM = TOP / "target" / "tests" / "c_client"
CLIENT, HASH = [TOP / "target" / "staticlib" / f"lib{name}.a" for name in ("client", "blake2s")]
SHORT = 1 << 20  # a program over this is made by the C program: zeros
SPARE = b"\xaa" * 4

LENGTHS = [0, 1, 126, 127, 128, 253, 254, 255, 256, 32768, 131071, 131072, 131073, 2**32 + 1]
IDS = [0, 1, 2, 3, 4, 5, 255]
ROOMS = [0, 1, 128, 129, 130, 200]
YES = [1, 1, 2, 128, 254, 255]  # any number but 0 says that the secret is used
HIGHEST = 2**32 - 1
SIZES = [1, 127, 128, 254, 255, 1000, PRINTER_RAM]

DIFFERENCES = ["nothing", "header", "length", "code", "status", "filler"]  # by their numbers

# What must come up, so that agreement says something.
KINDS = {
    "making": [f"answered {n}" for n in (0, 3, 40, 41, 42)],
    "reading": [f"answered {n}" for n in (0, 40, 41, 42, 43)],
    "differing": [f"in {what}" for what in DIFFERENCES],
    "disagreeing": ["with bit 2 alone", "with the status byte alone"],
    "taken": ["with status 0", "with status 1", "with a digest"],
    "headlog": ["started, first", "had no RAM for it, first", "started, second", "stopped with 25, bit clear", "stopped with 25, neither"],
}


def build():
    for name in ("client", "blake2s"):
        subprocess.run(["scripts/archive", name], cwd=TOP, check=True)
    os.makedirs(PROGRAM.parent, exist_ok=True)
    options = ["-O2", "-Wall", "-Wextra", "-Werror", "-I", "include"]
    subprocess.run(["gcc", *options, "tests/c_client.c", CLIENT, HASH, "-o", PROGRAM], cwd=TOP, check=True)


# ---- calls


class Calls:
    """Calls for one run of the C program, and the line that each must print."""

    def __init__(self, seen):
        self.seen = seen
        self.data = []
        self.wanted = []

    def lend(self, length, program=None):
        """A program for the calls after it; without its bytes it is zeros."""
        self.length = length
        self.program = program
        self.data.append(b"P" + struct.pack("=Q", length) + (program or b""))

    def want(self, call, what, answers, *written):
        self.data.append(call)
        self.wanted.append((what, f"{answers} {(SPARE + SPARE.join(written) + SPARE).hex()}"))

    def hash(self):
        self.want(b"D", f"digest of {self.length} bytes", 0, blake2s(self.program))

    def make(self, id, used, uss, k, room=server.FRAME):
        number = server.refusal(self.length, id, k, room)
        filled = b"" if number else server.frame(self.program, id, uss if used else None, k)
        call = b"M" + struct.pack("=BBIQ", id, used, k, room) + uss
        what = f"program {self.length}, ID {id}, used {used}, frame {k}, room {room}"
        self.want(call, what, number, filled + b"\xaa" * (room - len(filled)))
        self.seen["making", f"answered {number}"] += 1

    def read(self, length, id, k, reply):
        number, status, digest = server.read(length, id, k, reply)
        call = b"R" + struct.pack("=QBIQ", length, id, k, len(reply)) + reply
        what = f"program {length}, ID {id}, frame {k}, reply {reply.hex()}"
        differs = server.difference(length, id, k, reply)
        self.seen["reading", f"answered {number}"] += 1
        self.seen["differing", f"in {DIFFERENCES[differs]}"] += 1
        if differs == DIFFERENCES.index("status") and reply[2] <= 1:
            self.seen["disagreeing", "with bit 2 alone" if reply[0] & 4 else "with the status byte alone"] += 1
        if number:
            self.want(call, what, f"{differs} {number}", b"\xaa", b"\xaa" * 32)
            return
        self.want(call, what, f"{differs} 0", bytes([status]), digest)
        self.seen["taken", f"with status {status}"] += 1
        self.seen["taken", "with a digest"] += digest != server.ZEROS

    def run(self):
        """What each call wrote; or the test ends."""
        lines = driven.lines("c_client", PROGRAM, self.data, self.wanted)
        return [bytes.fromhex(line.split()[-1])[len(SPARE) : -len(SPARE)] for line in lines]


def numbers(length):
    """Frame numbers around the first and the last; and too high ones, of which two are the first and the last if they are cut to 16 bits."""
    last = server.blocks(length)
    return sorted({k for k in (0, 1, last - 1, last, last + 1, 2**16, 2**16 + last, HIGHEST) if 0 <= k <= HIGHEST})


# ---- making


def making(rng, calls):
    for length in LENGTHS:
        calls.lend(length, rng.randbytes(length) if length <= SHORT else None)
        for k, id, room, used in itertools.product(numbers(length), IDS, ROOMS, (0, rng.choice(YES))):
            calls.make(id, used, rng.randbytes(32), k, room)
    calls.lend(2000, rng.randbytes(2000))
    for k in range(server.blocks(2000) + 2):
        calls.make(1, 1, bytes(32), k)  # a secret of zeros is one
    for _ in range(600):
        length = rng.choice([0, 131073, *[rng.randrange(1, 1200)] * 4])
        calls.lend(length, rng.randbytes(length))
        for _ in range(4):
            k = rng.choice([rng.randrange(server.blocks(length) + 1), server.blocks(length) + 1, rng.randrange(2**32)])
            calls.make(rng.choice([*range(4), *IDS]), rng.choice([0, rng.choice(YES)]), rng.randbytes(32), k, rng.choice([*ROOMS, *range(129, 140)]))


# ---- reading


def reading(rng, calls):
    for length, k in [(300, 0), (300, 2), (300, 3)]:  # the load, a block, the last one
        for id, status in itertools.product(range(4), (0, 1)):
            right = server.reply(length, id, k, status, rng.randbytes(32))
            for reply in [right, b"", *changed(right), *longer_or_shorter(rng, right)]:
                calls.read(length, id, k, reply)
    for length in [*LENGTHS, 2**32, 2**64 - 1]:
        for id, k in itertools.product(IDS, numbers(length)):
            for reply in every_kind(rng, id % 4):
                calls.read(length, id, k, reply)
    for _ in range(2000):
        length = rng.choice([0, rng.randrange(1, 1200), rng.randrange(1, 131073), 131073, rng.randrange(2**64)])
        id = rng.choice([*range(4), *range(4), *IDS])
        k = min(HIGHEST, rng.choice([0, rng.randrange(server.blocks(length) + 1), server.blocks(length), server.blocks(length) + 1]))
        reply = server.reply(length, id % 4, k, rng.randrange(2), rng.randbytes(32))
        calls.read(length, id, k, rng.choice([reply, with_bit(rng, reply), rng.randbytes(len(reply)), rng.randbytes(rng.randrange(140))]))


def changed(right):
    """The reply with one byte set to another value: any in header, code and status."""
    for place, old in enumerate(right):
        for value in range(256) if place < 3 else {0, 1, 2, 0x80, 0xAA, 0xFF, old ^ 1}:
            yield right[:place] + bytes([value]) + right[place + 1 :]


def longer_or_shorter(rng, right):
    for place in range(len(right)):
        yield right[:place] + right[place + 1 :]
        yield right[:place]
    for place in range(len(right) + 1):
        yield right[:place] + b"\0" + right[place:]
        yield right[:place] + rng.randbytes(1) + right[place:]
    yield right + right
    yield right + bytes(1000)


def every_kind(rng, id):
    """Good replies to a load, a block and a last block, of which a frame gets at most one."""
    return [server.reply(128, id, k, rng.randrange(2), rng.randbytes(32)) for k in range(3)]


def with_bit(rng, reply):
    place, bit = rng.randrange(len(reply)), 1 << rng.randrange(8)
    return reply[:place] + bytes([reply[place] ^ bit]) + reply[place + 1 :]


# ---- the whole way


def frames(seen, program, id, secret, uss):
    """The program's command frames as the C program makes them."""
    calls = Calls(seen)
    calls.lend(len(program), program)
    calls.hash()
    for k in range(server.blocks(len(program)) + 1):
        calls.make(id, secret is not None, uss, k)
    return calls.run()[1:]


def load(rng, seen, headlog, size, type, secret, allowed="first"):
    """Plays a program to a head, of which type 5 has its digest as the first, as the second, there with mask bit 1 clear, or not at all:
    what went wrong, or nothing."""
    program, id, uds, udi = rng.randbytes(size), rng.randrange(4), rng.randbytes(32), rng.randbytes(8)
    digest = blake2s(program)
    mask = {"second": rng.getrandbits(32) | 2, "bit clear": rng.getrandbits(32) & ~2, "neither": 2}.get(allowed, rng.getrandbits(32))
    first = digest if type == TYPE_CLIENT_VER and allowed == "first" else rng.randbytes(32)
    second = digest if allowed in ("second", "bit clear") else rng.randbytes(32)
    measured_id = rng.randbytes(32)
    record = struct.pack("<II32s32s32s", type, mask, first, measured_id, second) + rng.randbytes(152)
    sent = frames(seen, program, id, secret, rng.randbytes(32) if secret is None else secret)
    if size > PRINTER_RAM:
        sent = sent[:1]
    done, _ = play([headlog], record + uds + udi + b"".join(sent))
    *replies, end = done.stdout.decode().splitlines() or [""]
    chained = mask & 1
    hashed = uds + bytes([(secret is not None) + 2 * chained]) + (measured_id if chained else digest) + (b"" if secret is None else secret)
    wanted = f"S {size} {blake2s(hashed).hex()}" if size <= PRINTER_RAM else f"W {len(sent[0])}"
    wanted = wanted if allowed in ("first", "second") else "F 25"
    if end != wanted or len(replies) != len(sent) or done.returncode != 0 or done.stderr:
        return f"{len(replies)} replies to {len(sent)} frames, then {end!r}, expected {wanted!r}"
    came = {"S": "started", "W": "had no RAM for it", "F": "stopped with 25"}[end[0]]
    seen["headlog", f"{came}, {allowed}"] += 1
    return misread(seen, size, id, digest, [bytes.fromhex(line.removeprefix("R ")) for line in replies])


def misread(seen, size, id, digest, replies):
    """Which of a head's replies the reader does not take as it should, or nothing."""
    calls = Calls(seen)
    for k, reply in enumerate(replies):
        calls.read(size, id, k, reply)
    status = bytes([size > PRINTER_RAM])
    for k, written in enumerate(calls.run()):
        if written != status + SPARE + (digest if k == server.blocks(size) else server.ZEROS):
            return f"frame {k} had the reply {replies[k].hex()}, which was read as {written.hex()}"
    return None


def main(headlog):
    build()
    rng, seen = random.Random(1), Counter()
    calls = Calls(seen)
    making(rng, calls)
    reading(rng, calls)
    calls.run()
    for size, type in itertools.product([*SIZES, PRINTER_RAM + 1], (TYPE_CLIENT, TYPE_CLIENT_VER)):
        for secret in (None, server.ZEROS, rng.randbytes(32)):
            if what := load(rng, seen, headlog, size, type, secret):
                print(f"c_client: program of {size} bytes, type {type}, secret {secret and secret.hex()}: {what}")
                return 1
    for size in SIZES:
        for allowed in ("second", "bit clear", "neither"):
            if what := load(rng, seen, headlog, size, TYPE_CLIENT_VER, rng.randbytes(32), allowed):
                print(f"c_client: program of {size} bytes, allowed: {allowed}: {what}")
                return 1
    print("c_client:", "; ".join(f"{part}: " + ", ".join(f"{seen[part, k]} {k}" for k in kinds) for part, kinds in KINDS.items()))
    return 0 if all(seen[part, k] for part, kinds in KINDS.items() for k in kinds) else 1


if __name__ == "__main__":
    parser = argparse.ArgumentParser(description=__doc__, formatter_class=argparse.RawDescriptionHelpFormatter)
    parser.add_argument("--headlog")
    sys.exit(main(parser.parse_args().headlog or path_of("headlog")))
