#!/usr/bin/env python3
"""Drives the program `headlog` through pipes, as a server would: each reply must be there before the next byte is sent.

It also ends a session of many queries and reads from what cannot be read: a closed standard input, and a directory.
"""
import os
import select
import subprocess
import sys

import items
from programs import path_of

HEADLOG = path_of("headlog")
SECONDS = 20  # for a line that must come
QUIET = 0.3  # for one that must not
QUERIES = 100_000


class Head:
    """The program, with its pipes."""

    def __init__(self):
        self.process = subprocess.Popen([HEADLOG], stdin=subprocess.PIPE, stdout=subprocess.PIPE, bufsize=0)
        self.send(items.record(4) + items.UDS + items.UDI)

    def send(self, data):
        self.process.stdin.write(data)

    def line(self, seconds=SECONDS):
        """The next line, or nothing if none comes."""
        out = b""
        while not out.endswith(b"\n"):
            if not select.select([self.process.stdout], [], [], seconds)[0]:
                return None
            byte = os.read(self.process.stdout.fileno(), 1)
            if not byte:
                return None
            out += byte
        return out.decode().rstrip("\n")


def expect(what, got, want):
    """1, with a word about it, unless they are the same."""
    if got == want:
        return 0
    print(f"{what}: got {got!r}, expected {want!r}", file=sys.stderr)
    return 1


def live():
    """A session, byte by byte; what is sent after the start is not read."""
    program = bytes(range(200))
    head = Head()
    head.send(b"\x10")
    yield expect("a header", head.line(QUIET), None)
    head.send(b"\x01")
    yield expect("a query", head.line(), items.headlog()[1][0])
    wanted = [items.load_reply(0), *items.block_replies(program)]
    for frame, want in zip([items.load(len(program), 1, items.USS), *items.blocks(program)], wanted):
        for byte in frame[:-1]:
            head.send(bytes([byte]))
        head.send(frame[-1:])
        yield expect("a frame", head.line(), want)
    yield expect("a start", head.line(), items.start(program, items.USS))
    yield expect("the exit status", head.process.wait(SECONDS), 0)


def output(command, data=b""):
    return subprocess.run(command, shell=True, input=data, stdout=subprocess.PIPE, timeout=60).stdout


def others():
    front = items.record(4) + items.UDS + items.UDI
    lines = output(str(HEADLOG), front + b"\x10\x01" * QUERIES).splitlines()
    yield expect("many queries", (len(lines), lines[-1]), (QUERIES + 1, f"W {2 * QUERIES}".encode()))
    yield expect("a closed input", output(f"{HEADLOG} <&-"), b"E 1\n")
    yield expect("a directory", output(f"{HEADLOG} < /"), b"E 1\n")


if __name__ == "__main__":
    sys.exit(max([*live(), *others()]))
