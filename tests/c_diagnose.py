#!/usr/bin/env python3
"""The exported diagnosis against the independent program (reasons.py): builds the static library, links it to tests/c_diagnose.c, and
compares every answer, and every byte that the call was lent to write, on sessions that are cut at every byte and on refused calls. Prints
how often each kind of reason came up, and fails if one never did."""
import random
import struct
import subprocess
import sys
from collections import Counter
from pathlib import Path

import driven
from diagnose import STARTED, cut_sessions, damaged, few_bytes, lengths, types
from head import PREFIX, PRINTER_RAM, RAM_MOST
from reasons import Reason, kinds, missing_kinds, reason_of, reasons, record_of
from sessions import BITS, session

TOP = Path(__file__).resolve().parent.parent
PROGRAM = TOP / "target" / "tests" / "c_diagnose"
ARCHIVE = TOP / "target" / "staticlib" / "libdiagnosis.a"
SPARE = b"\xaa" * 8
LONG = 2**32  # of zeros, which are not in the input
SESSIONS = range(BITS - 56, BITS + 244)  # seeds; those below BITS have one bit of a digest wrong
MOST = 2000  # a longer capture is not cut

NUMBERS = {"started": 65, "unfinished": 66, "waiting": 67, "missing": 68}


def build():
    subprocess.run(["scripts/archive", "diagnosis"], cwd=TOP, check=True)
    PROGRAM.parent.mkdir(parents=True, exist_ok=True)
    options = ["-O2", "-Wall", "-Wextra", "-Werror", "-I", "include"]
    subprocess.run(["gcc", *options, "tests/c_diagnose.c", ARCHIVE, "-o", PROGRAM], cwd=TOP, check=True)


def line(reason):
    """What is printed of a call: the number, and all that it was lent."""
    counts = struct.pack("<4Q", reason.byte, reason.frame, reason.offset, reason.number if reason.kind == "missing" else 0)
    written = SPARE + counts + SPARE + reason.digest + SPARE
    if reason.kind == "refused":
        written = b"\xaa" * len(written)
    return f"{NUMBERS.get(reason.kind, reason.number)} {written.hex()}"


def size(part):
    return part if isinstance(part, int) else len(part)


class Calls:
    """Calls for one run of the C program, and the line that each must print."""

    def __init__(self):
        self.data = []
        self.wanted = []
        self.seen = Counter()

    def add(self, record, ram, capture, first):
        """The bytes of record and capture, or how many zeros they are. The capture is cut to every length from the first on."""
        self.data.append(struct.pack("<4Q", size(record), ram, size(capture), first))
        self.data += [part for part in (record, capture) if not isinstance(part, int)]

    def want(self, what, reason, record, capture):
        self.wanted.append((what, line(reason)))
        self.seen.update(kinds(reason, record, capture))

    def whole(self, what, record, ram, capture):
        self.add(record, ram, capture, len(capture))
        self.want(what, reason_of(record, ram, capture), record, capture)

    def cuts(self, what, record, ram, capture):
        self.add(record, ram, capture, 0)
        for n, reason in enumerate(reasons(record, ram, capture)):
            self.want(f"{what}, cut to {n} bytes", reason, record, capture[:n])

    def long(self, what, record, ram, capture, reason):
        """With a record or a capture of so many zeros."""
        self.add(record, ram, capture, size(capture))
        self.wanted.append((what, line(reason)))

    def run(self):
        driven.lines("c_diagnose", PROGRAM, self.data, self.wanted)


def long_calls(calls):
    """Lengths of over 32 bits, of which the low ones would do. A capture that long is only lent where no byte of it is read."""
    for kind in (4, 6):
        calls.long("a long record", LONG + 256, 100, STARTED, Reason("refused", 6))
        for ram in (LONG, LONG + 1, LONG + RAM_MOST, 2**64 - 1):
            calls.long("a long RAM", record_of(kind), ram, STARTED, Reason("refused", 7))
    calls.long("a long capture", record_of(6), 100, LONG + 1, Reason("stopped", 20))
    calls.long("a long capture", record_of(3), 100, LONG + 1, Reason("refused", 48))
    calls.long("a long capture, and no RAM", record_of(3), 0, LONG + 1, Reason("refused", 7))
    frames = (1 << 20) + 2 >> 1  # for endpoint 0, of two bytes each
    calls.long("zeros", record_of(4), 100, 2 * frames, Reason("waiting", 0, 2 * frames, frames, 1))
    calls.long("zeros, and one more", record_of(5), 100, 2 * frames + 1, Reason("unfinished", 0, 2 * frames + 1, frames + 1, 0))


def random_calls(calls, rng):
    for seed in SESSIONS:
        s, data = session(seed)
        record, capture = data[:256], data[PREFIX:]
        ram = rng.choice([PRINTER_RAM, RAM_MOST, len(s.program), max(1, len(s.program) - 1)])
        play = calls.cuts if len(capture) <= MOST else calls.whole
        play(f"seed {seed}", record, ram, capture)
        play(f"seed {seed}, damaged", record, ram, damaged(rng, capture))


def main():
    build()
    rng, calls = random.Random(13), Calls()
    for given in cut_sessions():
        calls.cuts(*given)
    for given in (*few_bytes(rng), *types(rng), *lengths()):
        calls.whole(*given)
    random_calls(calls, rng)
    long_calls(calls)
    calls.run()
    print(f"c_diagnose: {len(calls.wanted)} calls;", "; ".join(f"{kind}: {n}" for kind, n in sorted(calls.seen.items())))
    return int(bool(missing_kinds(calls.seen)))


if __name__ == "__main__":
    sys.exit(main())
