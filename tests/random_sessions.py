#!/usr/bin/env python3
"""Holds the program `headlog` to head.py on random sessions, the same ones at each run: every line, and how much of its input it reads.

    random_sessions.py [--headlog PATH]    plays them all; exits non-zero if one differs, or if a kind of session never comes up
    random_sessions.py --seed N            writes that session's bytes to standard output, for headlog to read
"""
import argparse
import os
import subprocess
import sys
import tempfile
from collections import Counter

from head import PREFIX, headlog
from programs import path_of
from sessions import BAD_FLAGS, BAD_SIZES, LARGE_SIZES, SIZES, STOPPING_TYPES, session

SESSIONS = 1456
MOST_FAILURES = 5
SECONDS = 60  # for one session

# The complete output that document 01 gives for record type 4, all else zero, then bytes 10 01.
EXAMPLE = b"\x04" + bytes(295) + b"\x10\x01"
EXAMPLE_LINES = ["R 1202746b31206d6b64660100000000000000000000000000000000000000000000", "W 2"]

# What must come up, so that agreement says something.
ENDS = ["S", "W", "E 1"] + [f"F {k}" for k in (20, 22, 23, 24, 25, 26)]
STARTS = [f"type {t}, {d}, {u}" for t in (4, 5) for d in ("direct", "chained") for u in ("no USS", "USS")]
REPLIES = {"0274": "name", "0900": "UDI", "0400": "load taken", "0401": "load not taken", "0600": "block", "0700": "last block"}
EDGES = [f"start of size {n}" for n in SIZES + LARGE_SIZES] + [f"stop at type {t}" for t in STOPPING_TYPES]
EDGES += [f"start after size {n}" for n in BAD_SIZES] + [f"start after flag {k}" for k in BAD_FLAGS] + ["block after a bad flag"]
EDGES += [f"not taken, header {h}" for h in ("15", "35", "55", "75")]
EDGES += [f"start, bit {bit}, {which} right" for bit, which in ((0, "first"), (1, "first"), (1, "second"))]
EDGES += [f"F 25, bit {bit}, {which} right" for bit, which in ((0, "neither"), (1, "neither"), (0, "second"))]


def play(command, data):
    """What the program wrote, its exit status, and the place in its input where it left off."""
    with tempfile.TemporaryFile() as f:
        f.write(data)
        f.seek(0)
        done = subprocess.run(command, stdin=f, capture_output=True, timeout=SECONDS)
        return done, os.lseek(f.fileno(), 0, os.SEEK_CUR)


def wrong(command, data, lines, read):
    """What is wrong with the program's run, or nothing."""
    try:
        done, place = play(command, data)
    except (OSError, subprocess.TimeoutExpired) as why:
        return str(why)
    wanted = "".join(line + "\n" for line in lines).encode()
    if done.stdout != wanted:
        return first_difference(done.stdout, wanted)
    if done.returncode != 0 or done.stderr:
        return f"exit status {done.returncode}, standard error {done.stderr!r}"
    return None if place == read else f"{place} bytes of the input were read, expected {read}"


def first_difference(got, wanted):
    pairs = zip(got.split(b"\n") + [None], wanted.split(b"\n") + [None])
    k, (g, w) = next((k, pair) for k, pair in enumerate(pairs) if pair[0] != pair[1])
    return f"line {k + 1}\n  got      {show(g)}\n  expected {show(w)}"


def show(line):
    return "nothing" if line is None else line.decode("latin-1")


def kinds(s, lines):
    """The kinds that a session counts for: its replies by code and status, the headers of those with status 1, and how it ends."""
    replies = lines[:-1]
    headers = [f"not taken, header {line[2:4]}" for line in replies if line[4:8] == "0401"]
    return [REPLIES[line[4:8]] for line in replies] + headers + end_kinds(s, lines[-1])


def end_kinds(s, last):
    if last[0] == "S":
        digests = [f"start, {s.digests()}"] if s.type == 5 else []
        return ["S", s.start_kind(), f"start of size {len(s.program)}", *digests, *(f"start after {what}" for what in s.not_taken())]
    if last == "F 25":
        return [last, f"F 25, {s.digests()}"]
    if last == "F 23" and s.flag in BAD_FLAGS:
        return [last, "block after a bad flag"]
    if last in ("F 20", "F 26"):
        return [last, f"stop at type {s.type}"]
    return [last if last[0] in "EF" else last[0]]


def main(command):
    if headlog(EXAMPLE)[0] != EXAMPLE_LINES:
        print("head.py does not print the document's example")
        return 1
    seen, received, failures = Counter(), 0, 0
    for seed in range(SESSIONS):
        s, data = session(seed)
        lines, read = headlog(data)
        if what := wrong(command, data, lines, read):
            print(f"seed {seed}: {what}\n  again: tests/random_sessions.py --seed {seed} | {' '.join(map(str, command))}")
            failures += 1
        if failures == MOST_FAILURES:
            print("the sessions after these are not played")
            return 1
        seen.update(kinds(s, lines))
        received += max(0, read - PREFIX)
    return report(seen, received) or failures > 0


def report(seen, received):
    """Counts; 1 if a kind never came up."""
    print(f"{SESSIONS} sessions, {received} bytes received")
    for name, wanted in [("ends", ENDS), ("starts", STARTS), ("replies", REPLIES.values())]:
        print(f"{name}: " + "; ".join(f"{k}: {seen[k]}" for k in wanted))
    missing = [k for k in [*ENDS, *STARTS, *REPLIES.values(), *EDGES] if not seen[k]]
    for k in missing:
        print(f"never came up: {k}")
    return 1 if missing else 0


if __name__ == "__main__":
    parser = argparse.ArgumentParser(description=__doc__, formatter_class=argparse.RawDescriptionHelpFormatter)
    parser.add_argument("--headlog")
    parser.add_argument("--seed", type=int)
    args = parser.parse_args()
    if args.seed is not None:
        sys.stdout.buffer.write(session(args.seed)[1])
        sys.exit(0)
    sys.exit(main([args.headlog or path_of("headlog")]))
