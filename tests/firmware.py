#!/usr/bin/env python3
"""Holds the head's firmware for riscv32 to head.py: builds it (firmware/build.sh) and plays it, under qemu-riscv32, the items of
the shed bench with the sample session, and the random sessions of random_sessions.py. Then it is given answers that a head never
gets, each of which must stop it. And a build that tests each alignment that firmware/retarget.py infers is made the calls of
c_head.py, with everything lent at all places within a word that are good for it.

    firmware.py [--session PATH]    PATH: a program that is built already, and is played in its place

Without qemu-riscv32, of Debian's package qemu-user, nothing is played: a failure where CI=true, elsewhere one line that says so.
"""
import argparse
import os
import shutil
import struct
import subprocess
import sys
from pathlib import Path

import c_head
import items
import random_sessions
from head import PREFIX
from lent import Difference, Program
from programs import tool

TOP = Path(__file__).resolve().parent.parent
EMULATOR = "qemu-riscv32"
SESSION = TOP / "target" / "riscv32" / "session"
ANSWERING = TOP / "target" / "tests" / "answering"
ALIGNED = TOP / "target" / "tests" / "aligned"

CONTINUE, WHOLE, STARTED = 0, 64, 65
STOPS = range(20, 27)
LEADS_ON = {"begin": [CONTINUE, STARTED], "gather": [CONTINUE, WHOLE], "act": [CONTINUE, STARTED]}
ANSWERS = [*range(8), *STOPS, 47, 48, 63, 64, 65, 66, 255, 256, 256 + WHOLE, 256 + STARTED, 2**32 - 1]
REPLY_BYTES = 5


def build(*words):
    subprocess.run([TOP / "firmware" / "build.sh", *words], check=True)


def played(session):
    """0 if every item is printed as it must be."""
    return max([items.play(name, lines, [EMULATOR, session]) for name, (_, lines) in items.ITEMS.items()])


def stopped():
    """0 if every answer that does not lead on from its call stops the head at once, with its number, and nothing is sent."""
    build(ANSWERING, "tests/answering.c")
    wrong = [what for call in LEADS_ON for n in ANSWERS if n not in LEADS_ON[call] and (what := not_stopped(call, n))]
    for what in wrong:
        print(what)
    return int(bool(wrong))


def not_stopped(call, n):
    """What is wrong where a call gives this answer, and those before it the ones that lead to it: for act, one with a reply."""
    words, replies, read = {
        "begin": ([n], [], 0),
        "gather": ([CONTINUE, n], [], 1),
        "act": ([CONTINUE, WHOLE, CONTINUE, REPLY_BYTES, n, 0], ["R " + "00" * REPLY_BYTES], 2),
    }[call]
    data = struct.pack(f"<{len(words)}I", *words).ljust(PREFIX, b"\0") + b"\x10\x01\x10"
    lines = [*replies, f"{'F' if n in STOPS else 'E'} {n}"]
    what = random_sessions.wrong([EMULATOR, ANSWERING / "session"], data, lines, PREFIX + read)
    return f"{call} answers {n}: {what}" if what else None


def build_tested():
    """Builds tests/calls_riscv32.c with tests of each alignment that the compiler was told."""
    ALIGNED.mkdir(parents=True, exist_ok=True)
    module, program = ALIGNED / "tested.ll", ALIGNED / "calls"
    with open(TOP / "target" / "staticlib" / "abi.ll") as before, open(module, "w") as after:
        subprocess.run([sys.executable, TOP / "firmware" / "retarget.py", "--test"], stdin=before, stdout=after, check=True)
    if (tests := module.read_text().count("call void @mastfrap_test_alignment(")) == 0:
        raise Difference("retarget.py --test put no test of an alignment into the module")
    build(ALIGNED, module, "tests/aligned.c", "tests/calls_riscv32.c")
    parts = [ALIGNED / name for name in ("linux_riscv32.o", "calls_calls_riscv32.o", "libmastfrap.a")]
    subprocess.run([tool("ld.lld"), "--gc-sections", *parts, "-o", program], check=True)
    print(f"firmware: {tests} pointers whose alignment is tested at each call")
    return program


def called():
    """0 if each call answers and leaves what it must, and no alignment that the compiler was told is wrong."""
    return c_head.main(Program([EMULATOR, build_tested()]))


def main(session):
    if shutil.which(EMULATOR) is None:
        print(f"firmware: NOT RUN, the riscv32 build was not played: there is no {EMULATOR} (Debian: apt-get install qemu-user)")
        return int(os.environ.get("CI") == "true")
    if session is not None:
        return played(session) or random_sessions.main([EMULATOR, session])
    build()
    return played(SESSION) or stopped() or called() or random_sessions.main([EMULATOR, SESSION])


if __name__ == "__main__":
    parser = argparse.ArgumentParser(description=__doc__, formatter_class=argparse.RawDescriptionHelpFormatter)
    parser.add_argument("--session", type=Path)
    try:
        sys.exit(main(parser.parse_args().session))
    except (Difference, OSError, subprocess.CalledProcessError) as why:
        sys.exit(f"firmware: {why}")
