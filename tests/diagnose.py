#!/usr/bin/env python3
"""./diagnose against the independent program (reasons.py): every reason and every stop, sessions that are cut at every byte, random and
damaged ones, captures that come in parts, long ones, and what is not taken.

    diagnose.py                   all of it
    diagnose.py --program PATH    only what is told, by this program in place of the one behind ./diagnose
"""
import argparse
import os
import random
import re
import signal
import socket
import subprocess
import sys
import tempfile
import threading
import time
from collections import Counter
from pathlib import Path

import built
import simulate
from head import PREFIX, PRINTER_RAM, RAM_MOST, ZEROS, blake2s
from programs import path_of
from reasons import blocks, frame, kinds, load, missing_kinds, others, reason_of, reasons, record_of
from sessions import BITS, STOPPING_TYPES, session
from simulate import Wrong, child, ended_by, expect, written

TOP = Path(__file__).resolve().parent.parent
sys.path.insert(0, str(TOP / "scripts"))
import command

DIAGNOSE = TOP / "diagnose"
STORED = TOP / "crates" / "diagnose"
SECONDS = 30
SESSIONS = range(BITS - 56, BITS + 644)  # seeds; those below BITS have one bit of a digest wrong
PARTS = 65536  # what the program reads at once

# README's words of each stop, and what to look at.
WHY = {k: line.split(": ", 1)[1].rstrip("\n") for k, line in simulate.STOPS.items()}
LOOK = {
    20: "what wrote the record; a record that was never written; over the cable the type is 4 or 5",
    22: "the cable, or a byte lost before",
    23: "the server: a load while loading, a block before a load that got status 0; or a byte lost before",
    24: "the server's frames, or a byte lost before",
    25: "the design that was sent; the record",
    "unfinished": "the capture, whether it was cut short; the cable, or a byte lost before",
    "missing": "the server, whether it still sends; the capture, whether it was cut short",
    "started": "the loom; if its lamp is red, then record, capture or --ram are not those of its head",
}
REFUSED = {
    6: "a reset record has exactly 256 bytes (6)",
    7: "a RAM has 1 to 131072 bytes (7)",
    48: "its type is 0 to 3: the program comes from flash, and not over the cable (48)",
}

# of ./diagnose --help
STATUSES = {
    0: "the reason was told, whatever it is",
    1: "the program could not be proved and built, or died, or standard output could not be written",
    2: "bad arguments",
    3: "a file cannot be read, RECORD has not 256 bytes (6), or its type is 0 to 3: the program comes from flash (48)",
}


# ---- what is told


def first_line(reason):
    at = f" at byte {reason.byte}" if reason.byte else " before any byte"
    if reason.kind == "stopped":
        return f"stop {reason.number}{at}: {WHY[reason.number]}"
    if reason.kind == "started":
        return f"started{at}, digest {reason.digest.hex()}; later bytes are not read"
    if reason.kind == "unfinished":
        come = "1 of its bytes has come" if reason.offset == 0 else f"{reason.offset + 1} of its bytes have come"
        return f"unfinished{at}: the capture ends in a frame that is not whole: {come}"
    if reason.kind == "waiting":
        return f"waiting{at}: no good load has come"
    return f"loading{at}: {'1 block is' if reason.number == 1 else f'{reason.number} blocks are'} missing"


def look(reason, ram):
    if reason.kind == "waiting":
        return f"the server, whether it sends a load; one of size 0 or over the RAM ({ram} bytes), or with a flag over 1, is not good"
    return LOOK[reason.number if reason.kind == "stopped" else reason.kind]


def told(reason, record, ram):
    """All lines of a reason that is not a refusal."""
    lines = [first_line(reason), f"look at: {look(reason, ram)}"]
    if reason.byte:
        place = f"byte {reason.byte} is at offset {reason.offset} of frame {reason.frame}"
        lines.append(f"{place} (frames for other endpoints counted, offset 0 is the header)")
    if (reason.kind, reason.number) == ("stopped", 25):
        lines += [f"measured {reason.digest.hex()}", f"allowed  {record[8:40].hex()}"]
        lines += [f"or       {record[72:104].hex()}"] * (record[4] >> 1 & 1)
    return "".join(line + "\n" for line in lines)


def wanted(reason, record, ram, record_name):
    """Number, standard output and error."""
    if reason.kind == "refused":
        return 3, "", f"diagnose: {record_name}: {REFUSED[reason.number]}\n"
    return 0, told(reason, record, ram), ""


# ---- the program behind ./diagnose


def emptied(fd):
    """What was written to a file, which is then empty."""
    data = os.pread(fd, 1 << 16, 0)
    os.ftruncate(fd, 0)
    os.lseek(fd, 0, os.SEEK_SET)
    return data.decode()


class Program:
    """It is called as the script does, with a record and a capture that are files, and held to reasons.py."""

    def __init__(self, path, folder):
        self.path = str(path)
        self.record, self.capture = folder / "record", folder / "capture"
        self.out, self.err = os.memfd_create("out"), os.memfd_create("err")
        self.seen = Counter()

    def run(self, ram, capture=None, places={}):
        words = [str(self.record), str(capture or self.capture), str(ram)]
        number = command.run("diagnose", self.path, words, {1: self.out, 2: self.err, **places})
        return number, emptied(self.out), emptied(self.err)

    def hold(self, what, reason, record, ram, heard, **more):
        """Plays the files that there are: heard is what the capture has."""
        got = self.run(ram, **more)
        want = wanted(reason, record, ram, self.record)
        if got != want:
            raise Wrong(f"{what}\n  got      {got}\n  expected {want}")
        self.seen.update(kinds(reason, record, heard))

    def play(self, what, record, ram, capture):
        self.record.write_bytes(record)
        self.capture.write_bytes(capture)
        self.hold(what, reason_of(record, ram, capture), record, ram, capture)

    def play_cuts(self, what, record, ram, capture):
        """Cut at every byte."""
        self.record.write_bytes(record)
        self.capture.write_bytes(capture)
        for n, reason in reversed(list(enumerate(reasons(record, ram, capture)))):
            os.truncate(self.capture, n)
            self.hold(f"{what}, cut to {n} bytes", reason, record, ram, capture[:n])

    def play_parts(self, what, record, ram, capture, parts):
        """On standard input, of which a read gives one part."""
        self.record.write_bytes(record)
        ours, theirs = socket.socketpair(socket.AF_UNIX, socket.SOCK_SEQPACKET)
        sender = threading.Thread(target=send, args=(ours, parts))
        sender.start()
        try:
            reason = reason_of(record, ram, capture)
            self.hold(what, reason, record, ram, capture, capture="-", places={0: theirs.fileno()})
        finally:
            theirs.close()
            sender.join()


def send(ours, parts):
    """Until the other end is closed."""
    try:
        for part in parts:
            ours.sendall(part)
    except (BrokenPipeError, ConnectionResetError):
        pass
    finally:
        ours.close()


# ---- sessions

DESIGN = bytes((7 * i + 3) % 256 for i in range(300))  # three blocks
SMALL = b"\x90\x84 a design of one block"
QUERIES = [frame(0x10, b"\x01"), frame(0x70, b"\x08")]
BAD_LOADS = [load(0), load(len(DESIGN), 2), load(2**32 - 1, 1)]
TAIL = bytes([0x10, 0x01, 0xFF, 0x13])
ONE, TWO = others()[:6], others()[6:]


def whole_load(design, header=0x13):
    """With frames for others between."""
    first, *rest = blocks(design, header)
    return [*TWO, load(len(design), 1, header), *ONE, first, ONE[3], *rest]


def after(*frames):
    return b"".join(frames)


STARTED = after(*QUERIES, *ONE, BAD_LOADS[1], *whole_load(DESIGN, 0x53), TAIL)
LOADING = [ONE[4], load(len(SMALL) + 254, 0)]  # three blocks
STOPPED = {
    "bit 7": after(*QUERIES, ONE[0], b"\x90", TAIL),
    "bit 2": after(*QUERIES, *BAD_LOADS, b"\x14", TAIL),
    "bit 7 while loading": after(*LOADING, b"\xff", TAIL),
    "bit 2 while loading": after(*LOADING, *blocks(SMALL), ONE[1], b"\x07"),
    "unknown": after(QUERIES[0], frame(0x32, b"\x02"), TAIL),
    "a block while waiting": after(BAD_LOADS[2], *blocks(SMALL), TAIL),
    "a load while loading": after(*LOADING, *LOADING, TAIL),
    "a query while loading": after(*LOADING, *QUERIES),
    "a query of four bytes": after(QUERIES[0], frame(0x11, b"\x01"), TAIL),
    "a load of 32 bytes": after(ONE[2], frame(0x12, load(1)[1:]), TAIL),
    "a block of 32 bytes": after(*LOADING, frame(0x12, b"\x05"), TAIL),
    "a block of one byte": after(*LOADING, frame(0x10, b"\x05")),
}


def cut_sessions():
    """What, record, RAM and capture."""
    yield "a start", record_of(4), RAM_MOST, STARTED
    yield "a start with the digest", record_of(5, blake2s(SMALL)), len(SMALL), after(*QUERIES, *whole_load(SMALL), TAIL)
    yield "another digest", record_of(5, blake2s(DESIGN)), 1000, after(*whole_load(DESIGN[:-1]), TAIL)
    yield "no room", record_of(4), 299, after(*whole_load(DESIGN))
    for what, capture in STOPPED.items():
        yield what, record_of(4), 1000, capture


def few_bytes(rng):
    """All captures of one byte, and of two that begin with a header of a short frame."""
    for kind in (4, 5):
        for byte in range(256):
            yield f"type {kind}, one byte", record_of(kind), 100, bytes([byte])
    for header, byte in [(0x10, byte) for byte in range(256)] + [(rng.randrange(256), rng.randrange(256)) for _ in range(100)]:
        yield "two bytes", record_of(4), 100, bytes([header, byte])


def types(rng):
    for kind in [*range(10), *STOPPING_TYPES, *(rng.getrandbits(32) for _ in range(10))]:
        for digests in ((ZEROS,), (blake2s(DESIGN),), (ZEROS, blake2s(DESIGN)), (blake2s(DESIGN), ZEROS), (ZEROS, ZEROS)):
            yield f"type {kind}, digests {[d.hex()[:8] for d in digests]}", record_of(kind, *digests), RAM_MOST, STARTED
    yield "the second right, the bit clear", record_of(5, ZEROS, blake2s(DESIGN), mask=0xFFFFFFFD), RAM_MOST, STARTED


def lengths():
    """Records and RAMs of other lengths."""
    for n in (0, 1, 3, 4, 255, 257, 300, 5000):
        yield f"a record of {n} bytes", (record_of(4) + bytes(5000))[:n], RAM_MOST, STARTED
    for ram in (0, 1, 2, 299, 300, 301, 131071, RAM_MOST, RAM_MOST + 1, 99999999):
        for kind in (3, 4, 5, 6):
            yield f"{ram} bytes of RAM, type {kind}", record_of(kind), ram, STARTED
            design = after(load(ram), *blocks(bytes(min(ram, 500))))
            yield f"{ram} bytes of RAM, type {kind}, a design as long", record_of(kind), ram, design
    yield "neither fits", bytes(255), 0, b""


def damaged(rng, capture):
    """A few bytes changed, dropped or put in, and now and then the end cut off."""
    data = bytearray(capture)
    for _ in range(rng.randint(1, 3)):
        at = rng.randint(0, len(data))
        match rng.randrange(4 if at < len(data) else 1):
            case 0:
                data[at:at] = rng.choice([rng.randbytes(rng.randint(1, 3)), rng.choice(others()), load(100)])
            case 1:
                data[at] ^= 1 << rng.randrange(8)
            case 2:
                data[at] = rng.randrange(256)
            case _:
                del data[at : at + rng.randint(1, 3)]
    return bytes(data[: rng.randint(0, len(data))] if rng.random() < 0.3 else data)


def random_sessions(rng):
    for seed in SESSIONS:
        s, data = session(seed)
        record, capture = data[:256], data[PREFIX:]
        size = len(s.program)
        yield f"seed {seed}", record, rng.choice([PRINTER_RAM, PRINTER_RAM, RAM_MOST, size]), capture
        if size > 1:
            yield f"seed {seed}, less RAM", record, rng.choice([size - 1, rng.randrange(1, size)]), capture
        yield f"seed {seed}, damaged", record, rng.choice([PRINTER_RAM, RAM_MOST]), damaged(rng, capture)


def cut_anywhere(rng, data, most):
    """In parts of random lengths."""
    while data:
        n = rng.randint(1, most)
        yield data[:n]
        data = data[n:]


def in_parts(program, rng):
    for what, record, ram, capture in cut_sessions():
        program.play_parts(f"{what}, byte by byte", record, ram, capture, [bytes([byte]) for byte in capture])
        for most in (10, 200):
            program.play_parts(f"{what}, in parts", record, ram, capture, list(cut_anywhere(rng, capture, most)))
    for seed in range(20):
        s, data = session(seed)
        program.play_parts(f"seed {seed}, in parts", data[:256], PRINTER_RAM, data[PREFIX:], list(cut_anywhere(rng, data[PREFIX:], 400)))


def long_capture(program, rng):
    """Some MB of frames for others, and a session behind them; or nothing, or the beginning of one more."""
    front = after(*(frame(rng.choice([0x03, 0x0B, 0x7B]), rng.randbytes(128)) for _ in range(40000)))
    for what, kind, capture in (("start", 4, STARTED), ("stop", 5, STARTED), ("others", 4, b""), ("unfinished", 4, b"\x13")):
        record = record_of(kind)
        reason = reason_of(record, RAM_MOST, capture)
        reason.byte, reason.frame = reason.byte + len(front), reason.frame + 40000
        if not capture:
            reason.offset = 128
        program.record.write_bytes(record)
        program.capture.write_bytes(front + capture)
        program.hold(f"a long capture, {what}", reason, record, RAM_MOST, front + capture)


def reads_no_more(program):
    """After a stop no more is read than came with it, and before any byte nothing."""
    program.capture.write_bytes(b"\xff" + bytes(1 << 20))
    for kind, most in ((4, PARTS), (6, 0), (2, 0)):
        record = record_of(kind)
        program.record.write_bytes(record)
        with open(program.capture, "rb", buffering=0) as file:
            places = {0: file.fileno()}
            program.hold("a file as standard input", reason_of(record, 1, b"\xff"), record, 1, b"\xff", capture="-", places=places)
            expect("bytes read", file.tell(), most)


def stored(program):
    """What `rt ci` runs the program on."""
    data = STORED / "data"
    record, capture = (data / "record.bin").read_bytes(), (data / "capture.bin").read_bytes()
    out = (STORED / "stdout").read_text()
    expect("what is stored", out, told(reason_of(record, RAM_MOST, capture), record, RAM_MOST))
    expect("its words", (STORED / "args").read_text().split("\n"), ["record.bin", "capture.bin", str(RAM_MOST), ""])
    program.record = data / "record.bin"
    expect("what is stored", program.run(RAM_MOST, data / "capture.bin"), (0, out, ""))


def told_by(path):
    """All that a program tells: how often each kind came up."""
    rng = random.Random(13)
    with tempfile.TemporaryDirectory() as name:
        program = Program(path, Path(name))
        for given in cut_sessions():
            program.play_cuts(*given)
        for given in (*few_bytes(rng), *types(rng), *lengths(), *random_sessions(rng)):
            program.play(*given)
        in_parts(program, rng)
        long_capture(program, rng)
        reads_no_more(program)
        stored(program)
    return program.seen


# ---- the command


def ran(process, input=None):
    out, err = process.communicate(input, timeout=SECONDS)
    return process.returncode, out.decode(), os.fsdecode(err)


def started(*words, command=DIAGNOSE, stdin=subprocess.DEVNULL, **place):
    return subprocess.Popen([command, *map(str, words)], **{**built.PIPES, "stdin": stdin}, **place)


def run(*words, input=None, **place):
    return ran(started(*words, stdin=subprocess.DEVNULL if input is None else subprocess.PIPE, **place), input)


def files(folder, kind=4, capture=STARTED):
    """A folder with a record and a capture, and their names."""
    inside = Path(tempfile.mkdtemp(dir=folder))
    return inside, written(inside, "the record", record_of(kind)), written(inside, "the capture", capture)


def reason_text(kind=4, ram=RAM_MOST, capture=STARTED):
    return told(reason_of(record_of(kind), ram, capture), record_of(kind), ram)


def diagnosed(kind, capture, *options, ram=RAM_MOST):
    """Standard output and exit status, from a file and from standard input."""

    def case(folder):
        _, record, path = files(folder, kind, capture)
        expect("a file", run(record, path, *options), (0, reason_text(kind, ram, capture), ""))
        expect("standard input", run(*options, record, "-", input=capture), (0, reason_text(kind, ram, capture), ""))

    return case


def live(folder):
    """A line that stays open: the reason comes with the byte that stops or starts the head, and not before."""
    for kind in (4, 5):
        _, record, _ = files(folder, kind)
        process = started(record, "-", stdin=subprocess.PIPE)
        end = reason_of(record_of(kind), RAM_MOST, STARTED).byte
        for part in (STARTED[:100], STARTED[100 : end - 1]):
            process.stdin.write(part)
            process.stdin.flush()
            time.sleep(0.3)
            expect("it goes on", process.poll(), None)
        process.stdin.write(STARTED[end - 1 : end])
        process.stdin.flush()
        expect("status", process.wait(SECONDS), 0)
        expect("output", process.stdout.read().decode(), reason_text(kind))
        process.communicate()


def interrupted(folder):
    """While it waits for bytes."""
    _, record, _ = files(folder)
    for number in (signal.SIGINT, signal.SIGTERM):
        process = started(record, "-", stdin=subprocess.PIPE)
        wait_for_child(process)
        ended_by(number, process)


def wait_for_child(process):
    """Waits until the program behind a command runs: before that the child is what builds it."""
    end = time.monotonic() + SECONDS
    while time.monotonic() < end:
        try:
            if os.readlink(f"/proc/{child(process)}/exe") == str(path_of("diagnose")):
                return
        except (OSError, IndexError):
            pass
        time.sleep(0.01)


def refused(status, why, *words):
    """One line, and nothing else; FOLDER in a word is a folder with a record and a capture."""

    def case(folder):
        inside, _, _ = files(folder)
        written(inside, "255", record_of(4)[:255])
        written(inside, "257", record_of(4) + b"\0")
        written(inside, "empty", b"")
        for kind in range(4):
            written(inside, f"type {kind}", record_of(kind))
        got = run(*(str(word).replace("FOLDER", str(inside)) for word in words))
        expect("exit status, standard output and error", got, (status, "", f"diagnose: {why}\n".replace("FOLDER", str(inside))))

    return case


RECORD, CAPTURE = "FOLDER/the record", "FOLDER/the capture"
MISSING, DIRECTORY, LONG, BROKEN = (
    f"cannot be read: {why}" for why in ("No such file or directory", "Is a directory", "File name too long", "Input/output error")
)
BAD_RAM = ["0", "131073", "-1", "x", "", "1_0", "1.5", "0x10", "9999999999999999999999", " 1", "١"]


def refusals():
    for place, words in (("record", lambda name: (name, CAPTURE)), ("capture", lambda name: (RECORD, name))):
        for name, why in (("FOLDER/no", MISSING), ("", MISSING), ("FOLDER", DIRECTORY), ("x" * 5000, LONG), ("/proc/self/mem", BROKEN)):
            yield f"{place} {name[:20]}", refused(3, f"{name[:4096]}: {why}", *words(name))
    for name in ("255", "257", "empty"):
        yield f"record {name}", refused(3, f"FOLDER/{name}: {REFUSED[6]}", f"FOLDER/{name}", CAPTURE)
    for kind in range(4):
        yield f"type {kind}", refused(3, f"FOLDER/type {kind}: {REFUSED[48]}", f"FOLDER/type {kind}", CAPTURE)
    yield "the record first", refused(3, f"FOLDER/type 2: {REFUSED[48]}", "FOLDER/type 2", "FOLDER/no")
    for ram in BAD_RAM:
        why = f"argument --ram: {ram!r} is not a number from 1 to 131072; see ./diagnose --help"
        yield f"--ram {ram}", refused(2, why, RECORD, CAPTURE, f"--ram={ram}")
    yield "no words", refused(2, "the following arguments are required: RECORD, CAPTURE; see ./diagnose --help")
    yield "one word", refused(2, "the following arguments are required: CAPTURE; see ./diagnose --help", RECORD)
    yield "three words", refused(2, "unrecognized arguments: more; see ./diagnose --help", RECORD, CAPTURE, "more")
    yield "no --ram", refused(2, "argument --ram: expected one argument; see ./diagnose --help", RECORD, CAPTURE, "--ram")
    yield "--ra", refused(2, "unrecognized arguments: --ra 1; see ./diagnose --help", RECORD, CAPTURE, "--ra", "1")


def unreadable(folder):
    """Files without permission. Root may read every file, so there the command runs as nobody, behind a builder that has nothing to do."""
    inside, record, capture = files(folder)
    copy, behind = TOP, ()
    if os.getuid() == 0:
        copy, behind = built.Copy(inside / "nobody's", path_of("diagnose")), built.NOBODY
        copy.ended("scripts/built", "diagnose")
        folder.chmod(0o755)
        inside.chmod(0o755)
    for path in (capture, record):
        path.chmod(0)
        process = copy.started("diagnose", record, capture, behind=behind) if behind else started(record, capture)
        expect("no permission", ran(process), (3, "", f"diagnose: {path}: cannot be read: Permission denied\n"))


def redirected(status, out, err, words):
    """By a shell; $1 and $2 are record and capture."""

    def case(folder):
        _, record, capture = files(folder)
        got = run("-c", f'exec "$0" {words}', DIAGNOSE, record, capture, command="sh")
        expect(words, got, (status, out, err))

    return case


def closed_pipe(folder):
    """Standard output is a pipe that nobody reads."""
    _, record, capture = files(folder)
    read, write = os.pipe()
    os.close(read)
    process = subprocess.Popen([DIAGNOSE, record, capture], stdin=subprocess.DEVNULL, stdout=write, stderr=subprocess.PIPE)
    os.close(write)
    err = process.communicate(timeout=SECONDS)[1].decode()
    expect("a closed pipe", (process.returncode, err), (1, "diagnose: standard output: Broken pipe\n"))


def names(folder):
    """A name of any bytes; one that is a dash, in its folder; and a capture that is a pipe with a name."""
    inside, record, capture = files(folder)
    other = os.fsdecode(os.fsencode(inside) + b"/\xff\xfe")
    os.rename(record, other)
    expect("any bytes", run(other, capture), (0, reason_text(), ""))
    expect("any bytes, as a capture", run(other, other), (0, reason_text(capture=record_of(4)), ""))
    expect("any bytes, missing", run(other, other + "x"), (3, "", f"diagnose: {other}x: {MISSING}\n"))
    written(inside, "-", record_of(5))
    expect("a dash as record", run("-", capture, cwd=inside), (0, reason_text(5), ""))
    expect("a dash behind a point", run("-", "./-", cwd=inside), (0, reason_text(5, capture=record_of(5)), ""))
    os.mkfifo(inside / "pipe")
    process = started(other, inside / "pipe")
    with open(inside / "pipe", "wb") as pipe:
        pipe.write(STARTED[:200])
    expect("a pipe with a name", ran(process), (0, reason_text(capture=STARTED[:200]), ""))


def elsewhere(folder):
    inside, record, capture = files(folder)
    for name, place in built.elsewhere(inside, TOP, "diagnose"):
        expect(name, run(record, capture, command=name, **place), (0, reason_text(), ""))


def dies(folder):
    copy = built.Copy(folder / "dies", "#!/bin/sh\nkill -9 $$\n")
    expect("a program that dies", copy.ended("diagnose", "a", "b"), (b"", b"diagnose: the program died\n", 1))


def usage(folder):
    status, out, err = run("--help")
    expect("--help", (status, out[:18], err), (0, "usage: ./diagnose ", ""))
    lines = re.findall(r"^ +(?:exit status )?([0-9]+)  (\S.*)$", out, re.M)
    expect("statuses in --help", [(int(number), words) for number, words in lines], list(STATUSES.items()))


def readme(folder):
    """README's example: the sample on a record that allows two others; and its exit statuses."""
    section = (TOP / "README.md").read_text().split("## Why did the loom not start?")[1].split("\n## ")[0]
    lines = re.findall(r"^    (?!\$)(.*\n)", section, re.M)
    program = (TOP / "sample" / "program.bin").read_bytes()
    inside = Path(tempfile.mkdtemp(dir=folder))
    record = written(inside, "record.bin", record_of(5, blake2s(b"the old design"), blake2s(b"the new design")))
    capture = written(inside, "capture.bin", after(load(len(program), 0), *blocks(program, 0x13)))
    expect("the example", run(record, capture), (0, "".join(lines), ""))
    expect("exit statuses", [int(number) for number in re.findall(r"^\| ([0-9]+) \|", section, re.M)], list(STATUSES))


def cases():
    yield "a start", diagnosed(4, STARTED)
    yield "another digest", diagnosed(5, STARTED)
    yield "no type", diagnosed(6, STARTED)
    yield "nothing came", diagnosed(4, b"")
    yield "unfinished", diagnosed(4, STARTED[:-200])
    for ram in (1, 299, 300, RAM_MOST):
        yield f"--ram {ram}", diagnosed(4, STARTED, f"--ram={ram:06}", ram=ram)
    for what in ("bit 7", "unknown", "a load while loading", "a query of four bytes"):
        yield what, diagnosed(4, STOPPED[what], "--ram", 1000, ram=1000)
    yield from refusals()
    yield "a full disk", redirected(1, "", "diagnose: standard output: No space left on device\n", '"$1" "$2" > /dev/full')
    yield "no standard output", redirected(0, "", "", '"$1" "$2" >&-')
    yield "no standard error", redirected(0, reason_text(), "", '"$1" "$2" 2>&-')
    yield "neither, and no file", redirected(3, "", "", '"$1" no >&- 2>&-')
    yield "no standard input", redirected(0, reason_text(capture=b""), "", '"$1" - <&-')
    yield "no stream", redirected(0, "", "", '"$1" "$2" <&- >&- 2>&-')
    unread = "diagnose: standard input: cannot be read: Bad file descriptor\n"
    yield "standard input that is only written", redirected(3, "", unread, '"$1" - 0> /dev/null')
    for case in (live, interrupted, unreadable, closed_pipe, names, elsewhere, dies, usage, readme):
        yield case.__name__, case
    yield "not built", simulate.not_built("diagnose", "a", "b")


def main(path):
    try:
        if path:
            return int(bool(missing_kinds(told_by(path))))
        failed = simulate.run_all(cases(), "diagnose")
        seen = told_by(path_of("diagnose"))
    except Wrong as what:
        print(f"diagnose: {what}", file=sys.stderr)
        return 1
    print("diagnose:", "; ".join(f"{kind}: {n}" for kind, n in sorted(seen.items())))
    return int(bool(missing_kinds(seen)) or failed)


if __name__ == "__main__":
    parser = argparse.ArgumentParser(description=__doc__, formatter_class=argparse.RawDescriptionHelpFormatter)
    parser.add_argument("--program")
    sys.exit(main(parser.parse_args().program))
