#!/usr/bin/env python3
"""./record against the reset record of document 01 and change requests 6 and 7, written and read again by struct and hashlib: every option and
every mistake, what is shown of records of any bytes, and heads of ./simulate that begin on what was made. The cases run beside each other.
"""
import itertools
import os
import random
import re
import struct
import subprocess
import sys
import tempfile
from pathlib import Path

import built
import simulate
from head import ZEROS, blake2s
from programs import path_of
from pty_peer import Terminal
from simulate import STOPS, Head, Wrong, boots, expect, shown, started, written

TOP = Path(__file__).resolve().parent.parent
sys.path.insert(0, str(TOP / "scripts"))
import command

RECORD = TOP / "record"
STORED = TOP / "crates" / "recorder"
SECONDS = 30
LAYOUT = "<II32s32s184s"
OLD, NEW = b"the old design", b"the new design"
CDI, SEED = bytes(range(32)), bytes(range(100, 132))
MASKS = [0, 1, 2, 3, 4, 5, 6, 0x100, 0x80000000, 0xFFFFFFFC, 0xFFFFFFFD, 0xFFFFFFFE, 0xFFFFFFFF]
KINDS = [*range(9), 255, 256, 261, 0x05000000, 0x80000000, 0xFFFFFFFF]

NAMES = {
    0: "FLASH0: the program in slot 0, if it has the digest built into the firmware",
    1: "FLASH1: the program in slot 1, whatever its digest",
    2: "FLASH0_VER: the program in slot 0, if its digest is allowed",
    3: "FLASH1_VER: the program in slot 1, if its digest is allowed",
    4: "CLIENT: the program that the server sends, whatever its digest",
    5: "CLIENT_VER: the program that the server sends, if its digest is allowed",
}
ALLOWED = {0: "the built-in digest", 1: "any digest", 4: "any digest"}

# of ./record --help
STATUSES = {
    0: "the record was made, or shown, whatever its type is",
    1: "the program could not be proved and built, or died, or standard output could not be written",
    2: "bad arguments, or a record for a terminal",
    3: "a file cannot be read, RECORD has not 256 bytes, a program has no byte or over 131,072, or the data is too long",
}


# ---- the record, once more


def record_of(kind, first=None, second=None, chained=None, data=b""):
    """The record of a start: first and second are programs, chained a CDI and a seed."""
    mask = (chained is not None) + 2 * (second is not None)
    digest = ZEROS if first is None else blake2s(first)
    measured_id = ZEROS if chained is None else blake2s(chained[0] + chained[1])
    return struct.pack(LAYOUT, kind, mask, digest, measured_id, (b"" if second is None else blake2s(second)) + data)


def data_words(data):
    used = data.rstrip(b"\0")
    if not used:
        return f"{len(data)} bytes, all zero"
    return f"{len(data)} bytes: {used.hex()}" + (", then zeros" if len(used) < len(data) else "")


def words_of(record):
    """What is shown of a record."""
    kind, mask, first, measured_id, rest = struct.unpack(LAYOUT, record)
    lines = [f"type     {kind} " + NAMES.get(kind, "is unknown: the head stops with 20")]
    if kind in (2, 3, 5):
        lines += [f"allowed  {first.hex()}"] + [f"or       {rest[:32].hex()}"] * (mask >> 1 & 1)
    else:
        places = "8 to 39 and 72 to 103" if mask & 2 else "8 to 39"
        lines += [f"allowed  {ALLOWED.get(kind, 'no program')}; bytes {places} are not looked at"]
    if mask & 1:
        lines += [f"CDI      chained to measured_id {measured_id.hex()} (RESET_SEED)"]
    else:
        lines += ["CDI      from the program's digest (no RESET_SEED)"]
    if mask >> 2:
        lines += [f"mask     0x{mask:08x}: bits 2 to 31 are ignored"]
    lines += ["data     " + data_words(rest[32:] if mask & 2 else rest)]
    return "".join(line + "\n" for line in lines)


# ---- the command


def ran(process):
    """Exit status, standard output and error."""
    out, err = process.communicate(timeout=SECONDS)
    return process.returncode, out, os.fsdecode(err)


def run(*words, command=RECORD, **place):
    return ran(subprocess.Popen([command, *map(str, words)], **built.PIPES, **place))


def options_of(folder, kind, first=None, second=None, chained=None, data=None):
    """The options for a record, with files in a folder of their own."""
    inside = Path(tempfile.mkdtemp(dir=folder))
    options = ["--type", kind]
    for option, content in (("--digest-of", first), ("--or-digest-of", second), ("--data", data)):
        options += [] if content is None else [option, written(inside, option[2:], content)]
    return options + ([] if chained is None else ["--cdi", chained[0].hex(), "--seed", chained[1].hex().upper()])


def made(kind, first=None, second=None, chained=None, data=None):
    """The bytes, and what is shown of them."""

    def case(folder):
        record = record_of(kind, first, second, chained, data or b"")
        expect("made", run(*options_of(folder, kind, first, second, chained, data)), (0, record, ""))
        path = written(Path(tempfile.mkdtemp(dir=folder)), "record", record)
        expect("shown", run("--show", path), (0, words_of(record).encode(), ""))

    return case


def through_pipes(folder):
    """A program that can be read only once; of 131,072 bytes it is more than a pipe holds."""
    inside = Path(tempfile.mkdtemp(dir=folder))
    words = 'exec "$0" --type 5 --digest-of <(cat "$1") --or-digest-of <(cat "$2")'
    for first, second in ((OLD, NEW), (b"x" * 131072, OLD), (OLD, b"x" * 131072)):
        paths = written(inside, "first", first), written(inside, "second", second)
        got = run("-c", words, RECORD, *paths, command="bash")
        expect(f"programs of {len(first)} and {len(second)} bytes", got, (0, record_of(5, first, second), ""))
    for size in (0, 131073):
        path = written(inside, "program", bytes(size))
        status, out, err = run("-c", 'exec "$0" --type 5 --digest-of <(cat "$1")', RECORD, path, command="bash")
        expect(f"{size} bytes", (status, out, err.endswith(": a program has 1 to 131,072 bytes\n")), (3, b"", True))


def makings():
    """Every type, each with and without a second program, a seed, and data of several lengths."""
    rng = random.Random(7)
    for kind, chained, second in itertools.product(range(6), (None, (CDI, SEED)), (None, NEW)):
        if second and kind in (0, 1, 4):
            continue
        size = 152 if second else 184
        for data in (None, b"", b"\x01", rng.randbytes(size // 2) + bytes(3), rng.randbytes(size - 2) + b"\0\x01", b"\0" * size):
            first = OLD if kind in (2, 3, 5) else None
            what = f"type {kind}, {'two programs' if second else 'one program'}, {'chained' if chained else 'direct'}"
            yield f"{what}, data {data and data.hex()}", made(kind, first, second, chained, data)
    for program in (b"xy", b"x" * 65536, rng.randbytes(131072)):
        yield f"a program of {len(program)} bytes", made(5, program, program[:-1])
    yield "programs through pipes", through_pipes
    yield "secrets of other bytes", made(4, chained=(rng.randbytes(32), rng.randbytes(32)))
    yield "secrets the other way round", made(4, chained=(SEED, CDI))


# ---- the program behind it


def emptied(fd):
    """What was written to a file, which is then empty."""
    data = os.pread(fd, 1 << 16, 0)
    os.ftruncate(fd, 0)
    os.lseek(fd, 0, os.SEEK_SET)
    return data


class Program:
    """It is called as the script does."""

    def __init__(self):
        self.out, self.err = os.memfd_create("out"), os.memfd_create("err")
        self.runs = 0

    def hold(self, what, words, given, wanted):
        fd = command.front(given)
        number = command.run("recorder", str(path_of("recorder")), words, {0: fd, 1: self.out, 2: self.err})
        os.close(fd)
        expect(what, (number, emptied(self.out), emptied(self.err).decode()), wanted)
        self.runs += 1

    def show(self, what, record):
        self.hold(what, ["show"], record, (0, words_of(record).encode(), ""))

    def make(self, what, kind, mask, cdi, seed, first, second, data):
        """By change request 7: the first number that applies, or the record."""
        given = struct.pack("<II", kind, mask) + cdi + seed + first + second + data
        number = 44 if kind > 5 else 46 if len(data) != (152 if mask & 2 else 184) else 0
        measured_id = blake2s(cdi + seed) if mask & 1 else ZEROS
        record = struct.pack(LAYOUT, kind, mask, first, measured_id, (second if mask & 2 else b"") + data)
        self.hold(what, [], given, (1, b"", f"record: the reset call is refused ({number})\n") if number else (0, record, ""))


def any_records(rng):
    for kind, mask in itertools.product(KINDS, MASKS):
        front = struct.pack("<II", kind, mask)
        yield f"type {kind}, mask {mask:#x}", front + rng.randbytes(248)
        yield f"type {kind}, mask {mask:#x}, zeros", front + bytes(248)
    for at in (72, 103, 104, 254, 255):
        for mask in (0, 2):
            yield f"mask {mask}, data at {at}", struct.pack("<II", 4, mask).ljust(at, b"\0") + b"\x80".ljust(256 - at, b"\0")
    for n in range(100):
        yield f"random {n}", rng.randbytes(256)


def one_bit(record):
    for at, bit in itertools.product(range(256), range(8)):
        other = bytearray(record)
        other[at] ^= 1 << bit
        yield f"bit {bit} of byte {at}", bytes(other)


def program_runs():
    """How often the program was run."""
    rng, program = random.Random(17), Program()
    for what, record in any_records(rng):
        program.show(what, record)
    for record in (record_of(5, OLD, NEW, (CDI, SEED), b"data"), record_of(3, OLD, data=b"x" * 184), record_of(1)):
        for what, other in one_bit(record):
            program.show(what, other)
    for kind, mask in itertools.product(KINDS, MASKS):
        for size in (0, 1, 151, 152, 153, 183, 184, 185, 300):
            given = [rng.randbytes(32) for _ in range(4)]
            program.make(f"type {kind}, mask {mask:#x}, {size} bytes of data", kind, mask, *given, rng.randbytes(size))
    return program.runs


def stored(folder):
    """What `rt ci` runs the program on."""
    record = (STORED / "stdin").read_bytes()
    expect("its record", record, record_of(5, OLD, NEW, (CDI, bytes(range(32, 64))), b"a note for the next program"))
    expect("its words", ((STORED / "args").read_text(), (STORED / "stdout").read_text()), ("show\n", words_of(record)))


# ---- heads that begin on what was made


def from_flash(folder):
    """Types 0 to 3, with the right program in the slot and with another one."""
    for kind, chained in itertools.product(range(4), (None, (CDI, SEED))):
        inside = Path(tempfile.mkdtemp(dir=folder))
        good, bad = written(inside, "good", OLD), written(inside, "bad", NEW)
        options = options_of(folder, kind, OLD if kind in (2, 3) else None, chained=chained)
        record = written(inside, "record", run(*options)[1])
        built_in = ["--require", good] if kind == 0 else []
        line = started(OLD, measured_id=blake2s(CDI + SEED) if chained else None)
        boots(0, line, "--record", record, f"--slot{kind % 2}", good, *built_in)
        if kind != 1:
            boots(25, STOPS[25], "--record", record, f"--slot{kind % 2}", bad, *built_in)


def from_server(folder):
    """Types 4 and 5: either of two programs, and no third."""
    for kind, program, chained in itertools.product((4, 5), (OLD, NEW, b"another"), (None, (CDI, SEED))):
        digests = (OLD, NEW) if kind == 5 else (None, None)
        record = written(Path(tempfile.mkdtemp(dir=folder)), "record", run(*options_of(folder, kind, *digests, chained))[1])
        head = Head("--record", record)
        head.load(program)
        if kind == 5 and program == b"another":
            head.ends(25, shown(program, STOPS[25]))
        else:
            head.ends(0, shown(program, started(program, measured_id=blake2s(CDI + SEED) if chained else None)))


# ---- mistakes


def refused(status, why, *words):
    """One line, and nothing else; FOLDER in a word is a folder with files, one of them a program."""

    def case(folder):
        inside = Path(tempfile.mkdtemp(dir=folder))
        for size in (0, 1, 152, 153, 184, 185, 255, 257, 5000, 131073):
            written(inside, str(size), b"\x04".ljust(size, b"\0")[:size])
        written(inside, "program", OLD)
        got = run(*(str(word).replace("FOLDER", str(inside)) for word in words))
        expect("exit status, standard output and error", got, (status, b"", f"record: {why}\n".replace("FOLDER", str(inside))))

    return case


A, B = ("--digest-of", "FOLDER/program"), ("--or-digest-of", "FOLDER/program")
HEX = "00" * 32
SECOND = "--or-digest-of is a second program: give --digest-of PROGRAM too"
TOGETHER = "--cdi and --seed go together"
CHOICES = "(choose from 0, 1, 2, 3, 4, 5)"

# Options that do not go together, or are none: what is said of them.
BAD = [
    ((), "--type N makes a record, --show RECORD shows one"),
    ((*A, *B), "--type N makes a record, --show RECORD shows one"),
    (("--cdi", HEX, "--seed", HEX), "--type N makes a record, --show RECORD shows one"),
    (("--type", 2), "type 2 needs --digest-of PROGRAM"),
    (("--type", 3), "type 3 needs --digest-of PROGRAM"),
    (("--type", 5, "--cdi", HEX, "--seed", HEX), "type 5 needs --digest-of PROGRAM"),
    (("--type", 0, *A), "type 0 takes its built-in program only: leave --digest-of out, or say --type 2"),
    (("--type", 0, *B), "type 0 takes its built-in program only: leave --or-digest-of out, or say --type 2"),
    (("--type", 0, *A, *B), "type 0 takes its built-in program only: leave --digest-of and --or-digest-of out, or say --type 2"),
    (("--type", 1, *A), "type 1 takes any program: leave --digest-of out, or say --type 3"),
    (("--type", 1, *B), "type 1 takes any program: leave --or-digest-of out, or say --type 3"),
    (("--type", 4, *A), "type 4 takes any program: leave --digest-of out, or say --type 5"),
    (("--type", 4, *A, *B), "type 4 takes any program: leave --digest-of and --or-digest-of out, or say --type 5"),
    (("--type", 2, *B), SECOND),
    (("--type", 3, *B), SECOND),
    (("--type", 5, *B), SECOND),
    (("--type", 4, "--cdi", HEX), TOGETHER),
    (("--type", 4, "--seed", HEX), TOGETHER),
    (("--type", 4, "--cdi", HEX[2:], "--seed", HEX), f"argument --cdi: {HEX[2:]!r} is not 32 bytes in hex, 64 digits"),
    (("--type", 4, "--cdi", HEX, "--seed", HEX + "00"), f"argument --seed: {HEX + '00'!r} is not 32 bytes in hex, 64 digits"),
    (("--type", 4, "--cdi", "zz" * 32, "--seed", HEX), f"argument --cdi: {'zz' * 32!r} is not 32 bytes in hex, 64 digits"),
    (("--type", 4, "--cdi", HEX, "--seed", ""), "argument --seed: '' is not 32 bytes in hex, 64 digits"),
    (("--type", 6), f"argument --type: invalid choice: 6 {CHOICES}"),
    (("--type", -1), f"argument --type: invalid choice: -1 {CHOICES}"),
    (("--type", "x"), "argument --type: invalid int value: 'x'"),
    (("--type",), "argument --type: expected one argument"),
    (("--type", 4, "--data"), "argument --data: expected one argument"),
    (("--type", 5, "--digest-of"), "argument --digest-of: expected one argument"),
    (("--show",), "argument --show: expected one argument"),
    (("--show", "a", "b"), "unrecognized arguments: b"),
    (("--typ", 4), "unrecognized arguments: --typ 4"),
    *((("--show", "a", *more), "--show stands alone") for more in (("--type", 0), A, B, ("--cdi", HEX), ("--seed", HEX), ("--data", "b"))),
]

MISSING, DIRECTORY, LONG, BROKEN = "No such file or directory", "Is a directory", "File name too long", "Input/output error"
EXACTLY = "a reset record has exactly 256 bytes"


def mistakes():
    for words, why in BAD:
        yield f"bad arguments {words}", refused(2, f"{why}; see ./record --help", *words)
    for option, more in (("--show", ()), ("--digest-of", ("--type", 5)), ("--or-digest-of", ("--type", 5, *A)), ("--data", ("--type", 4))):
        for name, why in (("FOLDER/no", MISSING), ("", MISSING), ("FOLDER", DIRECTORY), ("x" * 5000, LONG), ("/proc/self/mem", BROKEN)):
            yield f"{option} {name[:20]}", refused(3, f"{name}: {why}", *more, option, name)
    for size in (0, 1, 255, 257, 5000):
        yield f"a record of {size} bytes", refused(3, f"FOLDER/{size}: {EXACTLY}", "--show", f"FOLDER/{size}")
    for size, more in itertools.product((0, 131073), ((), A)):
        words = ("--type", 5, *more, "--or-digest-of" if more else "--digest-of", f"FOLDER/{size}")
        yield f"a program of {size} bytes, {len(more)}", refused(3, f"FOLDER/{size}: a program has 1 to 131,072 bytes", *words)
    for size in (185, 5000):
        yield f"{size} bytes of data", refused(3, f"FOLDER/{size}: the data is over 184 bytes", "--type", 4, "--data", f"FOLDER/{size}")
    for size in (153, 184):
        words = ("--type", 5, *A, *B, "--data", f"FOLDER/{size}")
        yield f"{size} bytes of data, two programs", refused(3, f"FOLDER/{size}: the data is over 152 bytes", *words)


def unreadable(folder):
    """A file without permission. Root may read every file, so there the command runs as nobody, behind a builder that has nothing to do."""
    inside = Path(tempfile.mkdtemp(dir=folder))
    secret = written(inside, "secret", bytes(256))
    copy, behind = TOP, ()
    if os.getuid() == 0:
        copy, behind = built.Copy(inside / "nobody's", path_of("recorder")), built.NOBODY
        copy.ended("scripts/built", "recorder")
        folder.chmod(0o755)
        inside.chmod(0o755)
    secret.chmod(0)
    for words in (["--show"], ["--type", "4", "--data"], ["--type", "5", "--digest-of"]):
        got = ran(copy.started("record", *words, secret, behind=behind)) if behind else run(*words, secret)
        expect(f"no permission, {words}", got, (3, b"", f"record: {secret}: Permission denied\n"))


# ---- streams


def redirected(status, out, err, words):
    """By a shell; $1 is a record of type 4."""

    def case(folder):
        path = written(Path(tempfile.mkdtemp(dir=folder)), "record", record_of(4))
        expect(words, run("-c", f'exec "$0" {words}', RECORD, path, command="sh"), (status, out, err))

    return case


def closed_pipe(folder):
    """Standard output is a pipe that nobody reads."""
    path = written(Path(tempfile.mkdtemp(dir=folder)), "record", record_of(4))
    for words in (["--type", "4"], ["--show", path]):
        read, write = os.pipe()
        os.close(read)
        process = subprocess.Popen([RECORD, *words], stdin=subprocess.DEVNULL, stdout=write, stderr=subprocess.PIPE)
        os.close(write)
        got = (process.communicate(timeout=SECONDS)[1].decode(), process.returncode)
        expect(f"a closed pipe, {words}", got, ("record: standard output: Broken pipe\n", 1))


def on_terminal(folder):
    """A record is not written to a terminal, and what is shown of one is."""
    path = written(Path(tempfile.mkdtemp(dir=folder)), "record", record_of(4))
    refusal = "record: a record is 256 bytes and no text: send it to a file, > RECORD\n"
    for words, wanted in ((["--type", "4"], (2, "", refusal)), (["--show", path], (0, words_of(record_of(4)), ""))):
        screen = Terminal()
        done = subprocess.run([RECORD, *words], stdin=subprocess.DEVNULL, stdout=screen.slave, stderr=subprocess.PIPE, timeout=SECONDS)
        expect(f"on a terminal, {words}", (done.returncode, screen.line.rest().decode(), done.stderr.decode()), wanted)
        screen.close()


def names(folder):
    """A name of any bytes, and one that begins with a dash."""
    inside = Path(tempfile.mkdtemp(dir=folder))
    other = os.fsdecode(os.fsencode(inside) + b"/\xff\xfe")
    Path(other).write_bytes(record_of(1))
    written(inside, "-", record_of(5, OLD))
    expect("any bytes", run("--show", other), (0, words_of(record_of(1)).encode(), ""))
    expect("a dash", run("--show", "-", cwd=inside), (0, words_of(record_of(5, OLD)).encode(), ""))
    status, out, err = run("--type", 4, "--data", other)
    expect("any bytes, as data", (status, out, err.endswith(": the data is over 184 bytes\n")), (3, b"", True))


def elsewhere(folder):
    for name, place in built.elsewhere(Path(tempfile.mkdtemp(dir=folder)), TOP, "record"):
        expect(name, run("--type", 1, command=name, **place), (0, record_of(1), ""))


def dies(folder):
    copy = built.Copy(folder / "dies", "#!/bin/sh\nkill -9 $$\n")
    expect("a program that dies", copy.ended("record", "--type", "4"), (b"", b"record: the program died\n", 1))


# ---- what is written about it


def usage(folder):
    status, out, err = run("--help")
    expect("--help", (status, out[:16], err), (0, b"usage: ./record ", ""))
    lines = re.findall(r"^ +(?:exit status )?([0-9]+)  (\S.*)$", out.decode(), re.M)
    expect("statuses in --help", [(int(number), words) for number, words in lines], list(STATUSES.items()))


def readme(folder):
    """README's example, command by command, and its exit statuses."""
    section = (TOP / "README.md").read_text().split("## Making a record")[1].split("\n## ")[0]
    inside = Path(tempfile.mkdtemp(dir=folder))
    for name in ("record", "simulate", "sample"):
        (inside / name).symlink_to(TOP / name)
    examples = re.findall(r"^    \$ (.*)\n((?:    (?!\$).*\n)*)", section, re.M)
    expect("how many commands", len(examples), 5)
    for words, lines in examples:
        status, out, err = run("-c", words, command="sh", cwd=inside)
        got = re.sub("^/dev/pts/[0-9]+$", "/dev/pts/3", out.decode(), flags=re.M)
        expect(words, (status, got, err), (0, re.sub("^    ", "", lines, flags=re.M), ""))
    statuses = re.findall(r"^\| ([0-9]+) \| (.*) \|$", section, re.M)
    expect("exit statuses", [(int(number), words) for number, words in statuses], list(STATUSES.items()))


def cases():
    yield from makings()
    yield from mistakes()
    full = "record: standard output: No space left on device\n"
    yield "a full disk", redirected(1, b"", full, "--type 4 > /dev/full")
    yield "a full disk, shown", redirected(1, b"", full, '--show "$1" > /dev/full')
    yield "no standard output", redirected(0, b"", "", "--type 4 >&-")
    yield "no standard output, shown", redirected(0, b"", "", '--show "$1" >&-')
    yield "no standard input or error", redirected(0, record_of(4), "", "--type 4 <&- 2>&-")
    yield "no stream, and no file", redirected(3, b"", "", "--show no <&- >&- 2>&-")
    for case in (from_flash, from_server, unreadable, closed_pipe, on_terminal, names, elsewhere, dies, usage, readme, stored):
        yield case.__name__, case
    yield "not built", simulate.not_built("record", "--type", "4")


def main():
    failed = simulate.run_all(cases(), "recorder", "simulate")
    try:
        print(f"record: {program_runs()} runs of the program as expected")
    except Wrong as what:
        print(f"record: {what}", file=sys.stderr)
        return 1
    return failed


if __name__ == "__main__":
    sys.exit(main())
