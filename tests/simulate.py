#!/usr/bin/env python3
"""Loads ./simulate over real pseudo-terminals with the independent client (server.py), and from its flash, by options and by whole records,
and compares every reply, every line that it shows, the CDI by hashlib and the exit status. The cases run beside each other.
"""
import concurrent.futures
import itertools
import os
import random
import re
import signal
import struct
import subprocess
import sys
import tempfile
import threading
import time
from pathlib import Path

import built
import server
from head import RAM_MOST, blake2s
from programs import path_of
from pty_peer import Terminal, opened

TOP = Path(__file__).resolve().parent.parent
SIMULATE = TOP / "simulate"
SECONDS = 30
SIZES = [1, 127, 128, 254, 255, 32768, RAM_MOST]
FLASH_SIZES = [1, 64, 32768, RAM_MOST]

# README's table of stops
STOPS = {
    20: "stopped 20: the record's type is 6 or above\n",
    22: "stopped 22: bit 7 or bit 2 of a header is set\n",
    23: "stopped 23: the command is not allowed now, or unknown\n",
    24: "stopped 24: the command has another body length\n",
    25: "stopped 25: the program's digest is not allowed\n",
    26: "stopped 26: the size of the program in flash is 0, over the slot or over the RAM\n",
}
NAME = (b"\x10\x01", server.whole(0, b"\x02tk1 mkdf\x01", 32))
UDI = (b"\x30\x08", server.whole(1, b"\x09", 32))


class Wrong(Exception):
    pass


def expect(what, got, wanted):
    if got != wanted:
        raise Wrong(f"{what}: got {got!r}, expected {wanted!r}")


class Head:
    """A simulation, and the client's end of its terminal."""

    def __init__(self, *options, command=SIMULATE, out=subprocess.PIPE, **place):
        words = [command, *map(str, options)]
        self.process = subprocess.Popen(words, stdin=subprocess.DEVNULL, stdout=out, stderr=subprocess.PIPE, bufsize=0, **place)
        self.limit = threading.Timer(SECONDS, self.process.kill)
        self.limit.start()
        if out == subprocess.PIPE:
            self.meet(self.process.stdout.readline())

    def meet(self, line):
        self.name = line.decode().rstrip("\n")
        self.line = opened(self.name)

    def ask(self, sent, wanted):
        self.line.write(sent)
        expect(f"the reply to {sent[:8].hex()}..", self.line.read(len(wanted)), wanted)

    def load(self, program, id=0, secret=None, reopen=False):
        """The whole load."""
        digest = blake2s(program)
        for k in range(server.blocks(len(program)) + 1):
            self.ask(server.frame(program, id, secret, k), server.reply(len(program), id, k, 0, digest))
            if reopen:
                self.line.close()
                self.line = opened(self.name)

    def stops(self, sent, number, out):
        """Stops without a reply: none has come when the line closes."""
        self.line.write(sent)
        expect("a reply", self.line.some(), b"")
        self.ends(number, out)

    def ends(self, status, out, err=""):
        got = self.process.communicate()
        self.limit.cancel()
        shown = got[0].decode() if got[0] is not None else None
        expect("exit status, standard output and error", (self.process.returncode, shown, got[1].decode()), (status, out, err))


def written(folder, name, data):
    path = folder / name
    path.write_bytes(data)
    return path


def shown(program, end):
    return f"waiting\nloading {len(program)} bytes\n{server.blocks(len(program))} blocks\n{end}"


def started(program, uds=server.ZEROS, measured_id=None, secret=None):
    measured = blake2s(program) if measured_id is None else measured_id
    domain = (secret is not None) + 2 * (measured_id is not None)
    return f"started, {len(program)} bytes, CDI {blake2s(uds + bytes([domain]) + measured + (secret or b'')).hex()}\n"


# ---- loads


def load(folder, seed, size, kind, chained, with_secret):
    rng = random.Random(seed)
    program, uds, id = rng.randbytes(size), rng.randbytes(32), rng.randrange(4)
    measured_id, secret = rng.randbytes(32) if chained else None, rng.randbytes(32) if with_secret else None
    options = ["--uds", uds.hex()] + (["--measured-id", measured_id.hex()] if chained else [])
    if kind == 5:
        options += ["--require", written(folder, f"program {seed}", program)] + (["--type", 5] if seed % 2 else [])
    elif seed % 2:
        options += ["--type", 4]
    head = Head(*options)
    head.ask(*NAME)
    head.ask(*UDI)
    head.load(program, id, secret)
    head.ends(0, shown(program, started(program, uds, measured_id, secret)))


def no_room(folder):
    """Status 1, after which the head waits; then a program as long as the RAM."""
    head = Head("--ram", 300)
    head.ask(server.frame(bytes(301), 2, None, 0), server.reply(301, 2, 0, 1, b""))
    head.ask(*NAME)
    head.load(b"x" * 300, 2)
    head.ends(0, shown(b"x" * 300, started(b"x" * 300)))


def opened_often(folder):
    head = Head()
    head.load(b"y" * 1000, reopen=True)
    head.ends(0, shown(b"y" * 1000, started(b"y" * 1000)))


def read_late(folder):
    """The last reply is still there when the head has started long ago."""
    program, last = b"z", server.frame(b"z", 0, None, 1)
    head = Head()
    head.ask(server.frame(program, 0, None, 0), server.reply(1, 0, 0, 0, b""))
    head.line.write(last)
    time.sleep(0.5)
    head.ask(b"", server.reply(1, 0, 1, 0, blake2s(program)))
    began = time.monotonic()
    head.ends(0, shown(program, started(program)))
    expect("an end soon after that", time.monotonic() - began < 1, True)


def never_read(folder):
    """Nor does it wait for ever."""
    head = Head()
    head.line.write(b"".join(server.frame(b"z", 0, None, k) for k in (0, 1)))
    head.ends(0, shown(b"z", started(b"z")))


# ---- stops


def other_digest(folder):
    head = Head("--require", written(folder, "required", b"the required program"))
    head.load(b"another program")
    head.ends(25, shown(b"another program", STOPS[25]))


def changeover(folder):
    """Either of two programs starts, and no other."""
    old, new, other = b"the old program", b"the new program", b"another program"
    options = ["--require", written(folder, "old", old), "--or-require", written(folder, "new", new)]
    for program, measured_id in ((old, None), (new, None), (new, b"m" * 32)):
        head = Head(*options, *(["--measured-id", measured_id.hex()] if measured_id else []))
        head.load(program)
        head.ends(0, shown(program, started(program, measured_id=measured_id)))
    head = Head(*options)
    head.load(other)
    head.ends(25, shown(other, STOPS[25]))


def stops(number, sent):
    """The head stops, with the lamp's reason."""
    return lambda folder: Head().stops(sent, number, "waiting\n" + STOPS[number])


def stops_while_loading(folder):
    head = Head()
    for k in range(2):
        head.ask(server.frame(bytes(300), 0, None, k), server.reply(300, 0, k, 0, b""))
    head.stops(b"\x10\x01", 23, "waiting\nloading 300 bytes\n" + STOPS[23])


# ---- programs from flash


def boots(status, line, *options):
    """Starts or stops at once, with this line behind the terminal's name."""
    done = subprocess.run([SIMULATE, *map(str, options)], stdin=subprocess.DEVNULL, capture_output=True, timeout=SECONDS, cwd=TOP)
    name, _, rest = done.stdout.decode().partition("\n")
    got = (name[:9], rest, done.returncode, done.stderr)
    expect(f"terminal, line, exit status and standard error of {options}", got, ("/dev/pts/", line, status, b""))


def flash(folder, seed, size, kind, chained, both):
    """A start. The other slot is empty, or has another program."""
    rng = random.Random(seed)
    program, uds, measured_id = rng.randbytes(size), rng.randbytes(32), rng.randbytes(32) if chained else None
    path = written(folder, f"flash {seed}", program)
    options = ["--type", kind, f"--slot{kind % 2}", path, "--uds", uds.hex()]
    options += ["--measured-id", measured_id.hex()] if chained else []
    options += ["--require", path] if kind != 1 else []
    options += [f"--slot{1 - kind % 2}", written(folder, f"other {seed}", rng.randbytes(size))] if both else []
    boots(0, started(program, uds, measured_id), *options)


def flash_other_digest(folder):
    """One bit is another, the required program is the one in the other slot, or it is the front part of the one in the slot."""
    program = b"a program in flash"
    path, other = written(folder, "in flash", program), written(folder, "one bit", b"A" + program[1:])
    front = written(folder, "front", program[:-1])
    for kind in (0, 2, 3):
        slots = [f"--slot{kind % 2}", path, f"--slot{1 - kind % 2}", other]
        boots(25, STOPS[25], "--type", kind, "--require", other, *slots)
        boots(25, STOPS[25], "--type", kind, "--require", front, *slots, "--measured-id", blake2s(program).hex())


def flash_changeover(folder):
    """Of the two programs either may be the one in the slot."""
    program = b"a program in flash"
    path, other, third = (written(folder, f"changeover {k}", data) for k, data in enumerate([program, b"other", b"third"]))
    for kind in (2, 3):
        slots = ["--type", kind, f"--slot{kind % 2}", path, f"--slot{1 - kind % 2}", other]
        boots(0, started(program), *slots, "--require", path, "--or-require", other)
        boots(0, started(program), *slots, "--require", other, "--or-require", path)
        boots(25, STOPS[25], *slots, "--require", other, "--or-require", third)


def flash_size(folder):
    """No size that fits: no program, one of no bytes, one over the RAM. The other slot has one that fits."""
    good, empty = written(folder, "fits", b"x" * 300), written(folder, "no bytes", b"")
    long, longer = written(folder, "too long", b"x" * (RAM_MOST + 1)), written(folder, "far too long", b"x" * 10**6)
    for kind in range(4):
        own, other = f"--slot{kind % 2}", f"--slot{1 - kind % 2}"
        for path, options in ((None, []), (empty, []), (long, []), (longer, []), (good, ["--ram", 299])):
            require = [] if kind == 1 else ["--require", path or empty]
            boots(26, STOPS[26], "--type", kind, other, good, *require, *options, *([own, path] if path else []))


def flash_in_all_ram(folder):
    program = b"y" * 300
    path = written(folder, "all RAM", program)
    for kind in range(4):
        boots(0, started(program), "--type", kind, "--ram", 300, f"--slot{kind % 2}", path, *([] if kind == 1 else ["--require", path]))


def flash_on_terminal(folder):
    """The start is one line there too."""
    path, screen = written(folder, "on a terminal", b"z" * 300), Terminal()
    done = subprocess.run([SIMULATE, "--type", "1", "--slot1", path], stdin=subprocess.DEVNULL, stdout=screen.slave, timeout=SECONDS)
    expect("exit status and lines", (done.returncode, screen.line.rest().decode().partition("\n")[2]), (0, started(b"z" * 300)))


def client_with_flash(folder):
    """Types 4 and 5 do not look at the slots."""
    program, path = b"w" * 300, written(folder, "from a server", b"w" * 300)
    for options in ([], ["--require", path]):
        head = Head("--slot0", path, "--slot1", SIMULATE, *options)
        head.load(program)
        head.ends(0, shown(program, started(program)))


# ---- whole records


def record_with(kind, first=None, second=None, measured_id=None, mask=0):
    """The bytes of a record that allows these programs. Where it says nothing it has bytes that are not zero, as in its data."""
    mask |= (measured_id is not None) + 2 * (second is not None)
    front = struct.pack("<II", kind, mask) + (b"\x5a" * 32 if first is None else blake2s(first)) + (measured_id or b"\xa5" * 32)
    return (front + (b"" if second is None else blake2s(second))).ljust(256, b"\x5a")


def on_record(folder, *given, **more):
    """The options for a head that begins on a record."""
    return ["--record", written(Path(tempfile.mkdtemp(dir=folder)), "a record", record_with(*given, **more))]


OLD, NEW, OTHER = b"the old program", b"the new program", b"another program"
ID = b"m" * 32


def record_flash(folder):
    """Types 1 to 3. Type 1 takes the program in its slot though the record has another digest."""
    paths = {program: written(folder, f"by record {k}", program) for k, program in enumerate((OLD, NEW, OTHER))}
    for kind, program, second, measured_id in itertools.product((1, 2, 3), paths, (None, NEW), (None, ID)):
        good = kind == 1 or program in (OLD, second)
        slots = [f"--slot{kind % 2}", paths[program], f"--slot{1 - kind % 2}", paths[OLD]]
        end = (0, started(program, ID, measured_id)) if good else (25, STOPS[25])
        boots(*end, *on_record(folder, kind, OLD, second, measured_id), *slots, "--uds", ID.hex())
    boots(26, STOPS[26], *on_record(folder, 2, b""), "--slot1", paths[OLD])
    boots(26, STOPS[26], *on_record(folder, 1), "--slot1", paths[OLD], "--ram", len(OLD) - 1)


def record_built_in(folder):
    """Type 0 takes the program of --require, and neither of those in the record."""
    paths = {program: written(folder, f"built in {k}", program) for k, program in enumerate((OLD, NEW, OTHER))}
    for program, second, measured_id in itertools.product(paths, (None, NEW), (None, ID)):
        end = (0, started(program, measured_id=measured_id)) if program == OTHER else (25, STOPS[25])
        options = on_record(folder, 0, OLD, second, measured_id)
        boots(*end, *options, "--require", paths[OTHER], "--slot0", paths[program], "--slot1", paths[OTHER])


def record_client(folder):
    """Types 4 and 5."""
    for kind, program, second, measured_id in itertools.product((4, 5), (OLD, NEW), (None, NEW), (None, ID)):
        head = Head(*on_record(folder, kind, OLD, second, measured_id), "--uds", ID.hex())
        head.load(program, 1, ID)
        if kind == 4 or program in (OLD, second):
            head.ends(0, shown(program, started(program, ID, measured_id, ID)))
        else:
            head.ends(25, shown(program, STOPS[25]))


def record_ignored(folder):
    """The other bits of the mask change nothing, nor does a second digest without its bit."""
    path, other = written(folder, "ignored", OLD), written(folder, "not allowed", NEW)
    options = on_record(folder, 3, OLD, mask=0xFFFFFFFC)
    boots(0, started(OLD), *options, "--slot1", path)
    boots(25, STOPS[25], *options, "--slot1", other)
    record = bytearray(record_with(3, OLD, NEW))
    record[4] = 0
    boots(25, STOPS[25], "--record", written(folder, "no bit", record), "--slot1", other)


def record_unknown(folder):
    """No type: the head stops before it looks at anything else."""
    path = written(folder, "of no type", OLD)
    for kind in (6, 7, 255, 256, 0x01000000, 0x80000000, 2**32 - 1):
        boots(20, STOPS[20], *on_record(folder, kind, OLD, NEW, ID), "--slot0", path, "--slot1", path)
        boots(20, STOPS[20], *on_record(folder, kind))


SAID = "the record says it: leave {} out"
NEEDS = "a record of type 0 needs --require PROGRAM, which is the one built into the firmware"
EXACTLY = "a reset record has exactly 256 bytes"

# Words behind a record: its type or length, the words, and what is said of them.
RECORDED = [
    (4, "--type 4", SAID.format("--type")),
    (5, "--type 4", SAID.format("--type")),
    (5, "--require $0", SAID.format("--require")),
    (4, "--require $0", SAID.format("--require")),
    (6, "--require $0", SAID.format("--require")),
    (2, "--or-require $0", SAID.format("--or-require")),
    (2, f"--measured-id {'00' * 32}", SAID.format("--measured-id")),
    (1, f"--measured-id {'00' * 32} --type 1 --or-require $0", SAID.format("--type and --or-require and --measured-id")),
    (3, "--require $0 --or-require $0", SAID.format("--require and --or-require")),
    (0, "", NEEDS),
    (0, "--slot0 $0 --or-require $0", NEEDS),
    (0, "--require $0 --or-require $0", SAID.format("--or-require")),
    (0, "--require $0 --type 0", SAID.format("--type")),
    (0, f"--require $0 --measured-id {'00' * 32}", SAID.format("--measured-id")),
    (4, "--record 'no such file'", "argument --record: no such file: No such file or directory"),
    (4, "--record /", "argument --record: /: Is a directory"),
    (4, "--record", "argument --record: expected one argument"),
    *((4, f"--record $2/{n}", f"argument --record: FOLDER/{n}: {EXACTLY}") for n in (0, 1, 255, 257, 1000)),
]


def record_refused(folder):
    inside = Path(tempfile.mkdtemp(dir=folder))
    for n in (0, 1, 255, 257, 1000):
        written(inside, str(n), (record_with(4) * 4)[:n])
    for kind, words, why in RECORDED:
        path = written(inside, "record", record_with(kind))
        shell = ["sh", "-c", f'exec "$0" --record "$1" {words}', SIMULATE, path, inside]
        done = subprocess.run(shell, stdin=subprocess.DEVNULL, capture_output=True, timeout=SECONDS)
        wanted = f"simulate: {why}; see ./simulate --help\n".replace("FOLDER", str(inside))
        expect(f"type {kind} {words}", (done.returncode, done.stdout, done.stderr.decode()), (2, b"", wanted))


# ---- what a terminal shows


def on_terminal(*options):
    """A simulation that shows on a terminal, and that terminal."""
    screen = Terminal()
    head = Head(*options, out=screen.slave)
    name = b""
    while not name.endswith(b"\n"):
        name += screen.line.read(1) or b"\n"
    head.meet(name)
    return head, screen


def terminal_start(folder):
    program = b"t" * 300
    head, screen = on_terminal()
    head.load(program)
    head.ends(0, None)
    lines = "waiting\nloading 300 bytes\n\rblock 1 of 3\rblock 2 of 3\rblock 3 of 3\n" + started(program)
    expect("on a terminal", screen.line.rest().decode(), lines)


def terminal_stop(folder):
    head, screen = on_terminal()
    for k in range(2):
        head.ask(server.frame(bytes(300), 0, None, k), server.reply(300, 0, k, 0, b""))
    head.stops(b"\x90", 22, None)
    expect("on a terminal", screen.line.rest().decode(), "waiting\nloading 300 bytes\n\rblock 1 of 3\n" + STOPS[22])


# ---- commands that do not come so far

BAD = [
    "--type 5",
    "--type 4 --require $0",
    "--type 0",
    "--type 2",
    "--type 3",
    "--type 1 --require $0",
    "--type 6",
    "--type -1",
    "--type x",
    "--slot0 'no such file'",
    "--slot1 /",
    "--slot1",
    "--slot $0",
    "--require 'no such file'",
    "--require $0 --or-require",
    "--require $0 --or-require 'no such file'",
    "--require /",
    "--require",
    "--ram 0",
    "--ram 131073",
    "--ram -1",
    "--ram 1_0",
    "--uds 00",
    f"--uds {'zz' * 32}",
    f"--measured-id {'00' * 33}",
    f"--mea {'00' * 32}",
    "program",
]


# What is said of a second program that the head does not take.
SECOND = {
    "--or-require $0": "--or-require is a second program: give --require PROGRAM too",
    "--type 5 --or-require $0": "--or-require is a second program: give --require PROGRAM too",
    "--type 0 --or-require $0": "type 0 takes its built-in program only: leave --or-require out, or say --type 2",
    "--type 0 --require $0 --or-require $0": "type 0 takes its built-in program only: leave --or-require out, or say --type 2",
    "--type 1 --or-require $0": "type 1 takes any program: leave --or-require out, or say --type 3",
    "--type 4 --require $0 --or-require $0": "type 4 takes any program: leave --require and --or-require out, or say --type 5",
}


def second_refused(folder):
    for words, why in SECOND.items():
        done = subprocess.run(["sh", "-c", f'exec "$0" {words}', SIMULATE], stdin=subprocess.DEVNULL, capture_output=True, timeout=SECONDS)
        expect(words, (done.returncode, done.stdout, done.stderr.decode()), (2, b"", f"simulate: {why}; see ./simulate --help\n"))


def one_line(status, words):
    """A command with these words ends with one line, and nothing else."""

    def case(folder):
        done = subprocess.run(["sh", "-c", f'exec "$0" {words}', SIMULATE], stdin=subprocess.DEVNULL, capture_output=True, timeout=SECONDS)
        lines = done.stderr.decode().splitlines() or [""]
        expect(words, (done.returncode, done.stdout, len(lines), lines[0][:10]), (status, b"", 1, "simulate: "))

    return case


def readme(folder):
    """README's table has the words of each stop."""
    section = (TOP / "README.md").read_text().split("## A red lamp")[1].split("\n## ")[0]
    rows = [row.split(" | ") for row in section.splitlines() if row[:3] == "| 2"]
    wanted = [[f"| {number}", line.removeprefix(f"stopped {number}: ").rstrip("\n")] for number, line in STOPS.items()]
    expect("number and words of each stop", [row[:2] for row in rows], wanted)


def readme_flash(folder):
    """README's example of a program from flash."""
    section = (TOP / "README.md").read_text().split("## Loading a head")[1].split("\n## ")[0]
    found = re.findall(r"^    \$ ./simulate (--.*)\n    /dev/pts/.*\n((?:    .*\n)+)", section, re.M)
    expect("examples", len(found), 1)
    options, lines = found[0]
    expect("its lines", lines.replace("    ", ""), started((TOP / "sample" / "program.bin").read_bytes()))
    boots(0, lines.replace("    ", ""), *options.split())


def usage(folder):
    done = subprocess.run([SIMULATE, "--help"], capture_output=True, timeout=SECONDS)
    expect("--help", (done.returncode, done.stdout[:18], done.stderr), (0, b"usage: ./simulate ", b""))


def not_built(*command):
    """The log of a build that fails, and status 1."""

    def case(folder):
        copy = built.Copy(folder / f"a copy for {command[0]}")
        (copy.top / "fails").touch()
        expect("not built", copy.ended(*command), (b"", built.LOG, 1))

    return case


def child(process):
    """The program behind a command."""
    return int(Path(f"/proc/{process.pid}/task/{process.pid}/children").read_text().split()[0])


def ended_by(number, process, send=os.kill):
    """A signal ends a command with the status that a shell gives it, and without a word; the program behind it is dead then."""
    program = child(process)
    send(process.pid, number)
    process.wait(SECONDS)
    lives = Path(f"/proc/{program}").exists()
    if lives:
        os.kill(program, signal.SIGKILL)
    got = (*process.communicate(timeout=SECONDS), process.returncode, lives)
    expect("output, error, status, and whether the program lives", got, (b"", b"", 128 + number, False))


def ended(number):
    def case(folder):
        head = Head()
        expect("the first line", head.process.stdout.readline(), b"waiting\n")
        ended_by(number, head.process)
        head.limit.cancel()

    return case


def elsewhere(folder):
    for name, place in built.elsewhere(folder, TOP, "simulate"):
        head = Head(command=name, **place)
        head.load(b"x")
        head.ends(0, shown(b"x", started(b"x")))


def dies(folder):
    """The head's program is killed: status 1."""
    head = Head()
    expect("the first line", head.process.stdout.readline(), b"waiting\n")
    os.kill(child(head.process), signal.SIGKILL)
    head.ends(1, "", "simulate: the program died\n")


def flash_cases():
    kinds = itertools.product(FLASH_SIZES, range(4), (False, True), (False, True))
    for seed, (size, kind, chained, both) in enumerate(kinds):
        what = f"{size} bytes from flash, type {kind}, {'chained' if chained else 'direct'}, {'two programs' if both else 'one program'}"
        yield what, lambda folder, given=(seed, size, kind, chained, both): flash(folder, *given)
    for case in (flash_other_digest, flash_changeover, flash_size, flash_in_all_ram, flash_on_terminal, client_with_flash):
        yield case.__name__, case


def cases():
    kinds = itertools.product(SIZES, (4, 5), (False, True), (False, True))
    for seed, (size, kind, chained, secret) in enumerate(kinds):
        what = f"{size} bytes, type {kind}, {'chained' if chained else 'direct'}, {'a' if secret else 'no'} user secret"
        yield what, lambda folder, given=(seed, size, kind, chained, secret): load(folder, *given)
    for case in (no_room, opened_often, read_late, never_read, other_digest, changeover, stops_while_loading, terminal_start, terminal_stop):
        yield case.__name__, case
    yield from flash_cases()
    for case in (record_flash, record_built_in, record_client, record_ignored, record_unknown, record_refused):
        yield case.__name__, case
    for case in (readme, readme_flash, usage, second_refused, elsewhere, dies):
        yield case.__name__, case
    yield "not built", not_built("simulate")
    yield "SIGTERM", ended(signal.SIGTERM)
    yield "SIGINT", ended(signal.SIGINT)
    yield "stop 22, bit 7", stops(22, b"\x90")
    yield "stop 22, bit 2", stops(22, b"\x14")
    yield "stop 23", stops(23, server.frame(b"program", 0, None, 1))
    yield "stop 24", stops(24, server.whole(0, b"\x01", 4))
    for options in BAD:
        yield f"bad arguments {options}", one_line(2, options)
    yield "no room for the name", one_line(1, "> /dev/full")


def wrong(what, case, folder):
    try:
        case(folder)
    except (Wrong, OSError, subprocess.TimeoutExpired) as error:
        print(f"{what}: {error}", file=sys.stderr)
        return 1
    return 0


def run_all(cases, *programs):
    """Builds the programs, runs the cases, four beside each other, and gives the exit status."""
    signal.signal(signal.SIGINT, signal.default_int_handler)  # a shell starts what runs beside it without one
    for name in programs:
        path_of(name)
    with tempfile.TemporaryDirectory() as name, concurrent.futures.ThreadPoolExecutor(4) as pool:
        runs = [pool.submit(wrong, what, case, Path(name)) for what, case in cases]
        failed = sum(run.result() for run in runs)
    print(f"{len(runs)} cases, {failed} not as expected")
    return int(failed > 0)


if __name__ == "__main__":
    sys.exit(run_all(cases(), "simulate"))
