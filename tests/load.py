#!/usr/bin/env python3
"""./load on real pseudo-terminals: against ./simulate, the CDI by hashlib, and against heads in python that answer well and badly.

Every case looks at exit status, standard output, standard error and every byte that was sent, which is compared with the independent
client (server.py). The cases run beside each other.
"""
import fcntl
import itertools
import os
import random
import re
import select
import signal
import struct
import subprocess
import sys
import tempfile
import termios
import time
from pathlib import Path

import built
import pty_peer
import server
import simulate
from head import RAM_MOST, blake2s
from programs import path_of
from pty_peer import TTY, Terminal, answering, echo, play, silent
from simulate import Head, child, ended_by, expect, shown, started, written

TOP = Path(__file__).resolve().parent.parent
LOAD = TOP / "load"
SECONDS = 30
MEANING = "a head of type 4 has started it; one of type 5 has if its record allows this digest, and shows its lamp (25) otherwise\n"
AGAIN = "; reset the head and load again"
DISAGREES = "status is not bit 2 of its header"
WAITING = " of silence; is the head waiting for a program? has it stopped?"
CLOSED = " was whole; is the cable plugged in? has the head power?"

# of ./load --help
STATUSES = {
    0: "loaded",
    1: "the program could not be proved and built, or died, or standard output could not be written",
    2: "bad arguments",
    3: "a file cannot be read, PROGRAM has no byte or over 131072, or the secret has not 32",
    4: "DEVICE cannot be opened, or is not a serial line",
    5: "no answer in time",
    6: "the line closed",
    7: "a reply that is not the expected one (43)",
    8: "the head answered with status 1: to the load, the program does not fit its RAM",
    9: "the head measured another digest than the program's",
}


def loaded(program):
    return f"loaded {len(program)} bytes, digest {blake2s(program).hex()}\n"


def ran(process):
    """Exit status, standard output and error of a command that comes to its end."""
    out, err = process.communicate(timeout=SECONDS)
    return process.returncode, out.decode(), err.decode()


def running(*words, command=LOAD, **place):
    return subprocess.Popen([command, *map(str, words)], **built.PIPES, **place)


def run(*words, **place):
    return ran(running(*words, **place))


# ---- against ./simulate


def load(folder, seed, size, kind, with_secret):
    rng = random.Random(seed)
    program, secret, uds = rng.randbytes(size), rng.randbytes(32) if with_secret else None, rng.randbytes(32)
    path = written(folder, f"program {seed}", program)
    head = Head("--uds", uds.hex(), *(["--require", path] if kind == 5 else []))
    options = ["--secret", written(folder, f"secret {seed}", secret)] if with_secret else []
    expect("./load", run(head.name, path, "--id", rng.randrange(4), *options), (0, loaded(program), MEANING))
    head.ends(0, shown(program, started(program, uds, None, secret)))


def other_required(folder):
    """The head stops with 25. The laptop cannot tell, and says what it means."""
    head = Head("--require", written(folder, "required", b"required"))
    path = written(folder, "other", b"another")
    expect("./load", run(head.name, path), (0, loaded(b"another"), MEANING))
    head.ends(25, shown(b"another", simulate.STOPS[25]))


def second_required(folder):
    """On changeover day the new program starts as well as the old."""
    path = written(folder, "new", b"the new program")
    head = Head("--require", written(folder, "old", b"the old program"), "--or-require", path)
    expect("./load", run(head.name, path), (0, loaded(b"the new program"), MEANING))
    head.ends(0, shown(b"the new program", started(b"the new program")))


def no_room(folder):
    """The head goes on waiting, and takes a program that fits."""
    head = Head("--ram", 300)
    words = f"load: {head.name}: the program does not fit this head's RAM (status 1); load a smaller one\n"
    expect("301 bytes", run(head.name, written(folder, "301", bytes(301))), (8, "", words))
    expect("300 bytes", run(head.name, written(folder, "300", bytes(300))), (0, loaded(bytes(300)), MEANING))
    head.ends(0, shown(bytes(300), started(bytes(300))))


# ---- against heads in python

PROGRAM = bytes(range(256)) + bytes(44)  # three blocks


# One whose digest has what a terminal may take for its own: line ends, a mark, and the end of a pause.
MARKED = next(program for program in (n.to_bytes(3, "big") for n in itertools.count()) if {0x0A, 0x0D, 0x11, 0xFF} < set(blake2s(program)))


def meets(peer, status, err, frames, program=PROGRAM, wait="0.5", id=0, out="", most=4.0, modes=(), redirected="", on_screen=False):
    """./load meets this head, on a line that has these modes before: it ends so, having sent the load and the blocks up to so many frames
    and not a byte more. Standard error is these words, or like this pattern."""

    def case(folder):
        path = written(Path(tempfile.mkdtemp(dir=folder)), "program", program)
        command = ["sh", "-c", f'exec "$0" "$@" {redirected}', LOAD, TTY, path, "--wait", wait, "--id", str(id)]
        screen = Terminal() if on_screen else None
        done = play(command, peer, modes, screen, SECONDS)
        got = re.sub("/dev/pts/[0-9]+", "TTY", done.err)
        wanted = got if isinstance(err, re.Pattern) and err.fullmatch(got) else err
        expect("exit status, standard output and error", (done.status, done.out, got), (status, out, wanted))
        expect("sent", done.sent, b"".join(server.frame(program, id, None, k) for k in range(frames)))
        expect(f"over within {most} s", done.seconds < most, True)
        if screen:
            screen.close()

    return case


def at(k, change):
    """A head that changes its reply number k."""
    return answering(lambda i, reply: change(reply) if i == k else reply)


def put(place, value):
    return lambda reply: reply[:place] + bytes([value]) + reply[place + 1 :]


def failed(why):
    return f"load: TTY: {why}\n"


def name_of(k):
    return "frame 0 (the load)" if k == 0 else f"frame {k} (block {k} of 3)"


def unanswered(k, seconds="0.5", came="no answer"):
    return failed(f"{came} to {name_of(k)} in {seconds} s{WAITING}")


def unexpected(k, what, hex):
    return failed(f"the reply to {name_of(k)} is not the expected one (43), its {what}: {hex}{AGAIN}")


def closed(k):
    return failed(f"the line closed before the reply to {name_of(k)}{CLOSED}")


def garbage(line):
    """Bytes without end, as fast as they go, with no header among them that is good."""
    line.some()
    while not line.over.is_set():
        line.write(b"\xff" * 512)


def pulled_at(frame):
    """The cable is pulled once so many frames are answered and the next has come."""

    def peer(line):
        for k in range(frame):
            line.read(129)
            line.write(server.reply(300, 0, k, 0, b""))
        line.read(129)
        line.pull()

    return peer


def pulled_within(line):
    line.read(129)
    line.write(b"\x11\x04")
    line.pull()


def slow(line):
    """The first reply comes byte by byte, with a silence before each; the others at once."""
    for k in range(4):
        line.read(129)
        pty_peer.send(line, server.reply(300, 0, k, 0, blake2s(PROGRAM)), 0.15 if k == 0 else 0)


def dripping(line):
    """A byte every now and then, without end, with a silence before each: the silences count, and the load is over after half a second."""
    line.read(129)
    while not line.over.wait(0.15):
        line.write(b"\x13")


def second(line):
    """The first block takes a second."""
    for k in range(4):
        line.read(129)
        line.over.wait(1.1 if k == 1 else 0)
        line.write(server.reply(300, 0, k, 0, blake2s(PROGRAM)))


def refused(k):
    """The reply to frame k with status 1, in header and status byte."""
    return lambda reply: server.reply(300, 0, k, 1, b"")


SOME_RATE = "(, [0-9]+ bytes/s)?"  # a load of no time may pass from one second to the next


def on_terminal(blocks, words, rates=(SOME_RATE,) * 4):
    """A line that is rewritten up to so many blocks of the three, with these rates, and then words."""
    parts = zip((0, 10, 21, 32), (0, 33, 66, 100), rates)
    bars = [
        re.escape(f"\r[{'#' * n}{'.' * (32 - n)}] {k} of 3 blocks, {percent}%") + rate + re.escape("\x1b[K")
        for k, (n, percent, rate) in enumerate(parts)
    ]
    return re.compile("".join(bars[: blocks + 1]) + re.escape("\n" + words))


last = server.reply(300, 0, 3, 0, blake2s(PROGRAM))
other = blake2s(b"another")
whole = {"out": loaded(PROGRAM)}
screen = {"on_screen": True}
RATES = [SOME_RATE, ", (127|63) bytes/s", ", (254|127|84) bytes/s", ", (300|150|100) bytes/s"]
LINES = [
    ("a good head", answering(), 0, MEANING, 4, whole),
    *((f"ID {id}", answering(), 0, MEANING, 4, {**whole, "id": id}) for id in range(4)),
    ("a slow reply", slow, 0, MEANING, 4, {**whole, "wait": "2"}),
    ("modes that change bytes", answering(), 0, MEANING, 2,
     {"program": MARKED, "out": loaded(MARKED), "modes": ["sane", "inlcr", "igncr", "parmrk", "ixoff"]}),
    ("silence", silent, 5, unanswered(0), 1, {}),
    ("silence at a block", at(2, lambda reply: b""), 5, unanswered(2), 3, {}),
    ("a second of silence", silent, 5, unanswered(0, "1"), 1, {"wait": "1"}),
    ("a truncated reply", at(1, lambda reply: reply[:3]), 5, unanswered(1, came="only 110600 came in answer"), 2, {}),
    ("a truncated last reply", at(3, lambda reply: reply[:128]), 5, unanswered(3, came=f"only {last[:128].hex()} came in answer"), 4, {}),
    ("dripping", dripping, 5, re.compile(re.escape(unanswered(0, came="only 13 came in answer")).replace("13", "(13){2,6}")), 1, {}),
    ("an echo", echo, 7, unexpected(0, "header differs", server.frame(PROGRAM, 0, None, 0).hex()), 1, {}),
    ("garbage", garbage, 7, unexpected(0, "header differs", "ff"), 1, {}),
    ("another ID", at(1, put(0, 0x31)), 7, unexpected(1, "header differs", "3106000000"), 2, {}),
    ("another endpoint", at(1, put(0, 0x19)), 7, unexpected(1, "header differs", "1906000000"), 2, {}),
    ("bit 7", at(1, put(0, 0x91)), 7, unexpected(1, "header differs", "91"), 2, {}),
    ("bit 2 alone", at(1, put(0, 0x15)), 7, unexpected(1, DISAGREES, "1506000000"), 2, {}),
    ("bit 2 alone to the load", at(0, put(0, 0x15)), 7, unexpected(0, DISAGREES, "1504000000"), 1, {}),
    ("bit 2 alone in the last", at(3, put(0, 0x17)), 7, unexpected(3, DISAGREES, put(0, 0x17)(last).hex()), 4, {}),
    ("status 1 alone", at(2, put(2, 1)), 7, unexpected(2, DISAGREES, "1106010000"), 3, {}),
    ("status 1 alone to the load", at(0, put(2, 1)), 7, unexpected(0, DISAGREES, "1104010000"), 1, {}),
    ("a short frame", at(1, lambda reply: b"\x10\x06"), 7, unexpected(1, "header differs", "1006"), 2, {}),
    ("another code", at(1, put(1, 0x04)), 7, unexpected(1, "code differs", "1104000000"), 2, {}),
    ("status 2", at(1, put(2, 2)), 7, unexpected(1, DISAGREES, "1106020000"), 2, {}),
    ("status 2 to the load", at(0, put(2, 2)), 7, unexpected(0, DISAGREES, "1104020000"), 1, {}),
    ("filler", at(1, put(4, 1)), 7, unexpected(1, "filler differs", "1106000001"), 2, {}),
    ("filler behind the digest", at(3, put(128, 9)), 7, unexpected(3, "filler differs", put(128, 9)(last).hex()), 4, {}),
    ("a byte too many", at(1, lambda reply: reply + b"\0"), 7, unexpected(2, "header differs", "0011"), 3, {}),
    ("status 1 to the load", at(0, refused(0)), 8, failed("the program does not fit this head's RAM (status 1); load a smaller one"), 1, {}),
    ("status 1 to a block", at(2, refused(2)), 8, failed(f"the head refused {name_of(2)} (status 1){AGAIN}"), 3, {}),
    ("status 1 to the last block", at(3, refused(3)), 8, failed(f"the head refused {name_of(3)} (status 1){AGAIN}"), 4, {}),
    ("another digest", at(3, lambda reply: server.reply(300, 0, 3, 0, other)), 9,
     failed(f"the head measured another digest, {other.hex()}; it has not this program, and if it is of type 4 it has started another: "
            "reset the head and load again"), 4, {}),
    ("pulled before a reply", pulled_at(0), 6, closed(0), 1, {}),
    ("pulled within a reply", pulled_within, 6, closed(0), 1, {}),
    ("pulled at a block", pulled_at(2), 6, closed(2), 3, {}),
    ("on a terminal", answering(), 0, on_terminal(3, MEANING), 4, {**whole, **screen}),
    ("a second for a block", second, 0, on_terminal(3, MEANING, RATES), 4, {**whole, **screen, "wait": "2"}),
    ("silence, on a terminal", silent, 5, unanswered(0), 1, screen),
    ("silence at a block, on a terminal", at(2, lambda reply: b""), 5, on_terminal(1, unanswered(2)), 3, screen),
    ("no standard output", answering(), 0, MEANING, 4, {"redirected": ">&-"}),
    ("no standard error", answering(), 0, "", 4, {**whole, "redirected": "2>&-"}),
    ("neither", answering(), 0, "", 4, {"redirected": ">&- 2>&-"}),
    ("silence, and no standard error", silent, 5, "", 1, {"redirected": "2>&-"}),
    ("a full disk", answering(), 1, "load: standard output: No space left on device\n", 4, {"redirected": "> /dev/full"}),
]


def full(folder):
    """A head that answers and reads nothing: a write to a line that takes no byte does not wait for ever."""
    program = PROGRAM * 127  # 300 blocks, of which the line takes fewer than 200

    def peer(line):
        select.select([line.fd], [], [], SECONDS)
        line.write(b"".join(server.reply(len(program), 0, k, 0, b"") for k in range(200)))

    done = play([LOAD, TTY, written(folder, "full", program), "--wait", "0.3"], peer, seconds=SECONDS)
    words = f": no answer to frame 200 (block 200 of 300) in 0.3 s{WAITING}\n"
    expect("a full line", (done.status, done.out, done.err[-len(words) :]), (5, "", words))
    frames = b"".join(server.frame(program, 0, None, k) for k in range(201))
    expect("sent", (done.sent[:4096], len(done.sent) < len(frames)), (frames[:4096], True))


def full_before(folder):
    """What waits to be sent from before is dropped, and takes no room."""
    terminal = Terminal()
    slave = pty_peer.opened(terminal.name)
    try:
        while os.write(slave.fd, bytes(4096)):
            pass
    except BlockingIOError:
        pass
    expect("a full line", run(terminal.name, written(folder, "full before", b"x"), "--wait", "0.3")[0], 5)
    expect("sent", terminal.line.rest().lstrip(b"\0"), server.frame(b"x", 0, None, 0))
    slave.close()
    terminal.close()


def stale(folder):
    """What came before the load is no reply."""
    terminal = Terminal()
    terminal.line.write(b"\x15\x04\x01\0\0")
    process = running(terminal.name, written(folder, "stale", b"x"))
    for k in range(2):
        expect(f"frame {k}", terminal.line.read(129), server.frame(b"x", 0, None, k))
        terminal.line.write(server.reply(1, 0, k, 0, blake2s(b"x")))
    expect("stale bytes", ran(process), (0, loaded(b"x"), MEANING))
    expect("behind the last frame", terminal.line.rest(), b"")
    terminal.close()


def full_disk(folder):
    """The head has the program."""
    head = Head()
    path = written(folder, "full disk", b"x")
    words = ("-c", 'exec "$0" "$@" > /dev/full', LOAD, head.name, path)
    expect("./load", run(*words, command="sh"), (1, "", "load: standard output: No space left on device\n"))
    head.ends(0, shown(b"x", started(b"x")))


# ---- nothing is sent


def nothing_sent(status, err, words, prepare):
    """./load with these words, LINE standing for a terminal, ends so. The terminal has its mode and what was typed there, and its other end
    hears nothing."""

    def case(folder):
        folder = Path(tempfile.mkdtemp(dir=folder))
        prepare(folder)
        terminal = Terminal("sane", "-echo")
        terminal.line.write(b"typed\n")
        mode = termios.tcgetattr(terminal.slave)
        given = [str(word).replace("LINE", terminal.name).replace("FOLDER", str(folder)) for word in words]
        wanted = err.replace("FOLDER", str(folder))
        got = run(*given)
        expect("exit status, standard output and error", (got[0], got[1], got[2].count("\n"), got[2]), (status, "", 1, wanted))
        expect("sent", terminal.line.rest(), b"")
        expect("the line's mode", termios.tcgetattr(terminal.slave), mode)
        slave = pty_peer.opened(terminal.name)
        expect("typed there", slave.rest(), b"typed\n")
        slave.close()
        terminal.close()

    return case


def file_of(name, size):
    return lambda folder: (written(folder, "program", b"program"), written(folder, name, bytes(size)))


def program(status, name, why, size=None):
    """A program of this name, and of this size if it is there."""
    return status, f"load: {name}: {why}\n", ["LINE", name], file_of("it", size) if size is not None else nothing


def secret(name, why, size=0):
    return 3, f"load: {name}: {why}\n", ["LINE", "FOLDER/program", "--secret", name], file_of("it", size)


def device(name, why):
    return 4, f"load: {name}: {why}\n", [name, "FOLDER/program"], file_of("x", 1)


def argument(option, value, why):
    words = f"load: argument {option}: {value!r} is not {why}; see ./load --help\n"
    return 2, words, ["LINE", "FOLDER/program", option, value], file_of("x", 1)


def nothing(folder):
    pass


MISSING = "cannot be read: No such file or directory"
TOO_LONG = f"load: {'x' * 4096}: cannot be read: File name too long\n"
SECONDS_WORDS = "a number of seconds from 0.1 to 3600"
REFUSED = [
    program(3, "FOLDER/no", MISSING),
    program(3, "", MISSING),
    program(3, "FOLDER", "cannot be read: Is a directory"),
    program(3, "FOLDER/it", "has no byte; a program has 1 to 131072", 0),
    program(3, "FOLDER/it", "is too long; a program has 1 to 131072 bytes", RAM_MOST + 1),
    secret("FOLDER/it", "a user secret has exactly 32 bytes", 31),
    secret("FOLDER/it", "a user secret has exactly 32 bytes", 33),
    secret("FOLDER/it", "a user secret has exactly 32 bytes", 0),
    secret("FOLDER/no", MISSING),
    secret("FOLDER", "cannot be read: Is a directory"),
    (3, TOO_LONG, ["LINE", "x" * 5000], nothing),
    (3, TOO_LONG, ["LINE", "FOLDER/program", "--secret", "x" * 5000], file_of("x", 1)),
    device("FOLDER/no", "No such file or directory"),
    device("FOLDER/x", "is not a serial line"),
    device("/dev/null", "is not a serial line"),
    device("FOLDER", "Is a directory"),
    argument("--id", "4", "0, 1, 2 or 3"),
    argument("--id", "", "0, 1, 2 or 3"),
    argument("--wait", "0", SECONDS_WORDS),
    argument("--wait", "3601", SECONDS_WORDS),
    argument("--wait", "0.05", SECONDS_WORDS),
    argument("--wait", "x", SECONDS_WORDS),
    argument("--speed", "9.6", "a number of bits a second"),
    (2, "load: the following arguments are required: DEVICE, PROGRAM; see ./load --help\n", [], nothing),
    (2, "load: unrecognized arguments: more; see ./load --help\n", ["LINE", "FOLDER/program", "more"], file_of("x", 1)),
]


def unreadable(folder):
    """A file without permission. Root may read every file, so there the command runs as nobody, behind a builder that has nothing to do."""
    path = written(folder, "no permission", b"program")
    path.chmod(0)
    terminal = Terminal()
    os.chmod(terminal.name, 0o666)
    wanted = (3, "", f"load: {path}: cannot be read: Permission denied\n")
    if os.getuid() != 0:
        expect("no permission", run(terminal.name, path), wanted)
        return
    copy = built.Copy(folder / "nobody's", path_of("load"))
    copy.ended("scripts/built", "load")
    folder.chmod(0o755)
    expect("no permission", ran(copy.started("load", terminal.name, path, behind=built.NOBODY)), wanted)
    terminal.close()


def in_use(folder):
    """Two loads on one line would garble each other: the second is refused, and the first goes on."""
    terminal = Terminal()
    path = written(folder, "used", b"x")
    first = running(terminal.name, path)
    expect("frame 0", terminal.line.read(129), server.frame(b"x", 0, None, 0))
    expect("the second", run(terminal.name, path), (4, "", f"load: {terminal.name}: another ./load uses it\n"))
    expect("sent by it", terminal.line.rest(), b"")
    for k in range(2):
        terminal.line.write(server.reply(1, 0, k, 0, blake2s(b"x")))
        if k == 0:
            expect("frame 1", terminal.line.read(129), server.frame(b"x", 0, None, 1))
    expect("the first", ran(first), (0, loaded(b"x"), MEANING))
    expect("behind the last frame", terminal.line.rest(), b"")
    terminal.close()


def speed(folder):
    """The line has the speed that is given, also one without a name, and is raw: a read gives what there is within a tenth of a second."""
    terminal, ends = Terminal(), os.openpty()
    cooked = termios.tcgetattr(ends[1])
    termios.tcsetattr(terminal.slave, termios.TCSANOW, cooked)
    expect("status", run(terminal.name, written(folder, "fast", b"x"), "--speed", "62500", "--wait", "0.1")[0], 5)
    mode = struct.unpack("4I20s2I", fcntl.ioctl(terminal.slave, 0x802C542A, bytes(44)))
    expect("speeds", mode[5:], (62500, 62500))
    t = termios
    off = (~0, t.OPOST, t.CRTSCTS | t.PARENB | t.CSTOPB, t.ECHO | t.ICANON | t.ISIG)
    expect("flags that are off", [flags & bits for flags, bits in zip(mode, off)], [0, 0, 0, 0])
    expect("eight bits, and no carrier needed", mode[2] & (t.CSIZE | t.CLOCAL | t.CREAD), t.CS8 | t.CLOCAL | t.CREAD)
    expect("least bytes and tenths", (mode[4][1 + termios.VMIN], mode[4][1 + termios.VTIME]), (0, 1))
    expect("it was not raw before", bool(cooked[3] & termios.ICANON), True)
    terminal.close()
    for fd in ends:
        os.close(fd)


def readme(folder):
    """README's first example, with the terminal that there is, and its exit statuses."""
    text = (TOP / "README.md").read_text()
    blocks = re.findall(r"^    \$ (.*)\n((?:    .*\n)+)", text, re.M)
    (simulation, simulated), (loading, said) = [(words, re.sub("^    ", "", lines, flags=re.M)) for words, lines in blocks[:2]]
    expect("its commands", (simulation, loading), ("./simulate", "./load /dev/pts/3 sample/program.bin"))
    head = Head()
    expect("its ./load", "".join(run(head.name, TOP / "sample" / "program.bin")[1:]), said)
    head.ends(0, simulated.removeprefix("/dev/pts/3\n"))
    section = text.split("## Loading a head")[1].split("\n## ")[0]
    for number in range(10):
        expect(f"status {number}", len(re.findall(rf"^\| {number} \| .*$", section, re.M)), 1)


def usage(folder):
    status, out, err = run("--help")
    expect("--help", (status, out[:14], err), (0, "usage: ./load ", ""))
    lines = re.findall(r"^ +(?:exit status )?([0-9]+)  (\S.*)$", out, re.M)
    expect("statuses in --help", [(int(number), words) for number, words in lines], list(STATUSES.items()))


def not_built(folder):
    terminal = Terminal()
    simulate.not_built("load", terminal.name, written(folder, "not built", b"x"))(folder)
    expect("sent", terminal.line.rest(), b"")
    terminal.close()


def elsewhere(folder):
    path = written(folder, "elsewhere", b"x")
    for name, place in built.elsewhere(folder, TOP, "load"):
        head = Head()
        expect(name, run(head.name, path, command=name, **place), (0, loaded(b"x"), MEANING))
        head.ends(0, shown(b"x", started(b"x")))


# ---- the program behind ./load


class Waiting:
    """A load that waits for its first reply."""

    def __init__(self, folder, **more):
        self.terminal = Terminal()
        self.path = written(Path(tempfile.mkdtemp(dir=folder)), "program", b"x")
        self.process = running(self.terminal.name, self.path, **more)
        expect("frame 0", self.terminal.line.read(129), server.frame(b"x", 0, None, 0))
        self.program = child(self.process)


def dies(folder):
    """The program is killed in the middle."""
    load = Waiting(folder)
    os.kill(load.program, signal.SIGKILL)
    expect("killed", ran(load.process), (1, "", "load: the program died\n"))
    load.terminal.close()


def closes_unseen(folder):
    """The line closes while the program does not read it."""
    load = Waiting(folder)
    os.kill(load.program, signal.SIGSTOP)
    load.terminal.close()
    os.kill(load.program, signal.SIGCONT)
    expect("closed", ran(load.process), (6, "", closed(0).replace("TTY", load.terminal.name)))


def waits(folder):
    """Ten seconds, a hundred ticks, if nothing else is said; until then it is ended by a signal."""
    load = Waiting(folder)
    words = Path(f"/proc/{load.program}/cmdline").read_text().split("\0")[1:]
    expect("its words", words, [load.terminal.name, str(load.path), "0", "100", "1", ""])
    ended_by(signal.SIGTERM, load.process)
    load.terminal.close()


def interrupted(folder):
    """From a keyboard the signal comes to the program too."""
    for send, more in ((os.kill, {}), (os.killpg, {"start_new_session": True})):
        load = Waiting(folder, **more)
        ended_by(signal.SIGINT, load.process, send)
        load.terminal.close()


def cases():
    for seed, (size, kind, secret) in enumerate(itertools.product(simulate.SIZES, (4, 5), (False, True))):
        what = f"{size} bytes, type {kind}, {'a' if secret else 'no'} user secret"
        yield what, lambda folder, given=(seed, size, kind, secret): load(folder, *given)
    for what, peer, status, err, frames, more in LINES:
        yield what, meets(peer, status, err, frames, **more)
    for status, err, words, prepare in REFUSED:
        yield f"refused {err[:99]!r}", nothing_sent(status, err, words, prepare)
    for case in (other_required, second_required, no_room, full, full_before, stale, full_disk, unreadable, in_use, speed, readme, usage):
        yield case.__name__, case
    for case in (not_built, elsewhere, dies, closes_unseen, waits, interrupted):
        yield case.__name__, case


if __name__ == "__main__":
    sys.exit(simulate.run_all(cases(), "load", "simulate"))
