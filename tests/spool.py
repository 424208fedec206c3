#!/usr/bin/env python3
"""./spool against the independent program spools.py: every task and every mistake, programs of each kind of length, damage of each field, spares
in one file and in several, and every word. The cases run beside each other; then the program behind the command is run on random damage. The
test fails if a kind of outcome never came up.
"""
import collections
import os
import random
import re
import struct
import subprocess
import sys
import tempfile
from pathlib import Path

import built
import simulate
import spools
from head import blake2s
from programs import path_of
from pty_peer import Terminal
from simulate import Wrong, expect, written
from spools import BLOCK, CAPACITY, LOST, PROGRAM_MOST, REPLACED, SPOOL_MOST

TOP = Path(__file__).resolve().parent.parent
sys.path.insert(0, str(TOP / "scripts"))
import command

SPOOL = TOP / "spool"
STORED = TOP / "crates" / "spooler"
SECONDS = 60
SPARES_MOST = 4194304
SIZES = [1, 2, 471, 472, 473, 943, 944, 945, 5000, 131015, 131016, 131017, 131071, 131072]
TASKS = ("write", "read", "check", "salvage")

WORDS = {
    40: "its length is not 1 to 131072 bytes (40)",
    50: "its length is not 1 to 278 blocks of 512 bytes (50)",
    51: "its check is not the hash of its bytes (51)",
    52: "it has another number (52)",
    53: "it uses a wrong count of bytes, or its filler is not zero (53)",
}
SPARES_LENGTH = "its length is not a multiple of 512 bytes (50)"
TOO_MANY = "there is no room for it: spares have at most 4194304 bytes in all"
COMPARE = "a spare of another program can be good at its place: compare the digest"

# of ./spool --help
STATUSES = {
    0: "done",
    1: "the program could not be proved and built, or died, or standard output could not be written",
    2: "bad arguments, or bytes for a terminal",
    3: "a file cannot be read, its length is not that of a program (40), a spool or spares (50), or the spares are too many",
    4: "a block is bad (read, check), or lost (salvage)",
}

seen = collections.Counter()
KINDS = {
    *(("write", number) for number in (0, 40)),
    *((task, number) for task in ("read", "check") for number in (0, 50, 51, 52, 53)),
    *(("salvage", what) for what in ("kept", "replaced", "lost", "both", 50, "spares", "too many")),
}


# ---- what must come out: exit status, standard output and error


def line(program):
    return f"blocks: {-(-len(program) // CAPACITY)}, bytes: {len(program)}, digest {blake2s(program).hex()}\n"


def refused(status, path, why):
    return status, b"", f"spool: {path}: {why}\n"


def faults(spool):
    """The places of the bad blocks, and what is wrong with each."""
    looks = ((place, spools.look(spool, place)) for place in range(len(spool) // BLOCK))
    return [(place, number) for place, number in looks if number]


def writes(path, program):
    number, size, room = spools.write(program, bytes(SPOOL_MOST))
    seen["write", number] += 1
    return refused(3, path, WORDS[number]) if number else (0, room[:size], line(program))


def program_in(spool):
    """The number of the reader, and the program."""
    number, size, room = spools.read(spool, bytes(CAPACITY * 278))
    return number, room[:size]


def reads(path, spool):
    number, program = program_in(spool)
    seen["read", number] += 1
    if number == 50:
        return refused(3, path, WORDS[number])
    if number:
        place, first = faults(spool)[0]
        expect("the reader's number is that of the first bad block", number, first)
        return refused(4, path, f"block {place}: {WORDS[number]}")
    return 0, program, line(program)


def checks(path, spool):
    number, program = program_in(spool)
    if number in (0, 50):
        seen["check", number] += 1
        return refused(3, path, WORDS[50]) if number else (0, line(program).encode(), "")
    bad = faults(spool)
    seen.update(("check", fault) for _, fault in bad)
    return 4, "".join(f"block {place}: {WORDS[fault]}\n" for place, fault in bad).encode(), ""


def salvages(path, spool, *spares):
    """The spares are pairs of a path and the bytes there."""
    together = b""
    for name, data in spares:
        together += data
        if len(together) > SPARES_MOST:
            seen["salvage", "too many"] += 1
            return refused(3, name, TOO_MANY)
        if len(data) % BLOCK:
            seen["salvage", "spares"] += 1
            return refused(3, name, SPARES_LENGTH)
    number, mended, report = spools.salvage(spool, together, bytes(278))
    if number:
        seen["salvage", number] += 1
        return refused(3, path, WORDS[number])
    return (4 if LOST in report else 0), mended, tells(mended, report[: len(mended) // BLOCK])


def tells(mended, report):
    """What is said of a salvage."""
    replaced, lost = ([place for place, entry in enumerate(report) if entry == kind] for kind in (REPLACED, LOST))
    seen["salvage", "both" if replaced and lost else "lost" if lost else "replaced" if replaced else "kept"] += 1
    lines = f"kept {len(report) - len(replaced) - len(lost)}, replaced {len(replaced)}, lost {len(lost)}\n"
    for place in sorted(replaced + lost):
        lines += f"block {place} replaced\n" if place in replaced else f"block {place} lost: {WORDS[spools.look(mended, place)]}\n"
    if replaced and lost:
        lines += f"{COMPARE} once no block is lost\n"
    elif replaced:
        lines += line(program_in(mended)[1]) + COMPARE + "\n"
    return lines


def outcome(task, path, data, spares):
    return salvages(path, data, *spares) if task == "salvage" else {"write": writes, "read": reads, "check": checks}[task](path, data)


# ---- the command


def ran(process):
    """Exit status, standard output and error."""
    out, err = process.communicate(timeout=SECONDS)
    return process.returncode, out, os.fsdecode(err)


def run(*words, command=SPOOL, **place):
    return ran(subprocess.Popen([command, *map(str, words)], **built.PIPES, **place))


def inside(folder):
    return Path(tempfile.mkdtemp(dir=folder))


def does(task, data, *spares):
    """A task on a file, with files of spares."""

    def case(folder):
        here = inside(folder)
        path = written(here, "file", data)
        more = [(written(here, f"spares {k}", spare), spare) for k, spare in enumerate(spares)]
        expect(f"./spool {task}", run(task, path, *(name for name, _ in more)), outcome(task, path, data, more))

    return case


def lengths():
    """Programs of each kind of length, there and back."""
    rng = random.Random(10)
    for size in (0, *SIZES, 131073, 131216, 131217, 300000):
        yield f"a program of {size} bytes", does("write", rng.randbytes(size))
    yield "a program of zeros", does("write", bytes(1000))
    for size in SIZES:
        spool = spools.spool_of(rng.randbytes(size))
        for task in ("read", "check", "salvage"):
            yield f"{task}, the spool of {size} bytes", does(task, spool)
    longest = spools.spool_of(rng.randbytes(PROGRAM_MOST))
    for spool in (b"", longest[:1], longest[:511], longest[:513], longest[:-1], longest + b"x", longest + longest[:BLOCK], longest * 3):
        for task in ("read", "check", "salvage"):
            yield f"{task}, a spool of {len(spool)} bytes", does(task, spool)


# ---- damage


def put(spool, place, block):
    return spool[: BLOCK * place] + block + spool[BLOCK * (place + 1) :]


def damages(spool, place):
    """The block at a place, damaged in each field, sealed anew where it says so; what is wrong comes first."""
    blocks = spools.parts(spool, BLOCK)
    one, last = blocks[place], place == len(blocks) - 1
    number, count = struct.unpack("<II", one[:8])
    part = spools.used(one)

    def field(number=number, count=count, rest=one[8:480]):
        return spools.sealed(struct.pack("<II", number, count) + rest)

    for at in (0, 3, 4, 7, 8, 479, 480, 511):
        yield 51, f"byte {at}", one[:at] + bytes([one[at] ^ 0x80]) + one[at + 1 :]
    yield 51, "zeros", bytes(BLOCK)
    for other in (number + 1, number ^ 0x100, number ^ 0x80000000):
        yield 52, f"number {other}", field(number=other)
    for other in {0, 471, 473, 0xFFFFFFFF} - {count} - ({471} if last else set()):
        yield 53, f"count {other}", field(count=other)
    if last and count < CAPACITY:
        yield 53, "filler", field(rest=part + b"\x01".ljust(CAPACITY - count, b"\0"))
        yield 53, "the last filler", field(rest=part + b"\x01".rjust(CAPACITY - count, b"\0"))
    if not last:
        yield 53, "a last block", spools.block(number, part[:100])
    if place == spools.LAST_PLACE:
        yield 53, "count 329", field(count=329)


def damaged():
    rng = random.Random(11)
    for size, places in ((1300, (0, 1, 2)), (472, (0,)), (PROGRAM_MOST, (0, 276, 277))):
        spool = spools.spool_of(rng.randbytes(size))
        for place in places:
            for fault, what, block in damages(spool, place):
                bad = put(spool, place, block)
                expect(f"{what}, by the independent program", faults(bad), [(place, fault)])
                yield f"of {size} bytes block {place}, {what}", bad, spool


def damage():
    rng = random.Random(12)
    one, other = (spools.spool_of(rng.randbytes(5000)) for _ in range(2))
    a, b = put(one, 3, bytes(BLOCK)), put(put(one, 3, bytes(BLOCK)), 7, other[:BLOCK])
    for task in ("read", "check"):
        yield f"{task}, two bad blocks", does(task, b)
        yield f"{task}, all blocks exchanged", does(task, b"".join(reversed(spools.parts(one, BLOCK))))
    cut = spools.spool_of(b"x" * 3000)[: 4 * BLOCK]  # a last block that is none
    yield "a spool cut short", does("check", cut)
    blocks = spools.parts(one, BLOCK)
    for what, bad, *spares in (
        ("the whole spool", a, one),
        ("the one block", a, blocks[3]),
        ("blocks in another order", b, blocks[9] + blocks[7] + blocks[0] + blocks[3]),
        ("one block in each file", b, blocks[7], blocks[3]),
        ("the other program first", a, other, one),
        ("the other program last", a, one, other),
        ("another program's spool, shorter", a, spools.spool_of(bytes(472 * 3))),
        ("one of two", b, blocks[7]),
        ("empty files", b, b"", blocks[3], b"", blocks[7], b""),
        ("no spare that is good", b, blocks[1], a),
        ("all lost", bytes(len(one))),
        ("all replaced", bytes(len(one)), one),
        ("all replaced but one", bytes(len(one)), a),
        ("a bad length", a, one, one[:-1]),
        ("a bad length, and then another", a, one[:-1], b"x"),
        ("one byte", a, b"x"),
    ):
        yield f"salvage, {what}", does("salvage", bad, *spares)
    longest = spools.spool_of(rng.randbytes(PROGRAM_MOST))
    bad = longest
    for place in (0, 100, 200, 277):
        bad = put(bad, place, rng.randbytes(BLOCK))
    junk = rng.randbytes(SPOOL_MOST)
    yield "29 of the longest spools", does("salvage", bad, junk * 28, longest)
    yield "as many spares as fit", does("salvage", bad, junk[:512] * 8191, longest[:512])
    yield "as many as fit in one file, and an empty one", does("salvage", bad, longest[-512:] * 8192, b"")
    yield "a byte more", does("salvage", bad, longest[:512] * 8192, b"x")
    yield "a block more", does("salvage", bad, longest[:512] * 8192, longest[:512])
    yield "a file that is too long", does("salvage", bad, longest[:512] * 8192 + b"x")
    yield "a file that is far too long", does("salvage", bad, longest, longest[:512] * 20000)


def twice(folder):
    """What is lost in one salvage is replaced in the next, from what the first has written."""
    here, rng = inside(folder), random.Random(13)
    spool = spools.spool_of(rng.randbytes(3000))
    bad = written(here, "bad", put(put(spool, 1, bytes(BLOCK)), 4, bytes(BLOCK)))
    first, second = written(here, "first", spool[: 2 * BLOCK]), written(here, "second", spool[2 * BLOCK :])
    status, mended, err = run("salvage", bad, first)
    expect("the first", (status, err[:27]), (4, "kept 5, replaced 1, lost 1\n"))
    status, mended, err = run("salvage", written(here, "mended", mended), second)
    expect("the second", (status, mended, err[:27]), (0, spool, "kept 6, replaced 1, lost 0\n"))


# ---- the program behind it


def emptied(fd):
    """What was written to a file, which is then empty."""
    data = os.pread(fd, 1 << 18, 0)
    os.ftruncate(fd, 0)
    os.lseek(fd, 0, os.SEEK_SET)
    return data


def random_spool(rng):
    """A spool, or something like one, and spares: blocks of it and of others, some damaged, in any order."""
    size = rng.choice([rng.randrange(1, 3000), CAPACITY * rng.randrange(1, 7)])
    good = [spools.spool_of(rng.randbytes(n)) for n in (size, size, rng.randrange(1, 3000))]
    blocks = spools.parts(good[0], BLOCK)
    pool = [block for spool in good for block in spools.parts(spool, BLOCK)] + [rng.randbytes(BLOCK), bytes(BLOCK)]
    pool += [one for place in range(len(blocks)) for _, _, one in damages(good[0], place)]
    for place in range(len(blocks)):
        if rng.random() < 0.3:
            blocks[place] = rng.choice(pool)
    spares = [b"".join(rng.choices(pool, k=rng.randrange(12))) for _ in range(rng.randrange(3))]
    spool = b"".join(blocks)
    if rng.random() < 0.05:
        spool = spool[: rng.randrange(len(spool))]
    if spares and rng.random() < 0.05:
        spares[-1] += b"x" * rng.randrange(1, BLOCK)
    return spool, spares


def many_runs():
    """What a run is about, its task, the file and the spares."""
    for what, bad, spool in damaged():
        for task, spares in (("read", ()), ("check", ()), ("salvage", ()), ("salvage", (spool,)), ("salvage", (bad,))):
            yield f"{task} with {len(spares)} files, {what}", task, bad, spares
    rng = random.Random(14)
    for n in range(300):
        spool, spares = random_spool(rng)
        for task in TASKS:
            yield f"{task}, random {n}", task, spool, spares if task == "salvage" else ()


def program_runs(folder):
    """How often the program was run, as the script does it."""
    out, err = os.memfd_create("out"), os.memfd_create("err")
    path, runs = folder / "file", 0
    for what, task, data, spares in many_runs():
        path.write_bytes(data)
        more = [(written(folder, f"spares {k}", spare), spare) for k, spare in enumerate(spares)]
        number = command.run("spool", str(path_of("spooler")), [task, str(path), *(str(name) for name, _ in more)], {1: out, 2: err})
        expect(what, (number, emptied(out), emptied(err).decode()), outcome(task, path, data, more))
        runs += 1
    return runs


def stored(folder):
    """What `rt ci` runs the program on: each fault in a block of its own."""
    program = b"".join(f"a design, line {k}\n".encode() for k in range(150))
    spool = spools.spool_of(program)
    blocks = spools.parts(spool, BLOCK)
    blocks[1] = blocks[1][:99] + b"?" + blocks[1][100:]
    blocks[2] = blocks[3]
    blocks[4] = spools.block(4, spools.used(blocks[4])[:471])
    blocks[5] = spools.block(5, spools.used(blocks[5]) + b"!", len(spools.used(blocks[5])))
    data = b"".join(blocks)
    expect("its faults", faults(data), [(1, 51), (2, 52), (4, 53), (5, 53)])
    got = [(STORED / name).read_bytes() for name in ("args", "data/spool.bin", "stdout")]
    expect("its files", got, [b"check\nspool.bin\n", data, checks("spool.bin", data)[1]])


# ---- mistakes


def fails(status, why, *words):
    """One line, and nothing else; FOLDER in a word is a folder with a spool in it."""

    def case(folder):
        here = inside(folder)
        written(here, "spool", spools.spool_of(b"x"))
        got = run(*(str(word).replace("FOLDER", str(here)) for word in words))
        expect("exit status, standard output and error", got, (status, b"", f"spool: {why}\n".replace("FOLDER", str(here))))

    return case


BAD = [
    ((), "the following arguments are required: TASK, FILE"),
    (("write",), "the following arguments are required: FILE"),
    (("salvage",), "the following arguments are required: FILE"),
    (("mend", "a"), "argument TASK: 'mend' is not write, read, check or salvage"),
    (("", "a"), "argument TASK: '' is not write, read, check or salvage"),
    (("Write", "a"), "argument TASK: 'Write' is not write, read, check or salvage"),
    (("write", "a", "b"), "write takes one file; SPARES are for salvage"),
    (("read", "a", "b"), "read takes one file; SPARES are for salvage"),
    (("check", "a", "b", "c"), "check takes one file; SPARES are for salvage"),
    (("check", "a", "--all"), "unrecognized arguments: --all"),
]

MISSING, DIRECTORY, LONG, BROKEN = "No such file or directory", "Is a directory", "File name too long", "Input/output error"


def mistakes():
    for words, why in BAD:
        yield f"bad arguments {words}", fails(2, f"{why}; see ./spool --help", *words)
    for task, front in ((*((task, ()) for task in TASKS), ("salvage", ("FOLDER/spool",)), ("salvage", ("FOLDER/spool", "FOLDER/spool")))):
        for name, why in (("FOLDER/no", MISSING), ("", MISSING), ("FOLDER", DIRECTORY), ("x" * 5000, LONG), ("/proc/self/mem", BROKEN)):
            words = (task, *front, name)
            yield f"{task}, {len(front)} files before {name[:20]}", fails(3, f"{name[:4096]}: cannot be read: {why}", *words)
    for name, why in (("FOLDER/no", MISSING), ("/dev/zero", TOO_MANY)):
        why = why if why == TOO_MANY else f"cannot be read: {why}"
        yield f"spares {name} before good ones", fails(3, f"{name}: {why}", "salvage", "FOLDER/spool", name, "FOLDER/spool")
    yield "a program without end", fails(3, f"/dev/zero: {WORDS[40]}", "write", "/dev/zero")
    for task in ("read", "check", "salvage"):
        yield f"{task}, a spool without end", fails(3, f"/dev/zero: {WORDS[50]}", task, "/dev/zero")


def unreadable(folder):
    """A file without permission. Root may read every file, so there the command runs as nobody, behind a builder that has nothing to do."""
    here = inside(folder)
    secret, good = written(here, "secret", bytes(512)), written(here, "good", spools.spool_of(b"x"))
    copy, behind = TOP, ()
    if os.getuid() == 0:
        copy, behind = built.Copy(here / "nobody's", path_of("spooler")), built.NOBODY
        copy.ended("scripts/built", "spooler")
        folder.chmod(0o755)
        here.chmod(0o755)
    secret.chmod(0)
    for words in (*([task] for task in TASKS), ["salvage", good]):
        got = ran(copy.started("spool", *words, secret, behind=behind)) if behind else run(*words, secret)
        expect(f"no permission, {words}", got, refused(3, secret, "cannot be read: Permission denied"))


# ---- streams

PART = b"a program"


def redirected(status, out, err, words):
    """By a shell; $1 is a program, $2 its spool and $3 that spool with a bad block."""

    def case(folder):
        here, spool = inside(folder), spools.spool_of(PART)
        paths = [written(here, name, data) for name, data in (("1", PART), ("2", spool), ("3", bytes(BLOCK)))]
        got = run("-c", f'exec "$0" {words}', SPOOL, *paths, command="sh")
        expect(words, got, (status, out, err.replace("$3", str(paths[2]))))

    return case


def closed_pipe(folder):
    """Standard output is a pipe that nobody reads: one line, and no other word."""
    here = inside(folder)
    program, spool = written(here, "program", PART), written(here, "spool", spools.spool_of(PART))
    bad = written(here, "bad", bytes(BLOCK))
    for words in (["write", program], ["read", spool], ["check", spool], ["check", bad], ["salvage", bad, spool], ["salvage", bad]):
        read, write = os.pipe()
        os.close(read)
        process = subprocess.Popen([SPOOL, *words], stdin=subprocess.DEVNULL, stdout=write, stderr=subprocess.PIPE)
        os.close(write)
        got = (process.communicate(timeout=SECONDS)[1].decode(), process.returncode)
        expect(f"a closed pipe, {words}", got, ("spool: standard output: Broken pipe\n", 1))


def on_terminal(folder):
    """Bytes are not written to a terminal, and what check finds is."""
    path = written(inside(folder), "spool", spools.spool_of(PART))
    for task in TASKS:
        screen = Terminal()
        done = subprocess.run([SPOOL, task, path], stdin=subprocess.DEVNULL, stdout=screen.slave, stderr=subprocess.PIPE, timeout=SECONDS)
        makes = {"write": "SPOOL", "read": "PROGRAM", "salvage": "MENDED"}.get(task)
        wanted = (2, "", f"spool: {task} gives bytes and no text: send them to a file, > {makes}\n") if makes else (0, line(PART), "")
        expect(f"on a terminal, {task}", (done.returncode, screen.line.rest().decode(), done.stderr.decode()), wanted)
        screen.close()


def through_pipes(folder):
    """Files that can be read only once; the longest are more than a pipe holds."""
    here, rng = inside(folder), random.Random(15)
    for size in (1, 5000, PROGRAM_MOST):
        program = rng.randbytes(size)
        spool = spools.spool_of(program)
        bad = put(spool, 0, bytes(BLOCK))
        paths = [written(here, name, data) for name, data in (("1", program), ("2", spool), ("3", bad))]
        for words, wanted in (
            ('write <(cat "$1")', (0, spool, line(program))),
            ('read <(cat "$2")', (0, program, line(program))),
            ('check <(cat "$2")', (0, line(program).encode(), "")),
            ('salvage <(cat "$3") <(cat "$3") <(cat "$2")', salvages("", bad, ("", bad), ("", spool))),
            ('read /dev/stdin < "$2"', (0, program, line(program))),
        ):
            expect(f"{words}, {size} bytes", run("-c", f'exec "$0" {words}', SPOOL, *paths, command="bash"), wanted)


def names(folder):
    """A name of any bytes, and those that begin with a dash."""
    here, spool = inside(folder), spools.spool_of(PART)
    other = os.fsdecode(os.fsencode(here) + b"/\xff\xfe")
    Path(other).write_bytes(spool)
    expect("any bytes", run("check", other), (0, line(PART).encode(), ""))
    expect("any bytes, refused", run("salvage", other, other, os.fsdecode(b"\xff")), refused(3, "\udcff", f"cannot be read: {MISSING}"))
    written(here, "-", spool)
    written(here, "--help", put(spool, 0, bytes(BLOCK)))
    expect("a dash", run("read", "-", cwd=here), (0, PART, line(PART)))
    expect("two dashes", run("check", "--", "--help", cwd=here), (4, f"block 0: {WORDS[51]}\n".encode(), ""))


def elsewhere(folder):
    path = written(inside(folder), "program", PART)
    for name, place in built.elsewhere(inside(folder), TOP, "spool"):
        expect(name, run("write", path, command=name, **place), (0, spools.spool_of(PART), line(PART)))


def dies(folder):
    copy = built.Copy(inside(folder) / "dies", "#!/bin/sh\nkill -9 $$\n")
    expect("a program that dies", copy.ended("spool", "check", "x"), (b"", b"spool: the program died\n", 1))


# ---- what is written about it


def usage(folder):
    status, out, err = run("--help")
    expect("--help", (status, out[:15], err), (0, b"usage: ./spool ", ""))
    lines = re.findall(r"^ +(?:exit status )?([0-9]+)  (\S.*)$", out.decode(), re.M)
    expect("statuses in --help", [(int(number), words) for number, words in lines], list(STATUSES.items()))


def readme(folder):
    """README's example, command by command, both streams, and its exit statuses."""
    section = (TOP / "README.md").read_text().split("\n## Spools\n")[1].split("\n## ")[0]
    here = inside(folder)
    for name in ("spool", "sample"):
        (here / name).symlink_to(TOP / name)
    examples = re.findall(r"^    \$ (.*)\n((?:    (?!\$).*\n)*)", section, re.M)
    expect("how many commands", len(examples), 7)
    for words, lines in examples:
        out, _ = subprocess.Popen(words, shell=True, cwd=here, stdout=subprocess.PIPE, stderr=subprocess.STDOUT).communicate(timeout=SECONDS)
        expect(words, out.decode(), re.sub("^    ", "", lines, flags=re.M))
    statuses = re.findall(r"^\| ([0-9]+) \| (.*) \|$", section, re.M)
    expect("exit statuses", [(int(number), words) for number, words in statuses], list(STATUSES.items()))


def cases():
    yield from lengths()
    yield from damage()
    yield from mistakes()
    full, spool = "spool: standard output: No space left on device\n", spools.spool_of(PART)
    for words in ('write "$1"', 'read "$2"', 'check "$2"', 'check "$3"', 'salvage "$3"', 'salvage "$3" "$2"'):
        yield f"a full disk, {words}", redirected(1, b"", full, f"{words} > /dev/full")
    yield "no standard output", redirected(0, b"", line(PART), 'write "$1" >&-')
    yield "no standard output, checked", redirected(4, b"", "", 'check "$3" >&-')
    yield "no standard input or error", redirected(0, spool, "", 'salvage "$3" "$2" <&- 2>&-')
    yield "no standard error to say it", redirected(4, b"", "", 'read "$3" 2>&-')
    yield "no stream, and no file", redirected(3, b"", "", "check no <&- >&- 2>&-")
    yield "no standard output, and a bad file", redirected(3, b"", f"spool: /dev/null: {WORDS[50]}\n", "read /dev/null >&-")
    for case in (twice, stored, unreadable, closed_pipe, on_terminal, through_pipes, names, elsewhere, dies, usage, readme):
        yield case.__name__, case
    yield "not built", simulate.not_built("spool", "check", "x")


def main():
    failed = simulate.run_all(cases(), "spooler")
    try:
        with tempfile.TemporaryDirectory() as folder:
            print(f"spool: {program_runs(Path(folder))} runs of the program as expected")
        expect("outcomes that never came up", KINDS - set(seen), set())
    except Wrong as what:
        print(f"spool: {what}", file=sys.stderr)
        return 1
    return failed


if __name__ == "__main__":
    sys.exit(main())
