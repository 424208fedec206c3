#!/usr/bin/env python3
"""./digest against hashlib: files of many lengths, the longest that BLAKE2s here takes and one byte more, and what cannot be read.

    digest.py             runs ./digest
    digest.py --longest   prints hashlib's digest of the longest file, which is stored below so that a run need not make it
"""
import hashlib
import os
import random
import subprocess
import sys
import tempfile
import time
from pathlib import Path

import built
import pty_peer
from programs import path_of

TOP = Path(__file__).resolve().parent.parent
DIGEST = TOP / "digest"
SIZES = [0, 1, 63, 64, 65, 65535, 65536, 65537, 1000003]
LONGEST = 2**32 - 1  # of zeros
LONGEST_DIGEST = "5052d898d9fa18a8e256b6944071ae334835abbfa6a76a856df48f7c86a44d4b"
SECONDS = 120


def longest():
    digest, zeros = hashlib.blake2s(), bytes(1 << 20)
    for _ in range(2**12 - 1):
        digest.update(zeros)
    digest.update(zeros[1:])
    return digest.hexdigest()


def started(*words, command=DIGEST, **place):
    return subprocess.Popen([command, *words], **built.PIPES, **place)


def differs(what, process, status, out, err):
    """1, with a word about it, unless the process ends like this."""
    try:
        got = process.communicate(timeout=SECONDS)
    except subprocess.TimeoutExpired:
        process.kill()
        got = process.communicate()
    if (process.returncode, *got) == (status, os.fsencode(out), os.fsencode(err)):
        return 0
    print(f"digest: {what}: status {process.returncode}, {got}, expected {status}, {out!r}, {err!r}", file=sys.stderr)
    return 1


def refused(name, why):
    """One line, with the first 4,096 bytes of the name."""
    return differs(name, started(name), 1, "", f"digest: {name[:4096]}: {why}\n")


# ---- files that are hashed


def hashed(folder):
    rng = random.Random(1)
    names = [str(folder / f"program {size}") for size in SIZES]
    names += [str(folder / "-n"), str(folder / "back\\slash"), os.fsdecode(os.fsencode(folder) + b"/\xff\xfe")]
    for size, name in zip(SIZES + [100] * 3, names):
        data = rng.randbytes(size)
        with open(name, "wb") as file:
            file.write(data)
        yield differs(name, started(name), 0, f"{hashlib.blake2s(data).hexdigest()}  {name}\n", "")
    own = hashlib.blake2s((folder / "-n").read_bytes()).hexdigest()
    yield differs("-n", started("-n", cwd=folder), 0, f"{own}  -n\n", "")  # another folder, and no option
    for command, place in built.elsewhere(folder, TOP, "digest"):
        yield differs(command, started(folder / "-n", command=command, **place), 0, f"{own}  {folder}/-n\n", "")


def sparse(folder, size):
    """A file of zeros that takes no room."""
    path = folder / str(size)
    path.touch()
    os.truncate(path, size)
    return str(path)


# ---- and those that are not


def unreadable(folder):
    """A file without permission. Root may read every file, so there the binary runs as nobody, behind a builder that has nothing to do."""
    secret = folder / "secret"
    secret.write_bytes(b"secret")
    if os.getuid() != 0:
        secret.chmod(0)
        return refused(str(secret), "Permission denied")
    secret.chmod(0o600)
    copy = built.Copy(folder / "nobody's", path_of("digest"))
    copy.ended("scripts/built", "digest")
    folder.chmod(0o755)
    return differs("no permission", copy.started("digest", secret, behind=built.NOBODY), 1, "", f"digest: {secret}: Permission denied\n")


def no_program(folder):
    """One that cannot be built, and one that dies."""
    copy = built.Copy(folder / "no program", "#!/bin/sh\nkill -9 $$\n")
    fails = copy.top / "fails"
    fails.touch()
    yield differs("not built", copy.started("digest", "x"), 1, "", built.LOG.decode())
    fails.unlink()
    yield differs("a program that dies", copy.started("digest", "x"), 1, "", "")


def is_waiting(name):
    """Whether the program sleeps with this file open: in a read of it."""
    for process in Path("/proc").glob("[0-9]*"):
        try:
            if os.readlink(process / "exe") == str(path_of("digest")) and name in map(os.readlink, (process / "fd").iterdir()):
                return (process / "stat").read_text().split()[2] == "S"
        except OSError:
            continue
    return False


def breaks_off():
    """A read that fails after another has succeeded: a terminal whose other end closes."""
    terminal = pty_peer.Terminal()
    process = started(terminal.name)
    terminal.line.write(bytes(1000))
    terminal.drain()
    end = time.monotonic() + SECONDS
    while not is_waiting(terminal.name) and time.monotonic() < end:
        time.sleep(0.01)
    terminal.close()
    return differs("a read that fails", process, 1, "", f"digest: {terminal.name}: Input/output error\n")


def not_hashed(folder):
    yield refused(str(folder / "missing"), "No such file or directory")
    yield refused(str(folder), "Is a directory")
    yield refused("", "No such file or directory")
    for length in (4096, 5000):
        yield refused("x" * length, "File name too long")
    yield unreadable(folder)
    yield from no_program(folder)
    yield breaks_off()
    usage = "digest: usage: ./digest PROGRAM\n"
    yield differs("no argument", started(), 1, "", usage)
    yield differs("two arguments", started("a", "b"), 1, "", usage)
    full = started("-c", 'exec "$0" "$0" > /dev/full', DIGEST, command="sh")
    yield differs("no room for the line", full, 1, "", f"digest: {DIGEST}: No space left on device\n")


def main():
    path_of("digest")
    memory = "/dev/shm" if os.path.isdir("/dev/shm") else None  # there zeros are read twice as fast
    with tempfile.TemporaryDirectory() as name, tempfile.TemporaryDirectory(dir=memory) as large:
        folder = Path(name)
        names = [sparse(Path(large), LONGEST), sparse(Path(large), LONGEST + 1)]
        long = [started(name) for name in names]  # beside each other, and beside all else
        wrong = [*hashed(folder), *not_hashed(folder)]
        wrong.append(differs("the longest file", long[0], 0, f"{LONGEST_DIGEST}  {names[0]}\n", ""))
        wrong.append(differs("a byte more", long[1], 1, "", f"digest: {names[1]}: it has more than 4294967295 bytes\n"))
    if any(wrong):
        return 1
    print(f"digest: {len(wrong)} runs as expected")
    return 0


if __name__ == "__main__":
    if sys.argv[1:] == ["--longest"]:
        print(longest())
        sys.exit(0)
    sys.exit(main())
