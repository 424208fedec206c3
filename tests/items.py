#!/usr/bin/env python3
"""The items of document 01's "Shed bench", line "Run", its example and the sample session: inputs of `headlog`, and what it must print.

Written from document 01, with hashlib for BLAKE2s; no output of ours is stored.

    items.py            prints the expected output of each
    items.py --write    writes each input to sample/NAME.bin, and the example, the sample's output and its program where they are looked for
    items.py --check    exits non-zero, and says what differs, unless these files hold what it makes
    items.py --play     plays sample/NAME.bin to headlog; exits non-zero unless every line, and how much is read, is as expected
"""
import hashlib
import sys
from pathlib import Path

import stored
from programs import path_of
from random_sessions import wrong

ROOT = Path(__file__).resolve().parent.parent
SAMPLE = ROOT / "sample"

UDS = bytes(range(0x10, 0x30))
UDI = bytes(range(0xD0, 0xD8))
USS = bytes(range(0xA0, 0xC0))
RAM = 32768  # of headlog
PROGRAM = bytes((5 * i + 1) % 256 for i in range(200))


def blake2s(data):
    return hashlib.blake2s(data, digest_size=32).digest()


# ---- what the server sends


def record(reset_type, digest=b""):
    return (reset_type.to_bytes(4, "little") + bytes(4) + digest).ljust(256, b"\0")


def frame(body, frame_id=0, endpoint=2):
    return bytes([frame_id << 5 | endpoint << 3 | [1, 4, 32, 128].index(len(body))]) + body


def load(size, flag=0, uss=b"", frame_id=0):
    return frame((b"\x03" + size.to_bytes(4, "little") + bytes([flag]) + uss).ljust(128, b"\0"), frame_id)


def blocks(program):
    """The program in blocks of 127 bytes. What is left of the last is not zero: it must be neither stored nor measured."""
    parts = [program[at : at + 127].ljust(127, b"\x5a") for at in range(0, len(program), 127)]
    return [frame(b"\x05" + part, k % 4) for k, part in enumerate(parts)]


# ---- what is printed, in the words of document 01


def reply(frame_id, length, content, status=0):
    """The line of a reply from endpoint 2, with its status as bit 2 of the header."""
    header = frame_id << 5 | 2 << 3 | status << 2 | [1, 4, 32, 128].index(length)
    return "R " + (bytes([header]) + content.ljust(length, b"\0")).hex()


def load_reply(status, frame_id=0):
    return reply(frame_id, 4, bytes([0x04, status]), status)


def block_replies(program):
    count = -(-len(program) // 127)
    for k in range(count - 1):
        yield reply(k % 4, 4, b"\x06\0")
    yield reply((count - 1) % 4, 128, b"\x07\0" + blake2s(program))


def start(program, uss=b""):
    """The line of a direct start."""
    domain = b"\1" if uss else b"\0"
    return f"S {len(program)} {blake2s(UDS + domain + blake2s(program) + uss).hex()}"


# ---- the items


def headlog():
    """Document 01's own example, with its output letter by letter."""
    data = record(4) + bytes(32) + bytes(8) + b"\x10\x01"
    return data, ["R 1202746b31206d6b64660100000000000000000000000000000000000000000000", "W 2"]


def bad_sizes():
    """A size of 0, or over the RAM's length, gets status 1, and the head goes on waiting: 131,073 is too large for every head."""
    sizes = [0, 131073, RAM + 1, RAM]
    received = b"".join(load(size, frame_id=k) for k, size in enumerate(sizes))
    replies = [load_reply(int(not 1 <= size <= RAM), k) for k, size in enumerate(sizes)]
    return record(4) + UDS + UDI + received, [*replies, f"W {len(received)}"]


def with_flag(flag):
    """Flag 0 means no user secret, flag 1 that it is used."""
    data = record(4) + UDS + UDI + load(len(PROGRAM), flag, USS) + b"".join(blocks(PROGRAM))
    return data, [load_reply(0), *block_replies(PROGRAM), start(PROGRAM, USS if flag == 1 else b"")]


def flag_2():
    """Any other flag gets status 1, and the head goes on waiting. Nothing of that load is in the start after the next one."""
    received = load(100, 2, USS[::-1]) + load(len(PROGRAM), 1, USS, frame_id=1) + b"".join(blocks(PROGRAM))
    return record(4) + UDS + UDI + received, [load_reply(1), load_reply(0, 1), *block_replies(PROGRAM), start(PROGRAM, USS)]


def load_while_loading():
    received = load(RAM) + load(RAM, frame_id=1)
    return record(4) + UDS + UDI + received, [load_reply(0), "F 23"]


def name_with_body_4():
    return record(4) + UDS + UDI + frame(b"\x01\0\0\0"), ["F 24"]


# The program of the sample session, which ./load takes too.
SAMPLE_PROGRAM = b"".join(f"thread {i:03} to hook {(7 * i + 3) % 400:03}\n".encode() for i in range(20))


def sample():
    """A head that allows one digest: queries, a frame that is passed over, a load with a user secret, and a start."""
    program = SAMPLE_PROGRAM
    received = [
        frame(b"\x01"),
        frame(b"\x08", frame_id=1),
        frame(b"\x2a".ljust(32, b"\0"), endpoint=3),
        load(0, frame_id=2),
        load(len(program), 1, USS, frame_id=3),
        *blocks(program),
    ]
    lines = [
        reply(0, 32, b"\x02tk1 mkdf" + (1).to_bytes(4, "little")),
        reply(1, 32, b"\x09\0" + UDI),
        load_reply(1, 2),
        load_reply(0, 3),
        *block_replies(program),
        start(program, USS),
    ]
    return record(5, digest=blake2s(program)) + UDS + UDI + b"".join(received), lines


ITEMS = {
    "bad_sizes": bad_sizes(),
    "flag_0": with_flag(0),
    "flag_1": with_flag(1),
    "flag_2": flag_2(),
    "load_while_loading": load_while_loading(),
    "name_with_body_4": name_with_body_4(),
    "session": sample(),
}


def files():
    """Each file and what it must hold."""
    for name, (data, _) in ITEMS.items():
        yield SAMPLE / f"{name}.bin", data
    yield SAMPLE / "printed", text(sample()[1])
    yield SAMPLE / "program.bin", SAMPLE_PROGRAM
    data, lines = headlog()
    yield ROOT / "crates" / "headlog" / "stdin", data
    yield ROOT / "crates" / "headlog" / "stdout", text(lines)


def text(lines):
    return "".join(line + "\n" for line in lines).encode()


def check(path, want):
    """0 if the file holds want; otherwise says what differs, and gives 1."""
    if not path.exists():
        print(f"{path}: missing", file=sys.stderr)
        return 1
    return stored.check(path, want)


def play(name, lines, command=None):
    """0 if headlog prints these lines for an item and reads all of it, and no byte more; otherwise says what is wrong, and gives 1."""
    data = (SAMPLE / f"{name}.bin").read_bytes()
    after = b"" if lines[-1].startswith("W") else b"\xff\x10\x01"
    what = wrong(command or [path_of("headlog")], data + after, lines, len(data))
    if what:
        print(f"{name}: {what}", file=sys.stderr)
    return int(bool(what))


def main(args):
    if args == ["--write"]:
        for path, want in files():
            path.write_bytes(want)
        return 0
    if args == ["--check"]:
        return max([check(path, want) for path, want in files()])
    if args == ["--play"]:
        return max([play(name, lines) for name, (_, lines) in ITEMS.items()])
    if args:
        print(__doc__, file=sys.stderr)
        return 2
    for name, (_, lines) in [("headlog", headlog()), *ITEMS.items()]:
        print(f"# {name}", *lines, sep="\n")
    return 0


if __name__ == "__main__":
    sys.exit(main(sys.argv[1:]))
