"""Change request 13 written again: why a loom did not start, after each of the bytes that its head heard.

The head is head.py's, with its RAM; where a byte stands is counted here, from the frames alone. Nothing is taken from the crate
`diagnosis`.
"""
from dataclasses import dataclass

from head import EMPTY_SLOTS, RAM_MOST, RECORD, TYPE_CLIENT, ZEROS, begin, first, number

LENGTHS = [1, 4, 32, 128]  # of a body, by the two lowest bits of its header


@dataclass
class Reason:
    """Why, and where the last byte that was read stands: its number and that of its frame, from 1, and its place in the frame."""

    kind: str  # refused, stopped, unfinished, waiting, missing or started
    number: int = 0  # of the refusal or the stop, or how many blocks are missing
    byte: int = 0
    frame: int = 0
    offset: int = 0
    digest: bytes = ZEROS  # at a start and at stop 25
    phase: str = "waiting"  # of the head, before the last byte

    def ended(self):
        return self.kind in ("refused", "stopped", "started")


def refusal(record, ram):
    wrong = {6: len(record) != RECORD, 7: not 1 <= ram <= RAM_MOST, 48: number(record[:4]) < TYPE_CLIENT}
    return first(wrong)


def places(capture):
    """For each byte the number of its frame, its place there, and whether the frame is whole with it."""
    frame = offset = length = 0
    for byte in capture:
        if offset == length:
            frame, offset, length = frame + 1, 0, LENGTHS[byte & 3]
        else:
            offset += 1
        yield frame, offset, offset == length


class Session:
    """A head, and what it is lent."""

    def __init__(self, record, ram):
        self.room, self.ram, self.words = bytearray(129), bytearray(ram), [0] * 8
        self.answer, self.head = begin(record, bytes(8), EMPTY_SLOTS, ZEROS, self.ram, self.words)

    def begun(self):
        return Reason("stopped", self.answer.number) if self.answer.kind == "F" else Reason("waiting")

    def hear(self, byte, whole):
        """Kind, number and digest."""
        answer = self.head.hear(byte, self.room, self.ram, self.words)
        if answer.kind == "S":
            return "started", 0, answer.digest
        if answer.kind == "F":
            return "stopped", answer.number, bytes(self.room[3:35]) if answer.number == 25 else ZEROS  # as it is in the last reply
        if not whole:
            return "unfinished", 0, ZEROS
        if self.head.phase == "waiting":
            return "waiting", 0, ZEROS
        return "missing", (self.head.size + 126) // 127 - self.head.block, ZEROS


def reasons(record, ram, capture):
    """The reason after no byte, after the first, and so on; after a start or a stop it stays."""
    if refused := refusal(record, ram):
        yield from [Reason("refused", refused)] * (len(capture) + 1)
        return
    session = Session(record, ram)
    reason = session.begun()
    yield reason
    for count, (byte, (frame, offset, whole)) in enumerate(zip(capture, places(capture)), 1):
        if not reason.ended():
            phase = session.head.phase
            kind, many, digest = session.hear(byte, whole)
            reason = Reason(kind, many, count, frame, offset, digest, phase)
        yield reason


def reason_of(record, ram, capture):
    """After all of them."""
    for reason in reasons(record, ram, capture):
        if reason.ended():
            break
    return reason


# ---- kinds, of which each must come up so that agreement says something

STOPS = [f"stopped {k} while {phase}" for k in (22, 23, 24) for phase in ("waiting", "loading")] + ["stopped 20", "stopped 25 while loading"]
OPEN = ["unfinished while waiting", "unfinished while loading", "unfinished for another endpoint", "waiting", "waiting, and no byte came"]
OPEN += ["missing 1", "missing 2", "missing 3 or more"]
ENDS = ["started, type 4", "started, type 5", "bytes after a start", "bytes after a stop"]
DIGESTS = ["started by the first of two", "started by the second of two", "started by the only one"]
DIGESTS += ["stopped, neither of two", "stopped, the second right and mask bit 1 clear", "stopped, not the only one"]
KINDS = ["refused 6", "refused 7", "refused 48", *STOPS, *OPEN, *ENDS, *DIGESTS]


def kinds(reason, record, capture):
    """Those that a reason counts for."""
    if reason.kind == "refused":
        yield f"refused {reason.number}"
    if reason.kind == "stopped":
        yield f"stopped {reason.number}" + (f" while {reason.phase}" if reason.byte else "")
    if reason.kind == "unfinished":
        header = capture[reason.byte - 1 - reason.offset]
        yield "unfinished for another endpoint" if header >> 3 & 3 != 2 else f"unfinished while {reason.phase}"
    if reason.kind == "waiting":
        yield "waiting" if reason.byte else "waiting, and no byte came"
    if reason.kind == "missing":
        yield f"missing {reason.number}" if reason.number < 3 else "missing 3 or more"
    if reason.kind == "started":
        yield f"started, type {number(record[:4])}"
    yield from digest_kinds(reason, record)
    if reason.ended() and 0 < reason.byte < len(capture):
        yield f"bytes after a {'start' if reason.kind == 'started' else 'stop'}"


def digest_kinds(reason, record):
    """Of a start by type 5, and of stop 25."""
    two = number(record[4:8]) & 2 != 0
    if reason.kind == "started" and number(record[:4]) == 5:
        if not two:
            yield "started by the only one"
        else:
            yield "started by the first of two" if reason.digest == record[8:40] else "started by the second of two"
    if reason.kind == "stopped" and reason.number == 25:
        if two:
            yield "stopped, neither of two"
        else:
            yield "stopped, the second right and mask bit 1 clear" if reason.digest == record[72:104] else "stopped, not the only one"


def missing_kinds(seen):
    """Those that never came up, with a word about each."""
    never = [kind for kind in KINDS if not seen[kind]]
    for kind in never:
        print(f"never came up: {kind}")
    return never


# ---- what a record and a capture are made of


def record_of(kind, first=ZEROS, second=None, mask=None, filler=b"\x5a"):
    """With mask bit 1 if there is a second digest, or with another mask."""
    mask = 2 * (second is not None) if mask is None else mask
    data = kind.to_bytes(4, "little") + mask.to_bytes(4, "little") + first + filler * 32 + (second or b"")
    return data + filler * (RECORD - len(data))


def frame(header, body):
    """The header, and as much of the body as it announces, filled up with bytes that are not zero."""
    length = LENGTHS[header & 3]
    return bytes([header]) + body[:length].ljust(length, b"\x5a")


def load(size, flag=0, header=0x13):
    return frame(header, b"\x03" + size.to_bytes(4, "little") + bytes([flag]) + bytes(range(32)))


def blocks(program, header=0x13):
    return [frame(header, b"\x05" + program[at : at + 127]) for at in range(0, len(program), 127)]


def others():
    """Frames for the other endpoints, of each length, whose bodies look like commands."""
    headers = [id << 5 | endpoint << 3 | code for code in range(4) for id, endpoint in ((0, 0), (1, 1), (3, 3))]
    return [frame(header, bytes([0x93, 0x05, 0x85])) for header in headers]
