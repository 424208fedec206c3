"""Design spools a second time, in python3 with hashlib: change request 10. A block is bytes, and each call gives its number and what it leaves."""
import hashlib
import struct

BLOCK, CAPACITY, PROGRAM_MOST, SPOOL_MOST = 512, 472, 131072, 142336
LAST_PLACE, LAST_MOST = 277, 328
KEPT, REPLACED, LOST = range(3)


def sealed(front):
    """A block from its first 480 bytes."""
    return front + hashlib.blake2s(front).digest()


def block(number, part, count=None):
    """The block with a number that uses a part of a program; another count may be said than it uses."""
    return sealed(struct.pack("<II", number, len(part) if count is None else count) + part.ljust(CAPACITY, b"\0"))


def parts(data, size):
    return [data[at : at + size] for at in range(0, len(data), size)]


def spool_of(program):
    return b"".join(block(number, part) for number, part in enumerate(parts(program, CAPACITY)))


def fault(block, place, blocks):
    """The first refusal of a block at a place of so many, 0 where it is good there."""
    number, count = struct.unpack("<II", block[:8])
    if hashlib.blake2s(block[:480]).digest() != block[480:]:
        return 51
    if number != place:
        return 52
    most = LAST_MOST if place == LAST_PLACE else CAPACITY
    if not (1 <= count <= most if place == blocks - 1 else count == CAPACITY) or any(block[8 + count : 480]):
        return 53
    return 0


def bad_length(length):
    return length == 0 or length > SPOOL_MOST or length % BLOCK != 0


def used(block):
    return block[8 : 8 + struct.unpack("<I", block[4:8])[0]]


def read(spool, room):
    """The number, how many bytes are the program, and the room afterwards."""
    if bad_length(len(spool)):
        return 50, 0, room
    blocks = parts(spool, BLOCK)
    if len(room) < CAPACITY * len(blocks):
        return 54, 0, room
    for place, one in enumerate(blocks):
        if number := fault(one, place, len(blocks)):
            return number, 0, room
    program = b"".join(map(used, blocks))
    return 0, len(program), program + room[len(program) :]


def write(program, room):
    """The number, how many bytes are the spool, and the room afterwards."""
    if not 1 <= len(program) <= PROGRAM_MOST:
        return 40, 0, room
    spool = spool_of(program)
    if len(room) < len(spool):
        return 54, 0, room
    return 0, len(spool), spool + room[len(spool) :]


def look(spool, place):
    """The number of a look at a place."""
    if bad_length(len(spool)) or place >= len(spool) // BLOCK:
        return 50
    return fault(spool[BLOCK * place : BLOCK * (place + 1)], place, len(spool) // BLOCK)


def mended(block, place, blocks, spares):
    """What becomes of a block, and its entry in the report."""
    if not fault(block, place, blocks):
        return block, KEPT
    for spare in spares:
        if not fault(spare, place, blocks):
            return spare, REPLACED
    return block, LOST


def salvage(spool, spares, report):
    """The number, and spool and report afterwards."""
    if bad_length(len(spool)) or len(spares) % BLOCK != 0:
        return 50, spool, report
    blocks = parts(spool, BLOCK)
    if len(report) < len(blocks):
        return 54, spool, report
    done = [mended(one, place, len(blocks), parts(spares, BLOCK)) for place, one in enumerate(blocks)]
    return 0, b"".join(one for one, _ in done), bytes(entry for _, entry in done) + report[len(blocks) :]
