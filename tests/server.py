"""The server's half of a load, written again from change requests 1 and 5 and document 01: what the tests hold the client to.

Nothing here is taken from the client. A call's number is 0, or the lowest refusal that applies.
"""
FRAME = 129
LONGEST = 131072
ZEROS = bytes(32)


def blocks(length):
    """How many blocks a program needs; the frames are these and the load, which is frame 0."""
    return (length + 126) // 127


def refusal(length, id, k, room=FRAME):
    numbers = {3: room < FRAME, 40: not 1 <= length <= LONGEST, 41: id > 3, 42: k > blocks(length)}
    return min((n for n, applies in numbers.items() if applies), default=0)


def whole(id, body, length, status=0):
    """A frame of the firmware, its body filled up to this length with zeros; bit 2 is the status of a reply."""
    return bytes([id << 5 | 2 << 3 | status << 2 | [1, 4, 32, 128].index(length)]) + body + bytes(length - len(body))


def frame(program, id, secret, k):
    """Command frame k; secret is 32 bytes, or None. Ours: without one no byte of it is sent."""
    if k == 0:
        return whole(id, b"\x03" + len(program).to_bytes(4, "little") + (b"\0" if secret is None else b"\1" + secret), 128)
    return whole(id, b"\x05" + program[127 * (k - 1) : 127 * k], 128)


def reply(length, id, k, status, digest):
    """The reply to frame k, which has the digest if that is the last."""
    if k == blocks(length):
        return whole(id, bytes([7, status]) + digest, 128, status)
    return whole(id, bytes([4 if k == 0 else 6, status]), 4, status)


def read(length, id, k, received):
    """The number, and status and digest of a reply that is taken. Ours: 32 zeros for a digest that is not expected."""
    if number := refusal(length, id, k):
        return number, None, None
    digest = received[3:35] if k == blocks(length) else ZEROS
    for status in (0, 1):
        if len(digest) == 32 and received == reply(length, id, k, status, digest):
            return 0, status, digest
    return 43, None, None


def difference(length, id, k, received):
    """The number of the first difference from the expected reply: 1 header, 2 length, 3 code, 4 status, 5 filler; 0 also where none is expected."""
    if refusal(length, id, k):
        return 0
    if not received:
        return 1
    right = reply(length, id, k, 0, ZEROS)
    filler = 35 if k == blocks(length) else 3
    bit = received[0] >> 2 & 1
    differs = [received[0] - 4 * bit != right[0], len(received) != len(right), received[1:2] != right[1:2], received[2:3] != bytes([bit]), any(received[filler:])]
    return 1 + differs.index(True) if any(differs) else 0
