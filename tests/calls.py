"""Calls for the program `test_calls`, and all that each must give: the program makes them one after the other and writes every
value that a call hands back and every byte that it was lent to write.

A `Calls` gathers calls with what an independent program says of each; `play` runs the program and says where it differs.
"""
import struct
import subprocess

from programs import path_of

SIZE = 320  # of a call

HASH_BEGIN, HASH_UPDATE, HASH_FINISH, READ_HEADER, WRITE_HEADER, DERIVE, READ_REPLY_HEADER = range(2, 9)


class Calls:
    def __init__(self):
        self.data = []
        self.wanted = []  # for each call: what it is, and what must be written, as pairs of a name and bytes

    def add(self, what, kind, call, *fields):
        self.data.append((bytes([kind]) + call).ljust(SIZE, b"\0"))
        self.wanted.append((what, fields))

    def hash_begin(self, what, key, size, message, number, context):
        """message: how many bytes the context is then made to have taken, in place of a long hash, or nothing."""
        call = struct.pack("<BBBI", len(key), size, message is not None, message or 0) + key
        self.add(what, HASH_BEGIN, call, ("answer", struct.pack("<I", number)), *context)

    def hash_update(self, what, part, number, context):
        self.add(what, HASH_UPDATE, struct.pack("<B6x", len(part)) + part, ("answer", struct.pack("<I", number)), *context)

    def hash_finish(self, what, size, number, out):
        self.add(what, HASH_FINISH, bytes([size]), ("answer", struct.pack("<I", number)), ("output", out.ljust(255, b"\xaa")))

    def read_header(self, byte, *fields):
        self.add(f"command header {byte:02x}", READ_HEADER, bytes([byte]), ("fields", bytes(fields)))

    def read_reply_header(self, byte, *fields):
        self.add(f"reply header {byte:02x}", READ_REPLY_HEADER, bytes([byte]), ("fields", bytes(fields)))

    def write_header(self, id, endpoint, length, status, header):
        call = struct.pack("<BBBQ", id, endpoint, status, length)
        self.add(f"header of ID {id}, endpoint {endpoint}, length {length}, status {status}", WRITE_HEADER, call, ("header", bytes([header])))

    def derive(self, what, chained, used, parts, cdi):
        self.add(what, DERIVE, struct.pack("<BB5x", chained, used) + b"".join(parts), ("CDI", cdi))

    # ---- the program

    def input(self):
        return struct.pack("<I", len(self.data)) + b"".join(self.data)

    def output(self):
        return b"".join(want for _, fields in self.wanted for _, want in fields)

    def play(self):
        """What is wrong, or nothing."""
        done = subprocess.run([path_of("test_calls")], input=self.input(), stdout=subprocess.PIPE)
        if what := self.difference(done.stdout):
            return what
        return None if done.returncode == 0 else f"exit status {done.returncode}"

    def difference(self, got):
        at = 0
        for what, fields in self.wanted:
            for name, want in fields:
                part = got[at : at + len(want)]
                at += len(want)
                if part != want:
                    return f"{what}: {name}\n  got      {part.hex()}\n  expected {want.hex()}"
        return f"{len(got) - at} bytes too many" if len(got) > at else None
