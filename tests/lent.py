"""The head's C calls on memory that is lent to them, each held to head.py: its answer, and every byte of the memory after it.

A `Memory` has all that gather and act are lent, in one array with guard bytes around each part, and what begin and reset are lent
besides is in another. What a call must leave there follows from what it finds there: the state is read from the memory by the
layout in include/mastfrap.h, head.py plays the call, and the next state goes back by the layout. A call that is refused must leave
all of it, and one that is not must write every part that it gives.

The calls are those of a library for this machine (`Library`), or of a program for another (`Program`).
"""
import ctypes
import mmap
import random
import struct
import subprocess
import threading
from collections import Counter
from functools import lru_cache
from typing import NamedTuple

from head import ADDRESS, RECORD, Answer, Frame, Head, begin, reset

NUMBERS, BYTES = 3, 268
ROOM, WORDS = 160, 9  # what there is to lend from
SPARE = 8  # guard bytes, at least, on either side of a part
GUARD, STALE = b"\xa5", b"\x99"  # what is in them, and in what a call gives before it
MAP_NORESERVE = 0x4000  # of Linux; python 3.11 has no name for it
PHASES = ["waiting", "loading", "started", "stopped"]
NAMES = ["begin", "gather", "act", "reset"]
MOST_ARGUMENTS = 19
ASKED = f"<2I{MOST_ARGUMENTS}Q"  # struct asked of tests/calls_riscv32.c
SECONDS = 300  # for all calls of a program
STATE = "128s4B32s32s8s32s32s"  # body; header, got, phase, flags; first digest, measured_id, UDI, USS, second digest


class Difference(Exception):
    pass


# ---- the layout


def state_in(numbers, data):
    """The head that memory holds, or nothing."""
    ram, size, block = struct.unpack("<3I", numbers)
    body, header, got, phase, flags, first, measured_id, udi, uss, second = struct.unpack(STATE, data)
    if phase > 3 or flags > 15:
        return None
    frame = Frame(header, got, bytearray(body))
    verify, chained, uss_used, has_second = (flags & bit != 0 for bit in (1, 2, 4, 8))
    config = verify, first, second, has_second, chained, measured_id
    return Head(ram, udi, *config, PHASES[phase], size, block, uss, uss_used, frame)


def state_parts(head):
    """A head as its memory holds it."""
    f, flags = head.frame, head.verify + 2 * head.chained + 4 * head.uss_used + 8 * head.has_second
    small = f.header, f.got, PHASES.index(head.phase), flags
    data = struct.pack(STATE, bytes(f.body), *small, head.first, head.measured_id, head.udi, head.uss, head.second)
    return {"numbers": struct.pack("<3I", head.ram, head.size, head.block), "bytes": data}


def start_parts(answer):
    """What begin and act give of a start, and zeros where there is none."""
    start = (ADDRESS, answer.number) if answer.kind == "S" else (0, 0)
    return {"start": struct.pack("<2I", *start), "cdi": answer.cdi, "digest": answer.digest}


def word_bytes(words):
    return struct.pack(f"<{len(words)}I", *words)


def begin_parts(answer, head, record, ram, words):
    """All that a begin writes that is not refused."""
    return start_parts(answer) | state_parts(head) | {"ram": ram, "words": word_bytes(words)}


def act_parts(answer, head, room, ram, words):
    lent = {"reply_len": struct.pack("<I", answer.reply), "ram": ram, "words": word_bytes(words)}
    return start_parts(answer) | state_parts(head) | lent | ({} if isinstance(room, Long) else {"room": room})


def data_length(mask):
    """How much data a reset takes: what its record has left."""
    return 152 if mask & 2 else 184


def answer_number(answer):
    return {"W": 0, "A": 64, "S": 65}.get(answer.kind, answer.number)


# ---- memory


def to_word(n):
    return (n + 3) // 4 * 4


@lru_cache
def places(parts, turn):
    """Where each part of an array goes, guard bytes between: words at a place that is good for them, bytes at any in a word, by
    turns."""
    found, end = {}, 0
    for k, (name, size, of_words) in enumerate(parts):
        at = to_word(end + SPARE) + (0 if of_words else (k + turn) % 4)
        found[name] = slice(at, at + size)
        end = at + size
    return found, to_word(end + SPARE)


class Place(NamedTuple):
    """A pointer to what is so far into an array."""

    array: object
    at: int


class Array:
    """Named parts of one piece of memory."""

    rng = random.Random(5)

    def __init__(self, parts):
        self.at, size = places(parts, self.rng.randrange(4))
        self.data = bytearray(GUARD * size)
        self.held = (ctypes.c_char * size).from_buffer(self.data)
        self.base = ctypes.addressof(self.held)

    def __getitem__(self, name):
        return self.data[self.at[name]]

    def __setitem__(self, name, value):
        """Sets the front of a part, as much as there is of the value."""
        start = self.at[name].start
        self.data[start : start + len(value)] = value

    def pointer(self, name):
        return Place(self, self.at[name].start)

    def difference(self, wanted):
        """The first part that is not as wanted, or the guard bytes."""
        for name, at in self.at.items():
            if self.data[at] != wanted[at]:
                return f"{name}\n  got      {self.data[at].hex()}\n  expected {wanted[at].hex()}"
        return "bytes around what was lent were written"


def holding(**parts):
    """An array that holds these bytes."""
    array = Array(tuple((name, len(value), False) for name, value in parts.items()))
    for name, value in parts.items():
        array[name] = value
    return array


GIVEN = {"reply_len": 4, "start": 8, "cdi": 32, "digest": 32}
STARTING = ["start", "cdi", "digest"]


class Memory(Array):
    """All that a head is lent, RAM and words as long as there is to lend from."""

    def __init__(self, ram, words):
        sizes = {"numbers": 4 * NUMBERS, "bytes": BYTES, "room": ROOM, "ram": len(ram), "words": 4 * WORDS} | GIVEN
        super().__init__(tuple((name, size, name in ("numbers", "words", "reply_len", "start")) for name, size in sizes.items()))
        self["ram"] = ram
        self.set_words(words)

    def set_words(self, words):
        self["words"] = word_bytes(words)

    def words(self, n):
        return list(struct.unpack(f"<{n}I", self["words"][: 4 * n]))

    def head(self):
        return state_in(self["numbers"], self["bytes"])

    def set_head(self, head):
        for name, value in state_parts(head).items():
            self[name] = value

    def ended(self):
        return self["bytes"][130] in (2, 3)

    def make_stale(self):
        """What a call gives must be written by it, also where that is zeros."""
        for name, size in GIVEN.items():
            self[name] = STALE * size
        self["room"] = b"\xee" * ROOM


# ---- lengths of over 32 bits


class Long:
    """A loan of which only the length may be asked, and to the front of which a reply may be written."""

    def __init__(self, n):
        self.n = n
        self.front = b""

    def __len__(self):
        return self.n

    def __setitem__(self, at, value):
        self.front = bytes(value)


class Far:
    """So much memory that its length is over 32 bits, all zeros. It takes no room but for what is written to it."""

    MORE = 2**32  # bytes or words

    def __init__(self):
        flags = mmap.MAP_PRIVATE | mmap.MAP_ANONYMOUS | MAP_NORESERVE
        self.area = mmap.mmap(-1, 4 * self.MORE + mmap.PAGESIZE, flags=flags, prot=mmap.PROT_READ | mmap.PROT_WRITE)
        self.held = ctypes.c_char.from_buffer(self.area)
        self.base = ctypes.addressof(self.held)

    def take(self, what, wanted):
        """Clears the front, which must hold this much and zeros."""
        front = self.area[: mmap.PAGESIZE]
        if front != wanted.ljust(mmap.PAGESIZE, b"\0"):
            raise Difference(f"{what}: its long loan\n  got      {front[:256].hex()}\n  expected {wanted.hex()} and zeros")
        self.area[: mmap.PAGESIZE] = bytes(mmap.PAGESIZE)


# ---- calls


class Library:
    """The calls of a shared library."""

    def __init__(self, path):
        library = ctypes.CDLL(str(path))
        pointer, size = ctypes.c_void_p, ctypes.c_uint64
        lent, slot, ends = [pointer, size], [pointer, size, size], [pointer] * 3
        self.calls = {name: library[f"mastfrap_{name}"] for name in NAMES}
        self.calls["begin"].argtypes = [pointer, pointer, *lent, pointer, *slot, *slot, pointer, *lent, *lent, *ends]
        self.calls["gather"].argtypes = [pointer, pointer, ctypes.c_uint8]
        self.calls["act"].argtypes = [pointer, pointer, *lent, *lent, *lent, pointer, *ends]
        self.calls["reset"].argtypes = [*lent, *lent, *[ctypes.c_uint32] * 2, pointer, pointer, *lent, *lent]
        for call in self.calls.values():
            call.restype = ctypes.c_uint32
        self.far = Far()

    def make(self, name, arguments):
        return self.calls[name](*(a.array.base + a.at if isinstance(a, Place) else a for a in arguments))

    def end(self):
        pass


class Program:
    """The calls of tests/calls_riscv32.c, which gets each with all memory that is lent to it, and gives the memory back."""

    far = None  # it has not the memory

    def __init__(self, command):
        self.process = subprocess.Popen(command, stdin=subprocess.PIPE, stdout=subprocess.PIPE)
        self.limit = threading.Timer(SECONDS, self.process.kill)
        self.limit.daemon = True
        self.limit.start()

    def make(self, name, arguments):
        memory, begun = bytearray(), {}
        for a in arguments:
            if isinstance(a, Place) and id(a.array) not in begun:
                begun[id(a.array)] = len(memory), a.array
                memory += a.array.data
        numbers = [begun[id(a.array)][0] + a.at if isinstance(a, Place) else a for a in arguments]
        asked = struct.pack(ASKED, NAMES.index(name), len(memory), *numbers, *[0] * (MOST_ARGUMENTS - len(numbers)))
        self.process.stdin.write(asked + memory)
        self.process.stdin.flush()
        given = self.process.stdout.read(4 + len(memory))
        if len(given) < 4 + len(memory):
            raise EOFError(f"the program ended with status {self.process.wait()}")
        for start, array in begun.values():
            array.data[:] = given[4 + start : 4 + start + len(array.data)]
        return int.from_bytes(given[:4], "little")

    def end(self):
        """It must end as its input does."""
        self.process.stdin.close()
        more, status = self.process.stdout.read(), self.process.wait()
        self.limit.cancel()
        if more or status:
            raise Difference(f"after the last call {len(more)} bytes came, and the program ended with status {status}")


class Calls:
    """Each call is made, and held to head.py; the first difference ends the test.

    Numbers say how much is lent of RAM, words and room; far names the loan that is elsewhere and longer by 2^32, if any is."""

    def __init__(self, made):
        self.made = made
        self.far = made.far
        self.seen = Counter()
        self.group = ""

    def hold(self, what, call, memory, answer, parts, arguments):
        """Makes a call, and compares it; parts are what it must write."""
        wanted = bytearray(memory.data)
        for name, value in parts.items():
            start = memory.at[name].start
            wanted[start : start + len(value)] = value
        try:
            number = self.made.make(call, arguments)
        except EOFError as why:
            raise Difference(f"{what}, {call}: {why}")
        if number != answer_number(answer):
            raise Difference(f"{what}, {call}: answered {number}, expected {answer_number(answer)}")
        if memory.data != wanted:
            raise Difference(f"{what}, {call}, answered {number}: {memory.difference(wanted)}")
        shown = f"{answer.kind} {answer.number}" if answer.kind in "XF" else answer.kind
        if shown == "X 1":
            self.seen["memory", "out of range" if memory.head() else "no state"] += 1
        self.seen[call, shown] += 1
        self.seen[f"{call} {self.group}", shown] += 1
        return answer

    def lend(self, array, far, name, n):
        """A loan as the arguments of a call."""
        return (Place(self.far, 0), n + Far.MORE) if name == far else (array.pointer(name), n)

    def begin(self, what, memory, record, udi, slots, built_in, ram, words, far=None):
        memory.make_stale()
        lent = {"record": record, "ram": memory["ram"][:ram], "words": memory.words(words)}
        if far:
            lent[far] = Long(len(lent[far]) + Far.MORE)
        answer, head = begin(lent["record"], udi, slots, built_in, lent["ram"], lent["words"])
        parts = {} if answer.kind == "X" else begin_parts(answer, head, **lent)
        array = holding(record=record, udi=udi, slot0=slots[0].flash, slot1=slots[1].flash, built_in=built_in)
        before, m, r = bytes(array.data), memory.pointer, array.pointer
        call = [m("numbers"), m("bytes"), *self.lend(array, far, "record", len(record)), r("udi")]
        call += [x for k in (0, 1) for x in (r(f"slot{k}"), len(slots[k].flash), slots[k].size)]
        call += [r("built_in"), *self.lend(memory, far, "ram", ram), *self.lend(memory, far, "words", words), *map(m, STARTING)]
        self.hold(what, "begin", memory, answer, parts, call)
        if far:
            self.far.take(what, lent[far].front)
        if array.data != before:
            raise Difference(f"{what}, begin: {array.difference(before)}")
        return answer

    def gather(self, what, memory, byte):
        head, m = memory.head(), memory.pointer
        answer = head.gather(byte) if head else Answer("X", 1)
        parts = {} if answer.kind == "X" else state_parts(head)
        return self.hold(what, "gather", memory, answer, parts, [m("numbers"), m("bytes"), byte])

    def act(self, what, memory, room, ram, words, far=None):
        memory.make_stale()
        head, m = memory.head(), memory.pointer
        lent = {"room": memory["room"][:room], "ram": memory["ram"][:ram], "words": memory.words(words)}
        if far:
            lent[far] = Long(len(lent[far]) + Far.MORE)
        answer = head.act(*lent.values()) if head else Answer("X", 1)
        parts = {} if answer.kind == "X" else act_parts(answer, head, **lent)
        lengths = {"room": room, "ram": ram, "words": words}
        loans = [x for name, n in lengths.items() for x in self.lend(memory, far, name, n)]
        call = [m("numbers"), m("bytes"), *loans, m("reply_len"), *map(m, STARTING)]
        self.hold(what, "act", memory, answer, parts, call)
        if far:
            self.far.take(what, lent[far].front)
        return answer

    def reset(self, what, memory, kind, mask, far=None, **lengths):
        """Memory is an array with a part for each pointer. Lengths are as they must be, but for those that are given."""
        lengths = dict(cdi=32, seed=32, data=data_length(mask), record=RECORD) | lengths
        lent = {name: memory[name][:n] for name, n in lengths.items()}
        if far:
            lent[far] = Long(len(lent[far]) + Far.MORE)
        digests = memory["first"], memory["second"]
        answer = reset(lent["cdi"], lent["seed"], kind, mask, *digests, lent["data"], lent["record"])
        parts = {} if answer.kind == "X" else {name: lent[name] for name in ("cdi", "record")}
        loans = {name: self.lend(memory, far, name, n) for name, n in lengths.items()}
        call = [*loans["cdi"], *loans["seed"], kind, mask, *map(memory.pointer, ["first", "second"]), *loans["data"], *loans["record"]]
        self.hold(what, "reset", memory, answer, parts, call)
        if far:
            self.far.take(what, b"")
        return answer
