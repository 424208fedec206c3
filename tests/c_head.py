#!/usr/bin/env python3
"""The head's C calls against head.py, call by call: programs from flash, sessions, lists of calls in random order, states made by
hand and memory of any bytes, also such as holds no state, resets, and everything lent with other lengths than it must have. The
answer, and every byte that was lent, must be the same, in accepted and refused calls alike.

    c_head.py                    builds the static library, and makes all calls
    c_head.py --library PATH     makes them to a shared library, such as one of bench/head.c, reset.c and reference.c
    c_head.py --riscv32 PATH     makes a part of them to a program of tests/calls_riscv32.c, such as tests/firmware.py builds
"""
import argparse
import itertools
import random
import struct
import subprocess
import sys
from copy import deepcopy
from pathlib import Path

from head import EMPTY_SLOTS, RAM_MOST, ZEROS, Frame, Head, Slot, blake2s
from lent import BYTES, NAMES, NUMBERS, PHASES, ROOM, WORDS, Calls, Difference, Library, Memory, Program, holding

TOP = Path(__file__).resolve().parent.parent
ARCHIVE = TOP / "target" / "staticlib" / "libabi.a"
LIBRARY = TOP / "target" / "tests" / "libabi.so"

# What every session has in common.
RAM = 300
ALL_RAM = RAM + 1  # what there is to lend from
UDS = [int.from_bytes(bytes(range(16 + 4 * i, 20 + 4 * i)), "little") for i in range(8)]
UDI = bytes(range(0xD0, 0xD8))
FIRST, SECOND = b"\xc3" * 32, b"\xd4" * 32
MEASURED_ID = b"\x3c" * 32
PROGRAM = bytes((7 * i + 3) % 256 for i in range(3 * 127))
COUNTING = bytes(range(0xA0, 0xC0))
FLASH = [bytes((11 * i + 5) % 256 for i in range(320)), bytes((13 * i + 9) % 256 for i in range(320))]
SLOTS = (Slot(FLASH[0], 200), Slot(FLASH[1], 170))
RANDOM_BEGINS = 3000
RANDOM_CALLS = 60000
RANDOM_MEMORIES = 20000
RANDOM_LISTS = 200
RANDOM_RESETS = 3000
EMULATOR = "qemu-riscv32"
FEWER = 3  # for the emulator, of the lists that take the longest, one in so many


def build():
    subprocess.run(["scripts/archive", "abi"], cwd=TOP, check=True)
    LIBRARY.parent.mkdir(parents=True, exist_ok=True)
    whole = ["-Wl,--whole-archive", ARCHIVE, "-Wl,--no-whole-archive"]
    subprocess.run(["gcc", "-shared", *whole, "-o", LIBRARY], check=True)


def some(calls, things):
    """All of them; for the emulator, which has no far memory, one in so many."""
    return things if calls.far else itertools.islice(things, 0, None, FEWER)


def waiting(**changes):
    """A head that waits, but for the changes. What it does not use is not zero, to show that it is not used."""
    return Head(**(dict(ram=RAM, udi=UDI, first=FIRST, second=SECOND, measured_id=MEASURED_ID) | changes))


# ---- what the server sends


def load(size, flag=0, uss=ZEROS):
    return (b"\x03" + size.to_bytes(4, "little") + bytes([flag]) + uss).ljust(128, b"\x5a")


def block(k, program=PROGRAM):
    return (b"\x05" + program[127 * k : 127 * k + 127]).ljust(128, b"\x5a")


def other(command):
    return bytes([command]).ljust(128, b"\x77")


def frame(header, body):
    """The header, and as much of the body as it announces."""
    return bytes([header]) + body[: Frame(header).length()]


def blocks():
    return frame(0x13, block(0)) + frame(0x53, block(1)) + frame(0x33, block(2))


# ---- a session


class Session:
    """A head with its memory, of which the fronts are lent; until begin is called the head is one that is made."""

    def __init__(self, what, calls, head=None, words=UDS, ram=ALL_RAM):
        self.what, self.calls = what, calls
        self.memory = Memory(b"\xaa" * ram, [*words, 0x5EED5EED])
        self.answer = None
        if head:
            self.memory.set_head(head)

    def begin(self, *given, **far):
        self.answer = self.calls.begin(self.what, self.memory, *given, **far)
        return self

    def gather(self, byte):
        self.answer = self.calls.gather(f"{self.what}, byte {byte:02x}", self.memory, byte)
        return self

    def act(self, room=ROOM, ram=RAM, words=8, **far):
        """With so much lent. What is not lent must stay too."""
        self.answer = self.calls.act(self.what, self.memory, room, ram, words, **far)
        return self

    def hear(self, byte, **lent):
        """Gathers a byte, and acts if a frame is whole with it."""
        self.gather(byte)
        return self.act(**lent) if self.answer.kind == "A" else self

    def send(self, data, **lent):
        """The bytes until the head ends: after that none is sent."""
        for byte in data:
            if not self.memory.ended():
                self.hear(byte, **lent)
        return self


def session(calls, what, data, **head):
    Session(what, calls, waiting(**head)).send(data)


# ---- sessions in which any digest is allowed


def client_session(calls):
    passed_over = load(50, 1, COUNTING)
    data = frame(0x10, other(0x01))
    data += frame(0x03, passed_over) + frame(0x30, other(0x01))
    data += frame(0x0B, passed_over) + frame(0x50, other(0x01))
    data += frame(0x7B, passed_over) + frame(0x70, other(0x01))
    data += frame(0x18, other(0x01)) + frame(0x00, other(0x10))
    data += frame(0x50, other(0x08))
    for size in [0, 301, 2**16 + 200, 2**24 + 200, 2**32 - 1]:
        data += frame(0x73, load(size, 1, COUNTING))
    data += frame(0x33, load(200))
    data += frame(0x13, block(0))
    data += frame(0x1B, block(2)) + frame(0x23, passed_over) + frame(0x08, other(0x01))
    data += frame(0x53, block(1))
    Session("type 4", calls, waiting()).send(data).gather(0x10).act()


def late_secret(calls):
    """The device secret is another at the starting call."""
    data = frame(0x13, load(100)) + frame(0x13, block(0))
    s = Session("late secret", calls, waiting()).send(data[:-1])
    s.memory.set_words([0xFEDCBA98] * 8)
    s.send(data[-1:])


def longest(calls):
    """A program of 131,072 bytes, whose digest the record allows, in as much RAM."""
    program = random.Random(3).randbytes(RAM_MOST)
    s = begun(calls, "longest", record_of(5, 0, blake2s(program)), ram=RAM_MOST)
    s.send(frame(0x13, load(RAM_MOST, 1, COUNTING)), ram=RAM_MOST)
    for k in range(1033):
        s.send(frame(0x13, block(k, program)), ram=RAM_MOST)


def loads(calls):
    session(calls, "query", frame(0x10, other(0x01)))
    client_session(calls)
    session(calls, "unfinished", frame(0x13, load(300)) + frame(0x13, block(0)) + frame(0x13, block(1))[:-1])
    session(calls, "passing over", frame(0x1B, load(50, 1, COUNTING))[:-1])
    late_secret(calls)
    if calls.far:  # the emulator would be handed all of its RAM at each byte
        longest(calls)
    for size in [1, 127, 128, 254, 255, 300]:
        session(calls, f"size {size}", frame(0x33, load(size)) + blocks())
    for flag in [0, 1, 2, 255]:
        for name, uss in [("zeros", ZEROS), ("counting", COUNTING)]:
            session(calls, f"{name}, flag {flag}", frame(0x33, load(130, flag, uss)) + blocks())


# ---- sessions in which the digest is tested, and chained ones


def wrong_bits(right):
    """Digests that differ in the last bit, and in the first."""
    return right[:31] + bytes([right[31] ^ 0x01]), bytes([right[0] ^ 0x80]) + right[1:]


def digests(calls):
    right = blake2s(PROGRAM[:200])
    last_bit, first_bit = wrong_bits(right)
    for what, flag, digest, chained in [
        ("right", 0, right, False),
        ("right, secret", 1, right, False),
        ("last bit wrong", 0, last_bit, False),
        ("first bit wrong", 1, first_bit, False),
        ("chained, any", 0, None, True),
        ("chained, any, secret", 1, None, True),
        ("chained, right", 1, right, True),
        ("chained, wrong", 1, last_bit, True),
        ("chained, measured_id", 0, MEASURED_ID, True),
    ]:
        data = frame(0x13, load(200, flag, COUNTING)) + blocks()
        session(calls, what, data, verify=digest is not None, first=digest or FIRST, chained=chained)


def two_digests(calls):
    """Every pair of digests, with mask bit 1 and without: either is enough, and without the bit only the first."""
    right = blake2s(PROGRAM[:200])
    digests = [right, *wrong_bits(right), ZEROS]
    data = frame(0x13, load(200)) + blocks()
    for verify, has_second, (j, one), (k, two) in itertools.product([0, 1], [0, 1], enumerate(digests), enumerate(digests)):
        what = f"digests {j} and {k}, verify {verify}, bit {has_second}"
        session(calls, what, data, verify=verify == 1, first=one, second=two, has_second=has_second == 1)


# ---- stops

LOADING = frame(0x13, load(200, 1, COUNTING))

# Header and command.
WAITING_STOPS = [
    [(0x90, 0x01), (0x14, 0x01), (0x9B, 0x01), (0x1C, 0x01), (0x80, 0x01), (0x04, 0x01), (0x8B, 0x01), (0x0F, 0x01)],
    [(0x10, 0x05), (0x13, 0x05)]
    + [(0x10, c) for c in [0x00, 0x02, 0x04, 0x06, 0x07, 0x09, 0xFF]]
    + [(0x33, 0x0A), (0x52, 0xFF), (0x71, 0x81)],
    [(0x11, 0x01), (0x12, 0x01), (0x13, 0x01), (0x31, 0x08), (0x32, 0x08), (0x33, 0x08), (0x10, 0x03), (0x11, 0x03), (0x12, 0x03)],
]
LOADING_STOPS = [
    [(0x93, 0x05), (0x17, 0x05)],
    [(0x10, 0x01), (0x10, 0x08), (0x13, 0x01)]
    + [(0x13, c) for c in [0x00, 0x02, 0x04, 0x06, 0x07, 0x09, 0xFF]]
    + [(0x31, 0x03), (0x10, 0x85)],
    [(0x10, 0x05), (0x11, 0x05), (0x12, 0x05)],
]


def stops(calls):
    for header, command in sum(WAITING_STOPS, []):
        session(calls, f"waiting {header:02x}{command:02x}", frame(header, other(command)))
    for header, command in sum(LOADING_STOPS, []):
        session(calls, f"loading {header:02x}{command:02x}", LOADING + frame(header, other(command)))
    session(calls, "second load", LOADING + frame(0x13, block(0)) + frame(0x13, load(100)))


# ---- begin


def begun(calls, what, record, udi=UDI, slots=SLOTS, built_in=FIRST, ram=RAM, words=8, uds=UDS, **far):
    """A session that begin opens, whatever it answers, on memory that holds no state before."""
    return Session(what, calls, words=uds, ram=max(ALL_RAM, ram)).begin(record, udi, slots, built_in, ram, words, **far)


def begin_with(calls, what, *given, **lent):
    """Begin, and both calls on what it leaves."""
    return begun(calls, f"begin: {what}", *given, **lent).act().gather(0x10)


def record_of(kind, mask=0, first=FIRST, second=SECOND):
    return struct.pack("<II32s32s32s152s", kind, mask, first, MEASURED_ID, second, PROGRAM)


def digest_of(slots, kind):
    """The digest of the program that a type loads."""
    slot = slots[kind % 2]
    return blake2s(slot.flash[: slot.size])


def begins(calls):
    types(calls)
    flash_sizes(calls)
    most_ram(calls)
    flash_digests(calls)
    masks(calls)
    begin_loans(calls)


def begin_right(calls, what, kind, slots, ram=RAM):
    """With the digest of the program that the type loads, built in and in the record."""
    right = digest_of(slots, kind)
    begin_with(calls, f"type {kind}, {what}", record_of(kind, 0, right), slots=slots, built_in=right, ram=ram)


def types(calls):
    for kind in [*range(8), 0x100, 0x104, 0x10005, 0x1000000, 0x2000003, 2**31, 2**32 - 1]:
        begin_right(calls, "two programs", kind, SLOTS)
        begin_right(calls, "empty slots", kind, EMPTY_SLOTS)


# ---- programs from flash


def near(length):
    """Sizes near the limits, which are the slot's length and the RAM's, and some that would be near them if a size were cut."""
    sizes = {0, 1, length - 1, length, length + 1, RAM - 1, RAM, RAM + 1, 2**16 + 1, 2**32, 2**32 + 1, 2**32 + length, 2**64 - 1}
    return sorted(sizes - {-1})


def slots_with(kind, slot):
    """Of the slots the one that the type loads is this one; the other has a program that fits."""
    return [SLOTS[0], slot] if kind % 2 else [slot, SLOTS[1]]


def flash_sizes(calls):
    """Slots that are shorter and longer than RAM; from type 4 on they are not looked at."""
    for kind, length in itertools.product([*range(7), 0x102, 2**32 - 1], [0, 1, 2, 200, RAM - 1, RAM, RAM + 1, 320]):
        for size in near(length):
            begin_right(calls, f"size {size}, slot {length}", kind, slots_with(kind, Slot(FLASH[kind % 2][:length], size)))


def most_ram(calls):
    flash = random.Random(2).randbytes(RAM_MOST + 1)
    sizes = [1, RAM_MOST - 1, RAM_MOST, RAM_MOST + 1]
    for kind, length, size in itertools.product(range(4), [RAM_MOST, RAM_MOST + 1], sizes):
        begin_right(calls, f"size {size}, slot {length}, most RAM", kind, slots_with(kind, Slot(flash[:length], size)), RAM_MOST)


def flash_digests(calls):
    """Every pair of a built-in and a recorded digest, and sets of the built-in and two recorded ones: each type tests the built-in one, the
    recorded ones, or none."""
    whole = [blake2s(flash) for flash in FLASH]
    for kind in range(4):
        right = digest_of(SLOTS, kind)
        digests = [right, *wrong_bits(right), digest_of(SLOTS, kind + 1), whole[kind % 2], MEASURED_ID, ZEROS]
        for mask, (j, built_in), (k, one) in itertools.product([0, 1], enumerate(digests), enumerate(digests)):
            begin_with(calls, f"type {kind}, mask {mask}, digests {j} and {k}", record_of(kind, mask, one), built_in=built_in)
        few = list(enumerate([right, digests[1], ZEROS]))
        for mask, (j, built_in), (k, one), (n, two) in itertools.product(range(4), few, few, few):
            what = f"type {kind}, mask {mask}, digests {j}, {k} and {n}"
            begin_with(calls, what, record_of(kind, mask, one, two), built_in=built_in)


def masks(calls):
    """Bits 0 and 1 count, for a start and for a client's session, and no other. The right digest is the first or the second."""
    rng = random.Random(1)
    bits = [0, 1, 2, 3, 4, 0x100, 0x200, 0x80000000, 0x80000001, 0xFFFFFFFC, 0xFFFFFFFD, 0xFFFFFFFE, 0xFFFFFFFF]
    for kind, mask, second in itertools.product(range(6), bits, [False, True]):
        right, uds = digest_of(SLOTS, kind), [rng.getrandbits(32) for _ in range(8)]
        digests = (FIRST, right) if second else (right, SECOND)
        record = record_of(kind, mask, *digests)[:104] + rng.randbytes(152)
        begin_with(calls, f"type {kind}, mask {mask:x}, second {second}", record, rng.randbytes(8), built_in=right, uds=uds)


def begin_loans(calls):
    """Every set of refusals 5, 6 and 7, of begins that would start, wait and stop; the most RAM and the least are taken."""
    for kind, words, length, ram in itertools.product(range(7), [7, 8, 9], [255, 256, 257], [0, 1, RAM, RAM_MOST, RAM_MOST + 1]):
        slots = [Slot(FLASH[0], 1), Slot(FLASH[1], 1)]
        right = digest_of(slots, kind)
        record = (record_of(kind, 0, right) + b"\0")[:length]
        what = f"type {kind}, record {length}, RAM {ram}, words {words}"
        begin_with(calls, what, record, slots=slots, built_in=right, ram=ram, words=words)
    for words, length in [(0, 256), (8, 0), (0, 0)]:
        begin_with(calls, f"record {length}, words {words}", record_of(4)[:length], words=words)
    for far in ["record", "ram", "words"] if calls.far else []:
        begin_with(calls, f"2^32 more of {far}", record_of(4), far=far)


def random_slot(rng, ram):
    """With a size that mostly fits."""
    flash = rng.randbytes(rng.choice([0, 1, ram, ram + 1, *rng.choices(range(320), k=12)]))
    most = min(len(flash), ram)
    edges = [0, most, most + 1, len(flash), 2**32 + most, rng.getrandbits(64)]
    return Slot(flash, rng.choice([rng.randint(min(1, most), most)] * 8 + edges))


def random_begins(calls):
    rng = random.Random(9)
    for k in some(calls, range(RANDOM_BEGINS)):
        kind, ram = rng.choice([0, 1, 2, 3] * 5 + [4, 5, 6, rng.getrandbits(32)]), rng.choice([RAM, rng.randint(1, RAM)])
        slots = [random_slot(rng, ram) for _ in range(2)]
        digests = [digest_of(slots, kind)] * 4 + [digest_of(slots, kind + 1), rng.randbytes(32)]
        mask, built_in, one, two = rng.choice([0, 1, 2, rng.getrandbits(32)]), *rng.choices(digests, k=3)
        data = struct.pack("<II32s32s32s153s", kind, mask, one, rng.randbytes(32), two, rng.randbytes(153))
        record = data[: rng.choice([256] * 30 + [255, 257])]
        lent = dict(ram=rng.choice([ram] * 30 + [0]), words=rng.choice([8] * 30 + [7, 9]))
        uds = [rng.getrandbits(32) for _ in range(8)]
        s = begun(calls, f"random begin {k}", record, rng.randbytes(8), slots, built_in, uds=uds, **lent)
        calls.seen["random begins", f"{s.answer.kind} of type {kind}"] += 1
        s.act(**random_loans(rng, ram)).gather(rng.randrange(256))


# ---- refused calls


def last_block(header=0x13, got=128, **changes):
    """A head whose last block is whole with the next byte; acting on it starts, and writes room, RAM and words."""
    changes = dict(phase="loading", size=100) | changes
    return waiting(frame=Frame(header, got, bytearray(block(0))), **changes)


def last_of_query(**changes):
    """A head in which a query is whole with the next byte, 0x01."""
    return waiting(frame=Frame(0x10, 1, bytearray(block(0))), **changes)


def refusals(calls):
    for ram in [0, 1, 131072, 131073, 2**16 + RAM, 2**24 + RAM, 2**31, 2**32 - 1]:
        both(calls, f"RAM {ram}", last_of_query(ram=ram))
    for phase in ["started", "stopped"]:
        both(calls, phase, last_block(phase=phase, size=0))
    borders(calls)
    numbers(calls)
    no_state(calls)
    loans(calls)
    combinations(calls)
    between_calls(calls)


def both(calls, what, head):
    """Either call on a head, and on it with one byte more of its frame."""
    later = deepcopy(head)
    later.frame.got += 1
    for h in [head, later]:
        Session(what, calls, h).hear(0x01)
        Session(what, calls, h).act()


def borders(calls):
    """How much of a frame has come: at most its body's length, and for the firmware one byte more, with which it is whole."""
    for header, phase in itertools.product(range(256), ["waiting", "loading"]):
        for got in sorted({0, 1, Frame(header).length() - 1, Frame(header).length(), Frame(header).length() + 1, 129, 254}):
            both(calls, f"header {header:02x}, {got} bytes", last_block(header, got, phase=phase))


def numbers(calls):
    """Size and block: while waiting any, and while loading near their limits, or such that 127 times the block is over 32 bits."""
    sizes = [0, 1, 127, 128, 254, 255, RAM - 1, RAM, RAM + 1, 2**31, 2**32 - 1]
    wrapping = [2**32 // 127, 2**32 // 127 + 1, 2**32 - 1]
    block_numbers = [0, 1, 2, 3, 1032, 1033, *wrapping]
    for phase, size, k in itertools.product(PHASES, sizes, block_numbers):
        both(calls, f"{phase}, size {size}, block {k}", last_block(phase=phase, size=size, block=k))
    for size, k in some(calls, itertools.product(sizes, block_numbers)):
        any_progress(calls, dict(size=size, block=k))


def any_progress(calls, progress):
    """What is left of size, block and user secret while waiting is of no effect, and stays until a load is taken."""
    data = frame(0x10, other(0x01)) + frame(0x08, other(0x01)) + frame(0x13, load(0, 1, COUNTING))
    data += frame(0x13, load(100, 0)) + blocks()
    for used, uss in itertools.product([False, True], [ZEROS, COUNTING]):
        head = waiting(uss_used=used, uss=uss, **progress)
        Session(f"waiting, {progress}, used {used}", calls, head).send(data)


def no_state(calls):
    """Numbers of phase and flags, of which the most are none."""
    for phase, flags in itertools.product([*range(6), 127, 128, 255], [*range(10), 15, 16, 128, 255]):
        for head in [last_block(), last_block(got=129), last_of_query()]:
            for made in [Session.gather, Session.act]:
                s = Session(f"phase {phase}, flags {flags}", calls, head)
                at = s.memory.at["bytes"].start + 130
                s.memory.data[at : at + 2] = bytes([phase, flags])
                made(s, *([0x01] if made is Session.gather else []))


def loans(calls):
    """Every length of what is lent, to an acting that starts."""
    for name, most in [("room", ROOM), ("ram", ALL_RAM), ("words", WORDS)]:
        for n in range(most + 1):
            Session(f"{name} {n}", calls, last_block()).hear(0x01, **{name: n})
    for name, n in [("room", 128), ("ram", RAM), ("words", 8)] if calls.far else []:
        Session(f"2^32 more of {name}", calls, last_block()).hear(0x01, **{name: n}, far=name)


def combinations(calls):
    """Every set of refusals that apply at once: 1, 2, 47 to both calls, and to acting also 3, 4, 5."""
    for one, two, turn in itertools.product([False, True], repeat=3):
        changes = dict(ram=0 if one else RAM, phase="stopped" if two else "loading")
        Session("refusals of gathering", calls, last_block(got=129 if turn else 128, **changes)).gather(0x01)
        for three, four, five in itertools.product([False, True], repeat=3):
            s = Session("refusals of acting", calls, last_block(got=128 if turn else 129, **changes))
            s.act(room=128 if three else 129, ram=changes["ram"] + four, words=7 if five else 8)


def between_calls(calls):
    """Refused calls within a frame, and when it is whole: the session goes on."""
    data = frame(0x13, load(100, 1, COUNTING)) + frame(0x13, block(0))
    few = [dict(room=128), dict(ram=299), dict(words=7)]
    s = Session("refused between calls", calls, waiting()).send(data[:-68])
    for lent in [*few, {}]:
        s.act(**lent)
    s.send(data[-68:-1]).gather(data[-1])
    for lent in few:
        s.gather(0x01).act(**lent)
    s.act()


# ---- random calls


def random_frame(rng, size):
    header = rng.choice([0x10, 0x11, 0x13, 0x53, 0x1B, 0x02, 0x14, 0x90, rng.randrange(256)])
    frames = [Frame(header, rng.choice([0, 1, 2, 3, 4, 5, 6, 32, 33, 34, 127, 128, 129, 130]))]
    frames += [Frame(), Frame(0x13, 128), Frame(0x33, 128), Frame(0x10, 1), Frame(0x13, 129), Frame(0x33, 129), Frame(0x10, 2)]
    f = rng.choice(frames)
    f.body[:] = rng.choice([load(size, rng.choice([0, 1, 2]), rng.randbytes(32)), block(0), rng.randbytes(128), bytes(128)])
    return f


def random_head(rng):
    """A state with every field near its limits, in range or not."""
    size = rng.choice([0, 1, 100, 127, 128, 254, 255, 299, 300, 301])
    ram = rng.choice([RAM] * 20 + [0, 1, 299, RAM_MOST, RAM_MOST + 1])
    f = random_frame(rng, size)
    verify, has_second, chained = (rng.random() < 0.5 for _ in range(3))
    head = waiting(ram=ram, verify=verify, has_second=has_second, chained=chained, frame=f, udi=rng.randbytes(8))
    head.phase = rng.choice(["waiting"] * 4 + ["loading"] * 6 + ["started", "stopped"])
    if head.phase == "loading" or rng.random() < 0.1:
        head.size, head.block = rng.choice([1, 127, 128, 255, 300, size]), rng.choice([0, 0, 1, 2, 3, 2**32 - 1])
        head.uss, head.uss_used = rng.choice([ZEROS, rng.randbytes(32)]), rng.random() < 0.5
    return head


def measured(head, body):
    """The digest that the program has if this is the body of its last block."""
    ram = bytearray(b"\xaa" * RAM)
    start = 127 * head.block
    ram[start : start + 127] = body[1:][: max(0, RAM - start)]
    return blake2s(ram[: head.size])


def random_loans(rng, ram):
    """Mostly as they must be for this length of RAM."""
    room, words = rng.choice([160] * 9 + [129, 128, 0]), rng.choice([8] * 9 + [7, 9])
    return dict(room=room, ram=rng.choice([ram] * 9 + [299, 301]) % 302, words=words)


def random_calls(calls):
    rng = random.Random(7)
    for k in some(calls, range(RANDOM_CALLS)):
        head = random_head(rng)
        byte = rng.choice([0x01, 0x03, 0x05, 0x08, 0x10, 0xAA, rng.randrange(256)])
        loans = random_loans(rng, head.ram)
        hears = rng.random() < 0.6
        if rng.random() < 0.5:
            digest = measured(head, bytes(head.frame.body[:-1]) + bytes([byte]) if hears else head.frame.body)
            setattr(head, rng.choice(["first", "first", "second"]), digest)
        s = Session(f"random call {k}", calls, head, [rng.randrange(2**32) for _ in range(8)])
        if hears:
            s.hear(byte, **loans)
        else:
            s.act(**loans)
        if head.verify and s.answer.kind == "S":
            which = "first" if s.answer.digest == head.first else "second"
            calls.seen["random calls", f"start by the {which}, bit {head.has_second:d}"] += 1


# ---- memory of any bytes


NEAR_FRAMES = [(0x13, 129), (0x33, 129), (0x10, 2), (0x10, 1), (0x13, 128), (0x1B, 128), (0x00, 1)]


def random_memory(rng, memory):
    """Any bytes; any but for some that are near those of a state; or those of a state but for one."""
    memory["numbers"], memory["bytes"] = rng.randbytes(4 * NUMBERS), rng.randbytes(BYTES)
    kind = rng.choice(["any", "near", "near", "near", "but one"])
    if kind == "near":
        size, k = rng.choice([1, 127, 128, rng.getrandbits(32)]), rng.choice([0, 0, 1, rng.getrandbits(32)])
        memory["numbers"] = struct.pack("<3I", RAM, size, k)
        header, got = rng.choice([*NEAR_FRAMES, *NEAR_FRAMES, (rng.randrange(256), rng.randrange(256))])
        command = rng.choice([b"\x01", b"\x03\x64\0\0\0\1", b"\x05", b"\x05", b"\x08", b""])
        small = bytes([header, got, rng.choice([0, 1, 1, 2, 3, 4]), rng.randrange(17)])
        memory["bytes"] = command + rng.randbytes(128 - len(command)) + small
    if kind == "but one":
        memory.set_head(random_head(rng))
        state = [*range(128, 132)] * 20 + [*range(BYTES)]
        places = [memory.at["bytes"].start + i for i in state] + [memory.at["numbers"].start + i for i in range(4 * NUMBERS)] * 5
        memory.data[rng.choice(places)] = rng.randrange(256)


def on_any(rng, calls, what):
    """A call on such memory."""
    memory = Memory(b"\xaa" * ALL_RAM, [rng.getrandbits(32) for _ in range(9)])
    random_memory(rng, memory)
    if rng.random() < 0.5:
        calls.gather(what, memory, rng.randrange(256))
    else:
        calls.act(what, memory, **random_loans(rng, RAM))


def random_memories(calls):
    rng = random.Random(6)
    for k in some(calls, range(RANDOM_MEMORIES)):
        on_any(rng, calls, f"memory {k}")


# ---- lists of calls in random order


def random_data(rng, size):
    """A load that is to start, among frames that do not matter, and sometimes with one that stops it or cut off; then a query."""
    uss = rng.choice([ZEROS, rng.randbytes(32)])
    frames = [(0x13, load(size, rng.choice([0, 1]), uss))] + [(0x13, block(k)) for k in range((size + 126) // 127)]
    frames[:0] = [(0x10, other(rng.choice([0x01, 0x08]))) for _ in range(rng.randrange(3))]
    if rng.random() < 0.3:
        frames.insert(0, (0x13, load(*rng.choice([(0, 1), (RAM + 1, 0), (size, 2)]))))
    for _ in range(rng.randrange(4)):
        frames.insert(rng.randrange(len(frames)), (rng.choice([0x00, 0x08, 0x18]) + rng.randrange(4), load(size)))
    if rng.random() < 0.5:
        header, command = rng.choice(sum(WAITING_STOPS + LOADING_STOPS, []))
        frames.insert(rng.randrange(len(frames)), (header, other(command)))
    data = b"".join(frame(header | rng.randrange(4) << 5, body) for header, body in frames)
    return data[: rng.randrange(len(data))] if rng.random() < 0.1 else data + b"\x10\x01"


def in_any_order(rng, s, data):
    """Gatherings and actings as they come, whether or not it is their turn: a byte is offered until it is taken. Calls on other
    memory come between: the library keeps nothing. Six calls follow the end."""
    gathers = rng.choice([0.6, 0.8, 0.95])
    at, after = 0, 0
    for _ in range(5 * len(data)):
        if rng.random() < 0.05:
            on_any(rng, s.calls, f"{s.what}, other memory")
        if rng.random() < gathers:
            s.gather(data[at])
            at += s.answer.kind != "X"
        else:
            if rng.random() < 0.3:
                s.memory.set_words([rng.randrange(2**32) for _ in range(8)])
            s.act(**random_loans(rng, RAM))
        after += s.memory.ended()
        if at == len(data) or after > 6:
            break


def random_lists(calls):
    rng = random.Random(8)
    for k in some(calls, range(RANDOM_LISTS)):
        size, kind, mask = rng.choice([1, 127, 128, 254, 255, 300]), rng.choice([4, 5]), rng.randrange(4)
        one, two = rng.choices([blake2s(PROGRAM[:size])] * 2 + [rng.randbytes(32)], k=2)
        record = record_of(kind, mask, one, two)[:104] + rng.randbytes(152)
        s = begun(calls, f"list {k}", record, rng.randbytes(8), uds=[rng.randrange(2**32) for _ in range(8)])
        if k % 2:
            s.memory["ram"] = rng.randbytes(RAM)
        in_any_order(rng, s, random_data(rng, size))
        phase = PHASES[s.memory["bytes"][130]]
        calls.seen["lists", phase] += 1
        if kind == 5 and mask & 2 and one != two and phase == "started":
            calls.seen["lists", "started by the second"] += two == blake2s(PROGRAM[:size])


# ---- resets

LOANS = dict(cdi=288, seed=288, data=288, record=288)  # what there is to lend from
LENGTHS = [0, 1, 31, 32, 33, 151, 152, 153, 183, 184, 185, 255, 256, 257]
NEXT_TYPES = [*range(8), 255, 256, 0x10004, 2**31, 2**32 - 1]
MASKS = [*range(8), 0x100, 0x101, 0x102, 0x200, 0x10001, 0x80000000, 0x80000003, 0xFFFFFFFC, 0xFFFFFFFD, 0xFFFFFFFE, 0xFFFFFFFF]


def reset_with(rng, calls, what, kind, mask, **lengths):
    """A reset with any bytes in all that it is lent, and behind it."""
    parts = {name: rng.randbytes(n) for name, n in (LOANS | dict(first=32, second=32)).items()}
    answer = calls.reset(f"reset: {what}, type {kind}, mask {mask:x}, {lengths}", holding(**parts), kind, mask, **lengths)
    if answer.kind == "W":
        calls.seen["accepted resets", f"type {kind}"] += 1
        calls.seen["accepted resets", f"mask ..{mask & 3:02b}"] += 1


def resets(calls):
    rng = random.Random(10)
    for kind, mask in itertools.product(NEXT_TYPES, [*MASKS, *(rng.getrandbits(32) for _ in range(8))]):
        reset_with(rng, calls, "masks", kind, mask)
    reset_loans(rng, calls)
    for k in some(calls, range(RANDOM_RESETS)):
        kind, mask = rng.choice([*range(6)] * 4 + [6, rng.getrandbits(32)]), rng.getrandbits(32)
        wrong = {name: rng.choice([*LENGTHS, rng.randrange(n + 1)]) for name, n in LOANS.items() if rng.random() < 0.1}
        reset_with(rng, calls, f"random {k}", kind, mask, **wrong)


def reset_loans(rng, calls):
    """Every length of each loan, every set of refusals, and lengths of one loan that are right for another."""
    for (name, most), mask in itertools.product(LOANS.items(), range(4)):
        for n in range(most + 1):
            reset_with(rng, calls, "a length", 5, mask, **{name: n})
        for kind, n in itertools.product([0, 6, 2**32 - 1], LENGTHS):
            reset_with(rng, calls, "a length", kind, mask, **{name: n})
    near = [151, 152, 153, 183, 184, 185]
    for kind, mask, cdi, seed, data, record in itertools.product([4, 6], range(4), [31, 32, 33], [31, 32, 33], near, [255, 256, 257]):
        reset_with(rng, calls, "lengths", kind, mask, cdi=cdi, seed=seed, data=data, record=record)
    for name, kind, mask in itertools.product(LOANS if calls.far else [], [4, 6], range(4)):
        reset_with(rng, calls, "2^32 more", kind, mask, far=name)


# What must come up, so that agreement says something.
GATHERS = ["W", "A", "X 1", "X 2", "X 47", "F 22"]
ACTS = ["W", "S", "X 1", "X 2", "X 47", "X 3", "X 4", "X 5", "F 23", "F 24", "F 25"]
KINDS = {
    "begin": ["W", "S", "X 5", "X 6", "X 7", "F 20", "F 25", "F 26"],
    "gather": GATHERS,
    "act": ACTS,
    "reset": ["W", "X 44", "X 45", "X 46"],
    "accepted resets": [f"type {kind}" for kind in range(6)] + [f"mask ..{bits:02b}" for bits in range(4)],
    "random begins": [f"{answer} of type {kind}" for kind in range(4) for answer in "SF"],
    "random calls": ["start by the first, bit 0", "start by the first, bit 1", "start by the second, bit 1"],
    "memory": ["no state", "out of range"],
    "gather on any memory": GATHERS,
    "act on any memory": ACTS,
    "lists": [*PHASES, "started by the second"],
    "gather in lists": GATHERS,
    "act in lists": ACTS,
}
PARTS = {begins: "", loads: "", digests: "", two_digests: "", stops: "", refusals: "", random_begins: "", random_calls: ""}
PARTS |= {random_memories: "on any memory", random_lists: "in lists", resets: ""}


def main(made):
    calls = Calls(made)
    for part, group in PARTS.items():
        calls.group = group
        part(calls)
    made.end()
    seen = calls.seen
    print(f"c_head: {sum(seen[call, k] for call in NAMES for k in KINDS[call])} calls")
    for name, kinds in KINDS.items():
        print(f"  {name}: " + ", ".join(f"{seen[name, k]} {k}" for k in kinds))
    missing = [f"{name}: {k}" for name, kinds in KINDS.items() for k in kinds if not seen[name, k]]
    for what in missing:
        print(f"c_head: never came up: {what}")
    return 1 if missing else 0


if __name__ == "__main__":
    parser = argparse.ArgumentParser(description=__doc__, formatter_class=argparse.RawDescriptionHelpFormatter)
    parser.add_argument("--library", type=Path)
    parser.add_argument("--riscv32", type=Path)
    args = parser.parse_args()
    try:
        if args.library is args.riscv32 is None:
            build()
        sys.exit(main(Program([EMULATOR, args.riscv32]) if args.riscv32 else Library(args.library or LIBRARY)))
    except (Difference, OSError, subprocess.CalledProcessError) as why:
        sys.exit(f"c_head: {why}")
