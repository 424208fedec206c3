#!/usr/bin/env python3
"""The exported spool calls against the independent program (spools.py): builds the static library, links it to tests/c_spool.c, and
compares every answer, and every byte that a call was lent to write, on good, damaged and mended spools and on refused calls. Prints
how often each answer and each entry of a report came up, and fails if one never did."""
import random
import struct
import subprocess
import sys
import zlib
from collections import Counter
from itertools import chain, combinations, product
from pathlib import Path
from typing import NamedTuple

import driven
import spools
from spools import BLOCK, CAPACITY, PROGRAM_MOST, SPOOL_MOST, block, parts, sealed, spool_of

TOP = Path(__file__).resolve().parent.parent
PROGRAM = TOP / "target" / "tests" / "c_spool"
ARCHIVE = TOP / "target" / "staticlib" / "libspool.a"
GUARD, BEFORE, BEHIND = b"\xaa", 16, 15  # how many guard bytes are before and at most behind what is lent
COUNT_STALE = 0xAAAAAAAAAAAAAAAA
MOST = 1 << 20  # what is longer has no guard bytes, and is zeros behind its first block
HEX_MOST = 128
RUN = 1 << 25  # about how many bytes the C program is given at once
LONG = 2**32

BLOCKS_MOST = SPOOL_MOST // BLOCK
LENGTHS = [0, 1, 2, 471, 472, 473, 943, 944, 945, 130743, 130744, 130745, 131071, 131072, 131073]
COUNTS = [0, 1, 2, 327, 328, 329, 471, 472, 473, 474, 480, 512, 472 + 2**8, 2**16, 472 + 2**16, 472 + 2**24, 1 + 2**31, 2**32 - 1]
RANDOM_LISTS, LONG_LISTS = 4000, 24

ANSWERS = {"read": (0, 50, 51, 52, 53, 54), "look": (0, 50, 51, 52, 53), "write": (0, 40, 54), "salvage": (0, 50, 54)}
ENTRIES = ["kept", "replaced", "lost"]


def build():
    subprocess.run(["scripts/archive", "spool"], cwd=TOP, check=True)
    PROGRAM.parent.mkdir(parents=True, exist_ok=True)
    options = ["-O2", "-Wall", "-Wextra", "-Werror", "-I", "include"]
    subprocess.run(["gcc", *options, "tests/c_spool.c", ARCHIVE, "-o", PROGRAM], cwd=TOP, check=True)


# ---- the calls


class Long(NamedTuple):
    """So many bytes, over MOST: a block, and zeros."""

    size: int
    front: bytes

    def known(self):
        """What the independent program is given for it: fewer zeros, which are as well more than it takes or more than it looks at."""
        return self.front + bytes(MOST + self.size % BLOCK)


def size(part):
    return part if isinstance(part, int) else part.size if isinstance(part, Long) else len(part)


def known(part):
    return part.known() if isinstance(part, Long) else part


def room_of(n):
    return GUARD * n if n <= MOST else bytes(MOST)


def shown(data, n, behind):
    """Memory as it is printed that holds these bytes, of which n are lent."""
    whole = GUARD * BEFORE + data + GUARD * behind if n <= MOST else data[:MOST]
    return whole.hex() if len(whole) <= HEX_MOST else f"{zlib.crc32(whole):08x}"


def count_shown(number, count):
    return (GUARD * 8 + struct.pack("<Q", COUNT_STALE if number else count) + GUARD * 8).hex()


class Calls:
    """Calls for runs of the C program, and the line that each must print. What is lent to be read is bytes, or a Long; room is a length."""

    def __init__(self):
        self.data = []
        self.wanted = []
        self.held = 0  # how long the data is
        self.made = 0
        self.seen = Counter()
        self.rng = random.Random(512)

    def add(self, call, *given):
        """Adds a call with these bytes and numbers. Gives how many guard bytes are behind what is lent: none, for half of the calls."""
        behind = max(0, self.rng.randrange(-BEHIND, BEHIND + 1))
        lengths = [*map(size, given), 0][:3]
        lent = [part.front if isinstance(part, Long) else part for part in given if not isinstance(part, int)]
        self.data += [struct.pack("<cB6x3Q", call, behind, *lengths), *lent]
        self.held += sum(map(len, lent))
        return behind

    def want(self, name, number, what, given, *printed):
        self.seen[name, number] += 1
        lengths = ", ".join(str(size(part)) for part in given)
        self.wanted.append((f"{name} ({lengths}), {what}", " ".join([str(number), *printed])))
        if self.held > RUN:
            self.run()

    def read(self, what, spool, room):
        behind = self.add(b"R", spool, room)
        number, count, after = spools.read(known(spool), room_of(room))
        self.want("read", number, what, (spool, room), count_shown(number, count), shown(after, room, behind))

    def write(self, what, program, room):
        behind = self.add(b"W", program, room)
        number, count, after = spools.write(known(program), room_of(room))
        self.want("write", number, what, (program, room), count_shown(number, count), shown(after, room, behind))

    def look(self, what, spool, place):
        self.add(b"L", spool, place)
        self.want("look", spools.look(known(spool), place), what, (spool, place))

    def salvage(self, what, spool, spares, report):
        """The spool that it leaves, and what it reports of the blocks."""
        behind = self.add(b"S", spool, spares, report)
        number, mended, after = spools.salvage(known(spool), known(spares), room_of(report))
        self.want("salvage", number, what, (spool, spares, report), shown(mended, size(spool), behind), shown(after, report, behind))
        entries = b"" if number else after[: len(mended) // BLOCK]
        self.seen.update(ENTRIES[entry] for entry in entries)
        return mended, entries

    def run(self):
        driven.lines("c_spool", PROGRAM, self.data, self.wanted)
        self.made += len(self.wanted)
        self.data, self.wanted, self.held = [], [], 0


# ---- spools, and what is wrong with them


def room_for(spool):
    return CAPACITY * (len(spool) // BLOCK)


def blocks_of(rng, n, used):
    """Of a program that takes n blocks, of which the last uses so many bytes."""
    return parts(spool_of(rng.randbytes(CAPACITY * (n - 1) + used)), BLOCK)


def replaced(blocks, place, one):
    return b"".join([*blocks[:place], one, *blocks[place + 1 :]])


def flipped(one, at, bits):
    return one[:at] + bytes([one[at] ^ bits]) + one[at + 1 :]


def resealed(one):
    return sealed(one[:480])


def bad(rng, place, used, faults):
    """The block of a place that uses so many bytes, with these faults."""
    number = place ^ 1 << rng.randrange(32) if 52 in faults else place
    part, count = rng.randbytes(used), used
    if 53 in faults and used < CAPACITY and rng.randrange(2):
        part = part.ljust(rng.randrange(used, CAPACITY), b"\0") + bytes([rng.randrange(1, 256)])
    elif 53 in faults:
        count = rng.choice([0, 473, 2**32 - 1, used + 2**16, used + 2**24])
    one = block(number, part, count)
    return flipped(one, rng.randrange(480, BLOCK), 1 << rng.randrange(8)) if 51 in faults else one


def every_way(calls, what, spool, place, *spares):
    """A spool read in just the room that it takes, looked at, and mended with each of these spares; and what is mended is read."""
    calls.read(what, spool, room_for(spool))
    calls.look(what, spool, place)
    for blocks in spares:
        mended, entries = calls.salvage(what, spool, b"".join(blocks), len(spool) // BLOCK)
        if mended != spool:
            calls.read(f"{what}, mended", mended, room_for(mended))
        if (spools.LOST in entries) == (spools.read(mended, bytes(room_for(mended)))[0] == 0):
            sys.exit(f"c_spool: {what}: by the independent program a spool must read exactly where no block is lost")


# ---- the cases, in groups


def around(rng, n):
    """Too few bytes, just enough and more."""
    return sorted({0, max(0, n - 1), n, n + 1, n + rng.randrange(2, 700)})


def programs(calls, rng):
    short = [rng.randrange(1, 5000) for _ in range(200)]
    long = [rng.randrange(1, PROGRAM_MOST) for _ in range(10)]
    for n in LENGTHS + short + long:
        what = f"a program of {n} bytes"
        program = rng.choice([rng.randbytes(n), bytes(n)]) if n in short else rng.randbytes(n)
        spool = spool_of(program)
        for room in around(rng, len(spool)):
            calls.write(what, program, room)
        for room in {*around(rng, room_for(spool)), n}:
            calls.read(what, spool, room)
        calls.salvage(what, spool, b"", len(spool) // BLOCK)


def lengths(calls, rng):
    """Lengths that no spool or no spares have: they are refused before room and report are looked at."""
    long, spares = b"".join(blocks_of(rng, 281, 1)), b"".join(blocks_of(rng, 4, 1))
    ends = [n + more for n in (BLOCK, 2 * BLOCK, 3 * BLOCK) for more in (-1, 0, 1)]
    most = [SPOOL_MOST + more for more in (-BLOCK, -1, 0, 1, BLOCK - 1, BLOCK, BLOCK + 1, 2 * BLOCK)]
    for n in (0, 1, 2, 256, 471, 472, 473, *ends, *most):
        what, spool, blocks = f"a spool of {n} bytes", long[:n], n // BLOCK
        for room in (0, CAPACITY * blocks, CAPACITY * (blocks + 1)):
            calls.read(what, spool, room)
        for place in (0, max(0, blocks - 1), blocks, blocks + 1):
            calls.look(what, spool, place)
        for m in (0, 1, BLOCK, 3 * BLOCK) if n > 4 * BLOCK else (0, 1, 32, 472, 480, *ends):
            for report in {0, max(0, blocks - 1), blocks, blocks + 1, blocks + 9}:
                calls.salvage(f"{what}, {m} of spares", spool, spares[:m], report)


def last_places(calls, rng):
    """Block 277 uses at most 328 bytes, and block 276, where it is the last, 472."""
    for n in (BLOCKS_MOST - 1, BLOCKS_MOST):
        front = blocks_of(rng, n - 1, CAPACITY)
        for count in (0, 1, 2, 327, 328, 329, 330, 471, 472, 473):
            what = f"{n} blocks, the last with {count} bytes"
            last, other = (block(n - 1, rng.randbytes(min(count, CAPACITY)), count) for _ in range(2))
            good = block(n - 1, rng.randbytes(328))
            every_way(calls, what, b"".join([*front, last]), n - 1, [], [other, good])
            calls.salvage(f"{what}, as a spare", b"".join([*front, bytes(BLOCK)]), last + other, n + 1)


def changed_bytes(calls, rng):
    """Each byte of each of three blocks, and each bit of number, count and check, with the check as it was and made again."""
    for used in (1, 100, 472):
        good = blocks_of(rng, 3, used)
        for place, at in product(range(3), range(BLOCK)):
            for bit in range(8) if at < 8 or 480 <= at else [rng.randrange(8)]:
                broken = flipped(good[place], at, 1 << bit)
                for one, how in ((broken, "as it was"), (resealed(broken), "made again")):
                    if one != good[place]:
                        what = f"bit {bit} of byte {at} of block {place}, {used} in the last, the check {how}"
                        every_way(calls, what, replaced(good, place, one), place, rng.choice([[], [one], [one, good[place]], good]))


def said_wrongly(calls, rng):
    """Numbers and counts that are others, with a right check; unused bytes are zero, or not."""
    for n, used in ((1, 5), (1, 472), (2, 1), (3, 471), (3, 472)):
        good = blocks_of(rng, n, used)
        for place in range(n):
            for number in {place + 1, place - 1, place + 2**8, place + 2**24, *(place ^ 1 << bit for bit in range(32))}:
                one = resealed(struct.pack("<I", number % 2**32) + good[place][4:])
                every_way(calls, f"number {number} at {place} of {n}", replaced(good, place, one), place, [], [good[place]], [one])
            for count, zero in product(COUNTS, (True, False)):
                part = rng.randbytes(min(count, CAPACITY) if zero else CAPACITY)
                one, what = block(place, part, count), f"count {count} at {place} of {n}"
                every_way(calls, what, replaced(good, place, one), place, [], [one, good[place]])
                calls.salvage(f"{what}, as a spare", replaced(good, place, bytes(BLOCK)), one, n)
    good = blocks_of(rng, BLOCKS_MOST, 300)
    for place in (0, 1, 255, 256, 257, 276, 277):
        for number in (place - 1, place + 1, place ^ 2**8, place + 2**24):
            one = resealed(struct.pack("<I", number % 2**32) + good[place][4:])
            every_way(calls, f"number {number} at {place} of {BLOCKS_MOST}", replaced(good, place, one), place, [one, good[place]])
        for count in (0, 471, 473, 2**32 - 1):
            one = block(place, rng.randbytes(min(count, CAPACITY)), count)
            every_way(calls, f"count {count} at {place} of {BLOCKS_MOST}", replaced(good, place, one), place, [])


def faults(calls, rng):
    """Every set of faults in each of three blocks: the earliest bad block's first one is answered."""
    sets = list(chain.from_iterable(combinations((51, 52, 53), n) for n in range(4)))
    for used, of_each in product((1, 100, 472), product(sets, repeat=3)):
        good, uses = blocks_of(rng, 3, used), (CAPACITY, CAPACITY, used)
        blocks = [bad(rng, place, uses[place], found) if found else good[place] for place, found in enumerate(of_each)]
        spool, what = b"".join(blocks), f"faults {of_each}, {used} in the last"
        every_way(calls, what, spool, 0, [], [*blocks, *rng.sample(good, 2)])
        for place in (1, 2):
            calls.look(what, spool, place)


def exchanged(calls, rng):
    """Two blocks in each other's place, one block twice, and blocks of another program that are good where they are."""
    for used in (1, 472):
        good, other = blocks_of(rng, 5, used), blocks_of(rng, 5, used)
        for i, j in product(range(5), repeat=2):
            twice = replaced(good, i, good[j])
            every_way(calls, f"block {j} also at {i}", twice, i, [], good, good[j:], good[i:])
            both = replaced(parts(twice, BLOCK), j, good[i])
            every_way(calls, f"blocks {i} and {j} exchanged", both, j, [], good[::-1], [good[i]], [good[j]], [other[j], good[j]])
        for choice in product((good, other), repeat=5):
            mixed = [of[place] for place, of in enumerate(choice)]
            every_way(calls, "blocks of two programs", b"".join(mixed), 4, [], good)
            hole = rng.randrange(5)
            every_way(calls, "and one damaged", replaced(mixed, hole, rng.randbytes(BLOCK)), hole, good + other, other + good, [other[hole]])


def spare_lists(calls, rng):
    """Every set of bad places in four blocks, mended with spares in several orders."""
    for used in (77, 472):
        good, other = blocks_of(rng, 4, used), blocks_of(rng, 4, used)
        longer, shorter = blocks_of(rng, 6, 200), blocks_of(rng, 3, 30)
        torn = [flipped(one, rng.randrange(BLOCK), 1) for one in good]
        lists = {
            "none": [],
            "all": good,
            "in another order": rng.sample(good, 4),
            "backwards": good[::-1],
            "two for each place": other + good,
            "two for each place, the other way": good + other,
            "one block often": good[1:2] * 5,
            "without the first": good[1:],
            "without the last": good[:-1],
            "torn ones": torn,
            "torn ones first": [*torn, *rng.sample(other, 4)],
            "of a longer program": longer,
            "of a shorter program": shorter,
            "of a shorter program first": [*shorter, *longer, *good],
            "good only at the last place": [block(place, rng.randbytes(3)) for place in range(4)],
            "of no program": [bytes(BLOCK), GUARD * BLOCK, rng.randbytes(BLOCK)],
        }
        for holes, (name, spares) in product(product((False, True), repeat=4), lists.items()):
            spool = b"".join(bad(rng, k, 472, {rng.choice([51, 52, 53])}) if hole else good[k] for k, hole in enumerate(holes))
            what = f"bad places {holes}, spares {name}"
            every_way(calls, what, spool, rng.randrange(4), spares)
            for report in (0, 3, 5, 40):
                calls.salvage(what, spool, b"".join(spares), report)


def looks(calls, rng):
    """Each place and those beyond, also where 512 times the place is over 64 bits, or its low 32 bits are a place."""
    for n in (1, 2, 3, 5):
        good = blocks_of(rng, n, rng.randrange(1, 473))
        torn = replaced(good, rng.randrange(n), rng.randbytes(BLOCK))
        far = [top + more for top in (2**32, 2**54, 2**55, 2**63, 2**64 - 512) for more in (0, 1, n - 1, n)]
        for spool, place in product((b"".join(good), torn), [*range(n + 4), *far, 2**63 - 1, 2**64 - 1]):
            calls.look(f"a look at {place} of {n}", spool, place)
    for n in (277, 278):
        spool = b"".join(blocks_of(rng, n, 328))
        for place in (0, 1, 254, 255, 256, 257, 275, 276, 277, 278, 279):
            calls.look(f"a look at {place} of {n}", spool, place)


def damaged(rng, blocks, others):
    """Blocks with one damage more."""
    blocks, place, n = list(blocks), rng.randrange(len(blocks)), len(blocks)
    one = blocks[place]
    kind = rng.randrange(9)
    if kind == 0:
        blocks[place] = flipped(one, rng.randrange(BLOCK), 1 << rng.randrange(8))
    elif kind == 1:
        blocks[place] = resealed(flipped(one, rng.randrange(480), 1 << rng.randrange(8)))
    elif kind == 2:
        blocks[place] = resealed(flipped(one, rng.randrange(8), 1 << rng.randrange(8)))
    elif kind == 3:
        blocks[place] = block(place, rng.randbytes(rng.choice([1, 328, 329, 471, 472])), rng.choice([None, None, *COUNTS]))
    elif kind == 4:
        j = rng.randrange(n)
        blocks[place], blocks[j] = blocks[j], blocks[place]
    elif kind == 5:
        blocks[place] = rng.choice(others)
    elif kind == 6:
        blocks[place] = rng.choice([bytes(BLOCK), GUARD * BLOCK, rng.randbytes(BLOCK)])
    elif kind == 7:
        cut = rng.randrange(1, BLOCK)
        blocks[place] = one[:cut] + bytes(BLOCK - cut)
    else:
        blocks[place:] = [*blocks[place + 1 :], one]
    return blocks


def random_list(calls, seed, n):
    """A spool of n blocks, damaged more and more, with spares of it, of another and of neither."""
    rng = random.Random(seed)
    used = rng.choice([1, 328, 471, 472, rng.randrange(1, 473)]) if n < BLOCKS_MOST else rng.choice([1, 328, rng.randrange(1, 329)])
    good, others = blocks_of(rng, n, used), blocks_of(rng, n + rng.randrange(2), rng.randrange(1, 473))
    blocks = good
    for turn in range(rng.randrange(1, 4)):
        what = f"seed {seed}, turn {turn}"
        for _ in range(rng.choice([0, 1, 1, 2, n])):
            blocks = damaged(rng, blocks, others)
        spool, most = b"".join(blocks), max(n, 8)
        many = min(most, 12) if n > 12 else rng.randrange(most)
        holes = [one for place, one in enumerate(good) if blocks[place] != one] * rng.randrange(2)
        spares = [*holes[:12], *rng.choices(good + others + blocks, k=many)]
        rng.shuffle(spares)
        if rng.randrange(2):
            spares = damaged(rng, spares, others) if spares else spares
        every_way(calls, what, spool, rng.randrange(n + 1), spares)
        calls.read(what, spool, room_for(spool) + rng.randrange(-9, 90))
        calls.salvage(what, spool, b"".join(spares) + bytes(rng.choice([0, 0, 0, 1])), max(0, n + rng.randrange(-1, 9)))
        if rng.randrange(4) == 0:
            cut = rng.randrange(len(spool))
            calls.read(f"{what}, cut", spool[:cut], room_for(spool))


def random_lists(calls, rng):
    for _ in range(RANDOM_LISTS):
        random_list(calls, rng.randrange(2**32), rng.randrange(1, 7))
    for _ in range(LONG_LISTS):
        random_list(calls, rng.randrange(2**32), rng.choice([BLOCKS_MOST, rng.randrange(7, BLOCKS_MOST + 1)]))


def long_loans(calls, rng):
    """Lengths of over 32 bits, of which the low ones would do, or would not. No call looks at more than the first of spares that long."""
    program = rng.randbytes(700)
    spool = spool_of(program)
    good = parts(spool, BLOCK)
    torn = replaced(good, 1, bytes(BLOCK))
    for n in (LONG, LONG + 1, LONG + 700, LONG + PROGRAM_MOST):
        calls.write("a long program", Long(n, good[0]), SPOOL_MOST)
    for room in (LONG, LONG + 1, LONG + len(spool) - 1, LONG + len(spool)):
        calls.write("a long room", program, room)
        calls.read("a long room", spool, room)
    for n in (LONG, LONG + 1, LONG + BLOCK, LONG + SPOOL_MOST):
        long = Long(n, block(0, program[:CAPACITY]))
        calls.read("a long spool", long, SPOOL_MOST)
        for place in (0, 1, n // BLOCK - 1):
            calls.look(f"a long spool, and place {place}", long, place)
        calls.salvage("a long spool", long, spool, BLOCKS_MOST)
        for of in (spool, torn):
            calls.salvage("long spares", of, Long(n, good[1]), 2)
            calls.salvage("long spares, and a short report", of, Long(n, good[1]), 1)
            calls.salvage("a long report", of, spool, n)


def main():
    build()
    calls, rng = Calls(), random.Random(10)
    for group in (programs, lengths, last_places, changed_bytes, said_wrongly, faults, exchanged, spare_lists, looks, random_lists, long_loans):
        group(calls, rng)
    calls.run()
    told = [f"{name} " + ", ".join(f"{number}: {calls.seen[name, number]}" for number in numbers) for name, numbers in ANSWERS.items()]
    told += [f"{entry}: {calls.seen[entry]}" for entry in ENTRIES]
    print(f"c_spool: {calls.made} calls;", "; ".join(told))
    needed = {(name, number) for name, numbers in ANSWERS.items() for number in numbers} | set(ENTRIES)
    return int(any(calls.seen[kind] == 0 for kind in needed))


if __name__ == "__main__":
    sys.exit(main())
