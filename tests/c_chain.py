#!/usr/bin/env python3
"""Chains of resets and starts, through the head's C calls. A chain is a direct start and then links: the running program resets the
head, which starts the next one, from flash or in a client's session, and so on. After each start the CDI must be that of a fold by
hashlib, which gets the first CDI, and for each link seed, device secret and user secret, if there is one.

Then chains are played again: where the first program is another, or a seed, a user secret or a device secret of one link, the last CDI
must be another too; where all else is, it must be the same. And a link without RESET_SEED makes the CDI that of a direct start.

Nothing here asks head.py what a call does: the record goes from reset to begin, and the CDI from a start to reset, as they are.

    c_chain.py                    builds the static library, and plays all chains
    c_chain.py --library PATH     plays them to a shared library, such as one of bench/head.c, reset.c and reference.c
"""
import argparse
import random
import struct
import subprocess
import sys
from collections import Counter
from dataclasses import dataclass, replace
from pathlib import Path

import server
from c_head import LIBRARY, build
from head import RECORD, ZEROS, Slot, blake2s, next_cdi, number
from lent import Array, Difference, Library, Memory, holding

CHAINS = 400
MOST_LINKS = 12
FLASH, CLIENT = range(4), range(4, 6)
VERIFYING = [2, 3, 5]  # by the record: type 0 takes what is built in
CONTINUE, WHOLE, STARTED = 0, 64, 65
RESET_SEED, HAS_SECOND = 1, 2
VERIFY_FLAG, CHAINED_FLAG, SECOND_FLAG = 1, 2, 8  # in byte 131 of a state


@dataclass(frozen=True)
class Link:
    """A start, and what the reset before it is given; the first start of a chain has a record that was written by hand."""

    kind: int
    mask: int
    seed: bytes
    one: bytes  # the digests
    two: bytes
    data: bytes
    program: bytes
    ram: bytes  # what is there before
    other: bytes  # what else is in flash
    uds: bytes
    uss: bytes | None  # only a client sends one

    def direct_cdi(self):
        return blake2s(self.uds + bytes([self.uss is not None]) + blake2s(self.program) + (self.uss or b""))

    def second_counts(self):
        return self.kind in VERIFYING and self.one != blake2s(self.program)


# ---- chains


def random_program(rng):
    return rng.randbytes(rng.choice([1, 126, 127, 128, 254, 255, rng.randint(1, 400)]))


def random_link(rng, kind, uds, uss, mask_bit=RESET_SEED, program=None):
    """With everything at random but for these; its program is allowed, by the first digest or by the second."""
    program = program or random_program(rng)
    mask = rng.choice([rng.randrange(4), rng.getrandbits(32)]) & ~RESET_SEED | mask_bit
    digests = [rng.randbytes(32), rng.choice([rng.randbytes(32), ZEROS])]
    if kind in VERIFYING:
        digests[rng.randrange(2) if mask & HAS_SECOND else 0] = blake2s(program)
    data = rng.randbytes(152 if mask & HAS_SECOND else 184)
    ram, other = (rng.randbytes(n + rng.randrange(100)) for n in (len(program), 1))
    return Link(kind, mask, rng.randbytes(32), *digests, data, program, ram, other, uds, uss)


def random_start(rng, uds, **given):
    kind = rng.randrange(6)
    uss = rng.choice([None, ZEROS, rng.randbytes(32), rng.randbytes(32)]) if kind in CLIENT else None
    return random_link(rng, kind, uds, uss, **given)


def random_chain(rng, links):
    uds = rng.randbytes(32)
    return [random_start(rng, uds, mask_bit=0)] + [random_start(rng, uds) for _ in range(links)]


def fold(cdi, links):
    """The last CDI, from the first."""
    for seed, uds, uss in links:
        cdi = next_cdi(cdi, seed, uds, uss)
    return cdi


def secrets(links):
    """All of them that the fold gets."""
    return [(link.seed, link.uds, link.uss) for link in links]


# ---- the calls


def check(what, got, wanted):
    if got != wanted:
        shown = [x.hex() if isinstance(x, (bytes, bytearray)) else x for x in (got, wanted)]
        raise Difference(f"{what}\n  got      {shown[0]}\n  expected {shown[1]}")


class Looms:
    """Plays chains, by the calls that are made."""

    def __init__(self, made, rng):
        self.made, self.rng = made, rng
        self.seen = Counter()

    def call(self, what, name, arguments, wanted):
        check(f"{what}, {name}: the answer", self.made.make(name, arguments), wanted)
        self.seen["calls", name] += 1

    def play(self, what, chain):
        """The CDI after each start."""
        begun, *links = chain
        record = holding(record=by_hand(begun))
        memory = self.start(f"{what}, first", begun, record)
        check(f"{what}, first: the CDI", memory["cdi"], begun.direct_cdi())
        found = [bytes(memory["cdi"])]
        for k, link in enumerate(links):
            at = f"{what}, link {k} of {len(links)}, type {link.kind}, mask {link.mask:x}"
            record = self.reset(at, link, memory)
            memory = self.start(at, link, record, blake2s(found[-1] + link.seed) if link.mask & RESET_SEED else ZEROS)
            found.append(bytes(memory["cdi"]))
        return found

    # ---- a reset

    def reset(self, what, link, memory):
        """The record, in the only memory that survives. The CDI is where the start before left it, and only there it is changed."""
        lent = holding(seed=link.seed, first=link.one, second=link.two, data=link.data)
        record = Array((("record", RECORD, False),))
        arrays = {"lent memory": lent, "record": record, "head": memory}
        before = {name: bytes(array.data) for name, array in arrays.items()}
        if self.rng.random() < 0.2:
            self.refused_reset(what, link, lent, record, memory)
            for name, array in arrays.items():
                check(f"{what}: the {name} after a refused reset", array.data, before[name])
        self.call(what, "reset", reset_arguments(link, lent, record, memory), 0)
        check(f"{what}: the CDI after the reset", memory["cdi"], ZEROS)
        wanted = bytearray(before["head"])
        wanted[memory.at["cdi"]] = ZEROS
        check(f"{what}: the memory of the head after the reset", memory.data, wanted)
        check(f"{what}: what the reset reads", lent.data, before["lent memory"])
        check(f"{what}: the data in the record", record["record"][-len(link.data) :], link.data)
        return record

    def refused_reset(self, what, link, lent, record, memory):
        """One that asks for something wrong comes before it."""
        place, wrong, answer = self.rng.choice([(4, 6, 44), (11, 255, 45), (1, 31, 46), (3, 33, 46), (9, len(link.data) - 1, 46)])
        arguments = reset_arguments(link, lent, record, memory)
        arguments[place] = wrong
        self.call(what, "reset", arguments, answer)
        self.seen["refused resets", answer] += 1

    # ---- a start

    def start(self, what, link, record, measured_id=None):
        """The memory of a head that has started; measured_id is what the record must have, if a reset wrote it."""
        words = struct.unpack("<8I", link.uds)
        memory = Memory(link.ram, [*words, 0x5EED5EED])
        slots = [Slot(link.other, len(link.other))] * 2
        if link.kind in FLASH:
            slots[link.kind % 2] = Slot(link.program + link.other, len(link.program))
        lent = holding(udi=bytes(8), slot0=slots[0].flash, slot1=slots[1].flash, built_in=blake2s(link.program))
        m, r = memory.pointer, lent.pointer
        flash = [x for k in (0, 1) for x in (r(f"slot{k}"), len(slots[k].flash), slots[k].size)]
        arguments = [m("numbers"), m("bytes"), record.pointer("record"), RECORD, r("udi"), *flash, r("built_in")]
        arguments += [m("ram"), len(link.ram), m("words"), 8, m("start"), m("cdi"), m("digest")]
        self.call(what, "begin", arguments, STARTED if link.kind in FLASH else CONTINUE)
        if link.kind in CLIENT:
            if measured_id is not None:
                self.compare_state(what, link, memory, measured_id)
            self.load(what, link, memory)
        check(f"{what}: digest and size", (bytes(memory["digest"]), number(memory["start"][4:])), (blake2s(link.program), len(link.program)))
        check(f"{what}: the program in RAM", memory["ram"][: len(link.program)], link.program)
        check(f"{what}: the device secret", memory.words(9), [0] * 8 + [0x5EED5EED])
        self.count(link, measured_id)
        return memory

    def compare_state(self, what, link, memory, measured_id):
        """The state in which a client's session begins has what the reset was given."""
        state, two = memory["bytes"], link.mask & HAS_SECOND != 0
        flags = VERIFY_FLAG * (link.kind == 5) + CHAINED_FLAG * (link.mask & RESET_SEED) + SECOND_FLAG * two
        check(f"{what}: phase and flags", state[130:132], bytes([0, flags]))
        check(f"{what}: the first digest", state[132:164], link.one)
        check(f"{what}: measured_id", state[164:196], measured_id)
        check(f"{what}: the second digest", state[236:268], link.two if two else ZEROS)

    def load(self, what, link, memory):
        """The client's frames, of which the last starts the program; each reply must be one that says so."""
        id, last, m = self.rng.randrange(4), server.blocks(len(link.program)), memory.pointer
        acting = [m("numbers"), m("bytes"), m("room"), 129, m("ram"), len(link.ram), m("words"), 8]
        acting += [m("reply_len"), m("start"), m("cdi"), m("digest")]
        for k in range(last + 1):
            *frame, end = server.frame(link.program, id, link.uss, k)
            for byte in frame:
                self.call(what, "gather", [m("numbers"), m("bytes"), byte], CONTINUE)
            self.call(what, "gather", [m("numbers"), m("bytes"), end], WHOLE)
            self.call(what, "act", acting, STARTED if k == last else CONTINUE)
            reply = bytes(memory["room"][: number(memory["reply_len"])])
            wanted = 0, 0, blake2s(link.program) if k == last else ZEROS
            check(f"{what}, frame {k}: the reply", server.read(len(link.program), id, k, reply), wanted)

    def count(self, link, measured_id):
        name = "first starts" if measured_id is None else "links" if link.mask & RESET_SEED else "links without RESET_SEED"
        self.seen[name, f"type {link.kind}"] += 1
        if link.kind in VERIFYING:
            self.seen[name, f"type {link.kind} by the {'second' if link.second_counts() else 'first'} digest"] += 1
        if link.kind in CLIENT:
            self.seen[name, f"type {link.kind}, {'no ' if link.uss is None else ''}user secret"] += 1


def reset_arguments(link, lent, record, memory):
    r = lent.pointer
    head = [memory.pointer("cdi"), 32, r("seed"), 32, link.kind, link.mask, r("first"), r("second")]
    return [*head, r("data"), len(link.data), record.pointer("record"), RECORD]


def by_hand(link):
    """The record of a first start, which no reset has written."""
    front = struct.pack("<II32s32s", link.kind, link.mask, link.one, b"\x3c" * 32)
    return front + (link.two if link.mask & HAS_SECOND else b"") + link.data


# ---- a chain, and others that differ from it


def changed(rng, data):
    """Another in one bit."""
    at = rng.randrange(8 * len(data))
    return bytes(b ^ (1 << at % 8 if k == at // 8 else 0) for k, b in enumerate(data))


def with_another(rng, chain, what):
    """The chain with another first program, or with one link in which this is another; none if it has no link that can have it."""
    if what == "first program":
        first = chain[0]
        program = next(p for p in iter(lambda: random_program(rng), None) if p != first.program)
        return [random_link(rng, first.kind, first.uds, first.uss, 0, program), *chain[1:]]
    can = {"seed": lambda link: True, "device secret": lambda link: True, "user secret": lambda link: link.uss is not None}
    can |= {"user secret left out": can["user secret"], "user secret added": lambda link: link.kind in CLIENT and link.uss is None}
    places = [k for k, link in enumerate(chain) if k > 0 and can[what](link)]
    if not places:
        return None
    at = rng.choice(places)
    link = chain[at]
    value = {
        "seed": lambda: dict(seed=changed(rng, link.seed)),
        "device secret": lambda: dict(uds=changed(rng, link.uds)),
        "user secret": lambda: dict(uss=changed(rng, link.uss)),
        "user secret left out": lambda: dict(uss=None),
        "user secret added": lambda: dict(uss=rng.choice([ZEROS, rng.randbytes(32)])),
    }[what]()
    return [*chain[:at], replace(link, **value), *chain[at + 1 :]]


OTHERS = ["first program", "seed", "device secret", "user secret", "user secret left out", "user secret added"]


def with_the_rest_another(rng, chain):
    """Of each link only seed and secrets stay, and of the first start program and secrets. A program without a user secret may come from
    flash or from a client."""
    kinds = [rng.choice([*FLASH, *CLIENT] if start.uss is None else CLIENT) for start in chain]
    first = random_link(rng, kinds[0], chain[0].uds, chain[0].uss, 0, chain[0].program)
    links = [random_link(rng, kind, link.uds, link.uss) for kind, link in zip(kinds[1:], chain[1:])]
    return [first, *(replace(new, seed=link.seed) for new, link in zip(links, chain[1:]))]


def broken(rng, chain):
    """The chain with a link that has no RESET_SEED, and its place."""
    at = rng.randrange(1, len(chain))
    return at, [*chain[:at], replace(chain[at], mask=chain[at].mask & ~RESET_SEED), *chain[at + 1 :]]


def played(looms, rng, k):
    chain = random_chain(rng, rng.randint(0, MOST_LINKS))
    what = f"chain {k}"
    found = looms.play(what, chain)
    for n, cdi in enumerate(found):
        check(f"{what}: the CDI after link {n}", cdi, fold(found[0], secrets(chain[1 : n + 1])))
    if len(set(found)) < len(found):
        raise Difference(f"{what}: two starts have one CDI")
    looms.seen["chains", f"of {len(chain) - 1}"] += 1
    if len(chain) > 1:
        vary(looms, rng, what, chain, found)


def vary(looms, rng, what, chain, found):
    different = OTHERS[rng.randrange(len(OTHERS))]
    if other := with_another(rng, chain, different):
        last = looms.play(f"{what}, another {different}", other)[-1]
        check(f"{what}, another {different}: the last CDI", last, fold(other[0].direct_cdi(), secrets(other[1:])))
        if last == found[-1]:
            raise Difference(f"{what}, another {different}: the last CDI is the same")
        looms.seen["another last CDI", different] += 1
    check(f"{what}, all the rest another: the CDIs", looms.play(f"{what}, all the rest another", with_the_rest_another(rng, chain)), found)
    looms.seen["the same CDIs", "all the rest another"] += 1
    at, cut = broken(rng, chain)
    now = looms.play(f"{what}, link {at - 1} without RESET_SEED", cut)
    check(f"{what}, without RESET_SEED: the CDIs before it", now[:at], found[:at])
    check(f"{what}, without RESET_SEED: the CDI", now[at], cut[at].direct_cdi())
    check(f"{what}, without RESET_SEED: the last CDI", now[-1], fold(cut[at].direct_cdi(), secrets(cut[at + 1 :])))
    if now[-1] == found[-1]:
        raise Difference(f"{what}, without RESET_SEED: the last CDI is the same")
    looms.seen["broken chains", "at the last link" if at == len(chain) - 1 else "before it"] += 1


# What must come up, so that agreement says something.
STARTS = [f"type {kind}" for kind in range(6)]
STARTS += [f"type {kind} by the {which} digest" for kind in VERIFYING for which in ("first", "second")]
STARTS += [f"type {kind}, {some}user secret" for kind in CLIENT for some in ("", "no ")]
KINDS = {
    "calls": ["begin", "gather", "act", "reset"],
    "chains": [f"of {n}" for n in range(MOST_LINKS + 1)],
    "first starts": STARTS,
    "links": STARTS,
    "links without RESET_SEED": STARTS,
    "refused resets": [44, 45, 46],
    "another last CDI": OTHERS,
    "the same CDIs": ["all the rest another"],
    "broken chains": ["at the last link", "before it"],
}


def main(made):
    looms, rng = Looms(made, random.Random(11)), random.Random(12)
    for k in range(CHAINS):
        played(looms, rng, k)
    made.end()
    seen = looms.seen
    print(f"c_chain: {CHAINS} chains, {sum(seen['links', f'type {kind}'] for kind in range(6))} links with RESET_SEED")
    for name, kinds in KINDS.items():
        print(f"  {name}: " + ", ".join(f"{seen[name, k]} {k}" for k in kinds))
    missing = [f"{name}: {k}" for name, kinds in KINDS.items() for k in kinds if not seen[name, k]]
    for what in missing:
        print(f"c_chain: never came up: {what}")
    return 1 if missing else 0


if __name__ == "__main__":
    parser = argparse.ArgumentParser(description=__doc__, formatter_class=argparse.RawDescriptionHelpFormatter)
    parser.add_argument("--library", type=Path)
    args = parser.parse_args()
    try:
        if args.library is None:
            build()
        sys.exit(main(Library(args.library or LIBRARY)))
    except (Difference, OSError, subprocess.CalledProcessError) as why:
        sys.exit(f"c_chain: {why}")
