"""Random sessions for the program `headlog`: a load that is to start, and changes that make it another session."""
import random
from dataclasses import dataclass, field

from head import FIRMWARE, PREFIX, PRINTER_RAM, ZEROS, Frame, blake2s, number

SIZES = [1, 126, 127, 128, 253, 254, 255, 381]
LARGE_SIZES = [PRINTER_RAM - 1, PRINTER_RAM]
BAD_SIZES = [0, PRINTER_RAM + 1, 131073, 2**32 - 1]
FLAGS = [0, 1]
BAD_FLAGS = range(2, 256)
STOPPING_TYPES = [0, 1, 2, 3, 6, 0x104, 0x01000004, 0x05000000, 2**32 - 1]
COMMANDS = [0x01, 0x03, 0x05, 0x08]

# Seeds below this have one bit of the first or of the second allowed digest wrong, each another; the others are mixed.
BITS = 512


# ---- frames


def little(n):
    return n.to_bytes(4, "little")


def frame(rng, body, endpoint=2):
    """A frame with any ID; the body has 1, 4, 32 or 128 bytes."""
    return bytes([rng.randrange(4) << 5 | endpoint << 3 | [1, 4, 32, 128].index(len(body))]) + body


def query(rng):
    return frame(rng, rng.choice([b"\x01", b"\x08"]))


def load(rng, size, flag):
    uss = rng.choice([ZEROS, rng.randbytes(32)])
    return frame(rng, b"\x03" + little(size) + bytes([flag]) + uss + rng.randbytes(90))


def block(rng, carried):
    """What the program does not fill holds bytes that must not be stored or hashed."""
    return frame(rng, b"\x05" + carried + rng.randbytes(127 - len(carried)))


def command(rng, byte, lengths=(1, 4, 32, 128)):
    return frame(rng, bytes([byte]) + rng.randbytes(rng.choice(lengths) - 1))


def for_others(rng):
    """A frame for another endpoint, whose body looks like a command."""
    like = rng.choice([query(rng), load(rng, rng.randrange(1, 300), rng.randrange(256)), block(rng, b""), command(rng, rng.randrange(256))])
    return frame(rng, like[1:], rng.choice([0, 1, 3]))


# ---- a session


@dataclass
class Session:
    """A load that is to start, as it was drawn; the changes below then make it another session."""

    type: int = 4
    mask: int = 0
    flag: int = 0  # of the load that is to be taken
    program: bytes = b""
    first: bytes = ZEROS  # the allowed digests; the second only with mask bit 1
    second: bytes = ZEROS
    waiting: list = field(default_factory=list)  # frames before the load
    loading: list = field(default_factory=list)  # the load and what follows
    keep: int | None = None  # how many bytes are left of the input
    tail: bytes = b""

    def data(self, rng):
        prefix = little(self.type) + little(self.mask) + self.first + rng.randbytes(32) + self.second + rng.randbytes(PREFIX - 104)
        return (prefix + b"".join(self.waiting + self.loading))[: self.keep] + self.tail

    def start_kind(self):
        chained = "chained" if self.mask & 1 else "direct"
        return f"type {self.type}, {chained}, {'USS' if self.flag == 1 else 'no USS'}"

    def digests(self):
        """Which of the two the program has, and whether mask bit 1 is set."""
        right = [which for which in ("first", "second") if getattr(self, which) == blake2s(self.program)]
        return f"bit {self.mask >> 1 & 1}, {' and '.join(right) or 'neither'} right"

    def not_taken(self):
        """The one thing that is bad about a load before the one that is to be taken, for each that has one, as they are sent."""
        for f in self.waiting:
            if len(f) == 129 and f[0] & 0x9F == 0x13 and f[1] == 0x03:
                size, flag = number(f[2:6]), f[6]
                if flag in FLAGS:
                    yield f"size {size}"
                elif 1 <= size <= PRINTER_RAM:
                    yield f"flag {flag}"


def draw(rng, size):
    s = Session(type=rng.choice([4, 5]), program=rng.randbytes(size))
    s.mask = rng.choice([0, 1, 2, 3, 0xFFFFFFFC, 0xFFFFFFFD, 0xFFFFFFFE, 0xFFFFFFFF, rng.getrandbits(32)])
    s.flag = rng.choice(FLAGS)
    s.first, s.second = rng.randbytes(32), rng.randbytes(32)
    if s.type == 5:
        allow(rng, s)
    s.loading = [load(rng, size, s.flag)]
    s.loading += [block(rng, s.program[i : i + 127]) for i in range(0, size, 127)]
    return s


def allow(rng, s):
    """The program's digest is the first or, where mask bit 1 is set, the second."""
    if s.mask & 2 and rng.random() < 0.5:
        s.second = blake2s(s.program)
    else:
        s.first = blake2s(s.program)


# ---- changes after which the program still starts


def insert(rng, frames, new, first=0):
    frames.insert(rng.randint(first, len(frames)), new)


def queries(rng, s):
    for _ in range(rng.randint(1, 3)):
        insert(rng, s.waiting, query(rng))


def bad_sizes(rng, s):
    insert(rng, s.waiting, load(rng, rng.choice(BAD_SIZES), rng.choice([*FLAGS, rng.choice(BAD_FLAGS)])))


def bad_flags(rng, s):
    for flag in rng.sample(BAD_FLAGS, rng.randint(1, 32)):
        insert(rng, s.waiting, load(rng, rng.choice(SIZES + LARGE_SIZES), flag))


def others(rng, s):
    for _ in range(rng.randint(1, 4)):
        insert(rng, rng.choice([s.waiting, s.loading]), for_others(rng))


def tail(rng, s):
    s.tail = query(rng) + rng.randbytes(rng.randrange(300))


# ---- changes after which it mostly does not


def change(rng, s, edit):
    """Puts edit(frame, place) in a frame's place; place is that of any of its bytes."""
    frames = rng.choice([x for x in (s.waiting, s.loading) if x])
    i = rng.randrange(len(frames))
    frames[i] = edit(frames[i], rng.randrange(len(frames[i])))


def stopping_type(rng, s):
    s.type = rng.choice([*STOPPING_TYPES, rng.getrandbits(32)])


def flagged(rng, s):
    """The load, which is the first of its frames for the firmware, gets a bad flag."""
    s.flag = rng.choice(BAD_FLAGS)
    at = next(i for i, f in enumerate(s.loading) if Frame(f[0]).endpoint() == FIRMWARE)
    s.loading[at] = load(rng, len(s.program), s.flag)


def wrong_digests(rng, s):
    s.type, s.first, s.second = 5, rng.randbytes(32), rng.randbytes(32)


def second_without_bit(rng, s):
    """The second is right, and mask bit 1 is clear."""
    s.type, s.mask, s.first, s.second = 5, s.mask & ~2, rng.randbytes(32), blake2s(s.program)


def header_bit(rng, s):
    change(rng, s, lambda f, _: bytes([f[0] ^ 1 << rng.randrange(8)]) + f[1:])


def other_byte(rng, s):
    change(rng, s, lambda f, i: f[:i] + bytes([f[i] ^ rng.randrange(1, 256)]) + f[i + 1 :])


def dropped_byte(rng, s):
    change(rng, s, lambda f, i: f[:i] + f[i + 1 :])


def doubled_byte(rng, s):
    change(rng, s, lambda f, i: f[: i + 1] + f[i:])


def other_length(rng, s):
    change(rng, s, lambda f, _: frame(rng, f[1:].ljust(128)[: rng.choice([1, 4, 32, 128])]))


def dropped_frame(rng, s):
    change(rng, s, lambda f, _: b"")


def swapped_command(rng, s):
    change(rng, s, lambda f, _: f[:1] + bytes([rng.choice(COMMANDS)]) + f[2:])


def unknown(rng, s):
    insert(rng, rng.choice([s.waiting, s.loading]), command(rng, rng.choice([x for x in range(256) if x not in COMMANDS])))


def too_early(rng, s):
    insert(rng, s.waiting, command(rng, 0x05))


def too_late(rng, s):
    insert(rng, s.loading, rng.choice([query(rng), load(rng, 100, rng.choice(FLAGS)), load(rng, 0, rng.choice(FLAGS)), command(rng, 0x03)]), 1)


def wrong_length(rng, s):
    insert(rng, s.waiting, rng.choice([command(rng, rng.choice([1, 8]), [4, 32, 128]), command(rng, 0x03, [1, 4, 32])]))


def wrong_block_length(rng, s):
    insert(rng, s.loading, command(rng, 0x05, [1, 4, 32]), 1)


def noise(rng, s):
    """Frames of any kind, most for the firmware."""
    headers = [rng.choice([0x10, 0x13, 0x70, 0x73, rng.randrange(256)]) for _ in range(8)]
    s.loading = [bytes([h, rng.choice(COMMANDS)]) + rng.randbytes(Frame(h).length() - 1) for h in headers]


def cut(rng, s):
    s.keep = PREFIX + rng.randrange(len(b"".join(s.waiting + s.loading)))
    s.tail = b""


def short(rng, s):
    s.keep = rng.choice([0, 1, 255, 256, 288, 295, 296, rng.randrange(PREFIX)])
    s.tail = b""


HARMLESS = [queries, bad_sizes, bad_flags, others, tail]
HARMFUL = [stopping_type, flagged, wrong_digests, second_without_bit, header_bit, other_byte, dropped_byte, doubled_byte, other_length]
HARMFUL += [dropped_frame, swapped_command, unknown, too_early, too_late, wrong_length, wrong_block_length, noise, cut, short]
HARMFUL += [stopping_type, cut]


def session(seed):
    """The session and its bytes."""
    rng = random.Random(seed)
    if seed % 30 == 29:
        size = rng.choice([*LARGE_SIZES, *LARGE_SIZES, rng.randint(1000, PRINTER_RAM)])
    else:
        size = rng.choice([*SIZES, rng.randint(1, 600)])
    s = draw(rng, size)
    for alter in HARMLESS:
        if rng.random() < 0.3:
            alter(rng, s)
    if seed < BITS:
        wrong_digests(rng, s)
        wrong = (int.from_bytes(blake2s(s.program), "big") ^ 1 << seed % 256).to_bytes(32, "big")
        if seed < 256:
            s.first = wrong
        else:
            s.mask, s.second = s.mask | 2, wrong
    elif rng.random() < 0.6:
        rng.choice(HARMFUL)(rng, s)
    return s, s.data(rng)
