"""Document 01's head with the two calls of change request 8, the flash of change request 3 and the reset of change request 7, written again
from the papers: the second implementation that the tests hold the loader to.

Nothing here is taken from the loader. BLAKE2s is hashlib's.
"""
import hashlib
from dataclasses import dataclass, field

ZEROS = bytes(32)
FIRMWARE = 2
NAME_REPLY = 0x02  # the only reply without a status
ADDRESS = 0x40000000

RECORD = 256
TYPE_FLASH0, TYPE_FLASH1, TYPE_FLASH0_VER, TYPE_FLASH1_VER, TYPE_CLIENT, TYPE_CLIENT_VER = range(6)
RAM_MOST = 131072


def blake2s(data):
    return hashlib.blake2s(bytes(data), digest_size=32).digest()


def number(data):
    return int.from_bytes(data, "little")


@dataclass
class Answer:
    """W goes on, A is a frame that is whole, X a refusal and F a stop with its number, S a start with its size; reply is how many bytes of the
    room are one."""

    kind: str
    number: int = 0
    reply: int = 0
    cdi: bytes = ZEROS
    digest: bytes = ZEROS


@dataclass
class Frame:
    """The frame that is being gathered, or that is whole and is to be acted on: got counts the header, and is 0 between frames."""

    header: int = 0
    got: int = 0
    body: bytearray = field(default_factory=lambda: bytearray(128))

    def bad(self):
        return self.header & 0b10000100 != 0

    def length(self):
        return [1, 4, 32, 128][self.header & 3]

    def endpoint(self):
        return self.header >> 3 & 3

    def whole(self):
        """A frame for another endpoint never is."""
        return self.endpoint() == FIRMWARE and self.got == 1 + self.length()


def first(numbers):
    """The number of the first refusal that applies, in the order of the tests; 0 if none does."""
    return next((k for k, applies in numbers.items() if applies), 0)


@dataclass
class Head:
    """A head between two calls."""

    ram: int
    udi: bytes = bytes(8)
    verify: bool = False  # the program must have an allowed digest
    first: bytes = ZEROS  # the allowed digests
    second: bytes = ZEROS
    has_second: bool = False  # the mask has bit 1
    chained: bool = False  # the mask has RESET_SEED
    measured_id: bytes = ZEROS
    phase: str = "waiting"
    size: int = 0
    block: int = 0
    uss: bytes = ZEROS
    uss_used: bool = False
    frame: Frame = field(default_factory=Frame)

    # ---- refused calls

    def in_range(self):
        f = self.frame
        if not 1 <= self.ram <= RAM_MOST:
            return False
        if f.got == 0 and f.header != 0:
            return False
        if f.got > 0 and (f.bad() or f.got > f.length() and not f.whole()):
            return False
        if self.phase == "loading":
            return 1 <= self.size <= self.ram and self.block * 127 < self.size
        return True

    def ended(self):
        return self.phase in ("started", "stopped")

    def gather_refusal(self):
        return first({1: not self.in_range(), 2: self.ended(), 47: self.frame.whole()})

    def act_refusal(self, room, ram, words):
        return first(
            {
                1: not self.in_range(),
                2: self.ended(),
                47: not self.frame.whole(),
                3: len(room) < 129,
                4: len(ram) != self.ram,
                5: len(words) != 8,
            }
        )

    # ---- a byte

    def gather(self, byte):
        refused = self.gather_refusal()
        if refused:
            return Answer("X", refused)
        f = self.frame
        if f.got == 0:
            f.header = byte
            f.got = 1
            return self.stop(22) if f.bad() else Answer("W")
        if f.endpoint() == FIRMWARE:
            f.body[f.got - 1] = byte
        f.got += 1
        if f.endpoint() != FIRMWARE and f.got > f.length():
            self.frame = Frame()
        return Answer("A" if f.whole() else "W")

    def hear(self, byte, room, ram, words):
        """Gathers a byte, and acts at once if a frame is whole with it."""
        answer = self.gather(byte)
        return self.act(room, ram, words) if answer.kind == "A" else answer

    def stop(self, why, reply=0):
        self.end("stopped")
        return Answer("F", why, reply)

    def end(self, phase):
        """Nothing but the RAM's length is kept."""
        vars(self).update(vars(Head(self.ram, phase=phase)))

    # ---- a whole frame

    def act(self, room, ram, words):
        refused = self.act_refusal(room, ram, words)
        if refused:
            return Answer("X", refused)
        f = self.frame
        self.frame = Frame()
        commands = {
            "waiting": {0x01: (1, self.say_name), 0x08: (1, self.say_udi), 0x03: (128, self.load)},
            "loading": {0x05: (128, self.take_block)},
        }[self.phase]
        if f.body[0] not in commands:
            return self.stop(23)
        length, action = commands[f.body[0]]
        if f.length() != length:
            return self.stop(24)
        return action(f, room, ram, words)

    @staticmethod
    def reply(f, room, code, length, content):
        """Writes a reply, and says how many bytes it has. Its content begins with the status, but for name and version, which has none;
        bit 2 of the header says that the status is 1."""
        header = (f.header & 0b01100000) | FIRMWARE << 3 | [1, 4, 32, 128].index(length)
        if code != NAME_REPLY and content[0] == 1:
            header |= 0b00000100
        reply = bytes([header, code]) + content
        reply += bytes(1 + length - len(reply))
        room[: len(reply)] = reply
        return len(reply)

    def say_name(self, f, room, ram, words):
        return Answer("W", reply=self.reply(f, room, NAME_REPLY, 32, b"tk1 mkdf" + (1).to_bytes(4, "little")))

    def say_udi(self, f, room, ram, words):
        return Answer("W", reply=self.reply(f, room, 0x09, 32, b"\0" + self.udi))

    def load(self, f, room, ram, words):
        message = bytes([f.header]) + f.body  # the document's positions count the header
        size = number(message[2:6])
        flag = message[6]
        good = 1 <= size <= self.ram and flag in (0, 1)
        if good:
            self.phase = "loading"
            self.size = size
            self.block = 0
            self.uss_used = flag == 1
            self.uss = message[7:39]
        return Answer("W", reply=self.reply(f, room, 0x04, 4, bytes([0 if good else 1])))

    def take_block(self, f, room, ram, words):
        start = 127 * self.block
        carried = f.body[1 : 1 + min(127, self.size - start)]
        ram[start : start + len(carried)] = carried
        self.block += 1
        if self.block < (self.size + 126) // 127:
            return Answer("W", reply=self.reply(f, room, 0x06, 4, b"\0"))
        digest = blake2s(ram[: self.size])
        return self.finish(digest, words, self.reply(f, room, 0x07, 128, b"\0" + digest))

    # ---- a program in flash

    def boot(self, slot, ram, words):
        """Puts the front part of a slot in RAM; it starts or not."""
        if not 1 <= slot.size <= min(len(slot.flash), len(ram)):
            return self.stop(26)
        program = slot.flash[: slot.size]
        ram[: slot.size] = program
        self.size = slot.size
        return self.finish(blake2s(program), words)

    # ---- a program in RAM, that was measured

    def finish(self, digest, words, reply=0):
        """It starts, if its digest is allowed."""
        if self.verify and digest not in [self.first] + [self.second] * self.has_second:
            return self.stop(25, reply)
        answer = Answer("S", self.size, reply, self.cdi(digest, words), digest)
        words[:] = [0] * 8
        self.end("started")
        return answer

    def cdi(self, digest, words):
        domain = bytes([self.uss_used + 2 * self.chained])
        uds = b"".join(w.to_bytes(4, "little") for w in words)
        return blake2s(uds + domain + (self.measured_id if self.chained else digest) + (self.uss if self.uss_used else b""))


# ---- begin


@dataclass
class Slot:
    """A slot of flash, and the size that the program in it is said to have."""

    flash: bytes = b""
    size: int = 0


EMPTY_SLOTS = (Slot(), Slot())


def begin(record, udi, slots, built_in, ram, words):
    """The answer, and a head; after any but W it is one that has ended. RAM and words are lent: a program from flash changes them."""
    refused = first({5: len(words) != 8, 6: len(record) != RECORD, 7: not 1 <= len(ram) <= RAM_MOST})
    if refused:
        return Answer("X", refused), Head(1, phase="stopped")
    kind = number(record[0:4])
    verify = kind not in (TYPE_FLASH1, TYPE_CLIENT)
    mask = number(record[4:8])
    two = mask & 2 != 0
    digests = (built_in, ZEROS, False) if kind == TYPE_FLASH0 else (record[8:40], record[72:104] if two else ZEROS, two)
    head = Head(len(ram), udi, verify, *digests, mask & 1 == 1, record[40:72])
    if kind > TYPE_CLIENT_VER:
        return head.stop(20), head
    if kind in (TYPE_CLIENT, TYPE_CLIENT_VER):
        return Answer("W"), head
    return head.boot(slots[kind in (TYPE_FLASH1, TYPE_FLASH1_VER)], ram, words), head


# ---- handing over


def reset(cdi, seed, kind, mask, one, two, data, record):
    """Writes the record of the next start, unless it is refused. CDI and record are lent: both are written, or neither is."""
    seeded, has_second = mask & 1 == 1, mask & 2 == 2
    filled = len(cdi) == len(seed) == 32 and len(data) == (152 if has_second else 184)
    refused = first({44: kind > TYPE_CLIENT_VER, 45: len(record) != RECORD, 46: not filled})
    if refused:
        return Answer("X", refused)
    measured_id = blake2s(cdi + seed) if seeded else ZEROS
    numbers = kind.to_bytes(4, "little") + mask.to_bytes(4, "little")
    record[:] = numbers + one + measured_id + (two if has_second else b"") + data
    cdi[:] = ZEROS
    return Answer("W")


def next_cdi(cdi, seed, uds, uss=None):
    """The CDI of the start after a reset with RESET_SEED, from the one before it: neither record nor program counts."""
    return blake2s(uds + bytes([2 if uss is None else 3]) + blake2s(cdi + seed) + (uss or b""))


# ---- the session printer

PRINTER_RAM = 32768
PREFIX = RECORD + 32 + 8


def headlog(data):
    """The printer's lines for this input, and how many of its bytes are read: none after the end."""
    if len(data) < PREFIX:
        return ["E 1"], len(data)
    record, uds, udi = data[:256], data[256:288], data[288:296]
    words = [number(uds[i : i + 4]) for i in range(0, 32, 4)]
    room, ram = bytearray(129), bytearray(PRINTER_RAM)
    answer, head = begin(record, udi, EMPTY_SLOTS, ZEROS, ram, words)
    lines = []
    at = PREFIX
    while answer.kind == "W" and at < len(data):
        answer = head.hear(data[at], room, ram, words)
        at += 1
        if answer.reply:
            lines.append(f"R {room[:answer.reply].hex()}")
    return lines + [last_line(answer, at - PREFIX)], at


def last_line(answer, received):
    if answer.kind == "W":
        return f"W {received}"
    if answer.kind == "S":
        return f"S {answer.number} {answer.cdi.hex()}"
    return f"F {answer.number}"
