"""The table of bench/firmware.sh: firmware.py [-v] PROVED PEER, two folders that firmware/build.sh has made."""
import argparse
import re
import shutil
import subprocess
import sys
import tempfile
from pathlib import Path

from elf import Elf

TOP = Path(__file__).resolve().parent.parent
sys.path.insert(0, str(TOP / "tests"))
import items
from head import blake2s, headlog
from programs import tool

# What the proved head may take at most. TKey has 8,192 bytes of ROM, and 3,000 of stack.
MOST = {
    "instructions, a gathered byte that is not the last": 70,
    "instructions, acting on a block that is not the last": 6000,
    "bytes of stack, from main down, without the board's": 3000,
    "bytes of code and constants": 12288,
    "bytes of stack, from a reset down": 3000,
    "bytes of code and constants, with reset": 12288,
}
BYTE, BLOCK, STACK, CODE, RESET_STACK, RESET_CODE = MOST

CALLS = ["mastfrap_begin", "mastfrap_gather", "mastfrap_act"]
RESET = "mastfrap_reset"  # not a part of every head
BOARD = ["board", "uart_read", "uart_write", "lamp", "run"]  # of firmware/board.h: what they take is the board's, and counts as 0
EMULATOR = "qemu-riscv32"
TRACED = re.compile(rb"Trace .*\[[0-9a-f]+/([0-9a-f]+)/")  # an instruction that was executed, by its address

# ---- the session that is traced: a query, a frame that is passed over, a load that is not taken, and one of eight blocks, at all places
# within a word

PROGRAM = bytes((7 * i + 3) % 256 for i in range(8 * 127))
PASSED_OVER = items.frame(bytes(128), endpoint=3)
FRAMES = [items.frame(b"\x01"), PASSED_OVER, items.load(0, frame_id=1), items.load(len(PROGRAM), 1, items.USS), *items.blocks(PROGRAM)]
SESSION = items.record(4) + items.UDS + items.UDI + b"".join(FRAMES)


def changeover(mask):
    """The same on a record of type 5 whose second digest is the program's: not traced, so that the peer in C is held to the rule."""
    record = bytearray(items.record(5))
    record[4], record[72:104] = mask, blake2s(PROGRAM)
    return bytes(record) + SESSION[len(record) :]


def byte_kinds():
    """What is measured at each gathered byte."""
    for f in FRAMES:
        yield "a header"
        yield from [BYTE] * (len(f) - 2)
        yield "the last byte of a frame that is passed over" if f is PASSED_OVER else "the last byte of a frame"


ACT_KINDS = ["acting on a query", *["acting on a load"] * 2, *[BLOCK] * 7, "acting on the last block, of a program of 1,016 bytes"]
BEGIN_KIND = "begin, of a record of type 4"


# ---- instructions


def one_by_one():
    """The emulator's word for a line in its log at each instruction: a newer one has another."""
    words = subprocess.run([EMULATOR, "-help"], capture_output=True).stdout.split()
    return next((word.decode() for word in words if word in (b"-one-insn-per-tb", b"-singlestep")), "-singlestep")


def played(folder, command, session):
    """Ends the run unless the session prints what the independent head does."""
    done = subprocess.run(command, input=session, capture_output=True)
    if done.stdout.decode().splitlines() != headlog(session)[0]:
        sys.exit(f"firmware: {folder}/session does not print what tests/head.py says; tests/firmware.py shows more")


def traced(folder):
    """The address of each instruction that a session executes."""
    with tempfile.TemporaryDirectory() as at:
        log = Path(at) / "log"
        command = [EMULATOR, one_by_one(), "-d", "nochain,exec", "-D", log, folder / "session"]
        played(folder, command, SESSION)
        for mask in (2, 1):
            played(folder, [EMULATOR, folder / "session"], changeover(mask))
        with open(log, "rb") as lines:
            return [int(m[1], 16) for m in map(TRACED.match, lines) if m]


def counted(folder):
    """For each of the three calls, how many instructions it took, from its first until its caller goes on, each time."""
    begun = {s.value: s.name for s in Elf(folder / "session").symbols if s.name in CALLS}
    counts = {name: [] for name in CALLS}
    call, before, after = None, 0, ()
    for at in traced(folder):
        if call is None and at in begun:
            call, n, after = begun[at], 0, (before + 2, before + 4)  # a call is an instruction of two or four bytes
        elif call and at in after:
            counts[call].append(n)
            call = None
        if call:
            n += 1
        before = at
    return counts


def instructions(folder):
    """The most that each kind of call took."""
    counts, most = counted(folder), {}
    kinds = {"mastfrap_begin": [BEGIN_KIND], "mastfrap_gather": list(byte_kinds()), "mastfrap_act": ACT_KINDS}
    for call, names in kinds.items():
        if len(names) != len(counts[call]):
            sys.exit(f"firmware: {len(counts[call])} calls of {call} in {folder}/session, expected {len(names)}")
        for kind, n in zip(names, counts[call]):
            most[kind] = max(n, most.get(kind, 0))
    most[BYTE] = max(most[BYTE], most.pop("a header"))
    return most


# ---- stack


def objects(folder):
    """Those of the firmware: firmware/head.c, and what it calls but for the board."""
    return [path for path in sorted(folder.glob("*.o")) if path.stem not in ("linux", "linux_riscv32")]


def frames(folder):
    """The stack that each function takes, as the compiler says: also for arguments that it hands on there."""
    found = dict.fromkeys(BOARD, 0)
    for path in objects(folder):
        for line in path.with_suffix(".su").read_text().splitlines():
            place, size, kind = line.split("\t")
            if kind != "static":
                sys.exit(f"firmware: {path}: the stack of {place} is {kind}, and no number")
            name = re.match(r"[^:]*:(?:\d+:)?(.*)", place)[1]
            if name in found:
                sys.exit(f"firmware: {folder} has two functions {name}, and a call does not say of which")
            found[name] = int(size)
    return found


def deepest(name, functions, sizes, above=()):
    """The way down from a function that takes the most stack, as names."""
    if name in above:
        sys.exit(f"firmware: {name} calls itself, so that its stack has no most")
    if name in BOARD:
        return (name,)
    if name not in functions:
        sys.exit(f"firmware: {above[-1]} calls {name}, which is not in the library")
    ways = [deepest(callee, functions, sizes, (*above, name)) for callee in sorted(functions[name].calls)]
    return (name, *max(ways, key=lambda way: sum(sizes[f] for f in way), default=()))


def stack(folder):
    """The deepest way from main, from each call and from a reset, and its bytes."""
    functions = {name: f for path in objects(folder) for name, f in Elf(path).functions().items()}
    sizes = frames(folder)
    ways = [deepest(name, functions, sizes) for name in ["main", *CALLS, RESET]]
    return [(sum(sizes[f] for f in way), " + ".join(f"{f} {sizes[f]}" for f in way)) for way in ways]


# ---- code


def linked(folder, calls):
    """These calls and what they call, in one file without the rest."""
    roots = [word for call in calls for word in ("-u", call)]
    out = folder / "calls"
    subprocess.run([tool("ld.lld"), "--gc-sections", "-e", calls[0], *roots, folder / "libmastfrap.a", "-o", out], check=True)
    return Elf(out)


def code(elf, folder):
    sizes = elf.allocated()
    if other := [name for name in sizes if not name.startswith((".text", ".rodata"))]:
        sys.exit(f"firmware: {folder}: the library has memory of its own, {', '.join(other)}")
    return sum(sizes.values())


# ---- the table


class Figures:
    def __init__(self, folder):
        self.folder, self.ways = folder, stack(folder)
        self.of = instructions(folder) | {STACK: self.ways[0][0], CODE: code(linked(folder, CALLS), folder)}
        self.elf = linked(folder, [*CALLS, RESET])
        self.of |= {RESET_STACK: self.ways[-1][0], RESET_CODE: code(self.elf, folder)}

    def print_more(self):
        print(f"\n{self.folder}: stack along the deepest calls")
        for size, way in self.ways:
            print(f"{size:>7}  {way}")
        print(f"{self.folder}: code, stack and name of each function; constants: {self.elf.allocated().get('.rodata', 0)}")
        sizes = frames(self.folder)
        for s in sorted(self.elf.symbols, key=lambda s: -s.size):
            if s.size and s.name in sizes:
                print(f"{s.size:>7} {sizes[s.name]:>5}  {s.name}")


def main(proved, peer, verbose):
    ours, theirs = Figures(proved), Figures(peer)
    width = max(map(len, ours.of))
    print(f"{'riscv32, RV32IC and Zmmul':<{width}} {'proved':>8} {'in C':>8} {'at most':>8}")
    for what in [*MOST, *(k for k in ours.of if k not in MOST)]:
        print(f"{what:<{width}} {ours.of[what]:>8,} {theirs.of[what]:>8,} {format(MOST[what], ',') if what in MOST else '':>8}")
    for figures in (ours, theirs) if verbose else ():
        figures.print_more()
    over = [what for what, most in MOST.items() if ours.of[what] > most]
    for what in over:
        print(f"firmware: over the limit of {MOST[what]:,}: {what}, {ours.of[what]:,}")
    return 1 if over else 0


if __name__ == "__main__":
    parser = argparse.ArgumentParser(description=__doc__)
    parser.add_argument("-v", action="store_true", dest="verbose")
    parser.add_argument("proved", type=Path)
    parser.add_argument("peer", type=Path)
    if shutil.which(EMULATOR) is None:
        sys.exit(f"firmware: there is no {EMULATOR} (Debian: apt-get install qemu-user)")
    sys.exit(main(**vars(parser.parse_args())))
