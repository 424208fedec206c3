"""What bench/firmware.py asks of a 32-bit ELF file, little-endian: its sections, its symbols, and which function calls which."""
import struct
from dataclasses import dataclass, field
from pathlib import Path

ALLOCATED, EXECUTED = 2, 4  # flags of a section
SYMBOLS, RELOCATIONS = 2, 4  # types of a section
FUNCTION, SECTION = 2, 3  # types of a symbol
CALLS = {17, 18, 19, 45}  # relocations of jumps and calls: JAL, CALL, CALL_PLT, RVC_JUMP
ADDRESSES = {1, 20, 23, 26, 57}  # of an address that is taken: 32, GOT_HI20, PCREL_HI20, HI20, 32_PCREL


@dataclass
class Section:
    name: str
    type: int
    flags: int
    data: bytes
    size: int
    link: int
    info: int


@dataclass
class Symbol:
    name: str
    value: int
    size: int
    type: int
    section: int


@dataclass
class Function:
    symbol: Symbol
    calls: set = field(default_factory=set)  # names


def text(data, at):
    return data[at : data.index(b"\0", at)].decode()


class Elf:
    def __init__(self, path):
        data = Path(path).read_bytes()
        (at,), (size, count, names) = struct.unpack_from("<I", data, 0x20), struct.unpack_from("<3H", data, 0x2E)
        headers = [struct.unpack_from("<10I", data, at + k * size) for k in range(count)]
        strings = data[headers[names][4] :]
        self.sections = [Section(text(strings, h[0]), h[1], h[2], data[h[4] : h[4] + h[5]], h[5], h[6], h[7]) for h in headers]
        self.symbols = [s for section in self.sections if section.type == SYMBOLS for s in self.symbols_in(section)]
        self.path = path

    def symbols_in(self, section):
        strings = self.sections[section.link].data
        for name, value, size, info, _, index in struct.iter_unpack("<3I2BH", section.data):
            yield Symbol(text(strings, name), value, size, info & 15, index)

    def allocated(self):
        """The bytes of each section that goes into memory."""
        return {s.name: s.size for s in self.sections if s.flags & ALLOCATED and s.size}

    def functions(self):
        """Each function of an object by its name, with those that it calls. Fails where a call may be of any function."""
        found = {s.name: Function(s) for s in self.symbols if s.type == FUNCTION}
        for section in self.sections:
            if section.type == RELOCATIONS and self.sections[section.info].flags & EXECUTED:
                for place, info, addend in struct.iter_unpack("<IIi", section.data):
                    self.add_call(found, section.info, place, info, addend)
        return found

    def add_call(self, found, section, place, info, addend):
        symbol = self.symbols[info >> 8]
        target = self.function_at(symbol.section, symbol.value + addend) if symbol.type == SECTION else symbol.name
        if info & 255 in ADDRESSES and target in found:
            raise SystemExit(f"{self.path}: the address of {target} is taken, so that what calls it is not known")
        caller = self.function_at(section, place)
        within = symbol.type == SECTION and target == caller and symbol.value + addend != found[caller].symbol.value
        if info & 255 in CALLS and not within and not target.startswith("."):  # .L: a label within the caller
            found[caller].calls.add(target)

    def function_at(self, section, place):
        for s in self.symbols:
            if s.type == FUNCTION and s.section == section and s.value <= place < s.value + s.size:
                return s.name
        return ""
