#!/usr/bin/env python3
"""Makes an LLVM module of the Rattle compiler, which is for x86-64, one for riscv32: retarget.py [--test] < MODULE.ll > OUT.ll

The two lines that name the target are replaced, the attributes that only x86-64 has are dropped, and every function is to be small.
Some functions stay functions, however much is inlined. An address that is taken for a number of 64 bits is extended to one.

Then each function's pointers get an alignment. The module does not say any, since x86-64 reads a word from every address; the
compiler for riscv32 must take it that a pointer is aligned to nothing, and copies what is behind it byte by byte. An argument
that is a local variable is aligned as that is, one that is handed on as the parameter was, and any other to nothing. A parameter
has the least alignment of what any call in the module gives it. That is sound where all calls are known: what C can call, and
what is mentioned other than by its name in a call, gets none. With --test each function begins with a call of
mastfrap_test_alignment for each pointer that is said to be aligned, for tests/firmware.py.
"""
import re
import sys

TARGET = {
    "target datalayout": "e-m:e-p:32:32-i64:64-n32-S128",
    "target triple": "riscv32-unknown-none-elf",
}
ATTRIBUTES = '"probe-stack"="inline-asm" "stack-probe-size"="3072" "target-cpu"="x86-64-v2"'
# Called several times, and large when written out: the steps of the hash twenty times, the hash three.
CALLED = ['"compression::half_round::<=0>"', '"compression::half_round::<=4>"', '"blake2s::stream::whole"']
MOST = 16  # an alignment that none is above

NAME = r'@("[^"]+"|[\w.$]+)'
DEFINE = re.compile(rf"define (.*?){NAME}\((.*?)\)")
CALL = re.compile(rf".*\bcall [^@%]*{NAME}\((.*)\)")
LOCAL = re.compile(r"\s*(%\w+) = alloca .*, align (\d+)")


def operands(text):
    """The last word of each parameter or argument: its name."""
    return [part.split()[-1] for part in text.split(", ")] if text else []


class Module:
    def __init__(self, lines):
        self.parameters = {m[2]: operands(m[3]) for m in map(DEFINE.match, lines) if m}
        self.given = {name: [] for name in self.parameters}  # for each call: alignments, or parameters of its caller
        caller, aligned = None, {}
        for line in lines:
            if m := DEFINE.match(line):
                caller, aligned = m[2], {p: (m[2], p) for p in operands(m[3])}
                self.read_define(m)
            elif m := LOCAL.match(line):
                aligned[m[1]] = int(m[2])
            elif m := CALL.match(line):
                self.read_call(m[1], [aligned.get(a, 1) for a in operands(m[2])])
                self.read_mentions(line[m.start(2) :])
            elif re.search(r"\b(call|invoke) ", line.partition('"')[0]) and caller:
                sys.exit(f"retarget: a call that is not of a function by its name: {line.strip()}")
            else:
                self.read_mentions(line)

    def read_define(self, m):
        if "internal" not in m[1].split():
            self.given[m[2]].append([1] * len(self.parameters[m[2]]))

    def read_call(self, name, arguments):
        if name not in self.parameters:
            return
        if len(arguments) != len(self.parameters[name]):
            sys.exit(f"retarget: a call of {name} has {len(arguments)} arguments, of {len(self.parameters[name])}")
        self.given[name].append(arguments)

    def read_mentions(self, text):
        for name in re.findall(NAME, text):
            if name in self.parameters:
                self.given[name].append([1] * len(self.parameters[name]))

    def alignments(self):
        """That of each parameter of each function: all begin with the most, and lose what a call does not give, until none does."""
        known = {(name, p): MOST for name, parameters in self.parameters.items() for p in parameters}
        before = None
        while before != known:
            before = dict(known)
            for name, calls in self.given.items():
                for arguments in calls:
                    for p, a in zip(self.parameters[name], arguments):
                        known[name, p] = min(known[name, p], known.get(a, a))
        return known


def retargeted(line, known):
    for key, value in TARGET.items():
        if line.startswith(key):
            return f'{key} = "{value}"'
    if m := DEFINE.match(line):
        line = re.sub(r"\bptr noundef (%\w+)", lambda p: f"ptr noundef align {known[m[2], p[1]]} {p[1]}", line)
        return line.replace(" #", " noinline #") if m[2] in CALLED else line
    # riscv32 would read the pointer of a pair { i8, ptr } at byte 4, where the module has it at byte 8.
    if re.search(r"\b(load|store) {[^}]*, ptr\b", line):
        sys.exit(f"retarget: a struct with a pointer that is not in front: {line.strip()}")
    return line.replace(ATTRIBUTES, "optsize").replace("= ptrtoaddr ptr", "= ptrtoint ptr")


def with_tests(lines):
    """Each function begins with the tests of its parameters, after the label of its first block."""
    tests = []
    for line in lines:
        yield line
        if line.startswith("define"):
            tests = [(p, k) for k, p in re.findall(r"\bptr noundef align (\d+) (%\w+)", line) if k != "1"]
        elif re.match(r"\w+:$", line):
            yield from (f"  call void @mastfrap_test_alignment(ptr {p}, i32 {k})" for p, k in tests)
            tests = []
    yield "declare void @mastfrap_test_alignment(ptr, i32)\n"


def main():
    lines = sys.stdin.read().split("\n")
    if not any(ATTRIBUTES in line for line in lines):
        sys.exit(f"retarget: the module has not the attributes {ATTRIBUTES}, but those of another kit")
    module = Module(lines)
    for name in CALLED:
        if name not in module.parameters:
            sys.exit(f"retarget: the module has no function {name}, which is not to be inlined")
    known = module.alignments()
    lines = [retargeted(line, known) for line in lines]
    sys.stdout.write("\n".join(with_tests(lines) if sys.argv[1:] == ["--test"] else lines))


if __name__ == "__main__":
    main()
