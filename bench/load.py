"""The table of bench/load.sh. With a device and a program it is the peer: it loads the program and prints the seconds of its loop."""
import fcntl
import hashlib
import os
import subprocess
import sys
import tempfile
import termios
import time
import tty
from pathlib import Path

TOP = Path(__file__).resolve().parent.parent
SIZE = 131072
ROUNDS = 5  # of which the best counts; the two take turns


def frame(program, k):
    if k == 0:
        return (b"\x13\x03" + len(program).to_bytes(4, "little")).ljust(129, b"\0")
    return (b"\x13\x05" + program[127 * (k - 1) : 127 * k]).ljust(129, b"\0")


def reply(line):
    """A reply to its end, which its header tells."""
    data = os.read(line, 129)
    while data and len(data) < 1 + [1, 4, 32, 128][data[0] & 3]:
        data += os.read(line, 129 - len(data))
    return data


def load(line, program):
    last = (len(program) + 126) // 127
    for k in range(last + 1):
        os.write(line, frame(program, k))
        got = reply(line)
        if k == last:
            assert got == (b"\x13\x07\0" + hashlib.blake2s(program).digest()).ljust(129, b"\0")
        else:
            assert got == (b"\x11\x04\0\0\0" if k == 0 else b"\x11\x06\0\0\0")


def peer(device, path):
    program = Path(path).read_bytes()
    line = os.open(device, os.O_RDWR | os.O_NOCTTY)
    tty.setraw(line)
    began = time.perf_counter()
    load(line, program)
    print(time.perf_counter() - began)


def head():
    process = subprocess.Popen([TOP / "simulate"], stdout=subprocess.PIPE, text=True)
    return process, process.stdout.readline().rstrip("\n")


def ended(process):
    if process.wait(10) != 0:
        sys.exit("the head did not start")


def by_peer(path):
    """Seconds of the whole command, and of its loop."""
    process, device = head()
    began = time.perf_counter()
    loop = float(subprocess.run([sys.executable, __file__, device, path], stdout=subprocess.PIPE, check=True).stdout)
    seconds = time.perf_counter() - began
    ended(process)
    return seconds, loop


def by_command(path):
    process, device = head()
    began = time.perf_counter()
    subprocess.run([TOP / "load", device, path], capture_output=True, check=True)
    seconds = time.perf_counter() - began
    ended(process)
    return seconds


def by_program(path):
    """The program alone, on a line that is already open and raw."""
    process, device = head()
    line = os.open(device, os.O_RDWR | os.O_NOCTTY)
    tty.setraw(line)
    mode = termios.tcgetattr(line)
    mode[6][termios.VMIN], mode[6][termios.VTIME] = 0, 1
    termios.tcsetattr(line, termios.TCSANOW, mode)
    high = fcntl.fcntl(line, fcntl.F_DUPFD, 10)
    out = os.open(os.devnull, os.O_WRONLY)
    actions = [(os.POSIX_SPAWN_DUP2, out, fd) for fd in (1, 2, 3)] + [(os.POSIX_SPAWN_DUP2, high, fd) for fd in (4, 5)]
    program = subprocess.run([TOP / "scripts" / "built", "load"], stdout=subprocess.PIPE, text=True, check=True).stdout.removesuffix("\n")
    began = time.perf_counter()
    child = os.posix_spawn(program, [program, device, path, "0", "100", "1"], os.environ, file_actions=actions)
    os.waitpid(child, 0)
    seconds = time.perf_counter() - began
    ended(process)
    for fd in (line, high, out):
        os.close(fd)
    return seconds


def main():
    with tempfile.NamedTemporaryFile() as file:
        file.write(os.urandom(SIZE))
        file.flush()
        rounds = [(by_command(file.name), by_program(file.name), *by_peer(file.name)) for _ in range(ROUNDS)]
    command, program, whole, loop = map(min, zip(*rounds))
    print(f"{SIZE} bytes into ./simulate over a pseudo-terminal, seconds, the best of {ROUNDS}:")
    print(f"{'the whole command':>24}: ./load {command:.3f}, python3 {whole:.3f}, ratio {command / whole:.2f}")
    print(f"{'frames and replies only':>24}: ./load {program:.3f}, python3 {loop:.3f}, ratio {program / loop:.2f}")


if __name__ == "__main__":
    sys.exit(peer(*sys.argv[1:]) if len(sys.argv) == 3 else main())
