"""What the commands at the top share: bad arguments, files, a program that is built if need be, and one that is run for its number."""
import argparse
import contextlib
import fcntl
import hashlib
import os
import re
import selectors
import signal
import subprocess
import sys

TOP = os.path.dirname(os.path.dirname(os.path.realpath(__file__)))
FAILED, BAD_ARGUMENTS = 1, 2
RAM_MOST = 131072
RECORD = 256
TYPES = range(6)
BUILT_IN = 0  # the type whose allowed digest is built in, and not in the record
UNVERIFIED = {1: 3, 4: 5}  # the types that take any program, and for each the one that does not


class Parser(argparse.ArgumentParser):
    """Bad arguments are one line."""

    def __init__(self, name, description):
        self.name = name
        layout = argparse.RawDescriptionHelpFormatter
        super().__init__(prog=f"./{name}", description=description, formatter_class=layout, allow_abbrev=False)

    def error(self, message):
        self.exit(BAD_ARGUMENTS, f"{self.name}: {message}; see ./{self.name} --help\n")


def ram_length(text):
    if not re.fullmatch("[0-9]{1,6}", text) or not 1 <= int(text) <= RAM_MOST:
        raise argparse.ArgumentTypeError(f"{text!r} is not a number from 1 to {RAM_MOST}")
    return int(text)


def hex_32(text):
    if not re.fullmatch("[0-9a-fA-F]{64}", text):
        raise argparse.ArgumentTypeError(f"{text!r} is not 32 bytes in hex, 64 digits")
    return bytes.fromhex(text)


def read(path, use):
    """What a function makes of a file."""
    try:
        with open(path, "rb") as file:
            return use(file)
    except OSError as error:
        raise argparse.ArgumentTypeError(f"{path}: {error.strerror}")


def digest_in(file):
    digest = hashlib.blake2s()
    while part := file.read(1 << 16):
        digest.update(part)
    return digest.digest()


def digest_of(path):
    """The BLAKE2s-256 of a file."""
    return read(path, digest_in)


def record_of(path):
    """The bytes of a reset record."""
    record = read(path, lambda file: file.read(RECORD + 1))
    if len(record) != RECORD:
        raise argparse.ArgumentTypeError(f"{path}: a reset record has exactly {RECORD} bytes")
    return record


def check_programs(parser, kind, programs, built_in=None):
    """Bad arguments, unless a type takes the programs that are given: a first and a second, by their options, None where one is not given.
    Type 0 takes only that of the option built_in, and needs it if there is such an option."""
    first, second = programs
    named = [option for option, program in programs.items() if program is not None]
    needs = kind not in UNVERIFIED and (kind != BUILT_IN or built_in is not None)
    too_many = [option for option in named if kind in UNVERIFIED or (kind == BUILT_IN and option != built_in)]
    if too_many:
        takes, other = ("its built-in program only", 2) if kind == BUILT_IN else ("any program", UNVERIFIED[kind])
        parser.error(f"type {kind} takes {takes}: leave {' and '.join(too_many)} out, or say --type {other}")
    if named == [second]:
        parser.error(f"{second} is a second program: give {first} PROGRAM too")
    if needs and not named:
        parser.error(f"type {kind} needs {first} PROGRAM")


def fail(number, words):
    print(words, file=sys.stderr)
    return number


def built(name):
    """The path of a program, proved and built if it is not there yet; where that fails, the command ends."""
    done = subprocess.run([os.path.join(TOP, "scripts", "built"), name], stdin=subprocess.DEVNULL, stdout=subprocess.PIPE)
    if done.returncode != 0:
        sys.exit(FAILED)
    return os.fsdecode(done.stdout).removesuffix("\n")


def front(data):
    """A descriptor from which these bytes come. They may be more than a pipe holds."""
    fd = os.memfd_create("front")
    with open(fd, "wb", closefd=False) as file:
        file.write(data)
    os.lseek(fd, 0, os.SEEK_SET)
    return fd


def named_otherwise(words):
    """The files among a program's words whose names are not in UTF-8, each with the descriptor where the program looks for it: 10 and which
    word it is. A Rattle program opens no such name. What is here is only the place of a file: the program opens it, and says why if it cannot."""
    for place, word in enumerate(words, 11):
        try:
            os.fsencode(word).decode()
        except UnicodeDecodeError:
            with contextlib.suppress(OSError):
                yield place, os.open(word, os.O_PATH)


def heard(out, frames, line):
    """What comes on out, to its end. What comes on frames meanwhile goes to the line, of which a write never waits: what it does not take at
    once is lost. Closes both."""
    said = b""
    with selectors.DefaultSelector() as left:
        for fd in [out] if line is None else [out, frames]:
            left.register(fd, selectors.EVENT_READ)
        while left.get_map():
            for key, _ in left.select():
                part = os.read(key.fd, 1 << 16)
                if not part:
                    left.unregister(key.fd)
                    os.close(key.fd)
                elif key.fd == out:
                    said += part
                else:
                    with contextlib.suppress(OSError):
                        os.write(line, part)
    return said


def run(name, program, words, places, line=None):
    """Runs the program of a command with these words, and with the descriptor places[n] as its descriptor n: the number that it writes to
    descriptor 3. It ends with the command. With a line, what it writes to descriptor 5 goes there."""
    out, number = os.pipe()
    frames, place = (None, None) if line is None else os.pipe()
    places = {**places, **dict(named_otherwise(words)), 3: number, **({} if line is None else {5: place})}
    high = {place: fcntl.fcntl(fd, fcntl.F_DUPFD_CLOEXEC, max(places) + 1) for place, fd in places.items()}
    actions = [(os.POSIX_SPAWN_DUP2, fd, place) for place, fd in high.items()]
    # A signal between the start and the try would leave the program behind.
    ending = {signal.SIGINT, signal.SIGTERM}
    signal.pthread_sigmask(signal.SIG_BLOCK, ending)
    child = os.posix_spawn(program, [program, *words], os.environ, file_actions=actions, setsigmask=[])
    try:
        signal.pthread_sigmask(signal.SIG_UNBLOCK, ending)
        for fd in [number, *high.values(), *([] if line is None else [place])]:
            os.close(fd)
        digits = heard(out, frames, line)
    finally:
        os.kill(child, signal.SIGKILL)
        os.waitpid(child, 0)
    return int(digits) if digits else fail(FAILED, f"{name}: the program died")


def hold_streams():
    """A standard stream that is closed is as /dev/null: otherwise what is opened next, as a line to a head, would get its number."""
    while (fd := os.open(os.devnull, os.O_RDWR)) < 3:
        os.set_inheritable(fd, True)
    os.close(fd)
    sys.stdout = sys.stdout or open(1, "w")
    sys.stderr = sys.stderr or open(2, "w")


def main(name, command):
    """Exits with what a command gives, and on an interrupt as a shell does."""
    hold_streams()
    signal.signal(signal.SIGTERM, lambda number, frame: sys.exit(128 + number))
    try:
        sys.exit(command())
    except KeyboardInterrupt:
        sys.exit(128 + signal.SIGINT)
    except OSError as error:
        os._exit(fail(FAILED, f"{name}: {error.strerror}"))
