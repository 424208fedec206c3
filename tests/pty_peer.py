"""Pseudo-terminals in raw mode, with time limits: a command opens the terminal by its name, and python is what it meets at the other end.

    done = play([LOAD, TTY, FILE], answering())     a head that answers as it should
    done = play([LOAD, TTY, FILE], silent)          one that never answers
    done.status, done.out, done.err, done.sent

A peer is a function of a `Line`. Whatever it does, it ends with the command.
"""
import fcntl
import os
import select
import struct
import subprocess
import termios
import threading
import time
import tty
from dataclasses import dataclass

import head

SECONDS = 20  # for what must come
STEP = 0.02  # between looks at whether all is over
TTY = "TTY"  # the word of a command that stands for the terminal's name


class Line:
    """One end of a terminal. Nothing waits longer than it is told to, nor once the line is over."""

    def __init__(self, fd, over=None):
        self.fd = fd
        self.over = over or threading.Event()
        self.heard = b""  # all that was ever read here
        os.set_blocking(fd, False)

    def some(self, seconds=SECONDS, most=4096):
        """What there is, as soon as there is some; nothing if none came or the other end is closed. It looks at least once."""
        end = time.monotonic() + seconds
        while True:
            if select.select([self.fd], [], [], max(0, min(STEP, end - time.monotonic())))[0]:
                try:
                    data = os.read(self.fd, most)
                    self.heard += data
                    return data
                except BlockingIOError:
                    pass
                except OSError:
                    return b""
            if self.over.is_set() or time.monotonic() >= end:
                return b""

    def rest(self):
        """All that has come and is not read yet."""
        data = b""
        while more := self.some(0):
            data += more
        return data

    def read(self, count, seconds=SECONDS):
        """So many bytes, or fewer if they do not come in time."""
        end = time.monotonic() + seconds
        data = b""
        while len(data) < count:
            more = self.some(end - time.monotonic(), count - len(data))
            if not more:
                break
            data += more
        return data

    def write(self, data):
        end = time.monotonic() + SECONDS
        while data and not self.over.is_set() and time.monotonic() < end:
            if select.select([], [self.fd], [], STEP)[1]:
                try:
                    data = data[os.write(self.fd, data) :]
                except BlockingIOError:
                    continue

    def close(self):
        os.close(self.fd)


def unread(fd):
    """How many bytes have come at an end and are not read."""
    return struct.unpack("i", fcntl.ioctl(fd, termios.FIONREAD, bytes(4)))[0]


def opened(name):
    """The end that a terminal's name stands for."""
    return Line(os.open(name, os.O_RDWR | os.O_NOCTTY))


class Terminal:
    """A new terminal: `line` is the other end of `name`. It stays open while commands open and close it, until it is closed. It is raw, and
    then as these words for `stty` say."""

    def __init__(self, *modes):
        master, self.slave = os.openpty()
        tty.setraw(self.slave)
        self.name = os.ttyname(self.slave)
        if modes:
            subprocess.run(["stty", "-F", self.name, *modes], check=True)
        self.line = Line(master)
        self.is_open = True

    def drain(self, seconds=SECONDS):
        """Waits until what was written to the line has been read."""
        end = time.monotonic() + seconds
        while unread(self.slave) and time.monotonic() < end and not self.line.over.wait(STEP):
            pass

    def close(self):
        if self.is_open:
            self.is_open = False
            os.close(self.slave)
            self.line.close()

    def pull(self):
        """As if the cable were pulled, after the last byte has arrived."""
        self.drain()
        self.close()


@dataclass
class Done:
    status: int
    out: str
    err: str
    sent: bytes
    seconds: float


def play(command, peer, modes=(), screen=None, seconds=SECONDS):
    """Runs a command, with the terminal's name for TTY, while the peer is at the other end; one that is not over in time is killed.
    Standard error is a pipe, or goes to a screen, which is a Terminal."""
    terminal = Terminal(*modes)
    terminal.line.pull = terminal.pull
    words = [terminal.name if word == TTY else word for word in command]
    error = screen.slave if screen else subprocess.PIPE
    began = time.monotonic()
    process = subprocess.Popen(words, stdin=subprocess.DEVNULL, stdout=subprocess.PIPE, stderr=error)
    thread = threading.Thread(target=peer, args=[terminal.line], daemon=True)
    thread.start()
    try:
        out, err = process.communicate(timeout=seconds)
    except subprocess.TimeoutExpired:
        process.kill()
        out, err = process.communicate()
    took = time.monotonic() - began
    terminal.line.over.set()
    thread.join()
    if terminal.is_open:
        terminal.line.rest()
    terminal.close()
    return Done(process.returncode, out.decode(), (screen.line.rest() if screen else err).decode(), terminal.line.heard, took)


# ---- peers


def silent(line):
    while line.some():
        pass


def echo(line):
    while data := line.some():
        line.write(data)


def answering(change=lambda k, reply: reply):
    """A head of type 4 that sends change(k, reply) for its reply number k, from 0."""

    def peer(line):
        room, memory, words = bytearray(129), bytearray(head.RAM_MOST), [0] * 8
        record = head.TYPE_CLIENT.to_bytes(4, "little").ljust(head.RECORD, b"\0")
        _, device = head.begin(record, bytes(8), head.EMPTY_SLOTS, head.ZEROS, memory, words)
        replies = 0
        while data := line.some():
            for byte in data:
                answer = device.hear(byte, room, memory, words)
                if answer.reply:
                    line.write(change(replies, bytes(room[: answer.reply])))
                    replies += 1
                if answer.kind != "W":
                    return silent(line)

    return peer


def send(line, data, pause):
    """With a pause before each byte."""
    for byte in data:
        if not line.over.wait(pause):
            line.write(bytes([byte]))
