#!/usr/bin/env python3
"""scripts/built, and ./run over it, in a copy of the repository whose `rt` is a stub: when it is called, what comes out, and the status.

The copy's path has a space in it, and the commands are called from another folder.
"""
import os
import shutil
import subprocess
import sys
import tempfile
import time
from pathlib import Path

TOP = Path(__file__).resolve().parent.parent
COMMANDS = ("run", "load", "simulate", "digest", "diagnose", "record", "spool")
PROGRAMS = ("load", "simulate", "digest", "diagnose", "recorder", "spooler")  # besides headlog
SECONDS = 20
PIPES = {"stdin": subprocess.DEVNULL, "stdout": subprocess.PIPE, "stderr": subprocess.PIPE}
NOBODY = ["setpriv", "--reuid", "65534", "--regid", "65534", "--clear-groups"]

# Notes that it was called in a crate's folder, and makes a program there; with a file `fails` it makes it and then fails.
RT = """#!/bin/sh
top=$(dirname "$(dirname "$0")")
name=$(basename "$PWD")
echo "$@ $name" >> "$top/calls"
sleep 0.2
mkdir -p out
cp "$top/program" "out/$name"
echo log
echo more >&2
[ ! -e "$top/fails" ]
"""
LOG = b"log\nmore\n"
COPIES_INPUT = "#!/bin/sh\ncat\n"


def written(path, text):
    path.write_text(text)
    path.chmod(0o755)


class Copy:
    """A copy of the commands, for which rt makes this program."""

    def __init__(self, top, program=COPIES_INPUT):
        self.top = top
        crates = [f"crates/{name}" for name in PROGRAMS]
        for part in ("sample", "bin", "crates/headlog/src", "crates/framing/src", *crates):
            (top / part).mkdir(parents=True)
        shutil.copytree(TOP / "scripts", top / "scripts")
        for file in (*COMMANDS, "sample/session.bin", "crates.txt", "crates/headlog/src/main.rt", "crates/framing/src/lib.rt"):
            shutil.copy(TOP / file, top / file)
        written(top / "bin" / "rt", RT)
        if isinstance(program, Path):
            shutil.copy(program, top / "program")
        else:
            written(top / "program", program)
        self.calls = 0

    def started(self, command, *words, behind=()):
        environment = {**os.environ, "PATH": f"{self.top}/bin:{os.environ['PATH']}"}
        return subprocess.Popen([*behind, self.top / command, *words], cwd="/", env=environment, **PIPES)

    def ended(self, *command, **more):
        """Standard output and error and the status of a command."""
        process = self.started(*command, **more)
        return *process.communicate(timeout=SECONDS), process.returncode

    def called(self):
        """How rt was called since this was asked last."""
        file = self.top / "calls"
        lines = file.read_text().splitlines() if file.exists() else []
        new = lines[self.calls :]
        self.calls = len(lines)
        return new

    def wrong(self, what, wanted, calls, processes, name="headlog"):
        """1, with a word about it, unless each process gives this output, error and status, and rt was called so often since."""
        got = [(*process.communicate(timeout=SECONDS), process.returncode) for process in processes]
        new = self.called()
        if all(one == wanted for one in got) and new == [f"run {name}"] * calls:
            return 0
        print(f"built: {what}: got {got}, calls {new}, expected {wanted} and {calls} calls", file=sys.stderr)
        return 1

    def built(self, what, calls, failed=False, at_once=1, name="headlog", meanwhile=lambda: None):
        wanted = (b"", LOG, 1) if failed else (f"{self.top}/crates/{name}/out/{name}\n".encode(), b"", 0)
        processes = [self.started("scripts/built", name) for _ in range(at_once)]
        meanwhile()
        return self.wrong(what, wanted, calls, processes, name)

    def in_check(self):
        """Waits until rt has begun, and for a tick of the clock that files are stamped with."""
        end = time.monotonic() + SECONDS
        while len((self.top / "calls").read_text().splitlines()) == self.calls and time.monotonic() < end:
            time.sleep(0.01)
        time.sleep(0.05)


def elsewhere(folder, top, name):
    """A command's names elsewhere, each with the folder where it is called so and CDPATH is set: a symbolic link, and a relative path."""
    link = folder / "links" / name
    link.parent.mkdir(exist_ok=True)
    link.symlink_to(top / name)
    for path in (link, top / name):
        there = path.parent.parent
        yield f"{path.parent.name}/{name}", {"cwd": there, "env": {**os.environ, "CDPATH": str(there)}}


def changes(copy):
    """When rt is called."""
    source, fails, other = copy.top / "crates" / "headlog" / "src" / "main.rt", copy.top / "fails", copy.top / "older"
    yield copy.built("four at once", 1, at_once=4)
    yield copy.built("nothing to do", 0)
    source.touch()
    yield copy.built("a file changed", 1)
    (copy.top / "crates" / "framing" / "src" / "lib.rt").touch()
    yield copy.built("a file of another crate changed", 1)
    other.write_text("other")
    os.utime(other, (0, 0))
    shutil.copy2(other, source)
    yield copy.built("an older file in its place", 1)
    source.touch()
    yield copy.built("a file changes during the check", 1, meanwhile=lambda: (copy.in_check(), source.touch()))
    yield copy.built("and the next", 1)
    yield copy.built("another program", 1, name="digest")
    yield copy.built("not the first", 0)
    source.unlink()
    yield copy.built("a file is gone", 1)
    yield copy.built("also for the other program", 1, name="digest")
    (copy.top / "crates.txt").touch()
    yield copy.built("the list of crates changed", 1)
    (copy.top / "crates" / "headlog" / "out" / "headlog").unlink()
    yield copy.built("no binary", 1)
    (copy.top / "crates.txt").touch()
    fails.touch()
    yield copy.built("it fails", 1, failed=True)
    yield copy.built("and again, with a binary", 1, failed=True)
    yield copy.wrong("run, where it fails", (b"", LOG, 1), 1, [copy.started("run")])
    fails.unlink()
    (copy.top / "target" / "proved").touch()
    yield copy.built("all proved and built", 0)
    source.touch()


def runs(copy):
    sample = TOP / "sample" / "session.bin"
    wanted = (sample.read_bytes(), b"", 0)
    yield copy.wrong("run", wanted, 1, [copy.started("run")])
    yield copy.wrong("run with a file", wanted, 0, [copy.started("run", sample)])
    for name, place in elsewhere(copy.top.parent, copy.top, "run"):
        yield copy.wrong(f"run as {name}", wanted, 0, [subprocess.Popen([name], **PIPES, **place)])


def main():
    with tempfile.TemporaryDirectory() as folder:
        copy = Copy(Path(folder) / "a copy")
        wrong = [*changes(copy), *runs(copy)]
    return int(any(wrong))


if __name__ == "__main__":
    sys.exit(main())
