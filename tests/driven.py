"""A C program that reads calls on its standard input and writes a line for each."""
import subprocess
import sys


def lines(name, program, data, wanted):
    """What it writes for these calls; wanted has, for each, what it is and its line. The test `name` ends where another comes."""
    done = subprocess.run([program], input=b"".join(data), stdout=subprocess.PIPE)
    found = done.stdout.decode().splitlines()
    for k, (what, line) in enumerate(wanted):
        got = found[k] if k < len(found) else f"nothing: it ended with status {done.returncode}"
        if got != line:
            sys.exit(f"{name}: {what}\n  got      {got}\n  expected {line}")
    if done.returncode != 0 or len(found) != len(wanted):
        sys.exit(f"{name}: {len(found)} lines for {len(wanted)} calls, exit status {done.returncode}")
    return found
