"""A program's stored output, held to what an independent program expects of it."""
import sys


def check(path, want):
    """0 if the file holds want; otherwise says each line that differs, and gives 1."""
    with open(path, "rb") as f:
        got = f.read()
    if got == want:
        return 0
    got_lines = got.split(b"\n")
    want_lines = want.split(b"\n")
    for i in range(max(len(got_lines), len(want_lines))):
        g = got_lines[i] if i < len(got_lines) else None
        w = want_lines[i] if i < len(want_lines) else None
        if g != w:
            print(f"{path}:{i + 1}: got {show(g)}, expected {show(w)}", file=sys.stderr)
    return 1


def show(line):
    return "nothing" if line is None else repr(line.decode("latin-1"))


def main(usage, lines):
    """Prints the lines, or with --check FILE holds FILE to them; gives the exit status."""
    want = "".join(line + "\n" for line in lines).encode()
    args = sys.argv[1:]
    if not args:
        sys.stdout.buffer.write(want)
        return 0
    if len(args) == 2 and args[0] == "--check":
        return check(args[1], want)
    print(usage, file=sys.stderr)
    return 2
