"""The table of bench/pair.sh: pair.py PROVED PEER, two programs that load the same program and print the same lines."""
import subprocess
import sys
import time

SIZES = [1024 << k for k in range(8)]
ROUNDS = 3  # of which the best counts; the two programs take turns
LEAST = 0.5  # seconds
MOST = 4.0  # at the largest size


def run(program, size, times):
    """Seconds, bytes received, and all that the program printed."""
    given = size.to_bytes(4, "little") + times.to_bytes(4, "little")
    start = time.perf_counter()
    out = subprocess.run([program], input=given, stdout=subprocess.PIPE, check=True).stdout
    return time.perf_counter() - start, int(out.split()[3]), out


def enough(program, size):
    """How many loads last long enough to be timed."""
    times = 1
    while (seconds := run(program, size, times)[0]) < LEAST:
        times *= max(2, int(1.2 * LEAST / seconds))
    return times


def per_byte(program, size, times):
    """Nanoseconds per byte received, without what a run of no load takes."""
    idle, _, _ = run(program, size, 0)
    seconds, received, _ = run(program, size, times)
    return (seconds - idle) / received * 1e9


def main(proved, peer):
    print(f"{'program':>8} {'proved ns/byte':>15} {'C ns/byte':>10} {'proved / C':>11} {'a load, against 1 KiB':>22}")
    for size in SIZES:
        if run(proved, size, 1)[2] != run(peer, size, 1)[2]:
            print(f"the two differ on a load of {size} bytes")
            return 1
        times = {p: enough(p, size) for p in (proved, peer)}
        rounds = [{p: per_byte(p, size, times[p]) for p in (proved, peer)} for _ in range(ROUNDS)]
        ours, theirs = (min(r[p] for r in rounds) for p in (proved, peer))
        load = ours * run(proved, size, 1)[1]
        first = load if size == SIZES[0] else first
        print(f"{size:>8} {ours:>15.2f} {theirs:>10.2f} {ours / theirs:>11.2f} {load / first:>22.2f}")
    print(f"at {size} bytes: {1e9 / ours:,.0f} bytes received per second, {1e9 / theirs:,.0f} by the C head")
    if ours / theirs > MOST:
        print(f"over {MOST} times the time of the C head: most likely the state is copied once more (docs/PROVING.md)")
        return 1
    return 0


if __name__ == "__main__":
    sys.exit(main(*sys.argv[1:]))
