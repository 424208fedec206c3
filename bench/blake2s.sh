#!/usr/bin/env bash
# Measures the proved BLAKE2s in one run against a plain RFC 7693 implementation in C at gcc -O3, OpenSSL's blake2s256 and, where it is
# installed, libb2 (SIMD), and prints ratios of time (below 1: the proved code is quicker); before them the size of the code. Needs gcc and
# Debian's libssl-dev; libb2-dev is optional. Exits with 1 where the ratio to plain C at 128 KiB is above 0.85: most likely the compiler has
# not inlined the rounds (docs/PROVING.md, "Why the hash is fast").
set -eu
cd "$(dirname "$0")/.."
scripts/archive blake2s
mkdir -p target/bench
peer=()
if echo '#include <blake2.h>' | gcc -E - >/dev/null 2>&1; then peer=(-DLIBB2 -lb2); fi
gcc -O3 -c bench/reference.c -o target/bench/reference.o
gcc -O2 -Wall -I include bench/blake2s.c target/bench/reference.o target/staticlib/libblake2s.a -lcrypto "${peer[@]}" -o target/bench/blake2s
size target/staticlib/libblake2s.a target/bench/reference.o |
    awk 'NR > 1 { bytes[NR] = $1 } END { print "code: proved", bytes[2], "bytes, C at gcc -O3", bytes[3] }'
target/bench/blake2s
