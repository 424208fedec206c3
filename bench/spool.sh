#!/usr/bin/env bash
# Measures the spool calls, in one run against the same calls as ordinary C at gcc -O3 (bench/blocks.c), and prints times and their ratios
# (below 1: the proved code is quicker). Fails where the two give other answers or bytes. Both look at a spare's number before they take its
# hash. Needs gcc.
set -eu
cd "$(dirname "$0")/.."
scripts/archive spool
mkdir -p target/bench
gcc -O3 -c bench/reference.c -o target/bench/reference.o
gcc -O3 -Wall -I include -c bench/blocks.c -o target/bench/blocks.o
gcc -O2 -Wall -I include bench/spool.c target/bench/blocks.o target/bench/reference.o target/staticlib/libspool.a -o target/bench/spool
target/bench/spool
