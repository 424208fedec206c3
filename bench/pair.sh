#!/usr/bin/env bash
# Measures `gather` and `act` on whole loads, in one run against the same head as ordinary C at gcc -O3 (bench/head.c), and prints times and
# their ratios (below 1: the proved code is quicker). Exits with 1 where the ratio at 128 KiB is above 4. Needs gcc and python3.
set -eu
cd "$(dirname "$0")/.."
proved=$(scripts/built bench_load)
mkdir -p target/bench
gcc -O3 -c bench/reference.c -o target/bench/reference.o
gcc -O3 -flto -Wall -I include bench/pair.c bench/head.c target/bench/reference.o -o target/bench/head
python3 bench/pair.py "$proved" target/bench/head
