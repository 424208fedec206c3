#!/usr/bin/env bash
# Measures the client's make_frame and read_reply, in one run against the same calls as ordinary C at gcc -O3 (bench/server.c), and
# prints times and their ratios (below 1: the proved code is quicker). Needs gcc.
set -eu
cd "$(dirname "$0")/.."
scripts/archive client
mkdir -p target/bench
gcc -O3 -Wall -I include -c bench/server.c -o target/bench/server.o
gcc -O2 -Wall -I include bench/client.c target/bench/server.o target/staticlib/libclient.a -o target/bench/client
target/bench/client
