#!/usr/bin/env bash
# Holds the head in C that bench/ measures the proved one against to the same independent program, by the same calls.
set -eu
cd "$(dirname "$0")/.."
library=target/tests/libpeer.so
mkdir -p target/tests
gcc -O2 -shared -fPIC -Wall -Wextra -Werror -I include bench/head.c bench/reset.c bench/reference.c -o "$library"
python3 tests/c_head.py --library "$library"
python3 tests/c_chain.py --library "$library"
