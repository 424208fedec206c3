#!/usr/bin/env bash
# Measures the proved head on riscv32 beside the same head in C (bench/head.c, bench/reset.c), both by firmware/build.sh with one
# compiler and its flags: instructions, stack, code. Prints a table, and exits with 1 where a figure of the proved head is over its limit
# (bench/firmware.py has them). Needs qemu-riscv32, of Debian's package qemu-user, and python3.
#
#   bench/firmware.sh [-v]    -v: also the stack along the deepest calls, and code and stack of each function
set -eu
cd "$(dirname "$0")/.."
firmware/build.sh
firmware/build.sh target/riscv32-c bench/head.c bench/reset.c bench/reference.c
exec python3 bench/firmware.py "$@" target/riscv32 target/riscv32-c
