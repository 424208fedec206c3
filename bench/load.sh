#!/usr/bin/env bash
# Measures a load of 131,072 bytes over a pseudo-terminal into ./simulate: by ./load, and in the same run by the same loop in python3
# (bench/load.py), and prints seconds and their ratios (below 1: ./load is quicker). Needs python3.
set -eu
cd "$(dirname "$0")/.."
scripts/built simulate >/dev/null
scripts/built load >/dev/null
exec python3 bench/load.py
