#!/usr/bin/env bash
# Builds the head for riscv32 without a division, an operating system or a C library (RV32IC and Zmmul):
#
#   firmware/build.sh                     the proved calls, crate abi, to target/riscv32
#   firmware/build.sh OUT SOURCE...       the same calls from other sources, in C or for LLVM (.ll), to OUT, for bench and tests
#
# In the folder are then libmastfrap.a, which has the four calls of include/mastfrap.h for a head and what they call; session,
# which is firmware/head.c on Linux (qemu-riscv32 target/riscv32/session < sample/session.bin); and for each object a file .su,
# with the stack that each function takes. Says in one line what went wrong, and exits with 1.
set -eu
cd "$(dirname "$0")/.."
out=${1:-target/riscv32}
tools=$(dirname "$(rt doc)")/toolchain/bin

# -inline-threshold: with less, more calls, and what they hand over in memory; with more, code is repeated.
# The three limits: how far the compiler looks for what overwrites a store. The module clears each variable that is an array or a struct
# before it is written, and with the limits that it has of itself most of that stays.
target=(--target=riscv32-unknown-none-elf -march=rv32ic_zmmul -mabi=ilp32)
flags=("${target[@]}" -Os -ffunction-sections -fdata-sections -fstack-usage)
for word in inline-threshold=800 dse-memoryssa-scanlimit=100000 dse-memoryssa-walklimit=100000 memssa-check-limit=100000; do
    flags+=(-mllvm "-$word")
done
# With these words the kit's compiler hands a module to clang.
flags_module=("${flags[@]}")
for word in no-trap-after-noreturn trap-unreachable disable-machine-licm disable-postra-machine-licm sink-common-insts=false; do
    flags_module+=(-mllvm "-$word")
done
flags_c=("${flags[@]}" -Wall -Wextra -Werror -nostdinc -isystem firmware/include -I include -I firmware)

fail() {
    echo "firmware/build.sh: $*" >&2
    exit 1
}

compile() { # NAME WORDS...
    "$tools/clang" -c -o "$out/$1.o" "${@:2}" || fail "$1 does not compile"
}

# The proved calls, as an object.
proved() {
    scripts/archive abi > "$out/log" 2>&1 || fail "abi is not proved: $(tail -n 1 "$out/log")"
    python3 firmware/retarget.py < target/staticlib/abi.ll > "$out/abi.ll" || fail "the module of abi cannot be made one for riscv32"
    compile abi "${flags_module[@]}" -x ir "$out/abi.ll"
    objects=("$out/abi.o")
}

others() { # SOURCE...
    local source name
    objects=()
    for source in "$@"; do
        name=calls_$(basename "${source%.*}")
        case $source in
            *.ll) compile "$name" "${flags_module[@]}" -x ir "$source" ;;
            *) compile "$name" "${flags_c[@]}" "$source" ;;
        esac
        objects+=("$out/$name.o")
    done
}

# Links a program on Linux. A call for a division is one that the library has not.
link() { # NAME OBJECTS...
    "$tools/ld.lld" --gc-sections -o "$out/$1" "${@:2}" "$out/libmastfrap.a" 2> "$out/log" && return
    division=$(grep -oEm 1 '__u?(div|mod)[a-z0-9]*' "$out/log") && fail "the code divides ($division); the processor cannot"
    fail "$1 cannot be linked: $(head -n 1 "$out/log")"
}

[ -x "$tools/clang" ] || fail "the kit's clang is not at $tools"
mkdir -p "$out"
rm -f "$out"/*.o "$out"/*.su "$out"/libmastfrap.a "$out"/session
if [ $# -eq 0 ]; then proved; else others "${@:2}"; fi
compile memory "${flags_c[@]}" -fno-builtin firmware/memory.c
"$tools/llvm-ar" rcs "$out/libmastfrap.a" "${objects[@]}" "$out/memory.o" || fail "no archive"
compile head "${flags_c[@]}" firmware/head.c
compile linux "${flags_c[@]}" firmware/linux.c
compile linux_riscv32 "${target[@]}" firmware/linux_riscv32.s
link session "$out/linux_riscv32.o" "$out/head.o" "$out/linux.o"
