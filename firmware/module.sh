#!/usr/bin/env bash
# Proves and builds a static library over the libraries that it depends on, which rt has built, and writes the LLVM module that it is
# compiled from: firmware/module.sh CRATE OUT.ll OUT.a, from the repository's top. The kit's compiler hands the module to the clang of a
# toolchain folder. Here that folder is one of links, whose clang keeps the module and then does its work.
set -eu
crate=$1 out=$(realpath "$2") archive=$(realpath "$3")
kit=$(dirname "$(rt doc)")
tools=$kit/toolchain

over=$(mktemp -d)
trap 'rm -rf "$over"' EXIT
mkdir "$over/bin"
ln -s "$tools/lib" "$over/lib"
for tool in ld.lld llvm-ar; do ln -s "$(realpath "$tools/bin/clang")" "$over/bin/$tool"; done
cat > "$over/bin/clang" <<W
#!/bin/sh
for word in "\$@"; do case \$word in *.bc) cp "\$word" "$over/module.bc" ;; esac; done
exec "$tools/bin/clang" "\$@"
W
chmod +x "$over/bin/clang"

# A library of the repository is in its crate's out/rlib, and the kit's are in rlibs.
words=(--extern "std=$kit/rlibs/std.rlib" -L "dependency=$kit/rlibs")
for d in $(sed -n "s/^$crate staticlib: *//p" crates.txt); do
    if [ -d "crates/$d" ]; then at=$PWD/crates/$d/out/rlib; else at=$kit/rlibs; fi
    words+=(--extern "$d=$at/$d.rlib")
done
for at in "$PWD"/crates/*/out/rlib; do words+=(-L "dependency=$at"); done
cd "crates/$crate"
if ! "$kit/bin/rattle" build --crate-name "$crate" src/lib.rt "${words[@]}" --antt-project "$kit/rattle/logic/antt-project.json" \
    --logic-built "$kit/logic_built" --incremental out/incremental --links "$crate=" --crate-type staticlib --backend llvm \
    --toolchain "$over" -o "$archive"; then
    echo "module.sh: $crate is not proved and built over what stands in out/" >&2
    exit 1
fi
if [ ! -e "$over/module.bc" ]; then
    echo "module.sh: the kit's compiler handed clang no module of $crate" >&2
    exit 1
fi
"$tools/bin/clang" --target=x86_64-unknown-linux-gnu -x ir "$over/module.bc" -S -emit-llvm -O0 -o "$out"
