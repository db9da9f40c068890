#!/usr/bin/env bash
# Times the kernels of leaf_block beside plain C loops of the same formulas, on this machine and in one run.
# It works on a copy of the repository's crates, to which it adds the program of main.txt; rt proves that before it runs.
set -eu
here=$(cd "$(dirname "$0")" && pwd)
work=$(mktemp -d)
trap 'rm -rf "$work"' EXIT
mkdir "$work/crates"
cp -r "$here/../../crates/rel_model" "$here/../../crates/leaf_block" "$work/crates/"
mkdir -p "$work/crates/blocks/src"
cp "$here/main.txt" "$work/crates/blocks/src/main.rt"
cp "$here/../../HANDLES" "$work/"
printf 'rel_model:\nleaf_block: rel_model\nblocks: leaf_block\n' > "$work/crates.txt"
lscpu | grep 'Model name'
(cd "$work/crates/blocks" && rt run > "$work/log" 2>&1) || { tail -20 "$work/log"; exit 1; }
# The processor that rt builds for, which the C loops get too.
cpu=$(grep -o 'cpu=[^ ]*' "$work/log" | tail -1 | cut -d= -f2)
for turn in 1 2; do
    "$work/crates/blocks/out/blocks" | grep -v sum
    for compiler in "gcc -O2" "gcc -O3" "clang -O2" "clang -O3"; do
        command -v "${compiler%% *}" > /dev/null || continue
        $compiler "-march=$cpu" "-DCOMPILER=\"$compiler\"" "$here/plain.c" -o "$work/plain"
        "$work/plain" 2> "$work/sum"
    done
done
