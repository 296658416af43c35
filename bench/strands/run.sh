#!/usr/bin/env bash
# Times a loop of a million iterations on one strand: the program of this folder, as LLVM builds it, in a copy of the crates that
# it stands on, and the same interpreter written in Rust. The copy is thrown away.
set -eu
source "$(dirname "$0")/../in_a_copy.sh"
in_a_copy strands 'frames procedure_parser spawn_checker positions view_pool linked_program input_tables monoid_laws'
rustc -O -C target-cpu=x86-64-v2 --edition 2024 -o "$copy/strands" "$top/bench/strands/strands.rs"
"${RT:-rt}" run # builds and proves it
for _ in 1 2 3; do
    "$copy/strands"
    out/strands_bench
done | tee "$copy/times"
awk '$1 == "rust" && (!r || $2 < r) { r = $2 } $1 == "rattle" && (!t || $2 < t) { t = $2 } END { printf "least: rust %d ns, rattle %d ns, ratio %.2f\n", r, t, t / r }' "$copy/times"
