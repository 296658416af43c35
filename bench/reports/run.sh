#!/usr/bin/env bash
# Prints, for light rows and for rows of 24 steps of a generator of numbers, what the first run of a report takes and what a run behind
# a put of one row takes: cilkreport with records of ranges by their halves and without records, by 1, 2 and 4 workers; a loop in Rust,
# alone and by threads; the kit's port of rayon; a HashMap in Rust of what each row came to; a tree of sums in Rust; and sqlite3, by a
# query of all rows and by triggers that keep the total. Each ratio is that to the first line. All are run in turn, and the least is
# taken of several sessions of each: processor time, and time by the clock, which on a busy machine is that of what else is done too.
# The answers are compared. Rust is compiled for x86-64-v2, as rt compiles: heavy rows take twice the time with the instructions of
# rustc's default. Takes rustc, gcc, sqlite3 and python3, and rt, without which the line of rayon is left out.
#
# usage: run.sh [PROGRAM] [ROWS ..]      by default ./cilkreport as it is built, and 1000 10000 100000 1000000 rows
set -eu
here=$(cd "$(dirname "$0")" && pwd)
program=$(realpath -m "${1:-$here/../../crates/cilkreport/out/cilkreport}")
if [ $# -gt 0 ]; then shift; fi
if [ $# = 0 ]; then set -- 1000 10000 100000 1000000; fi
room=$(mktemp -d)
trap 'rm -rf "$room"' EXIT

# Proves and builds main.rt.txt in a copy, as the program `rayon` of the room. A subshell, which throws its copy away in the end.
build_rayon() {
    (
        source "$here/../in_a_copy.sh"
        in_a_copy reports rayon
        "${RT:-rt}" run -- light /dev/null < /dev/null > "$room/proved" 2>&1 || {
            cat "$room/proved" >&2
            exit 1
        }
        cp out/reports_bench "$room/rayon"
    )
}

rustc -O -C target-cpu=x86-64-v2 --edition 2024 -o "$room/by_hand" "$here/by_hand.rs"
if command -v "${RT:-rt}" > /dev/null 2>&1; then build_rayon; fi
gcc -O2 -shared -fPIC -o "$room/marks.so" "$here/marks.c"
echo "by $(nproc) processors, at a load of $(cut -d ' ' -f 1 /proc/loadavg)"
PYTHONDONTWRITEBYTECODE=1 "$here/sessions.py" "$program" "$room/by_hand" "$room/marks.so" "$room" "$@"
