#!/usr/bin/env bash
# Runs random programs by 2 to 16 threads for so many seconds, from the program of that number on, each four times with an edit before
# each run, and compares each answer with that of the slow serial program. A proved run can still hang: a program that takes more than
# LIMIT seconds, by default 60, is told. The program of this folder is proved and built in a copy of the crates that it stands on, and
# the copy is thrown away; with KEEP=FILE the program stays there, and PROGRAM=FILE runs one that was kept, with nothing proved or
# built. With RUNS=N it ends after so many runs, if that is sooner. With QUICK=1 nothing is proved: the program is built with run-time
# checks, and is some ten times slower.
#
# usage: stress.sh [SECONDS [FIRST]]      by default 60 seconds from program 1 on
set -eu
seconds=${1:-60} first=${2:-1} limit=${LIMIT:-60}
source "$(dirname "$0")/../in_a_copy.sh"
program=${PROGRAM:+$(realpath "$PROGRAM")} kept=${KEEP:+$(realpath -m "$KEEP")} runs=${RUNS:-0}
if [ -n "$program" ]; then
    copy=$(mktemp -d)
    trap 'rm -rf "$copy"' EXIT
else
    in_a_copy threads 'threaded_driver kept_session session_edits serial_oracle trace_report frames procedure_parser spawn_checker view_pool linked_program input_tables monoid_laws meaning positions'
    if [ "${QUICK:-0}" = 1 ]; then
        "${RT:-rt}" try --seconds $((seconds + limit)) -- "$first" "$seconds" | tail -n 30
        exit
    fi
    "${RT:-rt}" run -- 1 0 # builds and proves it
    program=$PWD/out/threads_bench
    if [ -n "$kept" ]; then cp "$program" "$kept"; fi
fi
end=$((SECONDS + seconds)) finished=0 faulted=0 steals=0
while [ $SECONDS -lt $end ] && { [ "$runs" = 0 ] || [ $((finished + faulted)) -lt "$runs" ]; }; do
    status=0
    timeout $((limit + 5)) "$program" "$first" 5 > "$copy/said" || status=$?
    last=$(sed -n 's/^program //p' "$copy/said" | tail -n 1)
    case $status in
        0) ;;
        124)
            echo "program $last hangs"
            exit 1
            ;;
        *)
            sed -n "/^program $last\$/,\$p" "$copy/said"
            exit 1
            ;;
    esac
    read -r more_finished more_faulted more_steals < <(tail -n 1 "$copy/said" | tr -dc '0-9 \n')
    finished=$((finished + more_finished)) faulted=$((faulted + more_faulted)) steals=$((steals + more_steals))
    first=$((last + 1))
done
echo "$finished runs finished, $faulted faulted, each as wanted, $steals steals; the next program is $first"
