#!/usr/bin/env bash
# Prints a table of how long a run takes whose 1,000,000 iterations each put a number into a list, or an amount into a histogram of 100
# keys, by 1, 2 and 4 workers, with plain views and with flat ones: in milliseconds, the least of fifteen sessions with one run, in turn,
# less that of the session without it. The answers of all have to be the same. Takes ./cilkreport as it is built, or another program of
# that kind as its first word, and a quiet machine.
set -eu
source "$(dirname "$0")/room.sh"
echo 'reducer seen : list; proc one(i) { update seen i; } proc main() { cilk_for i in 0 .. 1000000 grain 64 : one(i); return 0; }' > "$room/list"
echo 'reducer h : hist; proc one(i) { update h i * 37 % 100, 1; } proc main() { cilk_for i in 0 .. 1000000 grain 64 : one(i); return 0; }' > "$room/hist"

# The microseconds of each session, the least of so many, taken in turn: what else the machine does then falls on all alike.
measure() { # the report
    local round script views workers begun took key
    least=()
    for round in $(seq 15); do
        for workers in 1 2 4; do
            for views in plain flat; do
                for script in once nothing; do
                    begun=$(date +%s%N)
                    "$program" "$room/$1" "$room/tables" --workers "$workers" --views "$views" < "$room/$script" > "$room/answer"
                    took=$((($(date +%s%N) - begun) / 1000))
                    key=$script.$views.$workers
                    if [ -z "${least[$key]:-}" ] || [ "$took" -lt "${least[$key]}" ]; then least[$key]=$took; fi
                    if [ "$script" = once ]; then
                        if [ -f "$room/$1.answer" ]; then cmp "$room/answer" "$room/$1.answer"; else cp "$room/answer" "$room/$1.answer"; fi
                    fi
                done
            done
        done
    done
}

declare -A least=()
echo '| ms | 1 worker | 2 workers | 4 workers |'
echo '|---|---|---|---|'
for report in list hist; do
    measure $report
    for views in plain flat; do
        line="| $report, $views views |"
        for workers in 1 2 4; do
            took=$((${least[once.$views.$workers]} - ${least[nothing.$views.$workers]}))
            line+=" $((took / 1000)).$(printf '%03d' $((took % 1000)) | cut -c1) |"
        done
        echo "$line"
    done
done
