#!/usr/bin/env bash
# Prints what a spawn and a steal cost, in instructions (callgrind): a spawn that isn't stolen, with its sync, beyond a call in its place;
# and a steal with its fold, by runs with 2 and 4 workers of so many more pairs of instances that the steals differ, beyond the same runs
# with one worker. The second holds what a worker does to find something to steal. It is of pairs of several lengths, all together: of one
# length nearly nothing may be stolen, by how the turns in which valgrind lets the threads run fall on the pairs, and then the search for it
# is spread over two steals. Below it stands what a steal takes in the functions that begin a stolen strand, and a fold in those that fold
# a pair, each with what it calls: those that the compiler hasn't put into their callers. Takes valgrind.
#
# usage: costs.sh [PROGRAM]      by default ./cilkreport as it is built
set -eu
here=$(cd "$(dirname "$0")" && pwd)
program=$(realpath -m "${1:-$here/../../crates/cilkreport/out/cilkreport}")
room=$(mktemp -d)
trap 'rm -rf "$room"' EXIT
source "$here/../speed/reports.sh"
fib=24
spawned=75024 # by fib(24)
few=2000 many=8000
lengths='30 43 50'
# Parts of the names of the functions that begin a stolen strand, and of those that fold a pair.
beginning='Table::rob|begin_stolen|Book::split|Chronicle::split|Strand::stolen'
folding='Desk::fold|Book::fold|fold_kept|Pair::join|Strand::join|Strand::lay_bare|Hypermap::fold'
echo run > "$room/once"
: > "$room/tables"
calls $fib > "$room/calls"
spawns $fib > "$room/spawns"

# So many times two instances side by side, one of them spawned, each a loop that long.
pairs() { # how many, how long
    echo 'reducer total : add;'
    echo 'proc one(k) { x = k * 3; }'
    echo "proc spin(i) { cilk_for k in 0 .. $2 grain 64 : one(k); update total i; return i; }"
    echo 'proc pair(i) { x = spawn spin(i); y = call spin(i); sync; }'
    echo "proc main() { cilk_for i in 0 .. $1 grain 65536 : pair(i); t = read total; return t; }"
}
for length in $lengths; do
    for count in $few $many; do pairs $count "$length" > "$room/pairs$count-$length"; done
done

# The steals, the folds and the instructions of a run, in the order in which they are told. Its functions are kept.
counts() { # the report, how many workers
    valgrind --tool=callgrind --fair-sched=yes --callgrind-out-file="$room/functions" \
        "$program" "$room/$1" "$room/tables" --workers "$2" --stats < "$room/once" 2>&1 > "$room/answers" |
        sed -nE 's/^stats .* steals ([0-9]+) folds ([0-9]+) .*/\1 \2/p; s/.*Collected : //p' | xargs
}

# What the functions of the last run take whose names have one of the parts, with what they call, for one of so many.
parts() { # the parts, how many, what they are
    if [ "$2" = 0 ]; then return; fi
    callgrind_annotate --inclusive=yes --threshold=100 --auto=no "$room/functions" |
        sed -nE 's/^ *([0-9,]+) \([^)]*\) +[^ :]*:([^ ].*)$/\1 \2/p' | sed -E 's/ \[[^]]*\]$//; s/::<#[0-9a-f]+>//' |
        grep -E "$1" | while read -r number name; do echo "    $((${number//,/} / $2)) a $3: $name"; done || true
}

read -r _ _ called < <(counts calls 1)
read -r _ _ all < <(counts spawns 1)
echo "a spawn that isn't stolen, with its sync: $(((all - called) / spawned)) instructions more than a call"
alone=0
for length in $lengths; do
    read -r _ _ few_alone < <(counts "pairs$few-$length" 1)
    read -r _ _ many_alone < <(counts "pairs$many-$length" 1)
    alone=$((alone + many_alone - few_alone))
done
for workers in 2 4; do
    more=$((-alone)) steals=0
    for length in $lengths; do
        read -r few_steals _ few_all < <(counts "pairs$few-$length" $workers)
        read -r many_steals many_folds many_all < <(counts "pairs$many-$length" $workers)
        more=$((more + many_all - few_all)) steals=$((steals + many_steals - few_steals))
    done
    if [ $steals -le 0 ]; then
        echo "$workers workers: nothing was stolen"
    else
        echo "a steal with its fold, by $workers workers: $((more / steals)) instructions, the search for it among them ($steals steals)"
        parts "$beginning" "$many_steals" steal
        parts "$folding" "$many_folds" fold
    fi
done
