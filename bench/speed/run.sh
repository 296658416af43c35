#!/usr/bin/env bash
# Prints what runs of light reports cost by one worker, as a table: the instructions of a row, an iteration or a call (callgrind), and
# the nanoseconds of a processor (the least of fifteen sessions), each that of a session with one run less that of the session without.
# Beside the program stand a loop in Rust without a runtime, and Lua 5.4 where `lua5.4` is on the path, which keeps a table a row where
# the program makes a record. Then what a spawn with its sync costs in calls, and for each report the twenty functions with most
# instructions. The answers are compared. Takes valgrind, rustc, python3.
#
# usage: run.sh [PROGRAM] [ROWS ..]      by default ./cilkreport as it is built, and 100000 1000000 rows
set -eu
here=$(cd "$(dirname "$0")" && pwd)
program=$(realpath -m "${1:-$here/../../crates/cilkreport/out/cilkreport}")
if [ $# -gt 0 ]; then shift; fi
if [ $# = 0 ]; then set -- 100000 1000000; fi
room=$(mktemp -d)
trap 'rm -rf "$room"' EXIT
rustc -O -C target-cpu=x86-64-v2 --edition 2024 -o "$room/loops" "$here/loops.rs"
rustc -O -C target-cpu=x86-64-v2 --edition 2024 -o "$room/lines" "$here/../reruns/lines.rs"
source "$here/reports.sh"
source "$here/profile.sh"
iterations=1000000 # of the loop without a table
fib=24
calls=150049 # that fib(24) makes, itself among them
few=20 many=200 # runs of a session of Lua and of Rust, since one takes too little time to be read
kept=2 # of one of Lua that keeps a table for each row
: > "$room/nothing"
echo run > "$room/once"
yes run | head -n $many > "$room/many" || true
: > "$room/no_tables"
has_lua=$(command -v lua5.4 || true)

# ---- the reports: each has its text, its tables, what a unit of it is and how many of these it has

declare -A size unit tables
cases=()
add_case() { # its name, its tables, its unit, how many
    cases+=("$1")
    tables[$1]=$2 unit[$1]=$3 size[$1]=$4
}
for rows in "$@"; do
    tables "$rows" > "$room/tables.$rows"
    for report in lines records; do
        $report > "$room/$report.$rows"
        add_case $report.$rows "$room/tables.$rows" row "$rows"
    done
done
iterations $iterations > "$room/iterations"
add_case iterations "$room/no_tables" iteration $iterations
for report in calls spawns; do
    $report $fib > "$room/$report"
    add_case $report "$room/no_tables" call $calls
done

# ---- who else answers them: the words of a session with so many runs

rust_words() { # the case, how many runs, `once` at most
    case $1 in
        lines.*) words=("$room/lines" "$room/$1" "${tables[$1]}") ;;
        iterations) words=("$room/loops" iterations $iterations "$2") ;;
        calls) words=("$room/loops" calls $fib "$2") ;;
        *) return 1 ;;
    esac
}

lua_words() {
    case $1 in
        records.*) words=("$has_lua" "$here/loops.lua" records "${size[$1]}" "$2") ;;
        lines.*) words=("$has_lua" "$here/loops.lua" lines "${size[$1]}" "$2") ;;
        iterations) words=("$has_lua" "$here/loops.lua" iterations $iterations "$2") ;;
        calls) words=("$has_lua" "$here/loops.lua" calls $fib "$2") ;;
        *) return 1 ;;
    esac
}

lua_runs() { # the case
    case $1 in
        records.*) echo $kept ;;
        *) echo $few ;;
    esac
}

# ---- instructions

# Of a session, whose answers and whose functions are kept under that name.
instructions() { # the name, the script, the words
    valgrind --tool=callgrind --callgrind-out-file="$room/$1.functions" "${@:3}" < "$room/$2" 2>&1 > "$room/$1.answers" |
        sed -n 's/.*Collected : //p'
}

declare -A counted
count() { # the case
    local words wrong=''
    counted[$1]=$(($(instructions "$1.run" once "$program" "$room/$1" "${tables[$1]}") - $(instructions "$1.begun" nothing "$program" "$room/$1" "${tables[$1]}")))
    if rust_words "$1" 1; then
        counted[rust.$1]=$(instructions rust.run once "${words[@]}")
        cmp -s "$room/rust.run.answers" "$room/$1.run.answers" || wrong=rust
        rust_words "$1" 0
        counted[rust.$1]=$((counted[rust.$1] - $(instructions rust.begun nothing "${words[@]}")))
    fi
    if [ -n "$has_lua" ] && lua_words "$1" 1; then
        counted[lua.$1]=$(instructions lua.run nothing "${words[@]}")
        cmp -s "$room/lua.run.answers" "$room/$1.run.answers" || wrong=lua
        lua_words "$1" 0
        counted[lua.$1]=$((counted[lua.$1] - $(instructions lua.begun nothing "${words[@]}")))
    fi
    if [ -n "$wrong" ]; then
        echo "$1: the answers of $wrong are others" >&2
        exit 1
    fi
}

# ---- processor time

command_of() { # the name, the script, the words
    local name=$1 script=$room/$2
    shift 2
    (IFS=$'\t'; echo "$name	$script	$*")
}

commands() {
    local name words
    for name in "${cases[@]}"; do
        command_of "$name.begun" nothing "$program" "$room/$name" "${tables[$name]}"
        command_of "$name.run" once "$program" "$room/$name" "${tables[$name]}"
        if rust_words "$name" 0; then command_of "rust.$name.begun" nothing "${words[@]}"; fi
        if rust_words "$name" $many; then command_of "rust.$name.run" many "${words[@]}"; fi
        if [ -z "$has_lua" ]; then continue; fi
        if lua_words "$name" 0; then command_of "lua.$name.begun" nothing "${words[@]}"; fi
        if lua_words "$name" "$(lua_runs "$name")"; then command_of "lua.$name.run" nothing "${words[@]}"; fi
    done
}

declare -A took
while read -r name processor _; do took[$name]=$processor; done < <(commands | "$here/../least.py" 15)

# Nanoseconds a unit.
nanoseconds() { # the name, how many runs, how many units
    if [ -n "${took[$1.run]:-}" ]; then awk "BEGIN { printf \"%.1f\", (${took[$1.run]} - ${took[$1.begun]}) * 1000 / $2 / $3 }"; fi
}

# ---- what is printed

a_unit() { # how many instructions, how many units
    if [ -n "$1" ]; then awk "BEGIN { printf \"%.1f\", $1 / $2 }"; fi
}

declare -A title=(
    [lines]='rows, a product and two updates each' [records]='the same with a record for each row, first run'
    [iterations]='iterations, two binds and two updates each' [calls]="fib($fib) with calls" [spawns]="fib($fib) with a spawn in each call"
)
lua_title='' lua_line=''
if [ -n "$has_lua" ]; then lua_title=' Lua, instructions | Lua, ns |' lua_line='---|---|'; fi
echo "| Report | units | cilkreport, instructions | cilkreport, ns | Rust, instructions | Rust, ns |$lua_title"
echo "|---|---|---|---|---|---|$lua_line"
for name in "${cases[@]}"; do
    count "$name"
    units=${size[$name]}
    line="| ${title[${name%%.*}]} | $units | $(a_unit "${counted[$name]}" "$units") | $(nanoseconds "$name" 1 "$units")"
    line+=" | $(a_unit "${counted[rust.$name]:-}" "$units") | $(nanoseconds "rust.$name" $many "$units") |"
    if [ -n "$has_lua" ]; then line+=" $(a_unit "${counted[lua.$name]:-}" "$units") | $(nanoseconds "lua.$name" "$(lua_runs "$name")" "$units") |"; fi
    echo "$line"
done
echo
awk -v calls=$calls -v spawned="${counted[spawns]}" -v called="${counted[calls]}" 'BEGIN {
    spawns = (calls - 1) / 2
    more = (spawned - called) / spawns
    printf "A spawn with its sync takes %.0f instructions more than a call in its place, which is %.2f of a call of fib (%.0f).\n", more, more * calls / called, called / calls
}'
for name in "${cases[@]}"; do
    echo
    echo "| $name, by its own instructions | a ${unit[$name]} | part |"
    echo '|---|---|---|'
    profile "$room/$name.begun.functions" "$room/$name.run.functions" "${size[$name]}"
done
