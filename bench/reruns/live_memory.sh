#!/usr/bin/env bash
# Prints what memory live sessions of so many commands take, that come through a pipe: puts into a table of ten rows and runs, by turns.
# First the peak of the process in KiB, the least of three sessions, since it differs by a tenth from one to the next; beside it that of
# the same script where it is read whole; then the seconds that both take. Fails where the peak of the live session grows by more than a
# tenth from the first number to the last, and where the answers differ.
# Takes GNU time.
#
# usage: live_memory.sh [PROGRAM] [COMMANDS ..]      by default ./cilkreport as it is built, and 10000 100000 1000000 commands
set -eu
here=$(cd "$(dirname "$0")" && pwd)
program=$(realpath -m "${1:-$here/../../crates/cilkreport/out/cilkreport}")
if [ $# -gt 0 ]; then shift; fi
if [ $# = 0 ]; then set -- 10000 100000 1000000; fi
room=$(mktemp -d)
trap 'rm -rf "$room"' EXIT
source "$here/report.sh"
report 0 0 > "$room/report"
tables 10 > "$room/tables"

commands() { awk -v commands="$1" 'BEGIN { for (i = 1; i <= commands; i++) print i % 2 ? "put sales " i * 7 % 10 + 1 " " i " 7" : "run" }'; }

# The least peak of three sessions' memory in KiB and the seconds of that one, by so many commands; their answers are summed beside.
peak() { # how many commands, where the sum is kept, further words
    for _ in 1 2 3; do one_peak "$@"; done | sort -n | head -n 1
}

one_peak() { # how many commands, where the sum is kept, further words
    commands "$1" | /usr/bin/time -f '%M %e' -o "$room/peak" "$program" "$room/report" "$room/tables" "${@:3}" | sha256sum > "$2"
    tail -n 1 "$room/peak"
}

is_wrong() {
    echo "$1" >&2
    wrong=1
}

echo '| commands | live, KiB | read whole, KiB | live, s | read whole, s |'
echo '|---|---|---|---|---|'
wrong=0
first=
for count in "$@"; do
    read -r live live_seconds < <(peak "$count" "$room/live" --live)
    read -r whole whole_seconds < <(peak "$count" "$room/whole")
    echo "| $count | $live | $whole | $live_seconds | $whole_seconds |"
    cmp -s "$room/live" "$room/whole" || is_wrong "$count commands: the answers differ"
    if [ "$live" -gt $((${first:=$live} + first / 10)) ]; then is_wrong "$count commands: the peak grows"; fi
done
exit $wrong
