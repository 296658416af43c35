#!/usr/bin/env bash
# Prints what memory sessions of so many edits of a table of 1000 rows take, each behind a run: puts, deletes of a row that is put again,
# and defines of the procedure that is called for each row. First the bytes that are in use at the end of runs, a tenth of the runs and
# all of them done: that is what the session keeps, since its script is read whole before anything runs. Then the peak of the process in
# KiB; beside it that of the same script with its edits refused, with its runs refused too, and with each line made a comment, which is
# what the script, its commands and the tables take by themselves; and that of the loop in Rust that keeps nothing. Fails where the bytes
# in use grow by more than a hundredth from a tenth of the runs to the last. The answers are compared with those of the loop in Rust.
# Takes rustc, gcc, python3 and GNU time.
#
# usage: memory.sh [PROGRAM] [EDITS ..]      by default ./cilkreport as it is built, and 100 1000 10000 edits
set -eu
here=$(cd "$(dirname "$0")" && pwd)
program=$(realpath -m "${1:-$here/../../crates/cilkreport/out/cilkreport}")
if [ $# -gt 0 ]; then shift; fi
if [ $# = 0 ]; then set -- 100 1000 10000; fi
room=$(mktemp -d)
trap 'rm -rf "$room"' EXIT
rustc -O -C target-cpu=x86-64-v2 --edition 2024 -o "$room/lines" "$here/lines.rs"
gcc -O2 -shared -fPIC -o "$room/live.so" "$here/live.c"
source "$here/report.sh"
report 0 0 > "$room/report"
tables 1000 > "$room/tables"

# A script of so many edits, each behind a run.
edits() {
    awk -v edits="$1" -v before="$(line_added AT)" 'BEGIN {
        for (i = 1; i <= edits; i++) {
            row = i * 7 % 1000 + 1
            print "run"
            if (i % 4 == 0) { text = before; sub("AT", i, text); print "define\n" text "\nend" }
            else if (i % 4 == 1) print "del sales " row "\nput sales " row " " i " 7"
            else print "put sales " row " " i " 7"
        }
        print "run"
    }'
}

# A script with its edits refused, for a table that is not there; with its runs refused too; and with each line made a comment.
refused_edits() { sed 's/ sales / stock /; s/= sales\[r\]/= stock[r]/'; }

refused_runs() { sed 's/^run$/ran/'; }

comments() { sed 's/^./#/'; }

# The bytes in use at a tenth of the runs of a script, and at the last.
in_use() { # the script, how many runs
    head -c $((8 * $2)) /dev/zero > "$room/live"
    LD_PRELOAD="$room/live.so" LIVE="$room/live" "$program" "$room/report" "$room/tables" --stats < "$1" > "$1.answers" 2> "$room/stats"
    python3 -c 'import array, sys; noted = array.array("q", open(sys.argv[1], "rb").read()); print(noted[len(noted) // 10], noted[-1])' "$room/live"
}

# The peak of a program's memory over a script, in KiB; the answers are kept beside the script.
peak() { # the script, the program
    /usr/bin/time -f %M -o "$room/peak" "$2" "$room/report" "$room/tables" < "$1" > "$1.answers"
    tail -n 1 "$room/peak"
}

is_wrong() {
    echo "$1" >&2
    wrong=1
}

echo '| edits | in use at a tenth, bytes | at the end | peak, KiB | edits refused | runs refused too | comments | Rust |'
echo '|---|---|---|---|---|---|---|---|'
wrong=0
for count in "$@"; do
    edits "$count" > "$room/done"
    refused_edits < "$room/done" > "$room/runs"
    refused_runs < "$room/runs" > "$room/refused"
    comments < "$room/done" > "$room/comments"
    cp "$room/done" "$room/by_hand"
    read -r begun ended < <(in_use "$room/done" $((count + 1)))
    line="| $count | $begun | $ended |"
    for script in done runs refused comments; do line+=" $(peak "$room/$script" "$program") |"; done
    echo "$line $(peak "$room/by_hand" "$room/lines") |"
    cmp -s "$room/done.answers" "$room/by_hand.answers" || is_wrong "$count edits: the answers are others"
    if grep -q '^ok' "$room/runs.answers"; then is_wrong "$count edits: one of the refused script was done"; fi
    if grep -q '^ok\|^result' "$room/refused.answers"; then is_wrong "$count edits: one of the refused script was done"; fi
    if [ "$ended" -gt $((begun + begun / 100)) ]; then is_wrong "$count edits: the bytes in use grow"; fi
done
exit $wrong
