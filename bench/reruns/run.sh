#!/usr/bin/env bash
# Counts the instructions of runs that record and are answered by records: a report that calls a procedure for each row of a table, with
# that procedure marked memo and not, by one worker. A first run alone makes no blocks of its records, so these are counted by
# themselves, and what comes behind stands beside a session of two runs. Takes valgrind.
#
# usage: run.sh [PROGRAM] [ROWS ..]      by default ./cilkreport as it is built, and 1000 10000 100000 rows
set -eu
top=$(cd "$(dirname "$0")/../.." && pwd)
program=$(realpath -m "${1:-$top/crates/cilkreport/out/cilkreport}")
if [ $# -gt 0 ]; then shift; fi
if [ $# = 0 ]; then set -- 1000 10000 100000; fi
room=$(mktemp -d)
trap 'rm -rf "$room"' EXIT
cat > "$room/memo" <<'REPORT'
reducer total : add;
reducer top : argmax;
memo proc line(r) { v = sales[r].qty * sales[r].price; update total v; update top v, r; return v; }
proc main() { cilk_for r in 0 .. limit sales : line(r); t = read total; return t; }
REPORT
sed 's/^memo //' "$room/memo" > "$room/plain"
printf '' > "$room/script0"
printf 'run\n' > "$room/script1"
printf 'run\nrun\n' > "$room/script2"
printf 'run\nrun\nrun\n' > "$room/script3"
printf 'run\nput sales 5 9 7\nrun\nrun\n' > "$room/script4"

# The instructions of a session of that report with so many runs.
instructions() {
    valgrind --tool=callgrind --callgrind-out-file=/dev/null "$program" "$room/$1" "$room/tables" < "$room/script$2" 2>&1 > "$room/answers" |
        sed -n 's/.*Collected : //p'
}

for rows in "$@"; do
    { echo '[sales]'; echo 'columns = ["qty", "price"]'; echo 'rows = ['; seq 0 $((rows - 1)) | sed 's/.*/[&, &, 7],/'; echo ']'; } > "$room/tables"
    for report in plain memo; do
        begun=$(instructions $report 0)
        first=$(instructions $report 1)
        both=$(instructions $report 2)
        again=$(instructions $report 3)
        edited=$(instructions $report 4)
        echo "$rows rows, $report: first run $(((first - begun) / rows)) instructions a row, its blocks $(((both - first - (again - both)) / rows)), run again $(((again - both) / rows)), behind a put of one row $(((edited - both) / rows))"
    done
done
