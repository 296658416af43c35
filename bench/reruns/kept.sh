#!/usr/bin/env bash
# Prints how many bytes a row a session keeps, for each number of rows, over the flat loop of README: its table; its record, in a list with
# spare room, as the first run leaves it; and what is kept beside the record once it is put in, which is done behind the answer where
# another run follows: the places by which it is found, the number of its stale readings, hulls and blocks. So the first is what is in use
# behind a run that makes no record, the second what is in use behind a first run more than that, the third what is in use behind a second
# run more than behind the first. Fails where the third is more than 96. Takes gcc and python3.
#
# usage: kept.sh [--program FILE] [ROWS ..]      by default ./cilkreport as it is built, and 100000 1000000 rows
set -eu
here=$(cd "$(dirname "$0")" && pwd)
program=$(realpath -m "$here/../../crates/cilkreport/out/cilkreport")
if [ "${1:-}" = --program ]; then
    program=$2
    shift 2
fi
if [ $# = 0 ]; then set -- 100000 1000000; fi
room=$(mktemp -d)
trap 'rm -rf "$room"' EXIT
gcc -O2 -shared -fPIC -o "$room/live.so" "$here/live.c"
source "$here/report.sh"
report 0 0 > "$room/report"
echo 'proc main() { return 0; }' > "$room/bare"

# The bytes in use at the end of each of two runs.
in_use() { # the report
    head -c 16 /dev/zero > "$room/live"
    printf 'run\nrun\n' | LD_PRELOAD="$room/live.so" LIVE="$room/live" "$program" "$1" "$room/tables" --stats > "$room/answers" 2> "$room/stats"
    python3 -c 'import array, sys; print(*array.array("q", open(sys.argv[1], "rb").read()))' "$room/live"
}

# A number of bytes by the rows, with one digit behind the point.
a_row() { # bytes, rows
    awk "BEGIN { printf \"%.1f\", $1 / $2 }"
}

echo '| rows | table | record in its list | beside the record |'
echo '|---|---|---|---|'
wrong=0
for rows in "$@"; do
    tables "$rows" > "$room/tables"
    read -r bare _ < <(in_use "$room/bare")
    read -r made put < <(in_use "$room/report")
    echo "| $rows | $(a_row "$bare" "$rows") | $(a_row $((made - bare)) "$rows") | $(a_row $((put - made)) "$rows") |"
    if [ $(((put - made) / rows)) -ge 96 ]; then wrong=1; fi
done
exit $wrong
