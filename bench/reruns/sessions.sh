#!/usr/bin/env bash
# Prints, for each number of rows, a table of what a session's parts cost a row: the first run, a second one, a run behind a put of one
# row, one behind a define of the procedure that is called for each row, and one behind a define of main alone. Beside the program stand
# sqlite3 that asks the same by a query of all rows, sqlite3 whose triggers and index keep the total and the best row, and a loop in Rust
# that does all from scratch. Each number is that of a session with the part, less that of the session without it, by the number of rows;
# but for the first run's both end with one more run, since the program makes blocks of a run's records where another run follows:
# instructions as callgrind counts them, or with --time the nanoseconds of a processor, by the least of three sessions that have each part
# four times; these are read to a millisecond, so they want a million rows and a quiet machine. The answers of all four are compared.
# Without a program its column is empty. Takes sqlite3, rustc, and valgrind where it counts.
#
# usage: sessions.sh [--time] [--program FILE] [ROWS ..]      by default ./cilkreport as it is built, and 100000 rows
set -eu
here=$(cd "$(dirname "$0")" && pwd)
program=$(realpath -m "$here/../../crates/cilkreport/out/cilkreport")
unit=instructions times=1
while [[ ${1:-} == --* ]]; do
    case $1 in
        --time) unit=nanoseconds times=4 ;;
        --program)
            program=$2
            shift
            ;;
        *)
            sed -n '2,/^set/s/^# \?//p' "$0"
            exit 2
            ;;
    esac
    shift
done
if [ $# = 0 ]; then set -- 100000; fi
askers=(rust query kept)
if [ -x "$program" ]; then askers+=(report); else echo "$program isn't there: its column stays empty" >&2; fi
parts=(first again put line main)
room=$(mktemp -d)
trap 'rm -rf "$room"' EXIT
rustc -O -C target-cpu=x86-64-v2 --edition 2024 -o "$room/lines" "$here/lines.rs"
source "$here/report.sh"
report 0 0 > "$room/report"

# ---- the sessions: `begun` has no run, `first` one, and each other one the first run, then its part so many times, and a last run; of
# these `both` has no part

# Each turn of a part, numbered from 1: what is printed by these words with the turn behind them.
each() {
    local turn
    for turn in $(seq "$times"); do "$@" "$turn"; done
}

# The scripts of the program, which are those of the loop in Rust too.
report_scripts() { # the number of rows
    printf '' > "$room/report.begun"
    printf 'run\n' > "$room/report.first"
    printf 'run\nrun\n' > "$room/report.both"
    { echo run; each report_again; echo run; } > "$room/report.again"
    { echo run; each report_put $((2 * $1)); echo run; } > "$room/report.put"
    { echo run; each report_define line_added; echo run; } > "$room/report.line"
    { echo run; each report_define main_added; echo run; } > "$room/report.main"
    for part in begun both "${parts[@]}"; do cp "$room/report.$part" "$room/rust.$part"; done
}

report_again() { echo run; }

report_put() { printf 'put sales %d %d 7\nrun\n' "$2" $(($1 + $2)); } # a quantity, the turn

report_define() { printf 'define\n%s\nend\nrun\n' "$("$1" "$2")"; } # which procedure, the turn

# Those of sqlite3: the load, what is kept, and then a part's turns.
sqlite_scripts() { # the number of rows
    local asker load="create table sales (r integer primary key, qty integer, price integer);
with recursive n (r) as (select 1 union all select r + 1 from n where r < $1) insert into sales select r, r, 7 from n;"
    for asker in query kept; do
        echo "$load" > "$room/$asker.begun"
        echo "$load $(${asker}_keep 0) $(${asker}_ask 0)" > "$room/$asker.first"
        { cat "$room/$asker.first"; sqlite_again $asker; } > "$room/$asker.both"
        for part in again main; do { cat "$room/$asker.first"; each sqlite_again $asker; sqlite_again $asker; } > "$room/$asker.$part"; done
        { cat "$room/$asker.first"; each sqlite_put $asker $((2 * $1)); sqlite_again $asker; } > "$room/$asker.put"
        { cat "$room/$asker.first"; each sqlite_define $asker; "${asker}_ask" "$times"; } > "$room/$asker.line"
    done
}

sqlite_again() { "$1_ask" 0; }

sqlite_put() { # who asks, a quantity, the turn
    echo "insert into sales values ($3, $(($2 + $3)), 7) on conflict (r) do update set qty = excluded.qty, price = excluded.price;"
    "$1_ask" 0
}

sqlite_define() { # who asks, the turn
    "$1_drop"
    "$1_keep" "$2"
    "$1_ask" "$2"
}

# What is added to each value, if it isn't 0.
plus() { if [ "$1" != 0 ]; then echo " + $1"; fi; }

# A query of all rows, with what is added to each value. Nothing is kept.
query_ask() { echo "select sum(qty * price$(plus "$1")), max(qty * price$(plus "$1")), r from sales;"; }

query_keep() { :; }

query_drop() { :; }

# Triggers that keep the total, and an index that keeps the best row.
kept_keep() { # what is added to each value
    echo "create index best on sales (qty * price$(plus "$1") desc);
create table totals (total integer);
insert into totals select sum(qty * price$(plus "$1")) from sales;
create trigger put_new after insert on sales begin update totals set total = total + (new.qty * new.price$(plus "$1")); end;
create trigger put_again after update on sales begin
update totals set total = total - (old.qty * old.price$(plus "$1")) + (new.qty * new.price$(plus "$1")); end;
create trigger deleted after delete on sales begin update totals set total = total - (old.qty * old.price$(plus "$1")); end;"
}

kept_drop() {
    echo 'drop index best; drop table totals; drop trigger put_new; drop trigger put_again; drop trigger deleted;'
}

kept_ask() {
    echo "select total, worth, r from totals, (select qty * price$(plus "$1") as worth, r from sales order by qty * price$(plus "$1") desc limit 1);"
}

# ---- what they cost

# The words of a session of this one's.
words_of() {
    case $1 in
        report) words=("$program" "$room/report" "$room/tables") ;;
        rust) words=("$room/lines" "$room/report" "$room/tables") ;;
        *) words=(sqlite3 -batch :memory:) ;;
    esac
}

# What a session costs in all; its answers are kept.
instructions() { # whose, which part
    valgrind --tool=callgrind --callgrind-out-file=/dev/null "${words[@]}" < "$room/$1.$2" 2>&1 > "$room/$1.$2.answers" |
        sed -n 's/.*Collected : //p'
}

nanoseconds() {
    local least='' took TIMEFORMAT='%3U %3S'
    for _ in 1 2 3; do
        took=$({ time "${words[@]}" < "$room/$1.$2" > "$room/$1.$2.answers"; } 2>&1 | awk '{ printf "%.0f", ($1 + $2) * 1e9 }')
        if [ -z "$least" ] || [ "$took" -lt "$least" ]; then least=$took; fi
    done
    echo "$least"
}

declare -A cost
measure() {
    local asker part words
    for asker in "${askers[@]}"; do
        words_of "$asker"
        for part in begun both "${parts[@]}"; do cost[$asker.$part]=$("$unit" "$asker" "$part"); done
    done
}

# What a part costs a row, with two digits behind the point.
a_row() { # whose, which part, the number of rows
    if [ -z "${cost[$1.$2]:-}" ]; then return; fi
    local less=$1.both turns=$times
    if [ "$2" = first ]; then less=$1.begun turns=1; fi
    awk "BEGIN { printf \"%.2f\", (${cost[$1.$2]} - ${cost[$less]}) / $3 / $turns }"
}

# ---- whether all say the same

# Total, best value and its row of each run.
said() { sed -n 's/^total //p; s/^top //p' "$1" | paste -d ' ' - -; }

wrong=0
compare() { # the number of rows
    local part asker
    for part in "${parts[@]}"; do
        said "$room/rust.$part.answers" > "$room/said"
        for asker in query kept; do
            tr '|' ' ' < "$room/$asker.$part.answers" | cmp -s - "$room/said" || differ "$1" "$part" $asker
        done
        if [ ! -e "$room/report.$part.answers" ]; then continue; fi
        cmp -s "$room/report.$part.answers" "$room/rust.$part.answers" || differ "$1" "$part" report
    done
}

differ() {
    echo "$1 rows, $2: the answers of $3 are others" >&2
    wrong=1
}

# ---- the tables

declare -A title=(
    [first]='the first run' [again]='a second run' [put]='a put of one row, and a run'
    [line]='a define of `line`, and a run' [main]='a define of `main`, and a run'
)
for rows in "$@"; do
    tables "$rows" > "$room/tables"
    report_scripts "$rows"
    sqlite_scripts "$rows"
    measure
    compare "$rows"
    echo "| $rows rows, $unit a row | cilkreport | sqlite3, all rows | sqlite3, triggers | Rust, from scratch |"
    echo '|---|---|---|---|---|'
    for part in "${parts[@]}"; do
        echo "| ${title[$part]} | $(a_row report $part "$rows") | $(a_row query $part "$rows") | $(a_row kept $part "$rows") | $(a_row rust $part "$rows") |"
    done
done
exit $wrong
