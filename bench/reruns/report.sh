# Sourced by the scripts beside it: the report that they run, and its tables.

# The procedure that is called for each row, with what is added to each value.
line_added() {
    echo "memo proc line(r) { v = sales[r].qty * sales[r].price + $1; update total v; update top v, r; return v; }"
}

# Main, with what is added to the result.
main_added() {
    echo "proc main() { cilk_for r in 1 .. limit sales : line(r); t = read total; return t + $1; }"
}

report() { # what is added to each value, and to the result
    echo 'reducer total : add;'
    echo 'reducer top : argmax;'
    line_added "$1" | sed 's/ + 0;/;/'
    main_added "$2" | sed 's/ + 0;/;/'
}

source "$(dirname "${BASH_SOURCE[0]}")/../rows.sh"
